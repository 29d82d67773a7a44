//! Prints the rows of an offer:   cargo run --example rows FILE
fn main() -> Result<(), Box<dyn std::error::Error>> {
    let path = std::env::args().nth(1).ok_or("usage: rows FILE")?;
    let offer = zaxmonth::Sdp::from_sdp_string(&std::fs::read_to_string(path)?)?;
    for section in 0..offer.sections() {
        let mid = offer.mid(section)?;
        for (i, row) in offer.rtp_params(section)?.iter().enumerate() {
            let (codec, fmtp) = (offer.codec(section, i)?, offer.fmtp(section, i)?);
            let lead = if fmtp.is_empty() { "" } else { ", " };
            println!("mid {mid}: payload type {}, {codec} at {} Hz{lead}{fmtp}", row.pt, row.clock_rate);
        }
    }
    Ok(())
}
