//! Answers an offer, as the side that a file describes:   cargo run --example exchange OFFER OWN
use std::error::Error;
use std::fs::{read, read_to_string};
use zaxmonth::{CodecConfig, DataChannels, Exchange, OwnSide};

/// What this side says of itself, by lines of a word and its value (examples/own-side.txt).
fn side_of(text: &str) -> Result<OwnSide, Box<dyn Error>> {
    let channels = Some(DataChannels { port: 5000, max_message_size: 262_144 });
    let mut own = OwnSide { channels, receives_simulcast: true, ..OwnSide::default() };
    for line in text.lines() {
        let (word, value) = line.split_once(' ').ok_or("a line is a word and its value")?;
        let value = value.to_owned();
        match word {
            "session-id" => own.session_id = value.parse()?,
            "ufrag" => own.creds.ufrag = value,
            "pwd" => own.creds.pass = value,
            "fingerprint" => own.fingerprint = value,
            "stream" => own.stream_id = value,
            "candidate" => own.candidates.push(value),
            "extension" => own.extensions.push(value),
            _ => return Err(format!("no side says {word}").into()),
        }
    }
    Ok(own)
}

fn answered(offer: Vec<u8>, own: &str) -> Result<String, Box<dyn Error>> {
    let offer = String::from_utf8(offer).map_err(|_| "text is not UTF-8")?;
    let mut exchange = Exchange::new(&side_of(own)?, CodecConfig::new_with_defaults()?)?;
    Ok(exchange.accept_offer(&offer)?.to_sdp_string()?)
}

fn main() -> Result<(), Box<dyn Error>> {
    let words: Vec<String> = std::env::args().skip(1).collect();
    let [offer, own] = words.as_slice() else {
        return Err("usage: exchange OFFER OWN".into());
    };
    match answered(read(offer)?, &read_to_string(own)?) {
        Ok(answer) => print!("{answer}"),
        Err(error) => {
            eprintln!("{error}");
            std::process::exit(1);
        }
    }
    Ok(())
}
