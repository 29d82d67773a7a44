//! What sections say of streams. What is expected is worked out by hand from scripts/c_tests/streams.sdp, by docs/SECTIONS.md.
use zaxmonth::{Direction, Msid, Rid, Sdp, SdpError, Simulcast, SimulcastLayer, SsrcInfo};

const STREAMS: &str = include_str!("../../../scripts/c_tests/streams.sdp");
const OFFER: &str = include_str!("../../../examples/chromium-audio-offer.sdp");

fn ids(stream: &str, track: &str) -> Option<Msid> {
    Some(Msid { stream_id: stream.into(), track_id: track.into() })
}

#[test]
fn a_stream_and_its_track() {
    let read = Sdp::from_sdp_string(STREAMS).unwrap();
    assert_eq!(read.msid(0), Ok(ids("stream", "track one")));
    assert_eq!(read.msid(1), Ok(None));
    assert_eq!(read.msid(2), Err(SdpError::NoSection));
    assert_eq!(Sdp::from_sdp_string(OFFER).unwrap().msid(0), Ok(ids("-", "cadf95cb-38b4-4d30-8162-af882e48b3b0")));
}

#[test]
fn header_extensions() {
    let read = Sdp::from_sdp_string(STREAMS).unwrap();
    let (mid, rid) = ("urn:ietf:params:rtp-hdrext:sdes:mid", "urn:ietf:params:rtp-hdrext:sdes:rtp-stream-id");
    assert_eq!(read.extmaps(0).unwrap(), [(3, mid.to_owned()), (14, rid.to_owned()), (255, "urn:x".to_owned())]);
    assert_eq!(read.extmaps(1), Ok(Vec::new()));
    assert_eq!(read.extmaps(2), Err(SdpError::NoSection));
}

#[test]
fn restricted_streams() {
    let read = Sdp::from_sdp_string(STREAMS).unwrap();
    let rid = |name: &str, direction, said: &str| Rid { name: name.into(), direction, restrictions: said.into() };
    let lo = rid("lo", Direction::SendOnly, "pt=96,97;max-width=320;max-fps=15");
    assert_eq!(read.rids(0).unwrap(), [rid("hi", Direction::SendOnly, ""), lo, rid("back", Direction::RecvOnly, "max-height=90")]);
    assert_eq!((read.rids(1), read.rids(2)), (Ok(Vec::new()), Err(SdpError::NoSection)));
}

#[test]
fn layers_of_simulcast() {
    let read = Sdp::from_sdp_string(STREAMS).unwrap();
    let layer = |name: &str, active| SimulcastLayer { name: name.into(), active };
    let layers = Simulcast { send: vec![layer("hi", true), layer("lo", false)], recv: vec![layer("back", true)] };
    assert_eq!(read.simulcast(0), Ok(layers));
    assert_eq!((read.simulcast(1), read.simulcast(2)), (Ok(Simulcast::default()), Err(SdpError::NoSection)));
}

#[test]
fn sources() {
    let read = Sdp::from_sdp_string(STREAMS).unwrap();
    let said = |text: &str| Some(text.to_owned());
    let first = SsrcInfo { ssrc: 11, repairs: None, cname: said("end point"), stream_id: said("stream"), track_id: said("track") };
    let second = SsrcInfo { ssrc: 12, cname: said("other"), ..SsrcInfo::default() };
    let repair = SsrcInfo { ssrc: u32::MAX, repairs: Some(11), ..SsrcInfo::default() };
    assert_eq!(read.ssrc_info(0).unwrap(), [first, second, repair]);
    assert_eq!((read.ssrc_info(1), read.ssrc_info(2)), (Ok(Vec::new()), Err(SdpError::NoSection)));
}

#[test]
fn groups_of_sources() {
    let read = Sdp::from_sdp_string(STREAMS).unwrap();
    assert_eq!(read.ssrc_groups(0).unwrap(), [("FID".to_owned(), vec![11, u32::MAX]), ("SIM".to_owned(), vec![11, 12])]);
    assert_eq!((read.ssrc_groups(1), read.ssrc_groups(2)), (Ok(Vec::new()), Err(SdpError::NoSection)));
}
