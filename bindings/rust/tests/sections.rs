//! What descriptions say of their sections and of their transport. What is expected is worked out by hand from the texts, by
//! docs/SECTIONS.md.
use zaxmonth::{Direction, IceCreds, MediaType, Proto, Sdp, SdpError, Section, Setup};

const OFFER: &str = include_str!("../../../examples/chromium-audio-offer.sdp");
const CHANNELS: &str = include_str!("../../../examples/chromium-data-channel-offer.sdp");
const STREAMS: &str = include_str!("../../../scripts/c_tests/streams.sdp");

fn read(text: &str) -> Sdp {
    Sdp::from_sdp_string(text).unwrap()
}

#[test]
fn what_a_section_is() {
    let audio = Section { typ: MediaType::Audio, proto: Proto::Srtp, direction: Direction::SendRecv, setup: Some(Setup::ActPass), disabled: false };
    assert_eq!(read(OFFER).section(0), Ok(audio));
    assert_eq!(read(STREAMS).section(1), Ok(Section { direction: Direction::RecvOnly, setup: None, ..audio }));
    let channels = Section { typ: MediaType::Application, proto: Proto::Sctp, direction: Direction::Inactive, ..audio };
    assert_eq!(read(CHANNELS).section(0), Ok(channels));
    assert_eq!(read(OFFER).is_writable(0), Ok(true));
    assert_eq!((read(OFFER).section(1), read(OFFER).is_writable(1)), (Err(SdpError::NoSection), Err(SdpError::NoSection)));
}

#[test]
fn what_is_said_of_the_transport() {
    let offer = read(OFFER);
    let creds = IceCreds { ufrag: "yf/6".into(), pass: "7g8S/bjynZu683rC6kNE6Y/l".into() };
    assert_eq!((offer.ice_creds(), offer.setup()), (Ok(Some(creds)), Some(Setup::ActPass)));
    assert!(offer.fingerprint().unwrap().unwrap().starts_with("sha-256 89:EB:68:"));
    let candidates = offer.ice_candidates().unwrap();
    assert_eq!((candidates.len(), &*candidates[1]), (4, "candidate:1435511020 1 udp 2122194687 198.51.100.7 43652 typ host"));
}

#[test]
fn nothing_is_said_of_the_transport() {
    let other = read(STREAMS);
    assert_eq!((other.ice_creds(), other.fingerprint(), other.setup()), (Ok(None), Ok(None), None));
    assert_eq!(other.ice_candidates(), Ok(Vec::new()));
}
