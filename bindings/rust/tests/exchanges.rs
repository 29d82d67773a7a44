//! Offers and answers. What is expected stands in data/answers/, or is worked out by hand, by docs/EXCHANGE.md.
use std::fs::read_to_string;
use zaxmonth::{CodecConfig, DataChannels, Direction, Exchange, ExchangeError, IceCreds, MediaKind, OwnSide, SignalingState};

const OFFER: &str = include_str!("../../../examples/chromium-audio-offer.sdp");
const SIDE: &str = include_str!("../../../examples/own-side.txt");
const HEAD: &str = "v=0\r\no=- 1 1 IN IP4 0.0.0.0\r\ns=-\r\nt=0 0\r\n";
const SECTION: &str = "m=audio 9 UDP/TLS/RTP/SAVPF 0\r\nc=IN IP4 0.0.0.0\r\na=mid:0\r\na=sendrecv\r\n";

fn taken(name: &str) -> String {
    read_to_string(format!("../../data/answers/{name}.sdp")).unwrap()
}

/// What this side said when the browsers took its answers.
fn own_side() -> OwnSide {
    let said = |word: &str| SIDE.lines().filter_map(|line| line.strip_prefix(word)?.strip_prefix(' ')).map(str::to_owned).collect::<Vec<_>>();
    OwnSide {
        session_id: 4711,
        creds: IceCreds { ufrag: said("ufrag").remove(0), pass: said("pwd").remove(0) },
        fingerprint: said("fingerprint").remove(0),
        stream_id: said("stream").remove(0),
        extensions: said("extension"),
        candidates: said("candidate"),
        channels: Some(DataChannels { port: 5000, max_message_size: 262_144 }),
        receives_simulcast: true,
        ..OwnSide::default()
    }
}

fn exchange() -> Exchange {
    Exchange::new(&own_side(), CodecConfig::new_with_defaults().unwrap()).unwrap()
}

#[test]
fn answers_are_those_that_browsers_took() {
    for name in ["chromium-all", "chromium-simulcast-all", "firefox-all", "firefox-sendonly"] {
        let answer = exchange().accept_offer(&taken(&format!("{name}-offer"))).unwrap();
        assert_eq!((answer.to_sdp_string().unwrap(), answer.version()), (taken(&format!("{name}-answer")), 1));
    }
}

#[test]
fn offers_one_behind_the_other_are_answered() {
    let mut exchange = exchange();
    for number in 1..4 {
        let answer = exchange.accept_offer(&taken(&format!("firefox-reneg-grow-{number}-offer"))).unwrap();
        assert_eq!((answer.to_sdp_string().unwrap(), answer.version()), (taken(&format!("firefox-reneg-grow-{number}-answer")), number));
    }
}

#[test]
fn a_restart_has_other_credentials() {
    let mut exchange = exchange();
    exchange.accept_offer(&taken("chromium-restart-1-offer")).unwrap();
    exchange.restart_ice(&IceCreds { ufrag: "ansr1".into(), pass: "0123456789abcdef012345671".into() }).unwrap();
    let answer = exchange.accept_offer(&taken("chromium-restart-2-offer")).unwrap();
    assert_eq!(answer.to_sdp_string().unwrap(), taken("chromium-restart-2-answer"));
}

#[test]
fn one_side_offers_and_the_other_answers() {
    let (mut here, mut there) = (exchange(), exchange());
    here.add_media(MediaKind::Audio, Direction::SendOnly).unwrap();
    here.add_channels().unwrap();
    let offer = here.create_offer().unwrap();
    assert_eq!((offer.sections(), offer.mid(0).unwrap(), here.state()), (2, "0".to_owned(), SignalingState::HaveLocalOffer));
    let answer = there.accept_offer(&offer.to_sdp_string().unwrap()).unwrap();
    assert!(matches!(here.create_offer(), Err(ExchangeError::WrongState(_))));
    here.accept_answer(&answer.to_sdp_string().unwrap()).unwrap();
    assert_eq!(here.state(), SignalingState::Stable);
    let locked: Vec<u8> = here.params().unwrap().iter().filter(|row| row.locked == 1).map(|row| row.codec).collect();
    assert!(locked.contains(&1), "{locked:?}");
    assert_eq!((here.codec(0).unwrap(), here.fmtp(0).unwrap()), ("opus".to_owned(), "minptime=10;useinbandfec=1".to_owned()));
}

/// An offer, which the other side answers.
fn offered(here: &mut Exchange, there: &mut Exchange) -> String {
    let offer = here.create_offer().unwrap().to_sdp_string().unwrap();
    here.accept_answer(&there.accept_offer(&offer).unwrap().to_sdp_string().unwrap()).unwrap();
    offer
}

#[test]
fn a_section_is_held_and_resumed() {
    let (mut here, mut there) = (exchange(), exchange());
    here.add_media(MediaKind::Audio, Direction::SendRecv).unwrap();
    assert!(offered(&mut here, &mut there).contains("a=sendrecv\r\n"));
    here.set_direction("0", Direction::Inactive).unwrap();
    here.set_direction("1", Direction::SendRecv).unwrap();
    assert_eq!(here.set_direction("0123456789abcdef0", Direction::SendRecv), Err(ExchangeError::Argument));
    assert!(offered(&mut here, &mut there).contains("a=inactive\r\n"));
    here.set_direction("0", Direction::SendOnly).unwrap();
    assert!(offered(&mut here, &mut there).contains("a=sendonly\r\n"));
}

#[test]
fn an_offer_is_dropped() {
    let mut exchange = exchange();
    exchange.rollback();
    exchange.add_media(MediaKind::Video, Direction::RecvOnly).unwrap();
    assert_eq!(exchange.create_offer().unwrap().version(), 1);
    exchange.rollback();
    assert_eq!(exchange.create_offer().unwrap().version(), 2);
}

#[test]
fn a_refused_text_changes_nothing() {
    let mut exchange = exchange();
    let line = OFFER.lines().count() as u32 + 1;
    let unread = exchange.accept_offer(&format!("{OFFER}what fits nowhere\r\n")).unwrap_err();
    assert_eq!(unread.to_string(), format!("line {line} of the text fits nowhere: what fits nowhere"));
    assert!(matches!(unread, ExchangeError::Unread { line: told, .. } if told == line));
    assert!(matches!(exchange.accept_offer("x"), Err(ExchangeError::NotRead(message)) if !message.is_empty()));
    let unfit = exchange.accept_offer(&[HEAD, SECTION, SECTION].concat()).unwrap_err();
    assert_eq!(unfit, ExchangeError::DoesNotFit("section 1 breaks a rule: no two sections have one mid".into()));
    assert!(matches!(exchange.accept_answer(OFFER), Err(ExchangeError::WrongState(_))));
    assert_eq!(exchange.accept_offer(OFFER).unwrap().version(), 1);
}

#[test]
fn a_side_is_refused() {
    let rows = || CodecConfig::new_with_defaults().unwrap();
    let side = OwnSide { fingerprint: "AB".into(), ..own_side() };
    assert!(matches!(Exchange::new(&side, rows()), Err(ExchangeError::OwnSide(message)) if message.starts_with("fingerprint: ")));
    let side = OwnSide { candidates: vec!["word".into()], ..own_side() };
    assert!(matches!(Exchange::new(&side, rows()), Err(ExchangeError::OwnSide(message)) if message.starts_with("candidate: ")));
    let side = OwnSide { channels: None, stream_id: "a\r\nb".into(), ..own_side() };
    let mut exchange = Exchange::new(&side, rows()).unwrap();
    assert_eq!(exchange.add_channels(), Err(ExchangeError::NoChannels));
    assert!(matches!(exchange.accept_offer(OFFER), Err(ExchangeError::NotPrintable(_))));
}

#[test]
fn an_exchange_goes_to_another_thread() {
    let mut exchange = exchange();
    assert_eq!(std::thread::spawn(move || exchange.accept_offer(OFFER).unwrap().sections()).join().unwrap(), 1);
}
