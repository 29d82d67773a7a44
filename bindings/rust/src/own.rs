//! What this side says of itself.
use crate::{raw, Direction};

/// The credentials of an ICE agent.
#[derive(Clone, Debug, Default, PartialEq, Eq)]
pub struct IceCreds {
    pub ufrag: String,
    pub pass: String,
}

/// Where data channels are reached.
#[derive(Clone, Copy, Debug, PartialEq, Eq)]
pub struct DataChannels {
    /// The port of SCTP, as 5000.
    pub port: u16,
    /// The most bytes that a message may have; 0 where any number is taken.
    pub max_message_size: u64,
}

/// What this side says of itself, the same in each of its descriptions.
#[derive(Clone, Debug, Default, PartialEq, Eq)]
pub struct OwnSide {
    /// The number of the session in the `o=` line.
    pub session_id: u64,
    pub creds: IceCreds,
    /// The hash of its certificate: `sha-256 AB:CD:..`.
    pub fingerprint: String,
    /// What it is ready for in sections of audio; so with `video`.
    pub audio: Direction,
    pub video: Direction,
    /// The id of the stream that it sends.
    pub stream_id: String,
    /// The header extensions that it knows, by their URIs.
    pub extensions: Vec<String>,
    /// Where it is reached: lines as browsers trickle them, with or without `a=`.
    pub candidates: Vec<String>,
    /// Its data channels; `None` where it takes none.
    pub channels: Option<DataChannels>,
    /// Whether it takes several layers of one source.
    pub receives_simulcast: bool,
}

pub(crate) fn slice(text: &str) -> raw::Slice {
    raw::Slice { at: text.as_ptr().cast(), length: text.len() }
}

pub(crate) fn slices(texts: &[String]) -> Vec<raw::Slice> {
    texts.iter().map(|text| slice(text)).collect()
}

impl OwnSide {
    /// The side as C has it, with these lists of its texts. It holds for as long as they and the side stay where they are.
    pub(crate) fn raw(&self, extensions: &[raw::Slice], candidates: &[raw::Slice]) -> raw::Own {
        let channels = self.channels.unwrap_or(DataChannels { port: 0, max_message_size: 0 });
        raw::Own {
            session_id: self.session_id,
            ice_ufrag: slice(&self.creds.ufrag),
            ice_pwd: slice(&self.creds.pass),
            fingerprint: slice(&self.fingerprint),
            stream_id: slice(&self.stream_id),
            extensions: extensions.as_ptr(),
            extension_count: extensions.len(),
            candidates: candidates.as_ptr(),
            candidate_count: candidates.len(),
            max_message_size: channels.max_message_size,
            sctp_port: channels.port,
            has_channels: self.channels.is_some().into(),
            audio: self.audio as u8,
            video: self.video as u8,
            receives_simulcast: self.receives_simulcast.into(),
            reserved: [0; 2],
        }
    }
}
