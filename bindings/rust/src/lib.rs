//! Session descriptions (SDP) and their payload types, by libzaxmonth, whose calls are proved.
//!
//! ```
//! let text = std::fs::read_to_string("../../examples/chromium-audio-offer.sdp")?;
//! let offer = zaxmonth::Sdp::from_sdp_string(&text)?;
//! assert_eq!(offer.rtp_params(0)?[0].pt, 111);
//! # Ok::<(), Box<dyn std::error::Error>>(())
//! ```
mod exchange;
mod own;
mod raw;
mod sections;
mod streams;

pub use exchange::{Description, Exchange, ExchangeError, SignalingState};
pub use own::{DataChannels, IceCreds, OwnSide};
pub use sections::{Direction, MediaKind, MediaType, Proto, Section, Setup};
pub use streams::{Msid, Rid, Simulcast, SimulcastLayer, SsrcInfo};

use std::ffi::CStr;
use std::fmt;
use std::ptr::{null_mut, NonNull};

/// A row: a codec under a payload type. 255 where it has no type for retransmissions or for RED.
#[repr(C)]
#[derive(Clone, Copy, Debug, Default, PartialEq, Eq)]
pub struct Row {
    pub clock_rate: u32,
    pub pt: u8,
    pub rtx: u8,
    pub red: u8,
    pub channels: u8,
    pub codec: u8,
    pub feedback: u8,
    pub locked: u8,
    reserved: u8,
}

/// What a round came to: cause 0 where it was accepted.
#[repr(C)]
#[derive(Clone, Copy, Debug, Default, PartialEq, Eq)]
pub struct Outcome {
    pub cause: u8,
    pub pt: u8,
}

/// Why a call failed.
#[derive(Clone, Debug, PartialEq, Eq)]
pub enum SdpError {
    /// The text describes no session.
    Parse(String),
    /// Memory was refused.
    Memory,
    /// There is no such section, or no such row.
    NoSection,
    /// No row of the section's kind is locked, or rows printed there might not be read again.
    NothingAgreed,
    /// An argument is none that the library takes.
    Argument,
}

impl SdpError {
    fn message(&self) -> &str {
        match self {
            SdpError::Parse(message) => message,
            SdpError::Memory => "out of memory",
            SdpError::NoSection => "there is no such section or row",
            SdpError::NothingAgreed => "nothing is agreed that could be printed there",
            SdpError::Argument => "an argument is none that the library takes",
        }
    }
}

impl fmt::Display for SdpError {
    fn fmt(&self, out: &mut fmt::Formatter<'_>) -> fmt::Result {
        out.write_str(self.message())
    }
}

impl std::error::Error for SdpError {}

fn told(error: &raw::Error) -> String {
    // SAFETY: the library ends each message with a zero.
    unsafe { CStr::from_ptr(error.message.as_ptr()) }.to_string_lossy().into_owned()
}

fn error_of(status: u32, message: String) -> SdpError {
    match status {
        3 => SdpError::Memory,
        5 => SdpError::NoSection,
        6 => SdpError::NothingAgreed,
        7 => SdpError::Argument,
        _ => SdpError::Parse(message),
    }
}

/// What a status says by itself.
fn done(status: u32) -> Result<(), SdpError> {
    match status {
        0 => Ok(()),
        _ => Err(error_of(status, String::new())),
    }
}

fn blank() -> raw::Error {
    raw::Error { status: 0, line: 0, offset: 0, message: [0; 240] }
}

/// What a call writes, in room that is as large as it asks for.
fn filled<T: Clone + Default>(call: impl Fn(*mut T, usize, *mut usize) -> u32) -> Result<Vec<T>, SdpError> {
    let (mut room, mut needed): (Vec<T>, usize) = (Vec::new(), 0);
    let mut status = call(null_mut(), 0, &mut needed);
    while status == 4 {
        room.resize(needed, T::default());
        status = call(room.as_mut_ptr(), room.len(), &mut needed);
    }
    room.truncate(needed);
    if status == 0 { Ok(room) } else { Err(error_of(status, String::new())) }
}

fn text_of(bytes: Vec<u8>) -> String {
    String::from_utf8(bytes).expect("what is printed is UTF-8")
}

/// What is found in a text, whether it describes a session or not, as JSON: an array of objects with `line`, `column`, `severity`, `code`
/// and `message` (docs/LINT.md).
pub fn findings(text: &str) -> Result<String, SdpError> {
    // SAFETY: the text is that long, and `filled` hands in room for so many bytes.
    filled(|room, cap, needed| unsafe { raw::zax_findings(text.as_ptr().cast(), text.len(), room, cap, needed) }).map(text_of)
}

/// A description.
#[derive(Debug)]
pub struct Sdp(NonNull<raw::Session>);

// SAFETY: a handle may go from thread to thread; it isn't `Sync`, so one call at a time uses it.
unsafe impl Send for Sdp {}

impl Sdp {
    /// The description that the text begins with.
    pub fn from_sdp_string(text: &str) -> Result<Sdp, SdpError> {
        let (mut made, mut error) = (null_mut(), blank());
        // SAFETY: the text is that long, and the two places are there.
        let status = unsafe { raw::zax_read(text.as_ptr().cast(), text.len(), &mut made, &mut error) };
        NonNull::new(made).map(Sdp).ok_or_else(|| error_of(status, told(&error)))
    }

    pub fn to_sdp_string(&self) -> Result<String, SdpError> {
        // SAFETY: `filled` hands in room for so many bytes, here and below.
        filled(|room, cap, needed| unsafe { raw::zax_print(self.0.as_ptr(), room, cap, needed) }).map(text_of)
    }

    /// How many sections there are.
    pub fn sections(&self) -> usize {
        // SAFETY: the handle is full, here and below.
        unsafe { raw::zax_sections(self.0.as_ptr()) }
    }

    /// The mid of a section; empty where it has none.
    pub fn mid(&self, section: usize) -> Result<String, SdpError> {
        filled(|room, cap, needed| unsafe { raw::zax_section_mid(self.0.as_ptr(), section, room, cap, needed) }).map(text_of)
    }

    /// The rows of a section.
    pub fn rtp_params(&self, section: usize) -> Result<Vec<Row>, SdpError> {
        filled(|room, cap, needed| unsafe { raw::zax_rows(self.0.as_ptr(), section, room, cap, needed) })
    }

    /// The name of the codec of a row, as an rtpmap line has it.
    pub fn codec(&self, section: usize, row: usize) -> Result<String, SdpError> {
        filled(|room, cap, needed| unsafe { raw::zax_row_codec(self.0.as_ptr(), section, row, room, cap, needed) }).map(text_of)
    }

    /// What the format of a row says, as an fmtp line has it.
    pub fn fmtp(&self, section: usize, row: usize) -> Result<String, SdpError> {
        filled(|room, cap, needed| unsafe { raw::zax_row_fmtp(self.0.as_ptr(), section, row, room, cap, needed) }).map(text_of)
    }
}

impl Drop for Sdp {
    fn drop(&mut self) {
        // SAFETY: it is freed once.
        unsafe { raw::zax_session_free(self.0.as_ptr()) }
    }
}

/// What one side sends and receives, and what is agreed of it.
#[derive(Debug)]
pub struct CodecConfig(NonNull<raw::Config>);

// SAFETY: as of a description.
unsafe impl Send for CodecConfig {}

impl CodecConfig {
    pub fn new_with_defaults() -> Result<CodecConfig, SdpError> {
        let mut made = null_mut();
        // SAFETY: the place is there.
        unsafe { raw::zax_config_defaults(&mut made) };
        NonNull::new(made).map(CodecConfig).ok_or(SdpError::Memory)
    }

    /// A configuration without rows.
    pub fn empty() -> Result<CodecConfig, SdpError> {
        let mut made = null_mut();
        // SAFETY: the place is there.
        unsafe { raw::zax_config_empty(&mut made) };
        NonNull::new(made).map(CodecConfig).ok_or(SdpError::Memory)
    }

    /// Takes all rows of a codec out and, where it is enabled, puts its default rows last, with RED where `use_red` asks for it. The codec
    /// goes by its number in zaxmonth.h; `Argument` where it has no default rows.
    pub fn enable(&mut self, codec: u8, enabled: bool, use_red: bool) -> Result<(), SdpError> {
        // SAFETY: the handle is full.
        done(unsafe { raw::zax_config_enable(self.0.as_ptr(), codec.into(), enabled.into(), use_red.into()) })
    }

    /// Adds a row at the end, with the payload types, the codec, the clock rate in Hz and the channels of this one, and with what an fmtp
    /// line says; it has the feedback of its kind, no RED, and isn't locked. `Argument` where its codec has no number or its clock rate
    /// is 0.
    pub fn add_config(&mut self, row: &Row, fmtp: &str) -> Result<(), SdpError> {
        let (at, handle) = (fmtp.as_ptr().cast(), self.0.as_ptr());
        let (pt, rtx, codec) = (row.pt, row.rtx, row.codec.into());
        // SAFETY: the handle is full, and the text is that long.
        done(unsafe { raw::zax_config_add(handle, pt, rtx, codec, row.clock_rate, row.channels, at, fmtp.len()) })
    }

    /// Runs a round for each audio and video section of a text; the outcome of each.
    pub fn negotiate_text(&mut self, text: &str) -> Result<Vec<Outcome>, SdpError> {
        // A text has no more rounds than it has lines, so one call has room enough.
        let (mut room, mut needed, mut error) = (vec![Outcome::default(); text.lines().count() + 1], 0, blank());
        let (at, handle) = (text.as_ptr().cast(), self.0.as_ptr());
        // SAFETY: text and room are that long.
        let status = unsafe { raw::zax_negotiate(handle, at, text.len(), room.as_mut_ptr(), room.len(), &mut needed, &mut error) };
        room.truncate(needed);
        if status == 0 { Ok(room) } else { Err(error_of(status, told(&error))) }
    }

    pub fn params(&self) -> Result<Vec<Row>, SdpError> {
        filled(|room, cap, needed| unsafe { raw::zax_config_rows(self.0.as_ptr(), room, cap, needed) })
    }

    /// Puts the locked rows of its kind into a section of one's own description.
    pub fn answer(&self, own: &mut Sdp, section: usize) -> Result<(), SdpError> {
        // SAFETY: both handles are full.
        done(unsafe { raw::zax_answer(self.0.as_ptr(), own.0.as_ptr(), section) })
    }
}

impl Drop for CodecConfig {
    fn drop(&mut self) {
        // SAFETY: it is freed once.
        unsafe { raw::zax_config_free(self.0.as_ptr()) }
    }
}

#[cfg(test)]
mod tests {
    use super::*;

    const OFFER: &str = include_str!("../../../examples/chromium-audio-offer.sdp");

    #[test]
    fn what_is_read_prints_and_reads_again() {
        let printed = Sdp::from_sdp_string(OFFER).unwrap().to_sdp_string().unwrap();
        assert_eq!(Sdp::from_sdp_string(&printed).unwrap().to_sdp_string().unwrap(), printed);
    }

    #[test]
    fn no_session_is_refused() {
        assert!(matches!(Sdp::from_sdp_string("x"), Err(SdpError::Parse(message)) if !message.is_empty()));
    }

    #[test]
    fn an_offer_is_answered_with_what_is_agreed() {
        let mut config = CodecConfig::new_with_defaults().unwrap();
        let mut own = Sdp::from_sdp_string(OFFER).unwrap();
        assert_eq!(config.answer(&mut own, 0), Err(SdpError::NothingAgreed));
        assert_eq!(config.negotiate_text(OFFER).unwrap(), [Outcome { cause: 0, pt: 255 }]);
        let locked: Vec<u8> = config.params().unwrap().iter().filter(|row| row.locked == 1).map(|row| row.pt).collect();
        config.answer(&mut own, 0).unwrap();
        let answered: Vec<u8> = own.rtp_params(0).unwrap().iter().map(|row| row.pt).collect();
        assert!(!locked.is_empty());
        assert_eq!(answered, locked);
        assert_eq!(config.answer(&mut own, 7), Err(SdpError::NoSection));
    }

    #[test]
    fn a_configuration_is_made_of_rows() {
        let mut config = CodecConfig::empty().unwrap();
        assert!(config.params().unwrap().is_empty());
        config.enable(10, true, false).unwrap();
        let row = Row { clock_rate: 48_000, pt: 100, rtx: 255, red: 255, channels: 2, codec: 1, ..Row::default() };
        config.add_config(&row, "stereo=1").unwrap();
        let rows = config.params().unwrap();
        assert_eq!(rows.iter().map(|it| (it.pt, it.codec)).collect::<Vec<_>>(), [(96, 10), (100, 1)]);
        assert_eq!(rows[1], Row { feedback: 1, ..row });
        assert_eq!(config.enable(14, true, false), Err(SdpError::Argument));
        assert_eq!(config.add_config(&Row { clock_rate: 0, ..row }, ""), Err(SdpError::Argument));
        assert_eq!(config.params().unwrap(), rows);
    }

    #[test]
    fn what_is_found_is_json() {
        let found = findings("x").unwrap();
        assert!(found.starts_with("[{\"") && found.contains("\"line\":1,") && found.ends_with("}]"), "{found}");
    }

    #[test]
    fn a_handle_goes_to_another_thread() {
        let offer = Sdp::from_sdp_string(OFFER).unwrap();
        assert_eq!(std::thread::spawn(move || offer.sections()).join().unwrap(), 1);
    }
}
