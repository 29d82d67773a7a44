//! Exchanges of offers and answers (RFC 3264, RFC 8829).
use crate::own::{slice, slices};
use crate::{blank, filled, raw, text_of, told, CodecConfig, Direction, IceCreds, MediaKind, OwnSide, Row, Sdp, SdpError};

use std::fmt;
use std::ops::Deref;
use std::ptr::{null_mut, NonNull};

/// Why a call of an exchange is refused. Nothing has changed then.
#[derive(Clone, Debug, PartialEq, Eq)]
pub enum ExchangeError {
    /// The text describes no session, or one of its sections contradicts itself.
    NotRead(String),
    /// A line, counted from 1, fits nowhere, so that what follows it isn't known.
    Unread { line: u32, message: String },
    /// The call is out of turn: an offer of this side is open, or none is.
    WrongState(String),
    /// A section breaks a rule of answers, or of later offers.
    DoesNotFit(String),
    /// A text of this side would be read as something else.
    NotPrintable(String),
    /// No row of the configuration is for media of that kind.
    NoRows,
    /// This side takes no data channels.
    NoChannels,
    /// Sections of the session have had each name that is a number of 32 bits.
    NoName,
    /// What this side says of itself has no fingerprint, or a line that is no candidate.
    OwnSide(String),
    /// An argument is none that the library takes.
    Argument,
    /// Memory was refused.
    Memory,
}

impl fmt::Display for ExchangeError {
    fn fmt(&self, out: &mut fmt::Formatter<'_>) -> fmt::Result {
        out.write_str(match self {
            ExchangeError::NotRead(message)
            | ExchangeError::Unread { message, .. }
            | ExchangeError::WrongState(message)
            | ExchangeError::DoesNotFit(message)
            | ExchangeError::NotPrintable(message)
            | ExchangeError::OwnSide(message) => message,
            ExchangeError::NoRows => "this side has no codec for media of that kind",
            ExchangeError::NoChannels => "this side takes no data channels",
            ExchangeError::NoName => "no name is left for a section that was added",
            ExchangeError::Argument => "an argument is none that the library takes",
            ExchangeError::Memory => "out of memory",
        })
    }
}

impl std::error::Error for ExchangeError {}

fn error_of(status: u32, error: &raw::Error) -> ExchangeError {
    match status {
        3 => ExchangeError::Memory,
        7 => ExchangeError::Argument,
        8 => ExchangeError::WrongState(told(error)),
        9 => ExchangeError::Unread { line: error.line, message: told(error) },
        10 => ExchangeError::DoesNotFit(told(error)),
        11 => ExchangeError::NotPrintable(told(error)),
        12 => ExchangeError::NoRows,
        13 => ExchangeError::NoChannels,
        14 => ExchangeError::NoName,
        15 => ExchangeError::OwnSide(told(error)),
        _ => ExchangeError::NotRead(told(error)),
    }
}

/// Whether an offer of this side waits for its answer (RFC 8829, section 3.2).
#[derive(Clone, Copy, Debug, PartialEq, Eq)]
pub enum SignalingState {
    Stable,
    HaveLocalOffer,
}

/// An offer or an answer of this side, with its version: of two of a session the later has the greater. It derefs to its description.
#[derive(Debug)]
pub struct Description {
    sdp: Sdp,
    version: u64,
}

impl Description {
    /// The version in the `o=` line, 1 at first.
    pub fn version(&self) -> u64 {
        self.version
    }

    /// The text with this version, as the other side is to get it.
    pub fn to_sdp_string(&self) -> Result<String, SdpError> {
        let session = self.sdp.0.as_ptr();
        // SAFETY: the handle is full, and `filled` hands in room for so many bytes.
        filled(|room, cap, needed| unsafe { raw::zax_print_version(session, self.version, room, cap, needed) }).map(text_of)
    }
}

impl Deref for Description {
    type Target = Sdp;

    fn deref(&self) -> &Sdp {
        &self.sdp
    }
}

/// One side of a session: it answers offers, makes its own, and takes answers to them.
#[derive(Debug)]
pub struct Exchange(NonNull<raw::Exchange>);

// SAFETY: a handle may go from thread to thread; it isn't `Sync`, so one call at a time uses it.
unsafe impl Send for Exchange {}

impl Exchange {
    /// A side that says this, with the rows of a configuration, in which nothing was said yet.
    pub fn new(own: &OwnSide, config: CodecConfig) -> Result<Exchange, ExchangeError> {
        let (extensions, candidates) = (slices(&own.extensions), slices(&own.candidates));
        let (side, mut made, mut error) = (own.raw(&extensions, &candidates), null_mut(), blank());
        // SAFETY: the texts stay where they are, the configuration's handle is full, and the two places are there.
        let status = unsafe { raw::zax_exchange_new(&side, config.0.as_ptr(), &mut made, &mut error) };
        let made = NonNull::new(made).ok_or_else(|| error_of(status, &error))?;
        std::mem::forget(config); // (its handle is freed)
        Ok(Exchange(made))
    }

    /// The description that a call makes.
    fn described(
        &mut self,
        call: impl FnOnce(*mut raw::Exchange, *mut *mut raw::Session, *mut u64, *mut raw::Error) -> u32,
    ) -> Result<Description, ExchangeError> {
        let (mut made, mut version, mut error) = (null_mut(), 0, blank());
        let status = call(self.0.as_ptr(), &mut made, &mut version, &mut error);
        match NonNull::new(made) {
            Some(made) => Ok(Description { sdp: Sdp(made), version }),
            None => Err(error_of(status, &error)),
        }
    }

    /// Answers an offer of the other side.
    pub fn accept_offer(&mut self, offer: &str) -> Result<Description, ExchangeError> {
        let (at, length) = (offer.as_ptr().cast(), offer.len());
        // SAFETY: the text is that long, the handle is full, and the places are there, here and below.
        self.described(|it, made, version, error| unsafe { raw::zax_accept_offer(it, at, length, made, version, error) })
    }

    /// Makes an offer of what was added and what goes on, which waits for its answer then.
    pub fn create_offer(&mut self) -> Result<Description, ExchangeError> {
        // SAFETY: as above.
        self.described(|it, made, version, error| unsafe { raw::zax_create_offer(it, made, version, error) })
    }

    /// Runs a call that tells why it is refused.
    fn told(&mut self, call: impl FnOnce(*mut raw::Exchange, *mut raw::Error) -> u32) -> Result<(), ExchangeError> {
        let mut error = blank();
        match call(self.0.as_ptr(), &mut error) {
            0 => Ok(()),
            status => Err(error_of(status, &error)),
        }
    }

    /// Takes the other side's answer to the offer that waits for it.
    pub fn accept_answer(&mut self, answer: &str) -> Result<(), ExchangeError> {
        // SAFETY: the text is that long, the handle is full, and the place is there, here and below.
        self.told(|it, error| unsafe { raw::zax_accept_answer(it, answer.as_ptr().cast(), answer.len(), error) })
    }

    /// Drops the offer that waits for its answer; where none does, nothing changes.
    pub fn rollback(&mut self) {
        // SAFETY: the handle is full.
        unsafe { raw::zax_rollback(self.0.as_ptr()) };
    }

    /// Has the next offer add a section of media.
    pub fn add_media(&mut self, kind: MediaKind, direction: Direction) -> Result<(), ExchangeError> {
        // SAFETY: as above.
        self.told(|it, error| unsafe { raw::zax_add_media(it, kind as u32, direction as u32, error) })
    }

    /// Has the next offer add a section of data channels.
    pub fn add_channels(&mut self) -> Result<(), ExchangeError> {
        // SAFETY: as above.
        self.told(|it, error| unsafe { raw::zax_add_channels(it, error) })
    }

    /// Has the next description say these credentials of ICE.
    pub fn restart_ice(&mut self, creds: &IceCreds) -> Result<(), ExchangeError> {
        // SAFETY: the texts are that long, and the handle is full.
        self.told(|it, _error| unsafe { raw::zax_restart_ice(it, slice(&creds.ufrag), slice(&creds.pass)) })
    }

    /// Has the next description say this direction in the section of a mid, to hold its media and to resume it (RFC 3264, section 8.4).
    /// `Argument` where the mid has more than 16 bytes.
    pub fn set_direction(&mut self, mid: &str, direction: Direction) -> Result<(), ExchangeError> {
        // SAFETY: the text is that long, and the handle is full.
        self.told(|it, _error| unsafe { raw::zax_set_direction(it, mid.as_ptr().cast(), mid.len(), direction as u32) })
    }

    /// The rows of its configuration.
    pub fn params(&self) -> Result<Vec<Row>, SdpError> {
        // SAFETY: `filled` hands in room for so many rows, or bytes below.
        filled(|room, cap, needed| unsafe { raw::zax_exchange_rows(self.0.as_ptr(), room, cap, needed) })
    }

    /// The name of the codec of a row, as an rtpmap line has it.
    pub fn codec(&self, row: usize) -> Result<String, SdpError> {
        filled(|room, cap, needed| unsafe { raw::zax_exchange_row_codec(self.0.as_ptr(), row, room, cap, needed) }).map(text_of)
    }

    /// What the format of a row says, as an fmtp line has it.
    pub fn fmtp(&self, row: usize) -> Result<String, SdpError> {
        filled(|room, cap, needed| unsafe { raw::zax_exchange_row_fmtp(self.0.as_ptr(), row, room, cap, needed) }).map(text_of)
    }

    pub fn state(&self) -> SignalingState {
        let mut state = 0;
        // SAFETY: the handle is full, and the place is there.
        unsafe { raw::zax_exchange_state(self.0.as_ptr(), &mut state) };
        if state == 0 { SignalingState::Stable } else { SignalingState::HaveLocalOffer }
    }
}

impl Drop for Exchange {
    fn drop(&mut self) {
        // SAFETY: it is freed once.
        unsafe { raw::zax_exchange_free(self.0.as_ptr()) }
    }
}
