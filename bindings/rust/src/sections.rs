//! What a section is, and what a description says of its transport.
use crate::{done, filled, raw, text_of, IceCreds, Sdp, SdpError};

/// What media a section carries.
#[derive(Clone, Copy, Debug, PartialEq, Eq)]
pub enum MediaKind {
    Audio = 0,
    Video = 1,
}

/// What a section carries.
#[derive(Clone, Copy, Debug, PartialEq, Eq)]
pub enum MediaType {
    Audio,
    Video,
    /// Data channels.
    Application,
    Unknown,
}

/// What carries a section.
#[derive(Clone, Copy, Debug, PartialEq, Eq)]
pub enum Proto {
    Srtp,
    Sctp,
}

/// What a side is ready for in a section.
#[derive(Clone, Copy, Debug, Default, PartialEq, Eq)]
pub enum Direction {
    #[default]
    SendRecv = 0,
    SendOnly = 1,
    RecvOnly = 2,
    Inactive = 3,
}

impl Direction {
    pub(crate) fn of(number: u8) -> Direction {
        match number {
            0 => Direction::SendRecv,
            1 => Direction::SendOnly,
            2 => Direction::RecvOnly,
            _ => Direction::Inactive,
        }
    }
}

/// A role in the DTLS handshake.
#[derive(Clone, Copy, Debug, PartialEq, Eq)]
pub enum Setup {
    ActPass,
    Active,
    Passive,
}

fn setup_of(number: u32) -> Option<Setup> {
    match number {
        1 => Some(Setup::ActPass),
        2 => Some(Setup::Active),
        3 => Some(Setup::Passive),
        _ => None,
    }
}

/// What a section is.
#[derive(Clone, Copy, Debug, PartialEq, Eq)]
pub struct Section {
    pub typ: MediaType,
    pub proto: Proto,
    /// `Inactive` where it says none.
    pub direction: Direction,
    /// Where it says one itself.
    pub setup: Option<Setup>,
    /// Whether its port is 0.
    pub disabled: bool,
}

impl From<raw::Section> for Section {
    fn from(raw: raw::Section) -> Section {
        let typ = match raw.kind {
            0 => MediaType::Audio,
            1 => MediaType::Video,
            2 => MediaType::Application,
            _ => MediaType::Unknown,
        };
        let proto = if raw.protocol == 0 { Proto::Srtp } else { Proto::Sctp };
        Section { typ, proto, direction: Direction::of(raw.direction), setup: setup_of(raw.setup.into()), disabled: raw.disabled != 0 }
    }
}

impl Sdp {
    /// What a section is.
    pub fn section(&self, section: usize) -> Result<Section, SdpError> {
        let mut found = raw::Section::default();
        // SAFETY: the handle is full, and the place is there, here and below.
        done(unsafe { raw::zax_section_info(self.0.as_ptr(), section, &mut found) })?;
        Ok(found.into())
    }

    /// Whether `CodecConfig::answer` may write into a section.
    pub fn is_writable(&self, section: usize) -> Result<bool, SdpError> {
        let mut writable = 0;
        done(unsafe { raw::zax_is_writable(self.0.as_ptr(), section, &mut writable) })?;
        Ok(writable != 0)
    }

    /// The credentials of the session, else of the first section that says both; `None` where none does.
    pub fn ice_creds(&self) -> Result<Option<IceCreds>, SdpError> {
        // SAFETY: `filled` hands in room for so many bytes, here and below.
        let ufrag = filled(|room, cap, needed| unsafe { raw::zax_ice_ufrag(self.0.as_ptr(), room, cap, needed) }).map(text_of)?;
        let pass = filled(|room, cap, needed| unsafe { raw::zax_ice_pwd(self.0.as_ptr(), room, cap, needed) }).map(text_of)?;
        Ok((!ufrag.is_empty() || !pass.is_empty()).then_some(IceCreds { ufrag, pass }))
    }

    /// The fingerprint of the session, else of the first section that has one, as `sha-256 AB:CD`; `None` where none has.
    pub fn fingerprint(&self) -> Result<Option<String>, SdpError> {
        let said = filled(|room, cap, needed| unsafe { raw::zax_fingerprint(self.0.as_ptr(), room, cap, needed) }).map(text_of)?;
        Ok((!said.is_empty()).then_some(said))
    }

    /// The role of the session, else of the first section that says one.
    pub fn setup(&self) -> Option<Setup> {
        let mut setup = 0;
        // SAFETY: as above.
        unsafe { raw::zax_session_setup(self.0.as_ptr(), &mut setup) };
        setup_of(setup)
    }

    /// The candidates, each once, without `a=`.
    pub fn ice_candidates(&self) -> Result<Vec<String>, SdpError> {
        let mut count = 0;
        // SAFETY: as above.
        done(unsafe { raw::zax_candidates(self.0.as_ptr(), &mut count) })?;
        let candidate = |i| filled(|room, cap, needed| unsafe { raw::zax_candidate(self.0.as_ptr(), i, room, cap, needed) }).map(text_of);
        (0..count).map(candidate).collect()
    }
}
