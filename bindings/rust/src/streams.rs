//! What a section says of streams.
use crate::{filled, raw, text_of, Direction, Sdp, SdpError};

/// The ids of a stream and of a track in it (RFC 8830, section 2).
#[derive(Clone, Debug, PartialEq, Eq)]
pub struct Msid {
    /// `-` for none.
    pub stream_id: String,
    pub track_id: String,
}

/// A stream that may be restricted (RFC 8851).
#[derive(Clone, Debug, PartialEq, Eq)]
pub struct Rid {
    pub name: String,
    /// `SendOnly` or `RecvOnly`.
    pub direction: Direction,
    /// `pt=96,97;max-width=320`; empty where it has none.
    pub restrictions: String,
}

/// A layer of simulcast, by the name of a rid (RFC 8853).
#[derive(Clone, Debug, PartialEq, Eq)]
pub struct SimulcastLayer {
    pub name: String,
    pub active: bool,
}

/// The layers that are sent and received, in order.
#[derive(Clone, Debug, Default, PartialEq, Eq)]
pub struct Simulcast {
    pub send: Vec<SimulcastLayer>,
    pub recv: Vec<SimulcastLayer>,
}

/// What a section says of a source of RTP packets (RFC 5576).
#[derive(Clone, Debug, Default, PartialEq, Eq)]
pub struct SsrcInfo {
    pub ssrc: u32,
    /// The source whose packets it sends again.
    pub repairs: Option<u32>,
    /// The name of the endpoint that sends it.
    pub cname: Option<String>,
    pub stream_id: Option<String>,
    pub track_id: Option<String>,
}

impl Sdp {
    /// What the first msid line of a section says; `None` where it has none.
    pub fn msid(&self, section: usize) -> Result<Option<Msid>, SdpError> {
        // SAFETY: the handle is full, and `filled` hands in room for so many bytes.
        let said = filled(|room, cap, needed| unsafe { raw::zax_section_msid(self.0.as_ptr(), section, room, cap, needed) }).map(text_of)?;
        Ok(said.split_once(' ').map(|(stream, track)| Msid { stream_id: stream.to_owned(), track_id: track.to_owned() }))
    }

    /// The header extensions of a section, in order: their numbers, by which packets have them, and their URIs (RFC 8285).
    pub fn extmaps(&self, section: usize) -> Result<Vec<(u8, String)>, SdpError> {
        let session = self.0.as_ptr();
        // SAFETY: as above, of room for so many items, or bytes below.
        let found = filled(|room, cap, needed| unsafe { raw::zax_section_extensions(session, section, room, cap, needed) })?;
        let uri = |i| filled(|room, cap, needed| unsafe { raw::zax_extension_uri(session, section, i, room, cap, needed) }).map(text_of);
        found.iter().enumerate().map(|(i, it)| Ok((it.id, uri(i)?))).collect()
    }

    /// The streams of a section that may be restricted, in order.
    pub fn rids(&self, section: usize) -> Result<Vec<Rid>, SdpError> {
        let session = self.0.as_ptr();
        // SAFETY: as above.
        let found = filled(|room, cap, needed| unsafe { raw::zax_section_rids(session, section, room, cap, needed) })?;
        let name = |i| filled(|room, cap, needed| unsafe { raw::zax_rid_name(session, section, i, room, cap, needed) }).map(text_of);
        let said = |i| filled(|room, cap, needed| unsafe { raw::zax_rid_restrictions(session, section, i, room, cap, needed) }).map(text_of);
        let rid = |(i, it): (usize, &raw::Rid)| Ok(Rid { name: name(i)?, direction: Direction::of(it.direction), restrictions: said(i)? });
        found.iter().enumerate().map(rid).collect()
    }

    /// The layers of a section; of several alternatives the first.
    pub fn simulcast(&self, section: usize) -> Result<Simulcast, SdpError> {
        let session = self.0.as_ptr();
        // SAFETY: as above.
        let found = filled(|room, cap, needed| unsafe { raw::zax_section_layers(session, section, room, cap, needed) })?;
        let name = |i| filled(|room, cap, needed| unsafe { raw::zax_layer_name(session, section, i, room, cap, needed) }).map(text_of);
        let mut layers = Simulcast::default();
        for (i, it) in found.iter().enumerate() {
            let layer = SimulcastLayer { name: name(i)?, active: it.paused == 0 };
            if Direction::of(it.direction) == Direction::SendOnly { layers.send.push(layer) } else { layers.recv.push(layer) }
        }
        Ok(layers)
    }

    /// What is said of each source of a section, in order.
    pub fn ssrc_info(&self, section: usize) -> Result<Vec<SsrcInfo>, SdpError> {
        let session = self.0.as_ptr();
        // SAFETY: as above.
        let found = filled(|room, cap, needed| unsafe { raw::zax_section_sources(session, section, room, cap, needed) })?;
        let said = |i, call: unsafe extern "C" fn(*mut raw::Session, usize, usize, *mut u8, usize, *mut usize) -> u32| {
            let text = filled(|room, cap, needed| unsafe { call(session, section, i, room, cap, needed) }).map(text_of)?;
            Ok((!text.is_empty()).then_some(text))
        };
        let info = |(i, it): (usize, &raw::Source)| {
            Ok(SsrcInfo {
                ssrc: it.ssrc,
                repairs: (it.is_repair != 0).then_some(it.repairs),
                cname: said(i, raw::zax_source_cname)?,
                stream_id: said(i, raw::zax_source_stream)?,
                track_id: said(i, raw::zax_source_track)?,
            })
        };
        found.iter().enumerate().map(info).collect()
    }

    /// The groups of a section's sources, in order: what they have in common, as `FID`, and their numbers (RFC 5576, section 4.2).
    pub fn ssrc_groups(&self, section: usize) -> Result<Vec<(String, Vec<u32>)>, SdpError> {
        let session = self.0.as_ptr();
        // SAFETY: as above.
        let found = filled(|room, cap, needed| unsafe { raw::zax_section_source_groups(session, section, room, cap, needed) })?;
        let semantics = |i| filled(|room, cap, needed| unsafe { raw::zax_group_semantics(session, section, i, room, cap, needed) }).map(text_of);
        let ssrcs = |it: &[raw::GroupSource]| it.iter().map(|member| member.ssrc).collect();
        found.chunk_by(|one, next| one.group == next.group).map(|it| Ok((semantics(it[0].group)?, ssrcs(it)))).collect()
    }
}
