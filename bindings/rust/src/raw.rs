//! zaxmonth.h as Rust has it.
use std::ffi::{c_char, c_int};

#[repr(C)]
pub struct Session([u8; 0]);

#[repr(C)]
pub struct Config([u8; 0]);

#[repr(C)]
pub struct Exchange([u8; 0]);

/// A text; of a list, it isn't null.
#[repr(C)]
pub struct Slice {
    pub at: *const c_char,
    pub length: usize,
}

#[repr(C)]
pub struct Own {
    pub session_id: u64,
    pub ice_ufrag: Slice,
    pub ice_pwd: Slice,
    pub fingerprint: Slice,
    pub stream_id: Slice,
    pub extensions: *const Slice,
    pub extension_count: usize,
    pub candidates: *const Slice,
    pub candidate_count: usize,
    pub max_message_size: u64,
    pub sctp_port: u16,
    pub has_channels: u8,
    pub audio: u8,
    pub video: u8,
    pub receives_simulcast: u8,
    pub reserved: [u8; 2],
}

#[repr(C)]
#[derive(Default)]
pub struct Section {
    pub kind: u8,
    pub protocol: u8,
    pub direction: u8,
    pub setup: u8,
    pub disabled: u8,
    pub reserved: [u8; 3],
}

#[repr(C)]
#[derive(Clone, Default)]
pub struct Extension {
    pub id: u8,
    pub reserved: [u8; 3],
}

#[repr(C)]
#[derive(Clone, Default)]
pub struct Rid {
    pub direction: u8,
    pub reserved: [u8; 3],
}

#[repr(C)]
#[derive(Clone, Default)]
pub struct Layer {
    pub direction: u8,
    pub paused: u8,
    pub reserved: [u8; 2],
}

#[repr(C)]
#[derive(Clone, Default)]
pub struct Source {
    pub ssrc: u32,
    pub repairs: u32,
    pub is_repair: u8,
    pub reserved: [u8; 3],
}

#[repr(C)]
#[derive(Clone, Default)]
pub struct GroupSource {
    pub group: usize,
    pub ssrc: u32,
    pub reserved: u32,
}

#[repr(C)]
pub struct Error {
    pub status: u32,
    pub line: u32,
    pub offset: usize,
    pub message: [c_char; 240],
}

extern "C" {
    pub fn zax_read(text: *const c_char, length: usize, session: *mut *mut Session, error: *mut Error) -> u32;
    pub fn zax_session_free(session: *mut Session);
    pub fn zax_print(session: *mut Session, room: *mut u8, cap: usize, needed: *mut usize) -> u32;
    pub fn zax_sections(session: *mut Session) -> usize;
    pub fn zax_section_info(session: *mut Session, section: usize, info: *mut Section) -> u32;
    pub fn zax_is_writable(session: *mut Session, section: usize, writable: *mut c_int) -> u32;
    pub fn zax_ice_ufrag(session: *mut Session, room: *mut u8, cap: usize, needed: *mut usize) -> u32;
    pub fn zax_ice_pwd(session: *mut Session, room: *mut u8, cap: usize, needed: *mut usize) -> u32;
    pub fn zax_fingerprint(session: *mut Session, room: *mut u8, cap: usize, needed: *mut usize) -> u32;
    pub fn zax_session_setup(session: *mut Session, setup: *mut u32) -> u32;
    pub fn zax_candidates(session: *mut Session, count: *mut usize) -> u32;
    pub fn zax_candidate(session: *mut Session, index: usize, room: *mut u8, cap: usize, needed: *mut usize) -> u32;
    pub fn zax_section_mid(session: *mut Session, section: usize, room: *mut u8, cap: usize, needed: *mut usize) -> u32;
    pub fn zax_section_msid(session: *mut Session, section: usize, room: *mut u8, cap: usize, needed: *mut usize) -> u32;
    pub fn zax_section_extensions(session: *mut Session, section: usize, room: *mut Extension, cap: usize, needed: *mut usize) -> u32;
    pub fn zax_extension_uri(session: *mut Session, section: usize, extension: usize, room: *mut u8, cap: usize, needed: *mut usize) -> u32;
    pub fn zax_section_rids(session: *mut Session, section: usize, room: *mut Rid, cap: usize, needed: *mut usize) -> u32;
    pub fn zax_rid_name(session: *mut Session, section: usize, rid: usize, room: *mut u8, cap: usize, needed: *mut usize) -> u32;
    pub fn zax_rid_restrictions(session: *mut Session, section: usize, rid: usize, room: *mut u8, cap: usize, needed: *mut usize) -> u32;
    pub fn zax_section_layers(session: *mut Session, section: usize, room: *mut Layer, cap: usize, needed: *mut usize) -> u32;
    pub fn zax_layer_name(session: *mut Session, section: usize, layer: usize, room: *mut u8, cap: usize, needed: *mut usize) -> u32;
    pub fn zax_section_sources(session: *mut Session, section: usize, room: *mut Source, cap: usize, needed: *mut usize) -> u32;
    pub fn zax_source_cname(session: *mut Session, section: usize, source: usize, room: *mut u8, cap: usize, needed: *mut usize) -> u32;
    pub fn zax_source_stream(session: *mut Session, section: usize, source: usize, room: *mut u8, cap: usize, needed: *mut usize) -> u32;
    pub fn zax_source_track(session: *mut Session, section: usize, source: usize, room: *mut u8, cap: usize, needed: *mut usize) -> u32;
    pub fn zax_section_source_groups(session: *mut Session, section: usize, room: *mut GroupSource, cap: usize, needed: *mut usize) -> u32;
    pub fn zax_group_semantics(session: *mut Session, section: usize, group: usize, room: *mut u8, cap: usize, needed: *mut usize) -> u32;
    pub fn zax_rows(session: *mut Session, section: usize, room: *mut crate::Row, cap: usize, needed: *mut usize) -> u32;
    pub fn zax_row_codec(session: *mut Session, section: usize, row: usize, room: *mut u8, cap: usize, needed: *mut usize) -> u32;
    pub fn zax_row_fmtp(session: *mut Session, section: usize, row: usize, room: *mut u8, cap: usize, needed: *mut usize) -> u32;
    pub fn zax_findings(text: *const c_char, length: usize, room: *mut u8, cap: usize, needed: *mut usize) -> u32;
    pub fn zax_config_defaults(config: *mut *mut Config) -> u32;
    pub fn zax_config_empty(config: *mut *mut Config) -> u32;
    pub fn zax_config_free(config: *mut Config);
    pub fn zax_config_enable(config: *mut Config, codec: u32, enabled: c_int, use_red: c_int) -> u32;
    pub fn zax_config_add(
        config: *mut Config,
        pt: u8,
        rtx: u8,
        codec: u32,
        clock_rate: u32,
        channels: u8,
        fmtp: *const c_char,
        length: usize,
    ) -> u32;
    pub fn zax_negotiate(
        config: *mut Config,
        text: *const c_char,
        length: usize,
        room: *mut crate::Outcome,
        cap: usize,
        needed: *mut usize,
        error: *mut Error,
    ) -> u32;
    pub fn zax_config_rows(config: *mut Config, room: *mut crate::Row, cap: usize, needed: *mut usize) -> u32;
    pub fn zax_answer(config: *mut Config, own: *mut Session, section: usize) -> u32;
    pub fn zax_exchange_new(own: *const Own, config: *mut Config, exchange: *mut *mut Exchange, error: *mut Error) -> u32;
    pub fn zax_exchange_free(exchange: *mut Exchange);
    pub fn zax_accept_offer(
        exchange: *mut Exchange,
        offer: *const c_char,
        length: usize,
        answer: *mut *mut Session,
        version: *mut u64,
        error: *mut Error,
    ) -> u32;
    pub fn zax_create_offer(exchange: *mut Exchange, offer: *mut *mut Session, version: *mut u64, error: *mut Error) -> u32;
    pub fn zax_accept_answer(exchange: *mut Exchange, answer: *const c_char, length: usize, error: *mut Error) -> u32;
    pub fn zax_rollback(exchange: *mut Exchange) -> u32;
    pub fn zax_add_media(exchange: *mut Exchange, kind: u32, direction: u32, error: *mut Error) -> u32;
    pub fn zax_add_channels(exchange: *mut Exchange, error: *mut Error) -> u32;
    pub fn zax_restart_ice(exchange: *mut Exchange, ufrag: Slice, pwd: Slice) -> u32;
    pub fn zax_set_direction(exchange: *mut Exchange, mid: *const c_char, length: usize, direction: u32) -> u32;
    pub fn zax_print_version(session: *mut Session, version: u64, room: *mut u8, cap: usize, needed: *mut usize) -> u32;
    pub fn zax_exchange_rows(exchange: *mut Exchange, room: *mut crate::Row, cap: usize, needed: *mut usize) -> u32;
    pub fn zax_exchange_row_codec(exchange: *mut Exchange, row: usize, room: *mut u8, cap: usize, needed: *mut usize) -> u32;
    pub fn zax_exchange_row_fmtp(exchange: *mut Exchange, row: usize, room: *mut u8, cap: usize, needed: *mut usize) -> u32;
    pub fn zax_exchange_state(exchange: *mut Exchange, state: *mut u32) -> u32;
}
