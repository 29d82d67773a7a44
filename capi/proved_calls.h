/* The proved calls, as crates/c_calls exports them. A slice is a pointer that isn't NULL, and a count; a handle is a pointer of the
 * library's own, NULL where it is empty. scripts/c_interface.py compares this with the exports. */
#ifndef ZAXMONTH_PROVED_CALLS_H
#define ZAXMONTH_PROVED_CALLS_H

#include "zaxmonth.h"

#include <stdbool.h>

struct handle {
    void *ptr;
};

/* The texts of a section, of which the first two are those of a row. */
enum section_text {
    ROW_CODEC, ROW_FORMAT, SECTION_MSID, EXTENSION_URI, RID_NAME, RID_RESTRICTIONS, LAYER_NAME, SOURCE_CNAME, SOURCE_STREAM, SOURCE_TRACK,
    GROUP_SEMANTICS
};

uint32_t zaxp_session_read(const uint8_t *text, size_t text_length, struct handle *handle, size_t *unread, uint8_t *message,
                           size_t message_cap, size_t *message_length);
size_t zaxp_session_sections(struct handle *handle);
uint32_t zaxp_session_print(struct handle *handle, uint8_t *room, size_t room_cap, size_t *needed);
uint32_t zaxp_session_section(struct handle *handle, size_t at, zax_section *info);
uint32_t zaxp_session_mid(struct handle *handle, size_t at, uint8_t *room, size_t room_cap, size_t *needed);
uint32_t zaxp_session_rows(struct handle *handle, size_t at, zax_row *room, size_t room_cap, size_t *needed);
uint32_t zaxp_session_extensions(struct handle *handle, size_t at, zax_extension *room, size_t room_cap, size_t *needed);
uint32_t zaxp_session_rids(struct handle *handle, size_t at, zax_rid *room, size_t room_cap, size_t *needed);
uint32_t zaxp_session_layers(struct handle *handle, size_t at, zax_layer *room, size_t room_cap, size_t *needed);
uint32_t zaxp_session_sources(struct handle *handle, size_t at, zax_source *room, size_t room_cap, size_t *needed);
uint32_t zaxp_session_source_groups(struct handle *handle, size_t at, zax_group_source *room, size_t room_cap, size_t *needed);
uint32_t zaxp_session_text(struct handle *handle, size_t at, uint8_t what, size_t index, uint8_t *room, size_t room_cap,
                           size_t *needed);
uint32_t zaxp_session_json(struct handle *handle, uint8_t *room, size_t room_cap, size_t *needed);
uint32_t zaxp_session_is_writable(struct handle *handle, size_t at, bool *writable);
uint32_t zaxp_session_ice_ufrag(struct handle *handle, uint8_t *room, size_t room_cap, size_t *needed);
uint32_t zaxp_session_ice_pwd(struct handle *handle, uint8_t *room, size_t room_cap, size_t *needed);
uint32_t zaxp_session_fingerprint(struct handle *handle, uint8_t *room, size_t room_cap, size_t *needed);
uint8_t zaxp_session_setup(struct handle *handle);
uint32_t zaxp_session_candidates(struct handle *handle, size_t *count);
uint32_t zaxp_session_candidate(struct handle *handle, size_t index, uint8_t *room, size_t room_cap, size_t *needed);
void zaxp_session_free(struct handle *handle);
uint32_t zaxp_findings(const uint8_t *text, size_t text_length, uint8_t *room, size_t room_cap, size_t *needed);
uint32_t zaxp_config_defaults(struct handle *handle);
uint32_t zaxp_config_empty(struct handle *handle);
uint32_t zaxp_config_enable(struct handle *handle, uint8_t codec, bool enabled, bool use_red);
uint32_t zaxp_config_add(struct handle *handle, uint8_t pt, uint8_t rtx, uint8_t codec, uint32_t clock_rate, uint8_t channels,
                         const uint8_t *format, size_t format_length);
uint32_t zaxp_config_negotiate(struct handle *handle, const uint8_t *text, size_t text_length, zax_outcome *room, size_t room_cap,
                               size_t *needed, uint8_t *message, size_t message_cap, size_t *message_length);
uint32_t zaxp_config_rows(struct handle *handle, zax_row *room, size_t room_cap, size_t *needed);
uint32_t zaxp_config_text(struct handle *handle, uint8_t what, size_t row, uint8_t *room, size_t room_cap, size_t *needed);
uint32_t zaxp_config_answer(struct handle *handle, struct handle *own, size_t at);
void zaxp_config_free(struct handle *handle);

/* The numbers of zax_own. */
struct own_numbers {
    uint64_t session_id;
    uint64_t max_message_size;
    uint16_t sctp_port;
    uint8_t has_channels;
    uint8_t audio;
    uint8_t video;
    uint8_t receives_simulcast;
};

uint32_t zaxp_exchange_new(struct handle *handle, struct handle *config, const struct own_numbers *numbers, const uint8_t *ice_ufrag,
                           size_t ice_ufrag_length, const uint8_t *ice_pwd, size_t ice_pwd_length, const uint8_t *fingerprint,
                           size_t fingerprint_length, const uint8_t *stream_id, size_t stream_id_length, const zax_slice *extensions,
                           size_t extensions_length, const zax_slice *candidates, size_t candidates_length, uint8_t *message,
                           size_t message_cap, size_t *message_length);
void zaxp_exchange_free(struct handle *handle);
uint32_t zaxp_exchange_accept_offer(struct handle *handle, const uint8_t *offer, size_t offer_length, struct handle *answer,
                                    uint64_t *version, size_t *line, uint8_t *message, size_t message_cap, size_t *message_length);
uint32_t zaxp_exchange_create_offer(struct handle *handle, struct handle *offer, uint64_t *version, uint8_t *message,
                                    size_t message_cap, size_t *message_length);
uint32_t zaxp_exchange_accept_answer(struct handle *handle, const uint8_t *answer, size_t answer_length, size_t *line,
                                     uint8_t *message, size_t message_cap, size_t *message_length);
void zaxp_exchange_rollback(struct handle *handle);
uint32_t zaxp_exchange_add_media(struct handle *handle, uint8_t kind, uint8_t direction, uint8_t *message, size_t message_cap,
                                 size_t *message_length);
uint32_t zaxp_exchange_add_channels(struct handle *handle, uint8_t *message, size_t message_cap, size_t *message_length);
uint32_t zaxp_exchange_restart_ice(struct handle *handle, const uint8_t *ufrag, size_t ufrag_length, const uint8_t *pwd,
                                   size_t pwd_length);
uint32_t zaxp_exchange_set_direction(struct handle *handle, const uint8_t *mid, size_t mid_length, uint8_t direction);
uint32_t zaxp_session_print_version(struct handle *handle, uint64_t version, uint8_t *room, size_t room_cap, size_t *needed);
uint32_t zaxp_exchange_rows(struct handle *handle, zax_row *room, size_t room_cap, size_t *needed);
uint32_t zaxp_exchange_text(struct handle *handle, uint8_t what, size_t row, uint8_t *room, size_t room_cap, size_t *needed);
uint32_t zaxp_exchange_state(struct handle *handle);

#endif
