/* zaxmonth.h: session descriptions (SDP) and their payload types, read, negotiated, printed and answered.
 *
 * Text is UTF-8, given by a pointer and a length in bytes; no zero ends it. A text or a list that a call answers is written into the
 * caller's room: `cap` counts the items that the room has space for, `*needed` becomes the count of those that there are. Where they
 * don't fit the answer is ZAX_E_ROOM, and the room is as it was. `needed` may be NULL, and so may a room whose `cap` is 0.
 *
 * A handle is made by zax_read, zax_config_defaults, zax_config_empty or a call of exchanges, and freed by the call of its kind. One
 * call at a time uses it, on any thread. No call aborts, prints, starts a thread or calls back, and none keeps state outside of handles.
 * A call that isn't answered by ZAX_OK leaves each handle as it was. docs/C.md says what is proved of all this, and what is trusted. */
#ifndef ZAXMONTH_H
#define ZAXMONTH_H

#include <stddef.h>
#include <stdint.h>

#ifdef __cplusplus
extern "C" {
#endif

#define ZAX_VERSION "0.1.0"
/* While the number stays, what stands here changes by addition alone (docs/C.md): calls, structs and numbers come, and none goes or changes.
 * So a number that a caller doesn't know is one of a later version; bytes named reserved are 0 until one gives them a meaning. */
#define ZAX_ABI 1
#define ZAX_API __attribute__((visibility("default")))

typedef struct zax_session zax_session; /* a description */
typedef struct zax_config zax_config;   /* a configuration: the rows of one side, of which some are locked */

typedef enum zax_status {
    ZAX_OK = 0,
    ZAX_E_PARSE = 1,    /* the text describes no session */
    ZAX_E_UTF8 = 2,     /* the text isn't UTF-8 */
    ZAX_E_MEMORY = 3,   /* malloc or realloc answered NULL */
    ZAX_E_ROOM = 4,     /* the room is too small */
    ZAX_E_SECTION = 5,  /* there is no such section, or no such item of it, as a row */
    ZAX_E_NOTHING = 6,  /* no row of the section's kind is locked, or rows printed there might not be read again */
    ZAX_E_ARGUMENT = 7, /* a pointer is NULL that may not be, a length is above half of what can be addressed, no row is such, or no mid */
    ZAX_E_STATE = 8,    /* the call is out of turn: an offer of this side is open, or none is */
    ZAX_E_UNREAD = 9,   /* a line of the text fits nowhere */
    ZAX_E_FIT = 10,     /* a section breaks a rule of answers, or of later offers */
    ZAX_E_PRINT = 11,   /* the description would be read as another one */
    ZAX_E_ROWS = 12,    /* no row of the configuration is for media of that kind */
    ZAX_E_CHANNELS = 13, /* this side takes no data channels */
    ZAX_E_NAME = 14,    /* no name is left for a section */
    ZAX_E_OWN = 15      /* a text of zax_own is no fingerprint, or no candidate */
} zax_status;

/* ZAX_UNKNOWN, too, is one that the library reads and has no number here; zax_row_codec has its name. */
typedef enum zax_codec {
    ZAX_UNKNOWN = 0, ZAX_OPUS, ZAX_PCMU, ZAX_PCMA, ZAX_G722, ZAX_CN, ZAX_AMR_WB, ZAX_H264, ZAX_H265, ZAX_H266,
    ZAX_VP8, ZAX_VP9, ZAX_AV1, ZAX_TELEPHONE_EVENT, ZAX_RTX, ZAX_RED, ZAX_NULL_CODEC
} zax_codec;

enum { ZAX_TRANSPORT_CC = 1, ZAX_NACK = 2, ZAX_PLI = 4, ZAX_FIR = 8, ZAX_REMB = 16 }; /* zax_row.feedback */
enum { ZAX_NO_TYPE = 255 }; /* zax_row.rtx, zax_row.red, zax_outcome.pt: there is none */

/* A row: a codec under a payload type. */
typedef struct zax_row {
    uint32_t clock_rate; /* at which the codec samples, in Hz */
    uint8_t pt;          /* payload types: its own, that of retransmissions, that of RED */
    uint8_t rtx;
    uint8_t red;
    uint8_t channels; /* 0: not said */
    uint8_t codec;    /* zax_codec */
    uint8_t feedback;
    uint8_t locked; /* 0 or 1: whether the other side has agreed to its types */
    uint8_t reserved;
} zax_row;

enum { ZAX_ACCEPTED = 0, ZAX_TYPE_TOO_LARGE, ZAX_CLAIMED_TWICE, ZAX_EXHAUSTED, ZAX_ROUND_MEMORY }; /* zax_outcome.cause */

/* What a round came to. */
typedef struct zax_outcome {
    uint8_t cause;
    uint8_t pt; /* the payload type at fault */
} zax_outcome;

typedef enum zax_kind { ZAX_AUDIO = 0, ZAX_VIDEO, ZAX_APPLICATION, ZAX_OTHER_KIND } zax_kind;
typedef enum zax_protocol { ZAX_PROTOCOL_RTP = 0, ZAX_PROTOCOL_SCTP } zax_protocol;
typedef enum zax_direction { ZAX_SENDRECV = 0, ZAX_SENDONLY, ZAX_RECVONLY, ZAX_INACTIVE } zax_direction;
typedef enum zax_setup { ZAX_NO_SETUP = 0, ZAX_ACTPASS, ZAX_ACTIVE, ZAX_PASSIVE } zax_setup;

/* A section. */
typedef struct zax_section {
    uint8_t kind;      /* zax_kind: what it carries */
    uint8_t protocol;  /* zax_protocol: what carries it */
    uint8_t direction; /* zax_direction; ZAX_INACTIVE where it says none */
    uint8_t setup;     /* zax_setup: its role in the DTLS handshake, where it says one itself */
    uint8_t disabled;  /* 0 or 1: whether its port is 0 */
    uint8_t reserved[3];
} zax_section;

/* A header extension (RFC 8285). */
typedef struct zax_extension {
    uint8_t id; /* its number, by which packets have it */
    uint8_t reserved[3];
} zax_extension;

/* A stream that may be restricted (RFC 8851). */
typedef struct zax_rid {
    uint8_t direction; /* ZAX_SENDONLY or ZAX_RECVONLY */
    uint8_t reserved[3];
} zax_rid;

/* A layer of simulcast (RFC 8853). */
typedef struct zax_layer {
    uint8_t direction; /* ZAX_SENDONLY or ZAX_RECVONLY */
    uint8_t paused;    /* 0 or 1: whether `~` stands before its name */
    uint8_t reserved[2];
} zax_layer;

/* A source of RTP packets (RFC 5576). */
typedef struct zax_source {
    uint32_t ssrc;
    uint32_t repairs;  /* the source whose packets it sends again, by a group FID of both; 0 where it does so of none */
    uint8_t is_repair; /* 0 or 1: whether it does */
    uint8_t reserved[3];
} zax_source;

/* A source in a group (RFC 5576, section 4.2). */
typedef struct zax_group_source {
    size_t group; /* counted from 0 */
    uint32_t ssrc;
    uint32_t reserved;
} zax_group_source;

/* Where a call takes one, it may be NULL. */
typedef struct zax_error {
    uint32_t status;   /* zax_status */
    uint32_t line;     /* zax_read, with ZAX_OK: the line, from 1, at which reading ended; 0 where all was read. ZAX_E_UNREAD: that line */
    size_t offset;     /* the same in bytes, from 0 */
    char message[240]; /* a line of English, cut where it is longer, and ended by a zero */
} zax_error;

ZAX_API const char *zax_version(void);
ZAX_API uint32_t zax_abi(void);

/* Reads the description that a text begins with. `*session` is NULL where there is none. */
ZAX_API zax_status zax_read(const char *text, size_t length, zax_session **session, zax_error *error);
ZAX_API void zax_session_free(zax_session *session); /* NULL is fine */
/* Prints the description, with CR and LF at the end of each line. */
ZAX_API zax_status zax_print(zax_session *session, char *room, size_t cap, size_t *needed);
/* How many sections there are; `section` counts them from 0. */
ZAX_API size_t zax_sections(zax_session *session);
/* What a section is. Where there is no such section, `*info` stays as it is. */
ZAX_API zax_status zax_section_info(zax_session *session, size_t section, zax_section *info);
/* The mid of a section; nothing where it has none. */
ZAX_API zax_status zax_section_mid(zax_session *session, size_t section, char *room, size_t cap, size_t *needed);
/* The ids of a stream, `-` for none, and of a track with a space between them, by the section's first a=msid line; nothing where it has
 * none (RFC 8830). */
ZAX_API zax_status zax_section_msid(zax_session *session, size_t section, char *room, size_t cap, size_t *needed);
/* The rows of a section. */
ZAX_API zax_status zax_rows(zax_session *session, size_t section, zax_row *room, size_t cap, size_t *needed);
/* The name of a row's codec, as an rtpmap line has it; `row` counts those of zax_rows from 0. */
ZAX_API zax_status zax_row_codec(zax_session *session, size_t section, size_t row, char *room, size_t cap, size_t *needed);
/* What its format says, as an fmtp line has it. */
ZAX_API zax_status zax_row_fmtp(zax_session *session, size_t section, size_t row, char *room, size_t cap, size_t *needed);
/* The header extensions of a section, in order, and the URI of one of them, counted from 0. */
ZAX_API zax_status zax_section_extensions(zax_session *session, size_t section, zax_extension *room, size_t cap, size_t *needed);
ZAX_API zax_status zax_extension_uri(zax_session *session, size_t section, size_t extension, char *room, size_t cap, size_t *needed);
/* The streams of a section that may be restricted, in order; of one of them, counted from 0, its name, and its payload types and
 * restrictions as its line has them: `pt=96,97;max-width=320`, nothing where it has none. */
ZAX_API zax_status zax_section_rids(zax_session *session, size_t section, zax_rid *room, size_t cap, size_t *needed);
ZAX_API zax_status zax_rid_name(zax_session *session, size_t section, size_t rid, char *room, size_t cap, size_t *needed);
ZAX_API zax_status zax_rid_restrictions(zax_session *session, size_t section, size_t rid, char *room, size_t cap, size_t *needed);
/* The layers that a section sends, and then those that it receives, in order, of several alternatives the first; and the name of one of
 * them, counted from 0, which is that of a rid. */
ZAX_API zax_status zax_section_layers(zax_session *session, size_t section, zax_layer *room, size_t cap, size_t *needed);
ZAX_API zax_status zax_layer_name(zax_session *session, size_t section, size_t layer, char *room, size_t cap, size_t *needed);
/* The sources of a section, in order; of one of them, counted from 0, the name of the endpoint that sends it, and the ids of its stream and
 * its track; nothing where the section doesn't say them. */
ZAX_API zax_status zax_section_sources(zax_session *session, size_t section, zax_source *room, size_t cap, size_t *needed);
ZAX_API zax_status zax_source_cname(zax_session *session, size_t section, size_t source, char *room, size_t cap, size_t *needed);
ZAX_API zax_status zax_source_stream(zax_session *session, size_t section, size_t source, char *room, size_t cap, size_t *needed);
ZAX_API zax_status zax_source_track(zax_session *session, size_t section, size_t source, char *room, size_t cap, size_t *needed);
/* The sources that a section groups, group by group, and what those of one of the groups have in common, as `FID`. */
ZAX_API zax_status zax_section_source_groups(zax_session *session, size_t section, zax_group_source *room, size_t cap, size_t *needed);
ZAX_API zax_status zax_group_semantics(zax_session *session, size_t section, size_t group, char *room, size_t cap, size_t *needed);
/* Whether zax_answer may write into the section: `*writable` becomes 0 or 1. */
ZAX_API zax_status zax_is_writable(zax_session *session, size_t section, int *writable);
/* The credentials of ICE that the session says, else the first section that says both; nothing where none does. */
ZAX_API zax_status zax_ice_ufrag(zax_session *session, char *room, size_t cap, size_t *needed);
ZAX_API zax_status zax_ice_pwd(zax_session *session, char *room, size_t cap, size_t *needed);
/* The fingerprint of the session, else of the first section that has one, as `sha-256 AB:CD`; nothing where none has. */
ZAX_API zax_status zax_fingerprint(zax_session *session, char *room, size_t cap, size_t *needed);
/* The role in the DTLS handshake (zax_setup) of the session, else of the first section that says one; ZAX_NO_SETUP where none does. */
ZAX_API zax_status zax_session_setup(zax_session *session, uint32_t *setup);
/* How many candidates there are, each counted once, and the text of one of them, from 0, without `a=`. */
ZAX_API zax_status zax_candidates(zax_session *session, size_t *count);
ZAX_API zax_status zax_candidate(zax_session *session, size_t index, char *room, size_t cap, size_t *needed);
/* The description as it prints, as JSON by the keys of sdp-transform, and with the rows of each section. */
ZAX_API zax_status zax_json(zax_session *session, char *room, size_t cap, size_t *needed);

/* What is found in a text (docs/LINT.md), as JSON: why it is refused, and what is lost of it, by line and column. */
ZAX_API zax_status zax_findings(const char *text, size_t length, char *room, size_t cap, size_t *needed);

/* A configuration with the default rows. `*config` is NULL where memory is refused. */
ZAX_API zax_status zax_config_defaults(zax_config **config);
/* One without rows. */
ZAX_API zax_status zax_config_empty(zax_config **config);
ZAX_API void zax_config_free(zax_config *config); /* NULL is fine */
/* Takes all rows of a codec out and, where `enabled`, puts its default rows last: with RED where `use_red` asks for it and the codec
 * has it (Opus, PCMU, PCMA, G722). ZAX_E_ARGUMENT where the codec has no default rows. */
ZAX_API zax_status zax_config_enable(zax_config *config, zax_codec codec, int enabled, int use_red);
/* Adds a row at the end: with RTX unless that is ZAX_NO_TYPE, with this clock rate in Hz and so many channels, 0 where they aren't said,
 * and with what an fmtp line says; what doesn't read there is passed over. It has the feedback of its kind, no RED, and isn't locked.
 * ZAX_E_ARGUMENT where the codec has no number or the clock rate is 0, ZAX_E_UTF8. */
ZAX_API zax_status zax_config_add(zax_config *config, uint8_t pt, uint8_t rtx, zax_codec codec, uint32_t clock_rate, uint8_t channels,
                                  const char *fmtp, size_t length);
/* Reads a text, and runs a round for each of its audio and video sections. As many outcomes are written as there is room for, with no
 * error where there are more. */
ZAX_API zax_status zax_negotiate(zax_config *config, const char *text, size_t length, zax_outcome *room, size_t cap, size_t *needed,
                                 zax_error *error);
ZAX_API zax_status zax_config_rows(zax_config *config, zax_row *room, size_t cap, size_t *needed);
ZAX_API zax_status zax_config_row_codec(zax_config *config, size_t row, char *room, size_t cap, size_t *needed);
ZAX_API zax_status zax_config_row_fmtp(zax_config *config, size_t row, char *room, size_t cap, size_t *needed);
/* Puts the locked rows of its kind into a section of one's own description. */
ZAX_API zax_status zax_answer(zax_config *config, zax_session *own, size_t section);

/* ---- Exchanges of offers and answers (RFC 3264, RFC 8829). docs/EXCHANGE.md says what offers and answers keep. */

typedef struct zax_exchange zax_exchange; /* one side of an exchange */

enum { ZAX_STABLE = 0, ZAX_HAVE_LOCAL_OFFER }; /* zax_exchange_state */

/* A text. */
typedef struct zax_slice {
    const char *at;
    size_t length;
} zax_slice;

/* What a side says of itself; texts are copied. No text of a list may be NULL. */
typedef struct zax_own {
    uint64_t session_id; /* in the o= line */
    zax_slice ice_ufrag;
    zax_slice ice_pwd;
    zax_slice fingerprint; /* of its certificate: "sha-256 AB:CD:.." */
    zax_slice stream_id;   /* of what it sends: "-" for none */
    const zax_slice *extensions; /* the header extensions that it knows: their URIs */
    size_t extension_count;
    const zax_slice *candidates; /* where it is reached: lines as browsers trickle them, with or without "a=" */
    size_t candidate_count;
    uint64_t max_message_size;  /* of data channels; 0 for any */
    uint16_t sctp_port;         /* as 5000 */
    uint8_t has_channels;       /* 0 or 1: whether it takes data channels */
    uint8_t audio;              /* zax_direction: what it is ready for */
    uint8_t video;
    uint8_t receives_simulcast; /* 0 or 1 */
    uint8_t reserved[2];        /* 0: others are refused */
} zax_own;

/* One side, with the rows of a configuration. Where it succeeds it takes the configuration and frees that handle, which is not used
 * again; where it doesn't, the configuration stays the caller's as it is, and `*exchange` is NULL. */
ZAX_API zax_status zax_exchange_new(const zax_own *own, zax_config *config, zax_exchange **exchange, zax_error *error);
ZAX_API void zax_exchange_free(zax_exchange *exchange); /* NULL is fine */
/* Answers an offer of the other side. `*answer` is a handle of the caller's, NULL where there is none; zax_print_version prints it. */
ZAX_API zax_status zax_accept_offer(zax_exchange *exchange, const char *offer, size_t length, zax_session **answer, uint64_t *version,
                                    zax_error *error);
/* Makes an offer of what was added and what goes on. It waits for its answer then. `*offer` is as `*answer` above. */
ZAX_API zax_status zax_create_offer(zax_exchange *exchange, zax_session **offer, uint64_t *version, zax_error *error);
/* Takes the other side's answer to the offer that waits for it. */
ZAX_API zax_status zax_accept_answer(zax_exchange *exchange, const char *answer, size_t length, zax_error *error);
/* Drops the offer that waits for its answer; where none does, nothing changes. */
ZAX_API zax_status zax_rollback(zax_exchange *exchange);
/* Has the next offer add a section, of media or of data channels. */
ZAX_API zax_status zax_add_media(zax_exchange *exchange, zax_kind kind, zax_direction direction, zax_error *error);
ZAX_API zax_status zax_add_channels(zax_exchange *exchange, zax_error *error);
/* Has the next description say these credentials of ICE. */
ZAX_API zax_status zax_restart_ice(zax_exchange *exchange, zax_slice ufrag, zax_slice pwd);
/* Has the next description say this direction in the section of a mid, to hold its media and to resume it. ZAX_E_UTF8, and ZAX_E_ARGUMENT
 * where the mid has more than 16 bytes; one that no section has turns none. */
ZAX_API zax_status zax_set_direction(zax_exchange *exchange, const char *mid, size_t length, zax_direction direction);
/* Prints a description with its version in the o= line, as the other side is to get it. */
ZAX_API zax_status zax_print_version(zax_session *session, uint64_t version, char *room, size_t cap, size_t *needed);
/* The rows of its configuration, each with whether it is locked. */
ZAX_API zax_status zax_exchange_rows(zax_exchange *exchange, zax_row *room, size_t cap, size_t *needed);
ZAX_API zax_status zax_exchange_row_codec(zax_exchange *exchange, size_t row, char *room, size_t cap, size_t *needed);
ZAX_API zax_status zax_exchange_row_fmtp(zax_exchange *exchange, size_t row, char *room, size_t cap, size_t *needed);
/* Whether an offer of this side waits for its answer: ZAX_STABLE or ZAX_HAVE_LOCAL_OFFER. */
ZAX_API zax_status zax_exchange_state(zax_exchange *exchange, uint32_t *state);

#ifdef __cplusplus
}
#endif
#endif
