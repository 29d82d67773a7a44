/* What stands between a C caller and the proved calls: it tests what their contracts ask of a caller, allocates the word of a handle,
 * and counts lines. */
#include "proved_calls.h"

#include <stdlib.h>
#include <string.h>

struct zax_session {
    struct handle handle;
};

struct zax_config {
    struct handle handle;
};

struct zax_exchange {
    struct handle handle;
};

enum { MESSAGE_CAP = 4096 }; /* of the messages of the library the longest quotes a line */

static _Alignas(16) uint8_t nothing[16]; /* what an empty slice points to */

static int is_full(const struct handle *handle)
{
    return handle->ptr != NULL;
}

/* Whether it may be a slice: no object has more bytes than half of what can be addressed. */
static int is_slice(const void *at, size_t count, size_t size)
{
    return (at || count == 0) && count <= PTRDIFF_MAX / size;
}

/* Copies a message; cut, it ends with a whole letter. */
static void copy_message(zax_error *error, const uint8_t *message, size_t length)
{
    size_t fits = sizeof error->message - 1;
    if (length <= fits)
        fits = length;
    else
        while (fits > 0 && (message[fits] & 0xC0) == 0x80)
            fits--;
    memcpy(error->message, message, fits);
    error->message[fits] = 0;
}

static zax_status told(zax_error *error, uint32_t status, const char *message)
{
    if (error) {
        error->status = status;
        error->line = 0;
        error->offset = 0;
        copy_message(error, (const uint8_t *)message, strlen(message));
    }
    return (zax_status)status;
}

/* Tells of a refused text: by the message of the library, where there was memory and room for one. */
static zax_status refused(zax_error *error, uint32_t status, const uint8_t *message, size_t length)
{
    told(error, status, status == ZAX_E_MEMORY ? "out of memory" : "the text describes no session");
    if (error && length > 0 && length <= MESSAGE_CAP)
        copy_message(error, message, length);
    return (zax_status)status;
}

static uint32_t line_at(const char *text, size_t offset)
{
    uint32_t line = 1;
    for (size_t i = 0; i < offset; i++)
        line += text[i] == '\n';
    return line;
}

const char *zax_version(void)
{
    return ZAX_VERSION;
}

uint32_t zax_abi(void)
{
    return ZAX_ABI;
}

static const uint8_t *bytes(const char *text, size_t length)
{
    return length ? (const uint8_t *)text : nothing;
}

/* An empty handle of a kind; NULL where there is no memory. (glibc's calloc takes longer than its malloc.) */
#define EMPTY_HANDLE(kind)                       \
    static zax_##kind *empty_##kind(void)        \
    {                                            \
        zax_##kind *made = malloc(sizeof *made); \
        if (made)                                \
            made->handle.ptr = NULL;             \
        return made;                             \
    }

EMPTY_HANDLE(session)
EMPTY_HANDLE(config)
EMPTY_HANDLE(exchange)

zax_status zax_read(const char *text, size_t length, zax_session **session, zax_error *error)
{
    uint8_t message[MESSAGE_CAP];
    size_t unread = 0, message_length = 0;
    if (!session)
        return told(error, ZAX_E_ARGUMENT, "no place for the session");
    *session = NULL;
    if (!is_slice(text, length, 1))
        return told(error, ZAX_E_ARGUMENT, "no text");
    zax_session *made = empty_session();
    if (!made)
        return told(error, ZAX_E_MEMORY, "out of memory");
    uint32_t status =
        zaxp_session_read(bytes(text, length), length, &made->handle, &unread, message, sizeof message, &message_length);
    if (status != ZAX_OK) {
        free(made);
        return refused(error, status, message, message_length);
    }
    told(error, ZAX_OK, "");
    if (error && unread > 0) {
        error->offset = length - unread;
        error->line = line_at(text, error->offset);
    }
    *session = made;
    return ZAX_OK;
}

void zax_session_free(zax_session *session)
{
    if (!session)
        return;
    if (is_full(&session->handle))
        zaxp_session_free(&session->handle);
    free(session);
}

/* What each call with a room begins with: the handle owns something, and the room may be one. */
#define BEGIN(owner, room, cap, needed)                                                                                  \
    size_t unasked;                                                                                                      \
    if (!needed)                                                                                                         \
        needed = &unasked;                                                                                               \
    *needed = 0;                                                                                                         \
    if (!owner || !is_full(&owner->handle) || !is_slice(room, cap, sizeof *room))                                        \
    return ZAX_E_ARGUMENT

#define ROOM(type, room, cap) (cap ? (type *)room : (type *)nothing)

zax_status zax_print(zax_session *session, char *room, size_t cap, size_t *needed)
{
    BEGIN(session, room, cap, needed);
    return (zax_status)zaxp_session_print(&session->handle, ROOM(uint8_t, room, cap), cap, needed);
}

size_t zax_sections(zax_session *session)
{
    return session && is_full(&session->handle) ? zaxp_session_sections(&session->handle) : 0;
}

zax_status zax_section_info(zax_session *session, size_t section, zax_section *info)
{
    if (!session || !is_full(&session->handle) || !info)
        return ZAX_E_ARGUMENT;
    return (zax_status)zaxp_session_section(&session->handle, section, info);
}

zax_status zax_section_mid(zax_session *session, size_t section, char *room, size_t cap, size_t *needed)
{
    BEGIN(session, room, cap, needed);
    return (zax_status)zaxp_session_mid(&session->handle, section, ROOM(uint8_t, room, cap), cap, needed);
}

static zax_status section_text(zax_session *session, size_t section, enum section_text what, size_t index, char *room, size_t cap,
                               size_t *needed)
{
    BEGIN(session, room, cap, needed);
    return (zax_status)zaxp_session_text(&session->handle, section, what, index, ROOM(uint8_t, room, cap), cap, needed);
}

zax_status zax_section_msid(zax_session *session, size_t section, char *room, size_t cap, size_t *needed)
{
    return section_text(session, section, SECTION_MSID, 0, room, cap, needed);
}

zax_status zax_rows(zax_session *session, size_t section, zax_row *room, size_t cap, size_t *needed)
{
    BEGIN(session, room, cap, needed);
    return (zax_status)zaxp_session_rows(&session->handle, section, ROOM(zax_row, room, cap), cap, needed);
}

zax_status zax_row_codec(zax_session *session, size_t section, size_t row, char *room, size_t cap, size_t *needed)
{
    return section_text(session, section, ROW_CODEC, row, room, cap, needed);
}

zax_status zax_row_fmtp(zax_session *session, size_t section, size_t row, char *room, size_t cap, size_t *needed)
{
    return section_text(session, section, ROW_FORMAT, row, room, cap, needed);
}

zax_status zax_section_extensions(zax_session *session, size_t section, zax_extension *room, size_t cap, size_t *needed)
{
    BEGIN(session, room, cap, needed);
    return (zax_status)zaxp_session_extensions(&session->handle, section, ROOM(zax_extension, room, cap), cap, needed);
}

zax_status zax_extension_uri(zax_session *session, size_t section, size_t extension, char *room, size_t cap, size_t *needed)
{
    return section_text(session, section, EXTENSION_URI, extension, room, cap, needed);
}

zax_status zax_section_rids(zax_session *session, size_t section, zax_rid *room, size_t cap, size_t *needed)
{
    BEGIN(session, room, cap, needed);
    return (zax_status)zaxp_session_rids(&session->handle, section, ROOM(zax_rid, room, cap), cap, needed);
}

zax_status zax_rid_name(zax_session *session, size_t section, size_t rid, char *room, size_t cap, size_t *needed)
{
    return section_text(session, section, RID_NAME, rid, room, cap, needed);
}

zax_status zax_rid_restrictions(zax_session *session, size_t section, size_t rid, char *room, size_t cap, size_t *needed)
{
    return section_text(session, section, RID_RESTRICTIONS, rid, room, cap, needed);
}

zax_status zax_section_layers(zax_session *session, size_t section, zax_layer *room, size_t cap, size_t *needed)
{
    BEGIN(session, room, cap, needed);
    return (zax_status)zaxp_session_layers(&session->handle, section, ROOM(zax_layer, room, cap), cap, needed);
}

zax_status zax_layer_name(zax_session *session, size_t section, size_t layer, char *room, size_t cap, size_t *needed)
{
    return section_text(session, section, LAYER_NAME, layer, room, cap, needed);
}

zax_status zax_section_sources(zax_session *session, size_t section, zax_source *room, size_t cap, size_t *needed)
{
    BEGIN(session, room, cap, needed);
    return (zax_status)zaxp_session_sources(&session->handle, section, ROOM(zax_source, room, cap), cap, needed);
}

zax_status zax_source_cname(zax_session *session, size_t section, size_t source, char *room, size_t cap, size_t *needed)
{
    return section_text(session, section, SOURCE_CNAME, source, room, cap, needed);
}

zax_status zax_source_stream(zax_session *session, size_t section, size_t source, char *room, size_t cap, size_t *needed)
{
    return section_text(session, section, SOURCE_STREAM, source, room, cap, needed);
}

zax_status zax_source_track(zax_session *session, size_t section, size_t source, char *room, size_t cap, size_t *needed)
{
    return section_text(session, section, SOURCE_TRACK, source, room, cap, needed);
}

zax_status zax_section_source_groups(zax_session *session, size_t section, zax_group_source *room, size_t cap, size_t *needed)
{
    BEGIN(session, room, cap, needed);
    return (zax_status)zaxp_session_source_groups(&session->handle, section, ROOM(zax_group_source, room, cap), cap, needed);
}

zax_status zax_group_semantics(zax_session *session, size_t section, size_t group, char *room, size_t cap, size_t *needed)
{
    return section_text(session, section, GROUP_SEMANTICS, group, room, cap, needed);
}

zax_status zax_is_writable(zax_session *session, size_t section, int *writable)
{
    bool answer = false;
    if (!session || !is_full(&session->handle) || !writable)
        return ZAX_E_ARGUMENT;
    uint32_t status = zaxp_session_is_writable(&session->handle, section, &answer);
    if (status == ZAX_OK)
        *writable = answer;
    return (zax_status)status;
}

zax_status zax_ice_ufrag(zax_session *session, char *room, size_t cap, size_t *needed)
{
    BEGIN(session, room, cap, needed);
    return (zax_status)zaxp_session_ice_ufrag(&session->handle, ROOM(uint8_t, room, cap), cap, needed);
}

zax_status zax_ice_pwd(zax_session *session, char *room, size_t cap, size_t *needed)
{
    BEGIN(session, room, cap, needed);
    return (zax_status)zaxp_session_ice_pwd(&session->handle, ROOM(uint8_t, room, cap), cap, needed);
}

zax_status zax_fingerprint(zax_session *session, char *room, size_t cap, size_t *needed)
{
    BEGIN(session, room, cap, needed);
    return (zax_status)zaxp_session_fingerprint(&session->handle, ROOM(uint8_t, room, cap), cap, needed);
}

zax_status zax_session_setup(zax_session *session, uint32_t *setup)
{
    if (!session || !is_full(&session->handle) || !setup)
        return ZAX_E_ARGUMENT;
    *setup = zaxp_session_setup(&session->handle);
    return ZAX_OK;
}

zax_status zax_candidates(zax_session *session, size_t *count)
{
    if (!session || !is_full(&session->handle) || !count)
        return ZAX_E_ARGUMENT;
    return (zax_status)zaxp_session_candidates(&session->handle, count);
}

zax_status zax_candidate(zax_session *session, size_t index, char *room, size_t cap, size_t *needed)
{
    BEGIN(session, room, cap, needed);
    return (zax_status)zaxp_session_candidate(&session->handle, index, ROOM(uint8_t, room, cap), cap, needed);
}

zax_status zax_json(zax_session *session, char *room, size_t cap, size_t *needed)
{
    BEGIN(session, room, cap, needed);
    return (zax_status)zaxp_session_json(&session->handle, ROOM(uint8_t, room, cap), cap, needed);
}

zax_status zax_findings(const char *text, size_t length, char *room, size_t cap, size_t *needed)
{
    size_t unasked;
    if (!needed)
        needed = &unasked;
    *needed = 0;
    if (!is_slice(text, length, 1) || !is_slice(room, cap, 1))
        return ZAX_E_ARGUMENT;
    return (zax_status)zaxp_findings(bytes(text, length), length, ROOM(uint8_t, room, cap), cap, needed);
}

static zax_status make_config(uint32_t (*fill)(struct handle *), zax_config **config)
{
    if (!config)
        return ZAX_E_ARGUMENT;
    *config = NULL;
    zax_config *made = empty_config();
    if (!made)
        return ZAX_E_MEMORY;
    uint32_t status = fill(&made->handle);
    if (status != ZAX_OK) {
        free(made);
        return (zax_status)status;
    }
    *config = made;
    return ZAX_OK;
}

zax_status zax_config_defaults(zax_config **config)
{
    return make_config(zaxp_config_defaults, config);
}

zax_status zax_config_empty(zax_config **config)
{
    return make_config(zaxp_config_empty, config);
}

zax_status zax_config_enable(zax_config *config, zax_codec codec, int enabled, int use_red)
{
    if (!config || !is_full(&config->handle) || (unsigned)codec > UINT8_MAX)
        return ZAX_E_ARGUMENT;
    return (zax_status)zaxp_config_enable(&config->handle, (uint8_t)codec, enabled != 0, use_red != 0);
}

zax_status zax_config_add(zax_config *config, uint8_t pt, uint8_t rtx, zax_codec codec, uint32_t clock_rate, uint8_t channels,
                          const char *fmtp, size_t length)
{
    if (!config || !is_full(&config->handle) || (unsigned)codec > UINT8_MAX || !is_slice(fmtp, length, 1))
        return ZAX_E_ARGUMENT;
    return (zax_status)zaxp_config_add(&config->handle, pt, rtx, (uint8_t)codec, clock_rate, channels, bytes(fmtp, length), length);
}

void zax_config_free(zax_config *config)
{
    if (!config)
        return;
    if (is_full(&config->handle))
        zaxp_config_free(&config->handle);
    free(config);
}

zax_status zax_negotiate(zax_config *config, const char *text, size_t length, zax_outcome *room, size_t cap, size_t *needed,
                         zax_error *error)
{
    uint8_t message[MESSAGE_CAP];
    size_t message_length = 0, unasked;
    if (!needed)
        needed = &unasked;
    *needed = 0;
    if (!config || !is_full(&config->handle) || !is_slice(text, length, 1) || !is_slice(room, cap, sizeof *room))
        return told(error, ZAX_E_ARGUMENT, "no configuration, no text or no room");
    uint32_t status = zaxp_config_negotiate(&config->handle, bytes(text, length), length, ROOM(zax_outcome, room, cap), cap, needed,
                                            message, sizeof message, &message_length);
    return status == ZAX_OK ? told(error, ZAX_OK, "") : refused(error, status, message, message_length);
}

zax_status zax_config_rows(zax_config *config, zax_row *room, size_t cap, size_t *needed)
{
    BEGIN(config, room, cap, needed);
    return (zax_status)zaxp_config_rows(&config->handle, ROOM(zax_row, room, cap), cap, needed);
}

zax_status zax_config_row_codec(zax_config *config, size_t row, char *room, size_t cap, size_t *needed)
{
    BEGIN(config, room, cap, needed);
    return (zax_status)zaxp_config_text(&config->handle, ROW_CODEC, row, ROOM(uint8_t, room, cap), cap, needed);
}

zax_status zax_config_row_fmtp(zax_config *config, size_t row, char *room, size_t cap, size_t *needed)
{
    BEGIN(config, room, cap, needed);
    return (zax_status)zaxp_config_text(&config->handle, ROW_FORMAT, row, ROOM(uint8_t, room, cap), cap, needed);
}

zax_status zax_answer(zax_config *config, zax_session *own, size_t section)
{
    if (!config || !is_full(&config->handle) || !own || !is_full(&own->handle))
        return ZAX_E_ARGUMENT;
    return (zax_status)zaxp_config_answer(&config->handle, &own->handle, section);
}

/* ---- Exchanges of offers and answers */

static int is_text(zax_slice text)
{
    return is_slice(text.at, text.length, 1);
}

/* Whether each text of a list has a place of its own. */
static int are_texts(const zax_slice *texts, size_t count)
{
    if (!is_slice(texts, count, sizeof *texts))
        return 0;
    for (size_t i = 0; i < count; i++)
        if (!texts[i].at || !is_text(texts[i]))
            return 0;
    return 1;
}

static int is_own(const zax_own *own)
{
    return own && is_text(own->ice_ufrag) && is_text(own->ice_pwd) && is_text(own->fingerprint) && is_text(own->stream_id) &&
           are_texts(own->extensions, own->extension_count) && are_texts(own->candidates, own->candidate_count) &&
           own->audio <= ZAX_INACTIVE && own->video <= ZAX_INACTIVE && !own->reserved[0] && !own->reserved[1];
}

/* What a status says where there was no memory, or no room, for a message. */
static const char *usual_message(uint32_t status)
{
    switch (status) {
    case ZAX_E_PARSE: return "the text describes no session";
    case ZAX_E_MEMORY: return "out of memory";
    case ZAX_E_UNREAD: return "a line of the text fits nowhere";
    default: return "the call is refused";
    }
}

/* What is written where a call of an exchange is refused. */
struct fault {
    size_t line, length;
    uint8_t message[MESSAGE_CAP];
};

static zax_status exchanged(zax_error *error, uint32_t status, const struct fault *fault)
{
    if (status == ZAX_OK)
        return told(error, ZAX_OK, "");
    told(error, status, usual_message(status));
    if (error && fault->length > 0 && fault->length <= MESSAGE_CAP)
        copy_message(error, fault->message, fault->length);
    if (error)
        error->line = fault->line < UINT32_MAX ? (uint32_t)fault->line : UINT32_MAX;
    return (zax_status)status;
}

#define TEXT(text) bytes(text.at, text.length), text.length
#define TEXTS(texts, count) (count ? texts : (const zax_slice *)nothing), count
#define MESSAGE(fault) fault.message, sizeof fault.message, &fault.length

static uint32_t exchange_of(struct handle *made, struct handle *config, const zax_own *own, struct fault *fault)
{
    struct own_numbers numbers = {own->session_id, own->max_message_size, own->sctp_port,         own->has_channels,
                                  own->audio,      own->video,            own->receives_simulcast};
    return zaxp_exchange_new(made, config, &numbers, TEXT(own->ice_ufrag), TEXT(own->ice_pwd), TEXT(own->fingerprint),
                             TEXT(own->stream_id), TEXTS(own->extensions, own->extension_count),
                             TEXTS(own->candidates, own->candidate_count), MESSAGE((*fault)));
}

zax_status zax_exchange_new(const zax_own *own, zax_config *config, zax_exchange **exchange, zax_error *error)
{
    struct fault fault;
    fault.line = fault.length = 0;
    if (!exchange)
        return told(error, ZAX_E_ARGUMENT, "no place for the exchange");
    *exchange = NULL;
    if (!is_own(own) || !config || !is_full(&config->handle))
        return told(error, ZAX_E_ARGUMENT, "no configuration, no text, no direction, or reserved bytes that aren't 0");
    zax_exchange *made = empty_exchange();
    if (!made)
        return told(error, ZAX_E_MEMORY, "out of memory");
    uint32_t status = exchange_of(&made->handle, &config->handle, own, &fault);
    if (status == ZAX_OK) {
        free(config);
        *exchange = made;
    } else {
        free(made);
    }
    return exchanged(error, status, &fault);
}

void zax_exchange_free(zax_exchange *exchange)
{
    if (!exchange)
        return;
    if (is_full(&exchange->handle))
        zaxp_exchange_free(&exchange->handle);
    free(exchange);
}

static int is_exchange(const zax_exchange *exchange)
{
    return exchange && is_full(&exchange->handle);
}

/* Gives the handle of a description to the caller, or frees it where nothing was made. */
static zax_status handed(zax_session *made, uint32_t status, const struct fault *fault, zax_session **session, zax_error *error)
{
    if (status == ZAX_OK)
        *session = made;
    else
        free(made);
    return exchanged(error, status, fault);
}

zax_status zax_accept_offer(zax_exchange *exchange, const char *offer, size_t length, zax_session **answer, uint64_t *version,
                            zax_error *error)
{
    struct fault fault;
    fault.line = fault.length = 0;
    if (!answer || !version)
        return told(error, ZAX_E_ARGUMENT, "no place for the answer");
    *answer = NULL;
    if (!is_exchange(exchange) || !is_slice(offer, length, 1))
        return told(error, ZAX_E_ARGUMENT, "no exchange or no text");
    zax_session *made = empty_session();
    if (!made)
        return told(error, ZAX_E_MEMORY, "out of memory");
    uint32_t status = zaxp_exchange_accept_offer(&exchange->handle, bytes(offer, length), length, &made->handle, version,
                                                 &fault.line, MESSAGE(fault));
    return handed(made, status, &fault, answer, error);
}

zax_status zax_create_offer(zax_exchange *exchange, zax_session **offer, uint64_t *version, zax_error *error)
{
    struct fault fault;
    fault.line = fault.length = 0;
    if (!offer || !version)
        return told(error, ZAX_E_ARGUMENT, "no place for the offer");
    *offer = NULL;
    if (!is_exchange(exchange))
        return told(error, ZAX_E_ARGUMENT, "no exchange");
    zax_session *made = empty_session();
    if (!made)
        return told(error, ZAX_E_MEMORY, "out of memory");
    uint32_t status = zaxp_exchange_create_offer(&exchange->handle, &made->handle, version, MESSAGE(fault));
    return handed(made, status, &fault, offer, error);
}

zax_status zax_accept_answer(zax_exchange *exchange, const char *answer, size_t length, zax_error *error)
{
    struct fault fault;
    fault.line = fault.length = 0;
    if (!is_exchange(exchange) || !is_slice(answer, length, 1))
        return told(error, ZAX_E_ARGUMENT, "no exchange or no text");
    uint32_t status =
        zaxp_exchange_accept_answer(&exchange->handle, bytes(answer, length), length, &fault.line, MESSAGE(fault));
    return exchanged(error, status, &fault);
}

zax_status zax_rollback(zax_exchange *exchange)
{
    if (!is_exchange(exchange))
        return ZAX_E_ARGUMENT;
    zaxp_exchange_rollback(&exchange->handle);
    return ZAX_OK;
}

zax_status zax_add_media(zax_exchange *exchange, zax_kind kind, zax_direction direction, zax_error *error)
{
    struct fault fault;
    fault.line = fault.length = 0;
    if (!is_exchange(exchange) || (unsigned)kind > ZAX_VIDEO || (unsigned)direction > ZAX_INACTIVE)
        return told(error, ZAX_E_ARGUMENT, "no exchange, no kind or no direction");
    uint32_t status = zaxp_exchange_add_media(&exchange->handle, (uint8_t)kind, (uint8_t)direction, MESSAGE(fault));
    return exchanged(error, status, &fault);
}

zax_status zax_add_channels(zax_exchange *exchange, zax_error *error)
{
    struct fault fault;
    fault.line = fault.length = 0;
    if (!is_exchange(exchange))
        return told(error, ZAX_E_ARGUMENT, "no exchange");
    return exchanged(error, zaxp_exchange_add_channels(&exchange->handle, MESSAGE(fault)), &fault);
}

zax_status zax_restart_ice(zax_exchange *exchange, zax_slice ufrag, zax_slice pwd)
{
    if (!is_exchange(exchange) || !is_text(ufrag) || !is_text(pwd))
        return ZAX_E_ARGUMENT;
    return (zax_status)zaxp_exchange_restart_ice(&exchange->handle, TEXT(ufrag), TEXT(pwd));
}

zax_status zax_set_direction(zax_exchange *exchange, const char *mid, size_t length, zax_direction direction)
{
    if (!is_exchange(exchange) || !is_slice(mid, length, 1) || (unsigned)direction > ZAX_INACTIVE)
        return ZAX_E_ARGUMENT;
    return (zax_status)zaxp_exchange_set_direction(&exchange->handle, bytes(mid, length), length, (uint8_t)direction);
}

zax_status zax_print_version(zax_session *session, uint64_t version, char *room, size_t cap, size_t *needed)
{
    BEGIN(session, room, cap, needed);
    return (zax_status)zaxp_session_print_version(&session->handle, version, ROOM(uint8_t, room, cap), cap, needed);
}

zax_status zax_exchange_rows(zax_exchange *exchange, zax_row *room, size_t cap, size_t *needed)
{
    BEGIN(exchange, room, cap, needed);
    return (zax_status)zaxp_exchange_rows(&exchange->handle, ROOM(zax_row, room, cap), cap, needed);
}

zax_status zax_exchange_row_codec(zax_exchange *exchange, size_t row, char *room, size_t cap, size_t *needed)
{
    BEGIN(exchange, room, cap, needed);
    return (zax_status)zaxp_exchange_text(&exchange->handle, ROW_CODEC, row, ROOM(uint8_t, room, cap), cap, needed);
}

zax_status zax_exchange_row_fmtp(zax_exchange *exchange, size_t row, char *room, size_t cap, size_t *needed)
{
    BEGIN(exchange, room, cap, needed);
    return (zax_status)zaxp_exchange_text(&exchange->handle, ROW_FORMAT, row, ROOM(uint8_t, room, cap), cap, needed);
}

zax_status zax_exchange_state(zax_exchange *exchange, uint32_t *state)
{
    if (!is_exchange(exchange) || !state)
        return ZAX_E_ARGUMENT;
    *state = zaxp_exchange_state(&exchange->handle);
    return ZAX_OK;
}
