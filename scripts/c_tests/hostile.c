/* Hostile arguments: each call answers a status, writes nothing beyond its room and reads nothing beyond its text.
 *     hostile FILE STREAMS        (streams.sdp) */
#include <zaxmonth.h>

#include <stdio.h>
#include <stdlib.h>
#include <string.h>
#include <sys/mman.h>

static long passed, failed;

#define IS(found, wanted)                                                                                                \
    do {                                                                                                                 \
        long is_ = (long)(found), be_ = (long)(wanted);                                                                  \
        passed += is_ == be_;                                                                                            \
        if (is_ != be_)                                                                                                  \
            failed++, printf("hostile.c:%d: %s is %ld, not %ld\n", __LINE__, #found, is_, be_);                          \
    } while (0)

enum { PAGE = 4096, CANARY = 0xA5, GUARD = 64 };

static char *text;
static size_t length;

/* A copy of the bytes that ends where a page begins that can't be read. */
static char *at_the_end_of_memory(const char *from, size_t size)
{
    size_t pages = size / PAGE + 1;
    char *mapped = mmap(NULL, (pages + 1) * PAGE, PROT_READ | PROT_WRITE, MAP_PRIVATE | MAP_ANONYMOUS, -1, 0);
    if (mapped == MAP_FAILED || mprotect(mapped + pages * PAGE, PAGE, PROT_NONE))
        exit(3);
    char *at = mapped + pages * PAGE - size;
    memcpy(at, from, size);
    return at;
}

static void let_go(char *at, size_t size)
{
    size_t pages = size / PAGE + 1;
    munmap(at + size - pages * PAGE, (pages + 1) * PAGE);
}

typedef zax_status call_t(void *owner, void *room, size_t cap, size_t *needed);

static zax_status print(void *s, void *room, size_t cap, size_t *needed) { return zax_print(s, room, cap, needed); }
static zax_status mid(void *s, void *room, size_t cap, size_t *needed) { return zax_section_mid(s, 0, room, cap, needed); }
static zax_status msid(void *s, void *room, size_t cap, size_t *needed) { return zax_section_msid(s, 0, room, cap, needed); }
static zax_status extensions(void *s, void *room, size_t cap, size_t *needed) { return zax_section_extensions(s, 0, room, cap, needed); }
static zax_status uri(void *s, void *room, size_t cap, size_t *needed) { return zax_extension_uri(s, 0, 1, room, cap, needed); }
static zax_status rids(void *s, void *room, size_t cap, size_t *needed) { return zax_section_rids(s, 0, room, cap, needed); }
static zax_status rid(void *s, void *room, size_t cap, size_t *needed) { return zax_rid_name(s, 0, 1, room, cap, needed); }
static zax_status unrestricted(void *s, void *room, size_t cap, size_t *needed) { return zax_rid_restrictions(s, 0, 0, room, cap, needed); }
static zax_status restricted(void *s, void *room, size_t cap, size_t *needed) { return zax_rid_restrictions(s, 0, 1, room, cap, needed); }
static zax_status without_types(void *s, void *room, size_t cap, size_t *needed) { return zax_rid_restrictions(s, 0, 2, room, cap, needed); }
static zax_status layers(void *s, void *room, size_t cap, size_t *needed) { return zax_section_layers(s, 0, room, cap, needed); }
static zax_status layer(void *s, void *room, size_t cap, size_t *needed) { return zax_layer_name(s, 0, 1, room, cap, needed); }
static zax_status last_layer(void *s, void *room, size_t cap, size_t *needed) { return zax_layer_name(s, 0, 2, room, cap, needed); }
static zax_status sources(void *s, void *room, size_t cap, size_t *needed) { return zax_section_sources(s, 0, room, cap, needed); }
static zax_status cname(void *s, void *room, size_t cap, size_t *needed) { return zax_source_cname(s, 0, 0, room, cap, needed); }
static zax_status stream(void *s, void *room, size_t cap, size_t *needed) { return zax_source_stream(s, 0, 0, room, cap, needed); }
static zax_status track(void *s, void *room, size_t cap, size_t *needed) { return zax_source_track(s, 0, 0, room, cap, needed); }
static zax_status second_cname(void *s, void *room, size_t cap, size_t *needed) { return zax_source_cname(s, 0, 1, room, cap, needed); }
static zax_status no_stream(void *s, void *room, size_t cap, size_t *needed) { return zax_source_stream(s, 0, 1, room, cap, needed); }
static zax_status groups(void *s, void *room, size_t cap, size_t *needed) { return zax_section_source_groups(s, 0, room, cap, needed); }
static zax_status semantics(void *s, void *room, size_t cap, size_t *needed) { return zax_group_semantics(s, 0, 1, room, cap, needed); }
static zax_status rows(void *s, void *room, size_t cap, size_t *needed) { return zax_rows(s, 0, room, cap, needed); }
static zax_status fmtp(void *s, void *room, size_t cap, size_t *needed) { return zax_row_fmtp(s, 0, 0, room, cap, needed); }
static zax_status codec(void *s, void *room, size_t cap, size_t *needed) { return zax_row_codec(s, 0, 0, room, cap, needed); }
static zax_status json(void *s, void *room, size_t cap, size_t *needed) { return zax_json(s, room, cap, needed); }
static zax_status ufrag(void *s, void *room, size_t cap, size_t *needed) { return zax_ice_ufrag(s, room, cap, needed); }
static zax_status pwd(void *s, void *room, size_t cap, size_t *needed) { return zax_ice_pwd(s, room, cap, needed); }
static zax_status hash(void *s, void *room, size_t cap, size_t *needed) { return zax_fingerprint(s, room, cap, needed); }
static zax_status second(void *s, void *room, size_t cap, size_t *needed) { return zax_candidate(s, 1, room, cap, needed); }
static zax_status findings(void *s, void *room, size_t cap, size_t *needed) { return zax_findings(s, s ? length : 1, room, cap, needed); }
static zax_status held(void *c, void *room, size_t cap, size_t *needed) { return zax_config_rows(c, room, cap, needed); }
static zax_status held_fmtp(void *c, void *room, size_t cap, size_t *needed) { return zax_config_row_fmtp(c, 0, room, cap, needed); }
static zax_status held_codec(void *c, void *room, size_t cap, size_t *needed) { return zax_config_row_codec(c, 0, room, cap, needed); }

/* How many of the bytes aren't the canary any more. */
static size_t changed(const uint8_t *from, size_t count)
{
    size_t found = 0;
    for (size_t i = 0; i < count; i++)
        found += from[i] != CANARY;
    return found;
}

/* Each room from none to one more than is needed: what fits is written, and no byte before the room or behind it. */
static void rooms(call_t *call, void *owner, size_t size)
{
    size_t needed = 99, got, step;
    zax_status asked = call(owner, NULL, 0, &needed);
    IS(asked, needed ? ZAX_E_ROOM : ZAX_OK);
    uint8_t *all = malloc((needed + 1) * size + 2 * GUARD), *whole = malloc(needed * size + 1);
    IS(call(owner, whole, needed, &got), ZAX_OK);
    IS(got, needed);
    for (size_t cap = 0; cap <= needed + 1; cap += step) {
        step = needed > 600 && cap > 40 && cap + 40 < needed ? 37 : 1;
        memset(all, CANARY, (needed + 1) * size + 2 * GUARD);
        zax_status status = call(owner, all + GUARD, cap, &got);
        int fits = cap >= needed;
        IS(status, fits ? ZAX_OK : ZAX_E_ROOM);
        IS(got, needed);
        size_t wrote = fits ? needed * size : 0;
        IS(memcmp(all + GUARD, whole, wrote), 0);
        IS(changed(all, GUARD), 0);
        IS(changed(all + GUARD + wrote, (needed + 1) * size + GUARD - wrote), 0);
    }
    IS(call(owner, all + GUARD, needed, NULL), ZAX_OK);
    IS(call(owner, NULL, 5, &got), ZAX_E_ARGUMENT);
    IS(call(owner, all, (size_t)-1, &got), ZAX_E_ARGUMENT);
    IS(call(NULL, all, needed, &got), ZAX_E_ARGUMENT);
    IS(got, 0);
    free(all);
    free(whole);
}

/* Each beginning of the text, and the text with each byte wrong, up against memory that can't be read. */
static void wrong_texts(void)
{
    zax_session *session;
    zax_error error;
    for (size_t cut = 0; cut <= length; cut++) {
        char *part = at_the_end_of_memory(text, cut);
        if (zax_read(part, cut, &session, &error) == ZAX_OK)
            zax_session_free(session);
        else
            IS(session == NULL && error.message[0], 1);
        let_go(part, cut);
    }
    char *whole = at_the_end_of_memory(text, length);
    for (size_t at = 0; at < length; at++) {
        char was = whole[at];
        whole[at] = (char)(at * 37 + 128);
        zax_status status = zax_read(whole, length, &session, &error);
        if (status == ZAX_OK)
            zax_session_free(session);
        IS(status == ZAX_OK || status == ZAX_E_PARSE || status == ZAX_E_UTF8, 1);
        whole[at] = was;
    }
    let_go(whole, length);
}

static void reading(void)
{
    zax_session *session = (void *)1;
    zax_error error;
    IS(zax_read(NULL, 0, &session, &error), ZAX_E_PARSE);
    IS(session, 0);
    IS(error.status, ZAX_E_PARSE);
    IS(zax_read("", 0, &session, NULL), ZAX_E_PARSE);
    session = (void *)1;
    IS(zax_read(NULL, 3, &session, &error), ZAX_E_ARGUMENT);
    IS(session, 0);
    IS(zax_read("v=0", 3, NULL, &error), ZAX_E_ARGUMENT);
    IS(zax_read(text, (size_t)-1, &session, &error), ZAX_E_ARGUMENT);
    IS(zax_read("v=0\xff\xfe", 5, &session, &error), ZAX_E_UTF8);
    IS(strcmp(error.message, "text is not UTF-8"), 0);
    IS(zax_read("v=0\r\n\0x", 7, &session, &error), ZAX_E_PARSE);
    static char more[1 << 16];
    memcpy(more, text, length);
    memcpy(more + length, "what isn't read\r\n", 17);
    IS(zax_read(more, length + 17, &session, &error), ZAX_OK);
    IS(error.offset, length);
    IS(error.line > 1, 1);
    zax_session_free(session);
    zax_session_free(NULL);
    zax_config_free(NULL);
    /* a message that is longer than its room is cut before a letter, and ends with a zero */
    char *line = more;
    line += sprintf(line, "v=0\r\no=- 1 1 IN IP4 0.0.0.0\r\ns=-\r\nt=0 0\r\nm=audio 9 UDP/TLS/RTP/SAVPF 0\r\nc=IN IP4 0.0.0.0\r\na=mid:");
    for (int i = 0; i < 400; i++)
        line += sprintf(line, "\xc3\xa9");
    line += sprintf(line, "\r\n");
    zax_status status = zax_read(more, (size_t)(line - more), &session, &error);
    IS(status != ZAX_E_UTF8, 1);
    IS(memchr(error.message, 0, sizeof error.message) != NULL, 1);
    if (status == ZAX_OK)
        zax_session_free(session);
}

static void rounds(zax_session *own)
{
    zax_config *config;
    zax_error error;
    size_t got;
    IS(zax_config_defaults(NULL), ZAX_E_ARGUMENT);
    IS(zax_config_defaults(&config), ZAX_OK);
    IS(zax_answer(config, own, 0), ZAX_E_NOTHING);
    uint8_t guarded[8 * sizeof(zax_outcome) + 2 * GUARD];
    zax_outcome *outcomes = (zax_outcome *)(guarded + GUARD);
    IS(zax_negotiate(config, "x", 1, outcomes, 8, &got, &error), ZAX_E_PARSE);
    IS(zax_negotiate(config, "\xff", 1, NULL, 0, NULL, &error), ZAX_E_UTF8);
    IS(zax_negotiate(NULL, text, length, outcomes, 8, &got, &error), ZAX_E_ARGUMENT);
    IS(zax_negotiate(config, text, length, NULL, 8, &got, NULL), ZAX_E_ARGUMENT);
    IS(zax_negotiate(config, NULL, 1, outcomes, 8, &got, NULL), ZAX_E_ARGUMENT);
    for (size_t cap = 0; cap <= 4; cap++) {
        memset(guarded, CANARY, sizeof guarded);
        IS(zax_negotiate(config, text, length, cap ? outcomes : NULL, cap, &got, &error), ZAX_OK);
        IS(got > 0 && got < 4, 1);
        size_t wrote = (cap < got ? cap : got) * sizeof(zax_outcome);
        for (size_t i = 0; i < wrote / sizeof(zax_outcome); i++)
            IS(outcomes[i].cause, ZAX_ACCEPTED);
        IS(changed(guarded, GUARD), 0);
        IS(changed(guarded + GUARD + wrote, sizeof guarded - GUARD - wrote), 0);
    }
    rooms(held, config, sizeof(zax_row));
    rooms(held_fmtp, config, 1);
    rooms(held_codec, config, 1);
    IS(zax_config_row_fmtp(config, (size_t)-1, NULL, 0, &got), ZAX_E_SECTION);
    IS(zax_config_row_codec(config, (size_t)-1, NULL, 0, &got), ZAX_E_SECTION);
    IS(zax_config_row_codec(NULL, 0, NULL, 0, &got), ZAX_E_ARGUMENT);
    IS(zax_answer(config, own, 0), ZAX_OK);
    IS(zax_answer(config, own, 77), ZAX_E_SECTION);
    IS(zax_answer(config, NULL, 0), ZAX_E_ARGUMENT);
    IS(zax_answer(NULL, own, 0), ZAX_E_ARGUMENT);
    rooms(print, own, 1);
    zax_config_free(config);
}

/* Calls that answer what isn't a text or a list. */
static void facts(zax_session *session)
{
    uint8_t guarded[sizeof(zax_section) + 2 * GUARD];
    zax_section *info = (zax_section *)(guarded + GUARD);
    int writable = 7;
    memset(guarded, CANARY, sizeof guarded);
    IS(zax_section_info(session, 99, info), ZAX_E_SECTION);
    IS(zax_section_info(session, (size_t)-1, info), ZAX_E_SECTION);
    IS(zax_section_info(session, 0, NULL), ZAX_E_ARGUMENT);
    IS(zax_section_info(NULL, 0, info), ZAX_E_ARGUMENT);
    IS(changed(guarded, sizeof guarded), 0);
    IS(zax_section_info(session, 0, info), ZAX_OK);
    IS(info->kind, ZAX_AUDIO);
    IS(info->protocol, ZAX_PROTOCOL_RTP);
    IS(info->direction, ZAX_SENDRECV);
    IS(info->setup, ZAX_ACTPASS);
    IS(info->disabled, 0);
    IS(info->reserved[0] | info->reserved[1] | info->reserved[2], 0);
    IS(changed(guarded, GUARD) + changed(guarded + GUARD + sizeof *info, GUARD), 0);
    IS(zax_is_writable(session, 99, &writable), ZAX_E_SECTION);
    IS(zax_is_writable(session, 0, NULL), ZAX_E_ARGUMENT);
    IS(zax_is_writable(NULL, 0, &writable), ZAX_E_ARGUMENT);
    IS(writable, 7);
    IS(zax_is_writable(session, 0, &writable), ZAX_OK);
    IS(writable, 1);
}

/* The role in the handshake is that of the session, else of the first section that says one. */
static void roles(void)
{
    static const char begin[] = "v=0\r\no=- 1 2 IN IP4 0.0.0.0\r\ns=-\r\nt=0 0\r\n", own[] = "a=setup:passive\r\n";
    static const char none[] = "m=audio 9 UDP/TLS/RTP/SAVPF 0\r\nc=IN IP4 0.0.0.0\r\na=mid:0\r\na=sendrecv\r\n";
    static const char active[] = "m=audio 9 UDP/TLS/RTP/SAVPF 0\r\nc=IN IP4 0.0.0.0\r\na=mid:1\r\na=sendrecv\r\na=setup:active\r\n";
    static const struct { const char *own; const char *other; uint32_t setup; } said[] = {
        {"", none, ZAX_NO_SETUP}, {"", active, ZAX_ACTIVE}, {own, active, ZAX_PASSIVE}};
    for (size_t i = 0; i < sizeof said / sizeof *said; i++) {
        char all[512];
        zax_session *session;
        uint32_t setup = 7;
        int size = snprintf(all, sizeof all, "%s%s%s%s", begin, said[i].own, none, said[i].other == none ? "" : said[i].other);
        IS(zax_read(all, (size_t)size, &session, NULL), ZAX_OK);
        IS(zax_session_setup(session, NULL), ZAX_E_ARGUMENT);
        IS(zax_session_setup(NULL, &setup), ZAX_E_ARGUMENT);
        IS(setup, 7);
        IS(zax_session_setup(session, &setup), ZAX_OK);
        IS(setup, said[i].setup);
        zax_session_free(session);
    }
}

/* A candidate that stands twice is one. */
static void candidates(void)
{
    static const char own[] = "v=0\r\no=- 1 2 IN IP4 0.0.0.0\r\ns=-\r\nt=0 0\r\na=candidate:1 1 udp 1 192.0.2.1 9 typ host\r\n"
                              "a=candidate:1 1 udp 1 192.0.2.1 9 typ host\r\na=candidate:2 1 tcp 7 2001:db8::1 9 typ host tcptype active\r\n";
    static const char first[] = "candidate:1 1 udp 1 192.0.2.1 9 typ host";
    char found[64];
    zax_session *session;
    size_t count = 99, got;
    IS(zax_read(own, sizeof own - 1, &session, NULL), ZAX_OK);
    IS(zax_candidates(session, NULL), ZAX_E_ARGUMENT);
    IS(zax_candidates(NULL, &count), ZAX_E_ARGUMENT);
    IS(count, 99);
    IS(zax_candidates(session, &count), ZAX_OK);
    IS(count, 2);
    rooms(second, session, 1);
    IS(zax_candidate(session, 0, found, sizeof found, &got), ZAX_OK);
    IS(got == sizeof first - 1 && !memcmp(found, first, got), 1);
    IS(zax_candidate(session, 2, found, sizeof found, &got), ZAX_E_SECTION);
    IS(zax_candidate(session, (size_t)-1, NULL, 0, &got), ZAX_E_SECTION);
    IS(zax_ice_ufrag(session, found, sizeof found, &got), ZAX_OK);
    IS(got, 0);
    IS(zax_fingerprint(session, found, sizeof found, &got), ZAX_OK);
    IS(got, 0);
    zax_session_free(session);
}

/* What a call writes is this text. */
static void says(call_t *call, zax_session *session, const char *wanted)
{
    char found[256];
    size_t got;
    IS(call(session, found, sizeof found, &got), ZAX_OK);
    IS(got == strlen(wanted) && !memcmp(found, wanted, got), 1);
}

/* The header extensions of a section. */
static void extended(zax_session *session)
{
    zax_extension found[4];
    size_t got;
    rooms(extensions, session, sizeof(zax_extension));
    IS(zax_section_extensions(session, 0, found, 4, &got), ZAX_OK);
    IS(got, 3);
    IS(found[0].id == 3 && found[1].id == 14 && found[2].id == 255, 1);
    IS(found[0].reserved[0] | found[1].reserved[1] | found[2].reserved[2], 0);
    rooms(uri, session, 1);
    says(uri, session, "urn:ietf:params:rtp-hdrext:sdes:rtp-stream-id");
    IS(zax_extension_uri(session, 0, 2, NULL, 0, &got), ZAX_E_ROOM);
    IS(got, 5);
    IS(zax_extension_uri(session, 0, 3, NULL, 0, &got), ZAX_E_SECTION);
    IS(zax_extension_uri(session, 0, (size_t)-1, NULL, 0, &got), ZAX_E_SECTION);
    IS(zax_extension_uri(session, 2, 0, NULL, 0, &got), ZAX_E_SECTION);
    IS(zax_section_extensions(session, 1, NULL, 0, &got), ZAX_OK);
    IS(got, 0);
    IS(zax_section_extensions(session, 2, found, 4, &got), ZAX_E_SECTION);
    IS(zax_section_extensions(session, (size_t)-1, found, 4, &got), ZAX_E_SECTION);
}

/* The streams of a section that may be restricted. */
static void restrictions(zax_session *session)
{
    zax_rid found[4];
    size_t got;
    rooms(rids, session, sizeof(zax_rid));
    IS(zax_section_rids(session, 0, found, 4, &got), ZAX_OK);
    IS(got, 3);
    IS(found[0].direction == ZAX_SENDONLY && found[1].direction == ZAX_SENDONLY && found[2].direction == ZAX_RECVONLY, 1);
    IS(found[0].reserved[0] | found[1].reserved[1] | found[2].reserved[2], 0);
    rooms(rid, session, 1);
    says(rid, session, "lo");
    rooms(unrestricted, session, 1);
    says(unrestricted, session, "");
    rooms(restricted, session, 1);
    says(restricted, session, "pt=96,97;max-width=320;max-fps=15");
    rooms(without_types, session, 1);
    says(without_types, session, "max-height=90");
    IS(zax_rid_name(session, 0, 3, NULL, 0, &got), ZAX_E_SECTION);
    IS(zax_rid_name(session, 0, (size_t)-1, NULL, 0, &got), ZAX_E_SECTION);
    IS(zax_rid_restrictions(session, 0, 3, NULL, 0, &got), ZAX_E_SECTION);
    IS(zax_rid_restrictions(session, 2, 0, NULL, 0, &got), ZAX_E_SECTION);
    IS(zax_section_rids(session, 1, NULL, 0, &got), ZAX_OK);
    IS(got, 0);
    IS(zax_section_rids(session, 2, found, 4, &got), ZAX_E_SECTION);
}

/* The layers of a section: those that it sends are the first, wherever they stand. */
static void layered(zax_session *session)
{
    zax_layer found[4];
    size_t got;
    rooms(layers, session, sizeof(zax_layer));
    IS(zax_section_layers(session, 0, found, 4, &got), ZAX_OK);
    IS(got, 3);
    IS(found[0].direction == ZAX_SENDONLY && found[1].direction == ZAX_SENDONLY && found[2].direction == ZAX_RECVONLY, 1);
    IS(found[0].paused == 0 && found[1].paused == 1 && found[2].paused == 0, 1);
    IS(found[0].reserved[0] | found[1].reserved[1] | found[2].reserved[0], 0);
    rooms(layer, session, 1);
    says(layer, session, "lo");
    says(last_layer, session, "back");
    IS(zax_layer_name(session, 0, 3, NULL, 0, &got), ZAX_E_SECTION);
    IS(zax_layer_name(session, 0, (size_t)-1, NULL, 0, &got), ZAX_E_SECTION);
    IS(zax_layer_name(session, 1, 0, NULL, 0, &got), ZAX_E_SECTION);
    IS(zax_section_layers(session, 1, NULL, 0, &got), ZAX_OK);
    IS(got, 0);
    IS(zax_section_layers(session, 2, found, 4, &got), ZAX_E_SECTION);
}

/* The sources of a section: the last has no line of its own, but repairs the first. */
static void described(zax_session *session)
{
    zax_source found[4];
    size_t got;
    rooms(sources, session, sizeof(zax_source));
    IS(zax_section_sources(session, 0, found, 4, &got), ZAX_OK);
    IS(got, 3);
    IS(found[0].ssrc == 11 && found[1].ssrc == 12 && found[2].ssrc == 4294967295, 1);
    IS(found[0].is_repair == 0 && found[1].is_repair == 0 && found[2].is_repair == 1, 1);
    IS(found[0].repairs == 0 && found[1].repairs == 0 && found[2].repairs == 11, 1);
    IS(found[0].reserved[0] | found[1].reserved[1] | found[2].reserved[2], 0);
    rooms(cname, session, 1);
    says(cname, session, "end point");
    rooms(stream, session, 1);
    says(stream, session, "stream");
    rooms(track, session, 1);
    says(track, session, "track");
    says(second_cname, session, "other");
    rooms(no_stream, session, 1);
    says(no_stream, session, "");
    IS(zax_source_cname(session, 0, 2, NULL, 0, &got), ZAX_OK);
    IS(zax_source_cname(session, 0, 3, NULL, 0, &got), ZAX_E_SECTION);
    IS(zax_source_stream(session, 0, (size_t)-1, NULL, 0, &got), ZAX_E_SECTION);
    IS(zax_source_track(session, 2, 0, NULL, 0, &got), ZAX_E_SECTION);
    IS(zax_section_sources(session, 1, NULL, 0, &got), ZAX_OK);
    IS(got, 0);
    IS(zax_section_sources(session, 2, found, 4, &got), ZAX_E_SECTION);
}

/* The groups of a section's sources. */
static void grouped(zax_session *session)
{
    zax_group_source found[8];
    size_t got;
    rooms(groups, session, sizeof(zax_group_source));
    IS(zax_section_source_groups(session, 0, found, 8, &got), ZAX_OK);
    IS(got, 4);
    IS(found[0].group == 0 && found[1].group == 0 && found[2].group == 1 && found[3].group == 1, 1);
    IS(found[0].ssrc == 11 && found[1].ssrc == 4294967295 && found[2].ssrc == 11 && found[3].ssrc == 12, 1);
    IS(found[0].reserved | found[3].reserved, 0);
    rooms(semantics, session, 1);
    says(semantics, session, "SIM");
    IS(zax_group_semantics(session, 0, 2, NULL, 0, &got), ZAX_E_SECTION);
    IS(zax_group_semantics(session, 0, (size_t)-1, NULL, 0, &got), ZAX_E_SECTION);
    IS(zax_group_semantics(session, 1, 0, NULL, 0, &got), ZAX_E_SECTION);
    IS(zax_section_source_groups(session, 1, NULL, 0, &got), ZAX_OK);
    IS(got, 0);
    IS(zax_section_source_groups(session, 2, found, 8, &got), ZAX_E_SECTION);
}

/* What a section says of streams; the second says nothing of them, and there is no third. */
static void streams(const char *said, size_t size)
{
    zax_session *session;
    size_t got;
    IS(zax_read(said, size, &session, NULL), ZAX_OK);
    IS(zax_sections(session), 2);
    rooms(msid, session, 1);
    says(msid, session, "stream track one");
    IS(zax_section_msid(session, 1, NULL, 0, &got), ZAX_OK);
    IS(got, 0);
    IS(zax_section_msid(session, 2, NULL, 0, &got), ZAX_E_SECTION);
    IS(zax_section_msid(session, (size_t)-1, NULL, 0, &got), ZAX_E_SECTION);
    extended(session);
    restrictions(session);
    layered(session);
    described(session);
    grouped(session);
    zax_session_free(session);
}

/* How many rows a configuration has; the first of them is written. */
static size_t listed(zax_config *config, zax_row *first)
{
    zax_row found[16] = {0};
    size_t got;
    IS(zax_config_rows(config, found, 16, &got), ZAX_OK);
    *first = found[0];
    return got;
}

/* Default rows are taken in and out by the number of their codec. */
static void enabled(zax_config *config)
{
    zax_row row;
    IS(zax_config_enable(config, ZAX_OPUS, 1, 1), ZAX_OK);
    IS(listed(config, &row), 1);
    IS(row.pt == 111 && row.red == 63 && row.rtx == ZAX_NO_TYPE && row.codec == ZAX_OPUS && row.clock_rate == 48000, 1);
    IS(zax_config_enable(config, ZAX_H264, 2, 0), ZAX_OK);
    IS(listed(config, &row), 8);
    IS(zax_config_enable(config, ZAX_OPUS, 1, 0), ZAX_OK);
    IS(listed(config, &row), 8);
    IS(row.codec, ZAX_H264);
    IS(zax_config_enable(config, ZAX_H264, 0, 0), ZAX_OK);
    IS(listed(config, &row), 1);
    IS(row.red, ZAX_NO_TYPE);
    static const int none[] = {ZAX_UNKNOWN, ZAX_TELEPHONE_EVENT, ZAX_RTX, ZAX_RED, ZAX_NULL_CODEC, 17, 255, 256, 256 + ZAX_OPUS, -1};
    for (size_t i = 0; i < sizeof none / sizeof *none; i++)
        IS(zax_config_enable(config, (zax_codec)none[i], 1, 1), ZAX_E_ARGUMENT);
    IS(listed(config, &row), 1);
    IS(zax_config_enable(NULL, ZAX_OPUS, 1, 1), ZAX_E_ARGUMENT);
    IS(zax_config_enable(config, ZAX_OPUS, 0, 1), ZAX_OK);
}

/* A row that is added is as it was asked for. */
static void added(zax_config *config)
{
    static const char said[] = "minptime=10;stereo=1;unknown=2";
    char room[64];
    zax_row row;
    size_t got;
    IS(zax_config_add(config, 100, 101, ZAX_OPUS, 48000, 2, said, sizeof said - 1), ZAX_OK);
    IS(listed(config, &row), 1);
    IS(row.pt == 100 && row.rtx == 101 && row.red == ZAX_NO_TYPE && row.codec == ZAX_OPUS && row.clock_rate == 48000, 1);
    IS(row.channels == 2 && row.feedback == ZAX_TRANSPORT_CC && row.locked == 0, 1);
    IS(zax_config_row_fmtp(config, 0, room, sizeof room, &got), ZAX_OK);
    IS(got == 20 && !memcmp(room, "minptime=10;stereo=1", 20), 1);
    IS(zax_config_add(config, 102, ZAX_NO_TYPE, ZAX_UNKNOWN, 48000, 2, said, 1), ZAX_E_ARGUMENT);
    IS(zax_config_add(config, 102, ZAX_NO_TYPE, (zax_codec)17, 48000, 2, said, 1), ZAX_E_ARGUMENT);
    IS(zax_config_add(config, 102, ZAX_NO_TYPE, (zax_codec)257, 48000, 2, said, 1), ZAX_E_ARGUMENT);
    IS(zax_config_add(config, 102, ZAX_NO_TYPE, ZAX_OPUS, 0, 2, said, 1), ZAX_E_ARGUMENT);
    IS(zax_config_add(config, 102, ZAX_NO_TYPE, ZAX_OPUS, 48000, 2, "\xff", 1), ZAX_E_UTF8);
    IS(zax_config_add(config, 102, ZAX_NO_TYPE, ZAX_OPUS, 48000, 2, NULL, 1), ZAX_E_ARGUMENT);
    IS(zax_config_add(config, 102, ZAX_NO_TYPE, ZAX_OPUS, 48000, 2, said, (size_t)-1), ZAX_E_ARGUMENT);
    IS(zax_config_add(NULL, 102, ZAX_NO_TYPE, ZAX_OPUS, 48000, 2, said, 1), ZAX_E_ARGUMENT);
    IS(listed(config, &row), 1);
    IS(zax_config_add(config, 96, ZAX_NO_TYPE, ZAX_VP8, 90000, 0, NULL, 0), ZAX_OK);
    IS(listed(config, &row), 2);
    IS(row.pt, 100);
}

/* A configuration without rows, and what makes it one's own. */
static void configurations(void)
{
    zax_config *config;
    zax_row row;
    IS(zax_config_empty(NULL), ZAX_E_ARGUMENT);
    IS(zax_config_empty(&config), ZAX_OK);
    IS(listed(config, &row), 0);
    enabled(config);
    IS(listed(config, &row), 0);
    added(config);
    zax_config_free(config);
}

static size_t read_file(const char *name, char *to, size_t cap)
{
    FILE *file = fopen(name, "rb");
    if (!file)
        exit(2);
    size_t size = fread(to, 1, cap, file);
    fclose(file);
    return size;
}

int main(int count, char **words)
{
    static char said[1 << 12];
    if (count != 3)
        return 2;
    text = malloc(1 << 16);
    length = read_file(words[1], text, 1 << 15);
    reading();
    wrong_texts();
    zax_session *session;
    size_t got;
    IS(zax_read(text, length, &session, NULL), ZAX_OK);
    IS(zax_sections(session) > 0, 1);
    IS(zax_sections(NULL), 0);
    rooms(print, session, 1);
    rooms(mid, session, 1);
    rooms(rows, session, sizeof(zax_row));
    rooms(fmtp, session, 1);
    rooms(codec, session, 1);
    rooms(json, session, 1);
    rooms(ufrag, session, 1);
    rooms(pwd, session, 1);
    rooms(hash, session, 1);
    facts(session);
    roles();
    candidates();
    streams(said, read_file(words[2], said, sizeof said));
    rooms(findings, text, 1);
    IS(zax_findings("\xff", 1, NULL, 0, &got), ZAX_E_UTF8);
    IS(zax_findings(text, (size_t)-1, NULL, 0, &got), ZAX_E_ARGUMENT);
    IS(zax_findings(NULL, 0, NULL, 0, &got), ZAX_E_ROOM);
    IS(got > 0, 1);
    zax_row one;
    IS(zax_rows(session, 99, &one, 1, &got), ZAX_E_SECTION);
    IS(zax_rows(session, (size_t)-1, &one, 1, &got), ZAX_E_SECTION);
    IS(zax_row_fmtp(session, 0, 1000, NULL, 0, &got), ZAX_E_SECTION);
    IS(zax_row_fmtp(session, 99, 0, NULL, 0, &got), ZAX_E_SECTION);
    IS(zax_row_codec(session, 0, 1000, NULL, 0, &got), ZAX_E_SECTION);
    IS(zax_row_codec(session, 99, 0, NULL, 0, &got), ZAX_E_SECTION);
    IS(zax_row_codec(NULL, 0, 0, NULL, 0, &got), ZAX_E_ARGUMENT);
    IS(zax_section_mid(session, 99, NULL, 0, &got), ZAX_E_SECTION);
    rounds(session);
    configurations();
    zax_session_free(session);
    free(text);
    IS(strcmp(zax_version(), ZAX_VERSION), 0);
    IS(zax_abi(), ZAX_ABI);
    printf("%ld passed, %ld failed\n", passed, failed);
    return failed != 0;
}
