/* Does what sdpshow does, by the calls of zaxmonth.h, and writes JSON:   texts text|json|findings|rows|facts|negotiate < TEXT */
#include <zaxmonth.h>

#include <stdio.h>
#include <stdlib.h>
#include <string.h>

static char text[1 << 20], room[1 << 20], codec[64];
static zax_row rows[4096];
static zax_extension extensions[4096];
static zax_rid rids[4096];
static zax_layer layers[4096];
static zax_source sources[4096];
static zax_group_source groups[4096];

static void must(zax_status status)
{
    if (status != ZAX_OK) {
        fprintf(stderr, "a call answers %d\n", status);
        exit(3);
    }
}

static void show_type(uint8_t pt)
{
    if (pt == ZAX_NO_TYPE)
        printf(" -");
    else
        printf(" %d", pt);
}

/* A row, whose codec stands in `codec` and whose format in `room`. */
static void show_row(const zax_row *row, size_t codec_length, size_t length)
{
    printf(" %d", row->pt);
    show_type(row->rtx);
    show_type(row->red);
    printf(" %.*s/%u", (int)codec_length, codec, row->clock_rate);
    if (row->channels)
        printf("/%d", row->channels);
    printf(" %.*s\n", length ? (int)length : 1, length ? room : "-");
}

static void show_rows(zax_session *session)
{
    for (size_t at = 0; at < zax_sections(session); at++) {
        size_t count, length;
        char mid[64];
        must(zax_section_mid(session, at, mid, sizeof mid, &length));
        must(zax_rows(session, at, rows, 4096, &count));
        for (size_t i = 0; i < count; i++) {
            size_t named, said;
            must(zax_row_codec(session, at, i, codec, sizeof codec, &named));
            must(zax_row_fmtp(session, at, i, room, sizeof room, &said));
            printf("%.*s", length ? (int)length : 1, length ? mid : "-");
            show_row(&rows[i], named, said);
        }
    }
}

static void show_text(zax_status (*call)(zax_session *, char *, size_t, size_t *), zax_session *session)
{
    size_t said;
    must(call(session, room, sizeof room, &said));
    printf("%.*s\n", (int)said, room);
}

static void show_streams(zax_session *session, size_t at)
{
    size_t count, said;
    must(zax_section_msid(session, at, room, sizeof room, &said));
    printf("%.*s\n", (int)said, room);
    must(zax_section_extensions(session, at, extensions, 4096, &count));
    for (size_t i = 0; i < count; i++) {
        must(zax_extension_uri(session, at, i, room, sizeof room, &said));
        printf("%d %.*s\n", extensions[i].id, (int)said, room);
    }
    must(zax_section_rids(session, at, rids, 4096, &count));
    for (size_t i = 0; i < count; i++) {
        must(zax_rid_name(session, at, i, room, sizeof room, &said));
        printf("%d %.*s", rids[i].direction, (int)said, room);
        must(zax_rid_restrictions(session, at, i, room, sizeof room, &said));
        printf(" %.*s\n", (int)said, room);
    }
    must(zax_section_layers(session, at, layers, 4096, &count));
    for (size_t i = 0; i < count; i++) {
        must(zax_layer_name(session, at, i, room, sizeof room, &said));
        printf("%d %d %.*s\n", layers[i].direction, layers[i].paused, (int)said, room);
    }
}

typedef zax_status item_text(zax_session *, size_t section, size_t item, char *room, size_t cap, size_t *needed);

static void show_sources(zax_session *session, size_t at)
{
    static item_text *const texts[] = {zax_source_cname, zax_source_stream, zax_source_track};
    size_t count, said;
    must(zax_section_sources(session, at, sources, 4096, &count));
    for (size_t i = 0; i < count; i++) {
        printf("%u %u %d", sources[i].ssrc, sources[i].repairs, sources[i].is_repair);
        for (size_t j = 0; j < 3; j++) {
            must(texts[j](session, at, i, room, sizeof room, &said));
            printf(" [%.*s]", (int)said, room);
        }
        printf("\n");
    }
    must(zax_section_source_groups(session, at, groups, 4096, &count));
    for (size_t i = 0; i < count; i++) {
        must(zax_group_semantics(session, at, groups[i].group, room, sizeof room, &said));
        printf("%zu %.*s %u\n", groups[i].group, (int)said, room, groups[i].ssrc);
    }
}

/* Each section in numbers and with its streams, the credentials of ICE, the fingerprint, and the candidates. */
static void show_facts(zax_session *session)
{
    size_t count, said;
    uint32_t setup;
    for (size_t at = 0; at < zax_sections(session); at++) {
        zax_section info;
        must(zax_section_info(session, at, &info));
        printf("%d %d %d %d %d\n", info.kind, info.protocol, info.direction, info.setup, info.disabled);
        show_streams(session, at);
        show_sources(session, at);
    }
    show_text(zax_ice_ufrag, session);
    show_text(zax_ice_pwd, session);
    show_text(zax_fingerprint, session);
    must(zax_session_setup(session, &setup));
    printf("%u\n", setup);
    must(zax_candidates(session, &count));
    for (size_t i = 0; i < count; i++) {
        must(zax_candidate(session, i, room, sizeof room, &said));
        printf("%.*s\n", (int)said, room);
    }
}

static const char *cause_of(const zax_outcome *outcome)
{
    static char said[64];
    switch (outcome->cause) {
    case ZAX_TYPE_TOO_LARGE:
        snprintf(said, sizeof said, "payload type %d is above 127", outcome->pt);
        return said;
    case ZAX_CLAIMED_TWICE:
        snprintf(said, sizeof said, "payload type %d is claimed twice", outcome->pt);
        return said;
    case ZAX_EXHAUSTED:
        return "payload type ranges exhausted";
    default:
        return "out of memory";
    }
}

static int negotiate(size_t length)
{
    static zax_outcome outcomes[4096];
    zax_config *config;
    zax_error error;
    size_t count;
    must(zax_config_defaults(&config));
    if (zax_negotiate(config, text, length, outcomes, 4096, &count, &error) != ZAX_OK)
        return fprintf(stderr, "%s\n", error.message), 1;
    for (size_t i = 0; i < count; i++)
        if (outcomes[i].cause == ZAX_ACCEPTED)
            printf("round %zu ok\n", i + 1);
        else
            printf("round %zu refused: %s\n", i + 1, cause_of(&outcomes[i]));
    must(zax_config_rows(config, rows, 4096, &count));
    for (size_t i = 0; i < count; i++) {
        size_t named, said;
        must(zax_config_row_codec(config, i, codec, sizeof codec, &named));
        must(zax_config_row_fmtp(config, i, room, sizeof room, &said));
        printf("%s", rows[i].locked ? "locked" : "open");
        show_row(&rows[i], named, said);
    }
    zax_config_free(config);
    return 0;
}

int main(int count, char **words)
{
    if (count != 2)
        return 2;
    size_t length = fread(text, 1, sizeof text, stdin), size;
    if (!strcmp(words[1], "negotiate"))
        return negotiate(length);
    if (!strcmp(words[1], "findings")) {
        must(zax_findings(text, length, room, sizeof room, &size));
        fwrite(room, 1, size, stdout);
        return 0;
    }
    zax_session *session;
    zax_error error;
    if (zax_read(text, length, &session, &error) != ZAX_OK)
        return fprintf(stderr, "%s\n", error.message), 1;
    if (!strcmp(words[1], "rows")) {
        show_rows(session);
    } else if (!strcmp(words[1], "facts")) {
        show_facts(session);
    } else {
        must((strcmp(words[1], "json") ? zax_print : zax_json)(session, room, sizeof room, &size));
        fwrite(room, 1, size, stdout);
    }
    zax_session_free(session);
    return 0;
}
