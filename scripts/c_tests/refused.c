/* Each allocation refused in turn: the answer is ZAX_E_MEMORY, or a round that tells of it; nothing leaks, and what a refused call was
 * given is as it was.   refused FILE STREAMS      It is linked with --wrap of malloc, calloc, realloc and free. */
#include <zaxmonth.h>

#include "refusing.h"

#include <stdio.h>
#include <stdlib.h>
#include <string.h>

static char text[1 << 20], streams[1 << 12], room[1 << 20], before[1 << 20], after[1 << 20];
static zax_row rows[128], rows_before[128], rows_after[128];
static zax_extension extensions[8];
static zax_rid rids[8];
static zax_layer layers[8];
static zax_source sources[8];
static zax_group_source groups[8];
static size_t length, streams_length;
static long wrong;

/* What a handle holds, with no allocation refused. */
static size_t printed(zax_session *session, char *to)
{
    long was = left;
    size_t size = 0;
    left = -1;
    wrong += zax_print(session, to, sizeof before, &size) != ZAX_OK;
    left = was;
    return size;
}

static size_t listed(zax_config *config, zax_row *to)
{
    long was = left;
    size_t count = 0;
    left = -1;
    wrong += zax_config_rows(config, to, 128, &count) != ZAX_OK;
    left = was;
    return count;
}

/* A call that only asks leaves the description as it was, whatever is refused. */
#define ASKS(session, call)                                                                                              \
    do {                                                                                                                 \
        size_t was_ = printed(session, before);                                                                          \
        status = call;                                                                                                   \
        wrong += printed(session, after) != was_ || memcmp(before, after, was_);                                         \
        if (status)                                                                                                      \
            goto end;                                                                                                    \
    } while (0)

/* Makes a configuration of one's own. */
static int configured(void)
{
    zax_config *config = NULL;
    int status = zax_config_empty(&config);
    if (!status)
        status = zax_config_enable(config, ZAX_H264, 1, 0);
    size_t was = config ? listed(config, rows_before) : 0;
    if (!status)
        status = zax_config_enable(config, ZAX_PCMU, 1, 1);
    if (status && config)
        wrong += listed(config, rows_after) != was || memcmp(rows_before, rows_after, was * sizeof *rows);
    was = config ? listed(config, rows_before) : 0;
    if (!status)
        status = zax_config_add(config, 100, 101, ZAX_OPUS, 48000, 2, "minptime=10;stereo=1", 20);
    if (status && config)
        wrong += listed(config, rows_after) != was || memcmp(rows_before, rows_after, was * sizeof *rows);
    zax_config_free(config);
    return status;
}

/* What a section says of streams. */
static int asked(void)
{
    zax_session *session = NULL;
    size_t count;
    int status = zax_read(streams, streams_length, &session, NULL);
    if (status)
        return status;
    ASKS(session, zax_section_msid(session, 0, room, sizeof room, &count));
    ASKS(session, zax_section_extensions(session, 0, extensions, 8, &count));
    ASKS(session, zax_extension_uri(session, 0, 0, room, sizeof room, &count));
    ASKS(session, zax_section_rids(session, 0, rids, 8, &count));
    ASKS(session, zax_rid_name(session, 0, 1, room, sizeof room, &count));
    ASKS(session, zax_rid_restrictions(session, 0, 1, room, sizeof room, &count));
    ASKS(session, zax_section_layers(session, 0, layers, 8, &count));
    ASKS(session, zax_layer_name(session, 0, 1, room, sizeof room, &count));
    ASKS(session, zax_section_sources(session, 0, sources, 8, &count));
    ASKS(session, zax_source_cname(session, 0, 0, room, sizeof room, &count));
    ASKS(session, zax_source_stream(session, 0, 0, room, sizeof room, &count));
    ASKS(session, zax_source_track(session, 0, 0, room, sizeof room, &count));
    ASKS(session, zax_section_source_groups(session, 0, groups, 8, &count));
    ASKS(session, zax_group_semantics(session, 0, 0, room, sizeof room, &count));
end:
    zax_session_free(session);
    return status;
}

static int run(void)
{
    zax_session *session = NULL, *own = NULL;
    zax_config *config = NULL;
    zax_error error;
    zax_outcome outcomes[16];
    zax_section info;
    size_t count;
    int writable;
    uint32_t setup;
    int status = zax_read(text, length, &session, &error);
    if (status) {
        wrong += session != NULL || error.status != (uint32_t)status;
        goto end;
    }
    ASKS(session, zax_print(session, room, sizeof room, &count));
    status = zax_read(room, count, &own, &error);
    if (status)
        goto end;
    ASKS(session, zax_rows(session, 0, rows, 128, &count));
    ASKS(session, zax_row_codec(session, 0, 0, room, sizeof room, &count));
    ASKS(session, zax_row_fmtp(session, 0, 0, room, sizeof room, &count));
    ASKS(session, zax_section_mid(session, 0, room, sizeof room, &count));
    ASKS(session, zax_json(session, room, sizeof room, &count));
    ASKS(session, zax_findings(text, length, room, sizeof room, &count));
    ASKS(session, zax_section_info(session, 0, &info));
    ASKS(session, zax_is_writable(session, 0, &writable));
    ASKS(session, zax_ice_ufrag(session, room, sizeof room, &count));
    ASKS(session, zax_ice_pwd(session, room, sizeof room, &count));
    ASKS(session, zax_fingerprint(session, room, sizeof room, &count));
    ASKS(session, zax_session_setup(session, &setup));
    ASKS(session, zax_candidates(session, &count));
    if (count > 0)
        ASKS(session, zax_candidate(session, 0, room, sizeof room, &count));
    status = zax_config_defaults(&config);
    if (status) {
        wrong += config != NULL;
        goto end;
    }
    size_t was = listed(config, rows_before);
    status = zax_negotiate(config, text, length, outcomes, 16, &count, &error);
    if (status) {
        wrong += listed(config, rows_after) != was || memcmp(rows_before, rows_after, was * sizeof *rows);
        goto end;
    }
    for (size_t i = 0; i < count; i++)
        if (outcomes[i].cause == ZAX_ROUND_MEMORY)
            status = ZAX_E_MEMORY;
    if (status)
        goto end;
    status = zax_config_rows(config, rows, 128, &count);
    if (!status)
        status = zax_config_row_codec(config, 0, room, sizeof room, &count);
    if (!status)
        status = zax_config_row_fmtp(config, 0, room, sizeof room, &count);
    if (status)
        goto end;
    status = configured();
    if (!status)
        status = asked();
    if (status)
        goto end;
    size_t own_was = printed(own, before);
    status = zax_answer(config, own, 0);
    if (status)
        wrong += printed(own, after) != own_was || memcmp(before, after, own_was);
end:
    zax_session_free(session);
    zax_session_free(own);
    zax_config_free(config);
    return status;
}

static size_t read_file(const char *name, char *to, size_t cap)
{
    FILE *file = fopen(name, "rb");
    if (!file)
        exit(2);
    size_t size = fread(to, 1, cap, file);
    fclose(file);
    return size;
}

int main(int count, char **words)
{
    if (count != 3)
        return 2;
    length = read_file(words[1], text, sizeof text);
    streams_length = read_file(words[2], streams, sizeof streams);
    long begin = live, passed = 0, failed = 0;
    for (long n = 0;; n++) {
        left = n;
        wrong = 0;
        int status = run(), was_refused = left < 0;
        left = -1;
        int is_right = status == (was_refused ? ZAX_E_MEMORY : ZAX_OK) && live == begin && !wrong;
        passed += is_right;
        failed += !is_right;
        if (!is_right)
            printf("allocation %ld: status %d, %ld blocks are left, %ld changes\n", n, status, live - begin, wrong);
        if (!was_refused)
            break;
    }
    printf("%ld passed, %ld failed\n", passed, failed);
    return failed != 0;
}
