/* Exchanges of offers and answers.
 *
 *     exchanges answer ANSWER OFFER ..   the last of these offers, each answered behind those before it, is answered by that text; where
 *                                        ANSWER is of a restart of ICE, by other credentials
 *     exchanges calls OFFER              what each call answers, hostile ones too
 *     exchanges refused OFFER            each allocation refused in turn: the answer is ZAX_E_MEMORY, nothing leaks, and the call that
 *                                        is made again answers as if it were the first
 *
 * It is linked with --wrap of malloc, calloc, realloc and free. */
#include <zaxmonth.h>

#include "refusing.h"

#include <stdio.h>
#include <string.h>

static long passed, failed;

#define IS(found, wanted)                                                                                                \
    do {                                                                                                                 \
        long is_ = (long)(found), be_ = (long)(wanted);                                                                  \
        passed += is_ == be_;                                                                                            \
        if (is_ != be_)                                                                                                  \
            failed++, printf("exchanges.c:%d: %s is %ld, not %ld\n", __LINE__, #found, is_, be_);                        \
    } while (0)

#define SLICE(literal) {literal, sizeof literal - 1}

static const zax_slice known[] = {
    SLICE("urn:ietf:params:rtp-hdrext:ssrc-audio-level"),
    SLICE("urn:ietf:params:rtp-hdrext:sdes:mid"),
    SLICE("urn:ietf:params:rtp-hdrext:sdes:rtp-stream-id"),
    SLICE("urn:ietf:params:rtp-hdrext:sdes:repaired-rtp-stream-id"),
    SLICE("http://www.ietf.org/id/draft-holmer-rmcat-transport-wide-cc-extensions-01"),
    SLICE("http://www.webrtc.org/experiments/rtp-hdrext/abs-send-time"),
    SLICE("urn:3gpp:video-orientation"),
};
static const zax_slice candidates[] = {SLICE("candidate:1 1 udp 2130706431 127.0.0.1 9999 typ host")};

/* What this side said of itself when the browsers took its answers (scripts/answering.py). */
static const zax_own own = {
    .session_id = 4711,
    .ice_ufrag = SLICE("ansr"),
    .ice_pwd = SLICE("0123456789abcdef01234567"),
    .fingerprint = SLICE("sha-256 01:23:45:67:89:AB:CD:EF:01:23:45:67:89:AB:CD:EF:01:23:45:67:89:AB:CD:EF:01:23:45:67:89:AB:CD:EF"),
    .stream_id = SLICE("answer-stream"),
    .extensions = known,
    .extension_count = sizeof known / sizeof *known,
    .candidates = candidates,
    .candidate_count = 1,
    .max_message_size = 262144,
    .sctp_port = 5000,
    .has_channels = 1,
    .receives_simulcast = 1,
};

static char text[1 << 18], wanted[1 << 18], printed[1 << 18];
static size_t length, wanted_length;

static size_t contents(const char *path, char *to, size_t cap)
{
    FILE *file = fopen(path, "rb");
    if (!file)
        exit(2);
    size_t size = fread(to, 1, cap, file);
    fclose(file);
    return size;
}

static zax_exchange *exchange_of(const zax_own *said)
{
    zax_config *config;
    zax_exchange *exchange;
    IS(zax_config_defaults(&config), ZAX_OK);
    IS(zax_exchange_new(said, config, &exchange, NULL), ZAX_OK);
    return exchange;
}

static size_t text_of(zax_session *session, uint64_t version, char *to)
{
    size_t size = 0;
    IS(zax_print_version(session, version, to, sizeof printed, &size), ZAX_OK);
    return size;
}

static uint32_t state_of(zax_exchange *exchange)
{
    uint32_t state = 99;
    IS(zax_exchange_state(exchange, &state), ZAX_OK);
    return state;
}

/* The offers, one behind the other; the last one is answered by the stored text. */
static void stored(int count, char **words)
{
    zax_exchange *exchange = exchange_of(&own);
    size_t size = 0;
    for (int i = 1; i < count; i++) {
        zax_session *answer;
        uint64_t version;
        zax_error error;
        length = contents(words[i], text, sizeof text);
        if (i > 1 && strstr(words[0], "restart"))
            IS(zax_restart_ice(exchange, (zax_slice)SLICE("ansr1"), (zax_slice)SLICE("0123456789abcdef012345671")), ZAX_OK);
        IS(zax_accept_offer(exchange, text, length, &answer, &version, &error), ZAX_OK);
        if (!answer) {
            printf("%s: %s\n", words[i], error.message);
            break;
        }
        IS(version, i);
        size = text_of(answer, version, printed);
        zax_session_free(answer);
    }
    IS(size, contents(words[0], wanted, sizeof wanted));
    IS(memcmp(printed, wanted, size), 0);
    zax_exchange_free(exchange);
}

static void new_is(const zax_own *said, zax_status status, const char *message)
{
    zax_config *config;
    zax_exchange *exchange = (void *)1;
    zax_error error;
    size_t count;
    IS(zax_config_defaults(&config), ZAX_OK);
    IS(zax_exchange_new(said, config, &exchange, &error), status);
    IS(exchange == NULL, 1);
    IS(error.status, status);
    if (message)
        IS(strncmp(error.message, message, strlen(message)), 0);
    /* the configuration is the caller's still */
    IS(zax_config_rows(config, NULL, 0, &count), ZAX_E_ROOM);
    IS(count > 0, 1);
    zax_config_free(config);
}

static void hostile_own(void)
{
    zax_own said = own;
    const zax_slice none[] = {{NULL, 0}}, word[] = {SLICE("word")}, wrong[] = {SLICE("\xff")};
    said.fingerprint = (zax_slice)SLICE("AB");
    new_is(&said, ZAX_E_OWN, "fingerprint: ");
    said.fingerprint = (zax_slice){NULL, 0};
    new_is(&said, ZAX_E_OWN, "fingerprint: ");
    said.fingerprint = (zax_slice){NULL, 1};
    new_is(&said, ZAX_E_ARGUMENT, NULL);
    said = own;
    said.candidates = word;
    new_is(&said, ZAX_E_OWN, "candidate: ");
    said.candidates = wrong;
    new_is(&said, ZAX_E_UTF8, "text is not UTF-8");
    said = own;
    said.extensions = none, said.extension_count = 1;
    new_is(&said, ZAX_E_ARGUMENT, NULL);
    said.extensions = NULL;
    new_is(&said, ZAX_E_ARGUMENT, NULL);
    said.extensions = known, said.extension_count = (size_t)-1;
    new_is(&said, ZAX_E_ARGUMENT, NULL);
    said = own;
    said.audio = 4;
    new_is(&said, ZAX_E_ARGUMENT, NULL);
    for (int i = 0; i < 2; i++) {
        said = own;
        said.reserved[i] = 1;
        new_is(&said, ZAX_E_ARGUMENT, NULL);
    }
    said = own;
    said.ice_ufrag = (zax_slice)SLICE("\xff");
    new_is(&said, ZAX_E_UTF8, "text is not UTF-8");
    new_is(NULL, ZAX_E_ARGUMENT, NULL);
    zax_exchange *exchange = (void *)1;
    IS(zax_exchange_new(&own, NULL, &exchange, NULL), ZAX_E_ARGUMENT);
    IS(exchange == NULL, 1);
    IS(zax_exchange_new(&own, NULL, NULL, NULL), ZAX_E_ARGUMENT);
    zax_exchange_free(NULL);
}

/* An offer that is refused, and what the error tells; the exchange answers the next as if it were the first. */
static void refused_offers(void)
{
    static char more[1 << 18];
    zax_exchange *exchange = exchange_of(&own);
    zax_session *answer = (void *)1;
    uint64_t version;
    zax_error error;
    uint32_t lines = 1;
    for (size_t i = 0; i < length; i++)
        lines += text[i] == '\n';
    memcpy(more, text, length);
    memcpy(more + length, "what fits nowhere\r\n", 19);
    IS(zax_accept_offer(exchange, more, length + 19, &answer, &version, &error), ZAX_E_UNREAD);
    IS(answer == NULL, 1);
    IS(error.line, lines);
    IS(strstr(error.message, "what fits nowhere") != NULL, 1);
    IS(zax_accept_offer(exchange, "x", 1, &answer, &version, &error), ZAX_E_PARSE);
    IS(error.line, 0);
    IS(zax_accept_offer(exchange, "\xff", 1, &answer, &version, &error), ZAX_E_UTF8);
    IS(zax_accept_offer(exchange, NULL, 1, &answer, &version, &error), ZAX_E_ARGUMENT);
    IS(zax_accept_offer(exchange, text, (size_t)-1, &answer, &version, &error), ZAX_E_ARGUMENT);
    IS(zax_accept_offer(NULL, text, length, &answer, &version, &error), ZAX_E_ARGUMENT);
    IS(zax_accept_offer(exchange, text, length, NULL, &version, &error), ZAX_E_ARGUMENT);
    IS(zax_accept_offer(exchange, text, length, &answer, NULL, &error), ZAX_E_ARGUMENT);
    const char *twice = "v=0\r\no=- 1 1 IN IP4 0.0.0.0\r\ns=-\r\nt=0 0\r\n"
                        "m=audio 9 UDP/TLS/RTP/SAVPF 0\r\nc=IN IP4 0.0.0.0\r\na=mid:0\r\na=sendrecv\r\n"
                        "m=audio 9 UDP/TLS/RTP/SAVPF 0\r\nc=IN IP4 0.0.0.0\r\na=mid:0\r\na=sendrecv\r\n";
    IS(zax_accept_offer(exchange, twice, strlen(twice), &answer, &version, &error), ZAX_E_FIT);
    IS(strcmp(error.message, "section 1 breaks a rule: no two sections have one mid"), 0);
    IS(zax_accept_answer(exchange, text, length, &error), ZAX_E_STATE);
    IS(zax_accept_offer(exchange, text, length, &answer, &version, NULL), ZAX_OK);
    IS(version, 1);
    zax_session_free(answer);
    zax_exchange_free(exchange);
    /* a line end in an id would be read as another line */
    zax_own said = own;
    said.stream_id = (zax_slice)SLICE("a\r\nb");
    exchange = exchange_of(&said);
    IS(zax_accept_offer(exchange, text, length, &answer, &version, &error), ZAX_E_PRINT);
    IS(answer == NULL, 1);
    zax_exchange_free(exchange);
}

static void rooms(zax_exchange *exchange, zax_session *session)
{
    zax_row rows[128];
    size_t needed = 0, got = 0;
    IS(zax_exchange_rows(exchange, NULL, 0, &needed), ZAX_E_ROOM);
    IS(zax_exchange_rows(exchange, rows, needed, &got), ZAX_OK);
    IS(got, needed);
    IS(zax_exchange_rows(NULL, rows, 128, &got), ZAX_E_ARGUMENT);
    IS(zax_exchange_row_codec(exchange, 0, printed, 4, &needed), ZAX_OK);
    IS(needed == 4 && !memcmp(printed, "opus", 4), 1);
    IS(zax_exchange_row_codec(exchange, 0, printed, 3, &needed), ZAX_E_ROOM);
    IS(zax_exchange_row_codec(exchange, 128, printed, 9, &got), ZAX_E_SECTION);
    IS(zax_exchange_row_codec(NULL, 0, printed, 9, &got), ZAX_E_ARGUMENT);
    IS(zax_exchange_row_fmtp(exchange, 0, NULL, 0, &needed), ZAX_E_ROOM);
    memset(printed, 0x5a, needed + 1);
    IS(zax_exchange_row_fmtp(exchange, 0, printed, needed - 1, &got), ZAX_E_ROOM);
    IS(printed[0], 0x5a);
    IS(zax_exchange_row_fmtp(exchange, 0, printed, needed, &got), ZAX_OK);
    IS(printed[needed], 0x5a);
    IS(memcmp(printed, "minptime=10;useinbandfec=1", needed), 0);
    IS(zax_exchange_row_fmtp(exchange, 128, printed, 9, &got), ZAX_E_SECTION);
    IS(zax_exchange_row_fmtp(NULL, 0, printed, 9, &got), ZAX_E_ARGUMENT);
    IS(zax_print_version(session, 7, NULL, 0, &needed), ZAX_E_ROOM);
    memset(printed, 0x5a, needed + 1);
    IS(zax_print_version(session, 7, printed, needed - 1, &got), ZAX_E_ROOM);
    IS(printed[0], 0x5a);
    IS(zax_print_version(session, 7, printed, needed, &got), ZAX_OK);
    IS(printed[needed], 0x5a);
    const char *begins = "v=0\r\no=str0m-0.25.0 4711 7 IN IP4 0.0.0.0\r\n";
    IS(strncmp(printed, begins, strlen(begins)), 0);
    IS(zax_print_version(NULL, 7, printed, 9, &got), ZAX_E_ARGUMENT);
}

/* This side offers, another one answers, and the answer is taken. */
static void both_sides(void)
{
    zax_exchange *here = exchange_of(&own), *there = exchange_of(&own);
    zax_session *offer = (void *)1, *answer;
    uint64_t version;
    zax_error error;
    IS(zax_add_media(here, ZAX_AUDIO, ZAX_SENDONLY, &error), ZAX_OK);
    IS(zax_add_media(here, (zax_kind)2, ZAX_SENDONLY, &error), ZAX_E_ARGUMENT);
    IS(zax_add_media(here, ZAX_VIDEO, (zax_direction)4, &error), ZAX_E_ARGUMENT);
    IS(zax_add_media(NULL, ZAX_VIDEO, ZAX_SENDONLY, NULL), ZAX_E_ARGUMENT);
    IS(zax_add_channels(here, NULL), ZAX_OK);
    IS(zax_add_channels(NULL, NULL), ZAX_E_ARGUMENT);
    IS(zax_create_offer(here, &offer, &version, &error), ZAX_OK);
    IS(version, 1);
    IS(zax_sections(offer), 2);
    IS(state_of(here), ZAX_HAVE_LOCAL_OFFER);
    IS(zax_accept_offer(here, text, length, &answer, &version, &error), ZAX_E_STATE);
    zax_session_free(offer);
    IS(zax_create_offer(here, &offer, &version, &error), ZAX_E_STATE);
    IS(offer == NULL, 1);
    IS(zax_rollback(here), ZAX_OK);
    IS(zax_rollback(NULL), ZAX_E_ARGUMENT);
    IS(state_of(here), ZAX_STABLE);
    IS(zax_create_offer(here, &offer, &version, NULL), ZAX_OK);
    IS(version, 2);
    size_t size = text_of(offer, version, wanted);
    rooms(here, offer);
    zax_session_free(offer);
    IS(zax_accept_offer(there, wanted, size, &answer, &version, NULL), ZAX_OK);
    size = text_of(answer, version, printed);
    zax_session_free(answer);
    IS(zax_accept_answer(here, "x", 1, &error), ZAX_E_PARSE);
    IS(zax_accept_answer(here, NULL, 1, &error), ZAX_E_ARGUMENT);
    IS(zax_accept_answer(NULL, printed, size, &error), ZAX_E_ARGUMENT);
    IS(zax_accept_answer(here, text, length, &error), ZAX_E_FIT);
    IS(zax_accept_answer(here, printed, size, &error), ZAX_OK);
    IS(state_of(here), ZAX_STABLE);
    zax_exchange_free(here);
    zax_exchange_free(there);
    zax_own said = own;
    said.has_channels = 0;
    here = exchange_of(&said);
    IS(zax_add_channels(here, &error), ZAX_E_CHANNELS);
    IS(strcmp(error.message, "this side takes no data channels"), 0);
    IS(zax_restart_ice(here, (zax_slice)SLICE("\xff"), own.ice_pwd), ZAX_E_UTF8);
    IS(zax_restart_ice(here, (zax_slice){NULL, 1}, own.ice_pwd), ZAX_E_ARGUMENT);
    IS(zax_restart_ice(NULL, own.ice_ufrag, own.ice_pwd), ZAX_E_ARGUMENT);
    uint32_t state;
    IS(zax_exchange_state(NULL, &state), ZAX_E_ARGUMENT);
    IS(zax_exchange_state(here, NULL), ZAX_E_ARGUMENT);
    zax_exchange_free(here);
}

/* What an offer says of its first section; the other side answers it, and the answer is taken. */
static int direction_offered(zax_exchange *here, zax_exchange *there)
{
    zax_session *offer, *answer;
    zax_section section;
    uint64_t version;
    IS(zax_create_offer(here, &offer, &version, NULL), ZAX_OK);
    IS(zax_section_info(offer, 0, &section), ZAX_OK);
    size_t size = text_of(offer, version, wanted);
    zax_session_free(offer);
    IS(zax_accept_offer(there, wanted, size, &answer, &version, NULL), ZAX_OK);
    size = text_of(answer, version, printed);
    zax_session_free(answer);
    IS(zax_accept_answer(here, printed, size, NULL), ZAX_OK);
    return section.direction;
}

/* Each offer says what was set last for its section; what is refused, or names another section, turns none. */
static void directions(void)
{
    static const char name[] = "0\0" "23456789abcdef0";
    zax_exchange *here = exchange_of(&own), *there = exchange_of(&own);
    IS(zax_add_media(here, ZAX_VIDEO, ZAX_SENDRECV, NULL), ZAX_OK);
    IS(direction_offered(here, there), ZAX_SENDRECV);
    for (int direction = ZAX_INACTIVE; direction >= ZAX_SENDRECV; direction--) {
        IS(zax_set_direction(here, "0", 1, (zax_direction)direction), ZAX_OK);
        IS(direction_offered(here, there), direction);
    }
    IS(zax_set_direction(here, "0", 1, ZAX_SENDONLY), ZAX_OK);
    IS(zax_set_direction(here, "0", 1, (zax_direction)4), ZAX_E_ARGUMENT);
    IS(zax_set_direction(here, "0", 1, (zax_direction)-1), ZAX_E_ARGUMENT);
    IS(zax_set_direction(here, "0", 1, (zax_direction)256), ZAX_E_ARGUMENT);
    IS(zax_set_direction(here, NULL, 1, ZAX_INACTIVE), ZAX_E_ARGUMENT);
    IS(zax_set_direction(here, "0", (size_t)-1, ZAX_INACTIVE), ZAX_E_ARGUMENT);
    IS(zax_set_direction(NULL, "0", 1, ZAX_INACTIVE), ZAX_E_ARGUMENT);
    IS(zax_set_direction(here, "0\xff", 2, ZAX_INACTIVE), ZAX_E_UTF8);
    IS(zax_set_direction(here, NULL, 0, ZAX_INACTIVE), ZAX_OK);
    for (size_t size = 2; size < sizeof name; size++)
        IS(zax_set_direction(here, name, size, ZAX_INACTIVE), size > 16 ? ZAX_E_ARGUMENT : ZAX_OK);
    IS(direction_offered(here, there), ZAX_SENDONLY);
    zax_exchange_free(here);
    zax_exchange_free(there);
}

static long refusals, wrong;

/* Runs a call, and once more with no allocation refused where it wants memory; the same is to come of it. */
#define AGAIN(call)                                                                                                      \
    do {                                                                                                                 \
        int got_ = call;                                                                                                 \
        if (got_ == ZAX_E_MEMORY && left < 0)                                                                            \
            refusals++, got_ = call;                                                                                     \
        wrong += got_ != ZAX_OK;                                                                                         \
        if (got_ != ZAX_OK)                                                                                              \
            goto end;                                                                                                    \
    } while (0)

static void session_with_refusals(void)
{
    zax_config *config = NULL;
    zax_exchange *here = NULL, *there = NULL;
    zax_session *answer = NULL, *offer = NULL;
    zax_section held;
    uint64_t version = 0;
    size_t size;
    AGAIN(zax_config_defaults(&config));
    AGAIN(zax_exchange_new(&own, config, &here, NULL));
    config = NULL;
    AGAIN(zax_accept_offer(here, text, length, &answer, &version, NULL));
    AGAIN(zax_print_version(answer, version, printed, sizeof printed, &size));
    wrong += size != wanted_length || memcmp(printed, wanted, size);
    AGAIN(zax_add_media(here, ZAX_VIDEO, ZAX_RECVONLY, NULL));
    AGAIN(zax_add_channels(here, NULL));
    AGAIN(zax_restart_ice(here, (zax_slice)SLICE("a fragment of ICE"), (zax_slice)SLICE("a password of ICE, longer than that")));
    AGAIN(zax_set_direction(here, "0", 1, ZAX_INACTIVE));
    AGAIN(zax_create_offer(here, &offer, &version, NULL));
    wrong += zax_section_info(offer, 0, &held) || held.direction != ZAX_INACTIVE;
    wrong += version != 2 || zax_sections(offer) != zax_sections(answer) + 2;
    AGAIN(zax_print_version(offer, version, printed, sizeof printed, &size));
    AGAIN(zax_config_defaults(&config));
    AGAIN(zax_exchange_new(&own, config, &there, NULL));
    config = NULL;
    zax_session_free(answer);
    answer = NULL;
    AGAIN(zax_accept_offer(there, printed, size, &answer, &version, NULL));
    wrong += version != 1;
    AGAIN(zax_print_version(answer, version, printed, sizeof printed, &size));
    AGAIN(zax_accept_answer(here, printed, size, NULL));
    static zax_row rows[128];
    AGAIN(zax_exchange_rows(here, rows, 128, &size));
    AGAIN(zax_exchange_row_codec(here, 0, printed, sizeof printed, &size));
    AGAIN(zax_exchange_row_fmtp(here, 0, printed, sizeof printed, &size));
end:
    zax_session_free(answer);
    zax_session_free(offer);
    zax_config_free(config);
    zax_exchange_free(here);
    zax_exchange_free(there);
}

/* What an exchange with every allocation answers to the offer. */
static void answer_wanted(void)
{
    zax_exchange *exchange = exchange_of(&own);
    zax_session *answer;
    uint64_t version;
    IS(zax_accept_offer(exchange, text, length, &answer, &version, NULL), ZAX_OK);
    wanted_length = text_of(answer, version, wanted);
    zax_session_free(answer);
    zax_exchange_free(exchange);
}

static void each_refused(void)
{
    answer_wanted();
    long begin = live;
    for (long n = 0;; n++) {
        refusals = wrong = 0;
        left = n;
        session_with_refusals();
        int was_refused = left < 0;
        left = -1;
        int is_right = refusals == was_refused && live == begin && !wrong;
        passed += is_right;
        failed += !is_right;
        if (!is_right)
            printf("allocation %ld: %ld answers of no memory, %ld blocks are left, %ld are wrong\n", n, refusals, live - begin, wrong);
        if (!was_refused)
            return;
    }
}

int main(int count, char **words)
{
    if (count < 3)
        return 2;
    if (!strcmp(words[1], "answer")) {
        stored(count - 2, words + 2);
    } else {
        length = contents(words[2], text, sizeof text);
        if (!strcmp(words[1], "refused")) {
            each_refused();
        } else {
            hostile_own();
            refused_offers();
            both_sides();
            directions();
        }
    }
    IS(live, 0);
    printf("%ld passed, %ld failed\n", passed, failed);
    return failed != 0;
}
