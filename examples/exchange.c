/* Answers an offer, as the side that a file describes:   exchange OFFER OWN
 *     cc exchange.c $(pkg-config --cflags --libs zaxmonth) -o exchange */
#include <zaxmonth.h>

#include <stdio.h>
#include <stdlib.h>
#include <string.h>

static char offer[1 << 20], side[1 << 16], answer[1 << 20];
static zax_slice candidates[64], extensions[64];

static size_t contents(const char *path, char *room, size_t cap)
{
    FILE *file = fopen(path, "rb");
    if (!file) {
        fprintf(stderr, "%s cannot be read\n", path);
        exit(2);
    }
    size_t length = fread(room, 1, cap, file);
    fclose(file);
    return length;
}

static void add(zax_slice *list, size_t *count, zax_slice value)
{
    if (*count < 64)
        list[(*count)++] = value;
}

/* What a line says, a word and its value, of this side. */
static void said(zax_own *own, const char *word, zax_slice value)
{
    if (!strcmp(word, "session-id"))
        own->session_id = strtoull(value.at, NULL, 10);
    else if (!strcmp(word, "ufrag"))
        own->ice_ufrag = value;
    else if (!strcmp(word, "pwd"))
        own->ice_pwd = value;
    else if (!strcmp(word, "fingerprint"))
        own->fingerprint = value;
    else if (!strcmp(word, "stream"))
        own->stream_id = value;
    else if (!strcmp(word, "candidate"))
        add(candidates, &own->candidate_count, value);
    else if (!strcmp(word, "extension"))
        add(extensions, &own->extension_count, value);
}

/* What this side says of itself (examples/own-side.txt). */
static zax_own side_of(char *text)
{
    zax_own own = {.extensions = extensions, .candidates = candidates, .receives_simulcast = 1};
    own.has_channels = 1, own.sctp_port = 5000, own.max_message_size = 262144;
    for (char *line = strtok(text, "\n"); line; line = strtok(NULL, "\n")) {
        char *value = strchr(line, ' ');
        if (!value)
            continue;
        *value++ = 0;
        said(&own, line, (zax_slice){value, strlen(value)});
    }
    return own;
}

int main(int count, char **words)
{
    if (count != 3)
        return fprintf(stderr, "usage: exchange OFFER OWN\n"), 2;
    size_t length = contents(words[1], offer, sizeof offer), needed = 0;
    contents(words[2], side, sizeof side - 1);

    zax_own own = side_of(side);
    zax_config *config;
    zax_exchange *exchange = NULL;
    zax_session *said = NULL;
    uint64_t version;
    zax_error error = {.message = "out of memory"};
    if (zax_config_defaults(&config) == ZAX_OK && zax_exchange_new(&own, config, &exchange, &error) != ZAX_OK)
        zax_config_free(config);
    if (exchange)
        zax_accept_offer(exchange, offer, length, &said, &version, &error);
    zax_exchange_free(exchange);
    if (!said)
        return fprintf(stderr, "%s\n", error.message), 1;
    if (zax_print_version(said, version, answer, sizeof answer, &needed) == ZAX_OK)
        fwrite(answer, 1, needed, stdout);
    zax_session_free(said);
    return 0;
}
