/* Handles in eight threads at once, each in one at a time, and two that are passed from thread to thread.   threads FILE */
#include <zaxmonth.h>

#include <pthread.h>
#include <stdio.h>

static char text[1 << 16];
static size_t length;

static const zax_own own = {
    .ice_ufrag = {"ufrag", 5}, .ice_pwd = {"password", 8}, .fingerprint = {"sha-256 AB:CD", 13}, .stream_id = {"-", 1}};

/* Answers the offer. */
static void *answers(void *exchange)
{
    zax_session *answer;
    uint64_t version;
    if (zax_accept_offer(exchange, text, length, &answer, &version, NULL))
        return text;
    zax_session_free(answer);
    return NULL;
}

static void *own_handles(void *none)
{
    for (int i = 0; i < 20; i++) {
        zax_session *session;
        zax_config *config;
        zax_exchange *exchange;
        char room[1 << 14];
        size_t needed;
        if (zax_read(text, length, &session, NULL) || zax_config_defaults(&config))
            return text;
        if (zax_print(session, room, sizeof room, &needed) || zax_negotiate(config, text, length, NULL, 0, &needed, NULL))
            return text;
        if (zax_exchange_new(&own, config, &exchange, NULL) || answers(exchange))
            return text;
        zax_session_free(session);
        zax_exchange_free(exchange);
    }
    return none;
}

static void *next(void *config)
{
    return zax_negotiate(config, text, length, NULL, 0, NULL, NULL) ? text : NULL;
}

int main(int count, char **words)
{
    FILE *file = count == 2 ? fopen(words[1], "rb") : NULL;
    if (!file)
        return 2;
    length = fread(text, 1, sizeof text, file);
    fclose(file);
    pthread_t threads[8];
    void *failed[16] = {NULL};
    zax_config *config;
    zax_exchange *exchange;
    for (int i = 0; i < 8; i++)
        pthread_create(&threads[i], NULL, own_handles, NULL);
    for (int i = 0; i < 8; i++)
        pthread_join(threads[i], &failed[i]);
    if (zax_config_defaults(&config))
        return 1;
    for (int i = 8; i < 12; i++) {
        pthread_create(&threads[0], NULL, next, config);
        pthread_join(threads[0], &failed[i]);
    }
    if (zax_exchange_new(&own, config, &exchange, NULL))
        return 1;
    for (int i = 12; i < 16; i++) {
        pthread_create(&threads[0], NULL, answers, exchange);
        pthread_join(threads[0], &failed[i]);
    }
    zax_exchange_free(exchange);
    int wrong = 0;
    for (int i = 0; i < 16; i++)
        wrong += failed[i] != NULL;
    printf("%d passed, %d failed\n", 16 - wrong, wrong);
    return wrong != 0;
}
