// Times the direct call, which reads a text, beside reading and JSON from C:   from_c BATCHES FILE..
//
// A line for each file and call: the file, the call, nanoseconds; 'refused' where the text wasn't read. A time is the least of so many
// batches, by the processor time of the process. The calls take turns, a batch each, so that other work on the machine slows all of them.
// The other programs for languages (from_*, pion.go, of_aiortc.py) take and print the same.
#include "calls.h"
#include "texts.h"

#include <stdio.h>
#include <stdlib.h>
#include <time.h>
#include <zaxmonth.h>

static const double BATCH = 10e6; // nanoseconds that a batch takes at least

struct work {
    struct text text;
    zax_session *session; // what is read of it
    char *room;           // for its JSON
    size_t cap;
};

static int direct(const struct work *work)
{
    return bench_read(work->text.bytes, work->text.length) != UINT64_MAX;
}

static int from_c(const struct work *work)
{
    zax_session *session;
    zax_error error;
    zax_status status = zax_read((const char *)work->text.bytes, work->text.length, &session, &error);
    zax_session_free(session);
    return status == ZAX_OK;
}

static int json(const struct work *work)
{
    return zax_json(work->session, work->room, work->cap, NULL) == ZAX_OK;
}

static const struct call {
    const char *name;
    int (*run)(const struct work *); // whether it succeeds
} CALLS[] = {{"direct", direct}, {"C", from_c}, {"JSON", json}};

enum { COUNT = sizeof CALLS / sizeof *CALLS };

static double now(void)
{
    struct timespec at;
    clock_gettime(CLOCK_PROCESS_CPUTIME_ID, &at);
    return at.tv_sec * 1e9 + at.tv_nsec;
}

static double taken(const struct call *call, const struct work *work, uint32_t times)
{
    double begin = now();
    for (uint32_t i = 0; i < times; i++)
        call->run(work);
    return now() - begin;
}

static uint32_t calls_of_batch(const struct call *call, const struct work *work)
{
    uint32_t times = 1;
    while (taken(call, work, times) < BATCH)
        times *= 2;
    return times;
}

static void show(const char *path, const struct work *work, int batches)
{
    uint32_t times[COUNT] = {0};
    double best[COUNT] = {0};
    for (size_t i = 0; i < COUNT; i++)
        times[i] = CALLS[i].run(work) ? calls_of_batch(&CALLS[i], work) : 0;
    for (int batch = 0; batch < batches; batch++)
        for (size_t i = 0; i < COUNT; i++) {
            double one = times[i] ? taken(&CALLS[i], work, times[i]) / times[i] : 0;
            if (batch == 0 || one < best[i])
                best[i] = one;
        }
    for (size_t i = 0; i < COUNT; i++)
        if (times[i])
            printf("%s\t%s\t%.1f\n", path, CALLS[i].name, best[i]);
        else
            printf("%s\t%s\trefused\n", path, CALLS[i].name);
}

int main(int count, char **words)
{
    if (count < 3) {
        fprintf(stderr, "usage: from_c BATCHES FILE..\n");
        return 2;
    }
    for (int i = 2; i < count; i++) {
        struct work work = {text_of(words[i]), NULL, NULL, 0};
        zax_read((const char *)work.text.bytes, work.text.length, &work.session, NULL);
        zax_json(work.session, NULL, 0, &work.cap);
        work.room = malloc(work.cap + 1);
        if (!work.room)
            return perror("from_c"), 1;
        show(words[i], &work, atoi(words[1]));
        zax_session_free(work.session);
        free(work.room);
        free(work.text.bytes);
    }
    return 0;
}
