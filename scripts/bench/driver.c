// Times calls on texts, in one process:   driver BATCHES CALL,CALL.. FILE..
//
// The first line says how many nanoseconds a step of a fixed loop takes. Behind it stands a line for each file and call: the
// file, the call, nanoseconds, allocations, bytes held when the last of them was made, and the most bytes held at once; 'refused'
// where the text wasn't read. A time is the least of so many batches, by the clock of the thread, so that other work beside it
// counts little.
#include "calls.h"
#include "counted.h"
#include "texts.h"

#include <inttypes.h>
#include <malloc.h>
#include <stdio.h>
#include <stdlib.h>
#include <string.h>
#include <time.h>

static const double BATCH = 10e6; // nanoseconds that a batch takes at least
static const uint32_t MOST_CALLS = 100000; // but where so many calls take less
static int batches = 1;

typedef uint64_t (*run)(const uint8_t *, size_t, uint32_t);

struct call {
    const char *name;
    run run;
    int reads_once; // (then the reading isn't counted)
};

static uint64_t read_again(const uint8_t *text, size_t length, uint32_t more)
{
    for (uint32_t i = 0; i < more; i++)
        if (bench_read(text, length) == UINT64_MAX)
            return UINT64_MAX;
    return bench_read(text, length);
}

static const struct call CALLS[] = {
    {"read", read_again, 0},
    {"rows", bench_rows, 1},
    {"defaults", bench_defaults, 1},
    {"rounds", bench_rounds, 1},
    {"negotiate", bench_negotiate, 0},
    {"exchange", bench_exchange, 1},
    {"answer", bench_answer, 0},
    {"print", bench_print, 1},
    {"sources", bench_sources, 1},
    {"candidates", bench_candidates, 1},
    {"consistency", bench_consistency, 1},
    {"lines", floor_lines, 0},
    {"items", floor_items, 0},
#ifdef HAS_GSTREAMER
    {"gstreamer", gstreamer_read, 0},
#endif
#ifdef HAS_SOFIA
    {"sofia", sofia_read, 0},
#endif
};

volatile uint64_t kept; // (so that no compiler leaves a call out)

static double now(void)
{
    struct timespec at;
    clock_gettime(CLOCK_THREAD_CPUTIME_ID, &at);
    return at.tv_sec * 1e9 + at.tv_nsec;
}

static double taken(const struct call *call, struct text text, uint32_t more)
{
    double begin = now();
    kept = call->run(text.bytes, text.length, more);
    return now() - begin;
}

// How many calls make a batch: so many that they take long enough, by themselves and beside the reading that is taken off. That is
// tried, each time with more of them, since one call may take less than what a long reading varies by.
static uint32_t calls_of_batch(const struct call *call, struct text text)
{
    uint32_t more = 2;
    for (; more < MOST_CALLS; more *= 4) {
        double reading = call->reads_once ? taken(call, text, 0) : 0;
        double own = taken(call, text, more) - reading;
        if (own >= BATCH && own >= reading / 10)
            break;
    }
    return more < MOST_CALLS ? more : MOST_CALLS;
}

// Nanoseconds of one call, the least of some batches, of a text that is read.
static double least(const struct call *call, struct text text)
{
    uint32_t more = calls_of_batch(call, text);
    double best = -1;
    for (int i = 0; i < batches; i++) {
        double all = taken(call, text, more);
        double one = call->reads_once ? (all - taken(call, text, 0)) / more : all / (more + 1);
        if (best < 0 || one < best)
            best = one < 0 ? 0 : one;
    }
    return best;
}

// Nanoseconds of a step of a loop that is the same on every machine: a generator of random numbers.
static double loop(void)
{
    enum { STEPS = 20000000 };
    double best = -1;
    for (int i = 0; i < batches; i++) {
        uint64_t x = 88172645463325252u;
        double begin = now();
        for (int step = 0; step < STEPS; step++) {
            x ^= x << 13;
            x ^= x >> 7;
            x ^= x << 17;
        }
        kept = x;
        double one = (now() - begin) / STEPS;
        if (best < 0 || one < best)
            best = one;
    }
    return best;
}

static void show(const char *path, const struct call *call, struct text text)
{
    count_begin();
    uint64_t answer = call->run(text.bytes, text.length, 0);
    struct counted counted = count_end();
    if (answer == UINT64_MAX) {
        printf("%s\t%s\trefused\n", path, call->name);
        return;
    }
    double time = least(call, text);
    printf("%s\t%s\t%.1f\t%ld\t%ld\t%ld\n", path, call->name, time, counted.allocations, counted.last, counted.peak);
    fflush(stdout);
}

// Whether a name stands between commas in a list.
static int is_listed(const char *name, const char *list)
{
    size_t length = strlen(name);
    for (const char *at = list; at; at = strchr(at, ',') ? strchr(at, ',') + 1 : NULL)
        if (strncmp(at, name, length) == 0 && (at[length] == ',' || at[length] == 0))
            return 1;
    return 0;
}

int main(int count, char **words)
{
    if (count < 3) {
        fprintf(stderr, "usage: driver BATCHES CALL,CALL.. FILE..\n");
        return 2;
    }
    // What is freed stays with the process. Else a text that is large enough for malloc to give its pages back each time takes
    // some times as long as a smaller one, since each page is asked of the system and filled with zeros again.
    mallopt(M_MMAP_MAX, 0);
    mallopt(M_TRIM_THRESHOLD, -1);
    batches = atoi(words[1]);
    printf("loop\t%.3f\n", loop());
    for (int i = 3; i < count; i++) {
        struct text text = text_of(words[i]);
        for (size_t j = 0; j < sizeof CALLS / sizeof *CALLS; j++)
            if (is_listed(CALLS[j].name, words[2]))
                show(words[i], &CALLS[j], text);
        free(text.bytes);
    }
    return 0;
}
