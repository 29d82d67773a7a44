// malloc and its kin, which count while they are asked to. Bytes are those that malloc gives, which may be a few more than
// were asked for.
#include "counted.h"

#include <malloc.h>
#include <stddef.h>

void *__libc_malloc(size_t size);
void *__libc_calloc(size_t count, size_t size);
void *__libc_realloc(void *block, size_t size);
void __libc_free(void *block);

static int is_counting;
static long live;
static struct counted counted;

void count_begin(void)
{
    counted = (struct counted){0};
    live = 0;
    is_counting = 1;
}

struct counted count_end(void)
{
    is_counting = 0;
    return counted;
}

// A block was given in place of one of so many bytes.
static void *given(void *block, size_t before)
{
    if (!is_counting || !block)
        return block;
    live -= before;
    counted.allocations += 1;
    counted.last = live;
    live += malloc_usable_size(block);
    if (live > counted.peak)
        counted.peak = live;
    return block;
}

void *malloc(size_t size)
{
    return given(__libc_malloc(size), 0);
}

void *calloc(size_t count, size_t size)
{
    return given(__libc_calloc(count, size), 0);
}

void *realloc(void *block, size_t size)
{
    size_t before = is_counting ? malloc_usable_size(block) : 0;
    return given(__libc_realloc(block, size), before);
}

void free(void *block)
{
    if (is_counting)
        live -= malloc_usable_size(block);
    __libc_free(block);
}
