// Refuses allocations of the program that it is loaded into by LD_PRELOAD: the one whose number, from 1, stands in the environment
// under REFUSED; and, where EXHAUSTED is set, each that is asked for while a block of so many bytes is held. In the end it says on
// standard error how many were asked for, and how many blocks are still held. A block that is to be no larger than what malloc has
// given for it stays where it is: that is none of them.
#include <malloc.h>
#include <stddef.h>
#include <stdio.h>
#include <stdlib.h>

void *__libc_malloc(size_t size);
void *__libc_calloc(size_t count, size_t size);
void *__libc_realloc(void *block, size_t size);
void __libc_free(void *block);

static long asked, held;
static void *marking; // the block that stands for exhausted memory, while it is held

static long number(const char *name)
{
    const char *text = getenv(name);
    return text ? atol(text) : 0;
}

static int is_refused(void)
{
    asked += 1;
    return marking || asked == number("REFUSED");
}

static void *given(void *block, size_t size)
{
    if (block && (long)size == number("EXHAUSTED"))
        marking = block;
    held += block != NULL;
    return block;
}

void *malloc(size_t size)
{
    return is_refused() ? NULL : given(__libc_malloc(size), size);
}

void *calloc(size_t count, size_t size)
{
    return is_refused() ? NULL : given(__libc_calloc(count, size), 0);
}

void *realloc(void *block, size_t size)
{
    if (!block)
        return malloc(size);
    int has_room = size <= malloc_usable_size(block);
    return !has_room && is_refused() ? NULL : __libc_realloc(block, size);
}

void free(void *block)
{
    if (block == marking)
        marking = NULL;
    held -= block != NULL;
    __libc_free(block);
}

__attribute__((destructor)) static void tell(void)
{
    dprintf(2, "allocations: %ld, held: %ld\n", asked, held);
}
