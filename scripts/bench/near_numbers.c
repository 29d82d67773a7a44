// Writes numbers of 32 bits that stand near each other in a table by the toolchain's hash:   near_numbers COUNT
//
// The hash of four bytes folds them, twice beside each other and crossed with its seed, with its constant crossed with twice their
// number. A table takes both halves of that, crossed, modulo its size, which is a power of two: those that are given are alike in
// their last fifteen bits.
#include <inttypes.h>
#include <stdio.h>
#include <stdlib.h>

static uint32_t place(uint64_t number)
{
    uint64_t seed = 0x243f6a8885a308d3u, constant = 0x9e3779b97f4a7c15u;
    unsigned __int128 product = (unsigned __int128)(seed ^ (number | number << 32)) * (constant ^ 8);
    uint64_t hash = (uint64_t)product ^ (uint64_t)(product >> 64);
    return (uint32_t)(hash ^ hash >> 32);
}

int main(int count, char **words)
{
    long left = count == 2 ? atol(words[1]) : 0;
    for (uint64_t number = 1; left > 0 && number <= UINT32_MAX; number++)
        if ((place(number) & 0x7fff) == 1) {
            printf("%" PRIu64 "\n", number);
            left--;
        }
    return left > 0;
}
