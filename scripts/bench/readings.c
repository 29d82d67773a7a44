// Reads a text so many times, for what counts the instructions of that:   readings COUNT FILE
//
// The file is mapped, so that the heap holds what a reading asks for, and nothing else.
#include "calls.h"

#include <fcntl.h>
#include <stdio.h>
#include <stdlib.h>
#include <sys/mman.h>
#include <sys/stat.h>

int main(int count, char **words)
{
    int readings = count == 3 ? atoi(words[1]) : 0;
    if (readings < 1) {
        fprintf(stderr, "usage: readings COUNT FILE\n");
        return 2;
    }
    int file = open(words[2], O_RDONLY);
    struct stat found;
    if (file < 0 || fstat(file, &found) != 0) {
        perror(words[2]);
        return 2;
    }
    const uint8_t *text = mmap(NULL, found.st_size, PROT_READ, MAP_PRIVATE, file, 0);
    if (text == MAP_FAILED) {
        perror(words[2]);
        return 2;
    }
    for (int i = 0; i < readings; i++)
        if (bench_read(text, found.st_size) == UINT64_MAX)
            return 1;
    return 0;
}
