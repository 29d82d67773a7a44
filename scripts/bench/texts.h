// Files that are read whole, as the programs that time calls take them.
#ifndef TEXTS_H
#define TEXTS_H

#include <stddef.h>
#include <stdint.h>

struct text {
    uint8_t *bytes; // a zero follows them
    size_t length;
};

struct text text_of(const char *path); // ends the program where the file isn't read

#endif
