// Reads files whole.
#include "texts.h"

#include <stdio.h>
#include <stdlib.h>

struct text text_of(const char *path)
{
    FILE *file = fopen(path, "rb");
    if (!file || fseek(file, 0, SEEK_END) != 0)
        exit((perror(path), 1));
    struct text text = {NULL, (size_t)ftell(file)};
    rewind(file);
    text.bytes = malloc(text.length + 1);
    if (!text.bytes || fread(text.bytes, 1, text.length, file) != text.length)
        exit((perror(path), 1));
    text.bytes[text.length] = 0;
    fclose(file);
    return text;
}
