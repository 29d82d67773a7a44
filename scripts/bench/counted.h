// Counts what is asked of malloc in the whole process, the libraries that are linked to it included.
#ifndef COUNTED_H
#define COUNTED_H

struct counted {
    long allocations; // calls of malloc, calloc and realloc
    long last;        // bytes held at the last of them, without what that one gave
    long peak;        // the most bytes held at once
};

void count_begin(void);
struct counted count_end(void);

#endif
