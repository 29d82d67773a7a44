// What a reading with types and checks hardly goes below: the lines found, and no more; and each line's name, number and value kept as
// an item, with no check.
#include "calls.h"

#include <stdlib.h>
#include <string.h>

enum { NAME_ROOM = 16, NEAR_ROOM = 24, FIRST_ITEMS = 32 };

// What a line says, in 48 bytes: a value that is longer than its place lies in memory of its own.
struct item {
    char name[NAME_ROOM];
    uint32_t number;
    uint8_t name_length;
    uint8_t is_far;
    uint16_t length;
    union {
        char near[NEAR_ROOM];
        char *far;
    } value;
};

struct items {
    struct item *at;
    size_t count, room;
};

// Where the line ends: at its line feed, or at the text's end.
static const uint8_t *line_end(const uint8_t *line, const uint8_t *end)
{
    const uint8_t *feed = memchr(line, '\n', (size_t)(end - line));
    return feed ? feed : end;
}

static uint64_t lines_of(const uint8_t *text, size_t length)
{
    const uint8_t *end = text + length;
    uint64_t count = 0;
    for (const uint8_t *line = text; line < end; count++)
        line = line_end(line, end) + 1;
    return count;
}

static int keep_value(struct item *item, const uint8_t *value, size_t length)
{
    char *to = item->value.near;
    item->length = (uint16_t)length;
    item->is_far = length > NEAR_ROOM;
    if (item->is_far && !(to = item->value.far = malloc(length)))
        return 0;
    memcpy(to, value, length);
    return 1;
}

// A line as a name up to ':', a number behind it, and what follows.
static int keep_line(struct item *item, const uint8_t *line, const uint8_t *end)
{
    const uint8_t *colon = memchr(line, ':', (size_t)(end - line)), *at = colon ? colon + 1 : end;
    size_t length = (size_t)((colon ? colon : end) - line);
    item->name_length = (uint8_t)(length < NAME_ROOM ? length : NAME_ROOM);
    memcpy(item->name, line, item->name_length);
    for (item->number = 0; at < end && *at >= '0' && *at <= '9'; at++)
        item->number = item->number * 10 + (uint32_t)(*at - '0');
    return keep_value(item, at, (size_t)(end - at));
}

static struct item *next_item(struct items *items)
{
    if (items->count == items->room) {
        size_t room = items->room ? 2 * items->room : FIRST_ITEMS;
        struct item *at = realloc(items->at, room * sizeof *at);
        if (!at)
            return NULL;
        items->at = at;
        items->room = room;
    }
    return &items->at[items->count++];
}

static void drop_items(struct items *items)
{
    for (size_t i = 0; i < items->count; i++)
        if (items->at[i].is_far)
            free(items->at[i].value.far);
    free(items->at);
}

static uint64_t items_of(const uint8_t *text, size_t length)
{
    const uint8_t *end = text + length;
    struct items items = {0};
    for (const uint8_t *line = text; line < end;) {
        const uint8_t *feed = line_end(line, end), *last = feed > line && feed[-1] == '\r' ? feed - 1 : feed;
        struct item *item = next_item(&items);
        if (!item || !keep_line(item, line, last))
            abort();
        line = feed + 1;
    }
    uint64_t count = items.count;
    drop_items(&items);
    return count;
}

uint64_t floor_lines(const uint8_t *text, size_t length, uint32_t more)
{
    uint64_t count = 0;
    for (uint32_t i = 0; i <= more; i++)
        count += lines_of(text, length);
    return count;
}

uint64_t floor_items(const uint8_t *text, size_t length, uint32_t more)
{
    uint64_t count = 0;
    for (uint32_t i = 0; i <= more; i++)
        count += items_of(text, length);
    return count;
}
