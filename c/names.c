/*
 * names SCHEMA EVENTS writes a schema file and an event file by the names of typestock.h, each of the commands and events at least once. A wall,
 * (1 | 2)* 3, holds racks and boxes and then its mark; a rack holds one mark, or is empty on purpose, and a box has nothing inside.
 */
#include <stdio.h>

#include "typestock.h"

static const uint8_t schema[] = {
    TYPESTOCK_TAGS, 4,
    TYPESTOCK_TYPE, 0, 0,
    TYPESTOCK_OPEN_BRACKET, TYPESTOCK_USE, 1, TYPESTOCK_OR, TYPESTOCK_USE, 2, TYPESTOCK_CLOSE_BRACKET, TYPESTOCK_REPEAT,
    TYPESTOCK_USE, 3, TYPESTOCK_END,
    TYPESTOCK_TYPE, 1, 2, TYPESTOCK_FINAL, 1, TYPESTOCK_STEP, 0, 3, 1, TYPESTOCK_NIL,
    TYPESTOCK_TYPE, 2, 1, TYPESTOCK_FINAL, 0,
    TYPESTOCK_TYPE, 3, 1, TYPESTOCK_FINAL, 0,
    TYPESTOCK_ROOT, 0,
    TYPESTOCK_DONE,
};

static const uint8_t events[] = {
    TYPESTOCK_OPEN, 0,
    TYPESTOCK_OPEN_NIL, 1, TYPESTOCK_CLOSE, 1,
    TYPESTOCK_OPEN, 2, TYPESTOCK_CLOSE, 2,
    TYPESTOCK_OPEN, 1, TYPESTOCK_OPEN, 3, TYPESTOCK_CLOSE, 3, TYPESTOCK_CLOSE, 1,
    TYPESTOCK_OPEN, 3, TYPESTOCK_CLOSE, 3,
    TYPESTOCK_CLOSE, 0,
    TYPESTOCK_FINISH,
};

/* Writes the bytes; is it done? */
static bool write_file(const char *name, const uint8_t *bytes, size_t length)
{
    FILE *f = fopen(name, "wb");
    if (f == NULL)
        return false;
    bool whole = fwrite(bytes, 1, length, f) == length;
    return fclose(f) == 0 && whole;
}

int main(int count, char **words)
{
    bool done = count == 3 && write_file(words[1], schema, sizeof schema) && write_file(words[2], events, sizeof events);
    return done ? 0 : 2;
}
