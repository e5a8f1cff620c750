/*
 * example SCHEMA EVENTS types a document: it prints what the program `typestock` prints of a schema file and an event file. A schema that is refused
 * for a type that no valid document uses is written anew without such types, and the events are typed under that.
 *
 * example next SCHEMA EVENTS [LENGTH] prints what the program `whatnext` prints of them: where the events are refused, what would have been taken.
 * LENGTH is that of the witness buffer; without it the buffer has as many bytes as are needed.
 *
 * Where two roots compete both say so in words, in place of the programs' line `type 255 gives J or K after 0`. Both read the files whole, where the
 * programs read the first 16,384 bytes of a schema and print `too long` for more than 32,768 bytes of events.
 */
#include <inttypes.h>
#include <stdio.h>
#include <stdlib.h>
#include <string.h>

#include "typestock.h"

struct bytes {
    uint8_t *at; /* never NULL, so that no bytes can be handed over too */
    size_t length;
};

static void stop(const char *what, const char *name)
{
    fprintf(stderr, "example: %s %s\n", what, name);
    exit(2);
}

/* A buffer of the length, all 0, to which nothing but its owner writes. */
static struct bytes buffer(size_t length)
{
    struct bytes b = {calloc(length > 0 ? length : 1, 1), length};
    if (b.at == NULL)
        stop("no memory", "");
    return b;
}

static struct bytes file(const char *name)
{
    size_t room = 4096;
    struct bytes b = buffer(room);
    FILE *f = fopen(name, "rb");
    if (f == NULL)
        stop("cannot open", name);
    b.length = 0;
    for (size_t got; (got = fread(b.at + b.length, 1, room - b.length, f)) > 0;) {
        b.length += got;
        if (b.length == room) {
            room *= 2;
            b.at = realloc(b.at, room);
            if (b.at == NULL)
                stop("no memory for", name);
        }
    }
    if (ferror(f))
        stop("cannot read", name);
    fclose(f);
    return b;
}

/* A refused schema: its number and place, and on competition what the witness says. */
static void print_refused(uint8_t number, size_t place, const uint8_t *witness)
{
    printf("schema refused %" PRIu8 " at %zu\n", number, place);
    if (number != TYPESTOCK_COMPETITION)
        return;
    if (witness[0] == TYPESTOCK_NO_PARENT)
        printf("the roots %d and %d have one tag\n", witness[1], witness[2]);
    else
        printf("type %d gives %d or %d after %d\n", witness[0], witness[1], witness[2], witness[3] + 256 * witness[4]);
}

/* A line for each opening taken, with its level, tag and type, and the event file's answer. */
static void print_typed(struct bytes events, struct typestock_document d, const uint8_t *types)
{
    struct typestock_opening o = {false, 0, 0, 0};
    printf("depth tag type\n");
    for (size_t i = 0; i < d.count; i++) {
        o = typestock_next_opening(events.at, events.length, o.at, o.level);
        if (!o.found)
            stop("an opening taken is not found", "");
        printf("%zu %" PRIu8 " %" PRIu8 "\n", o.level, o.tag, types[i]);
    }
    if (d.number == TYPESTOCK_TAKEN)
        printf("accepted %zu\n", d.count);
    else
        printf("refused %" PRIu8 " at %zu\n", d.number, d.place);
}

/* Types the events under the schema and prints what comes of it. The schema's number. */
static uint8_t print_document(struct bytes schema, struct bytes events)
{
    struct bytes witness = buffer(TYPESTOCK_WITNESS);
    struct bytes types = buffer(events.length / 2);
    struct typestock_document d = typestock_type_document(
        schema.at, schema.length, events.at, events.length, witness.at, witness.length, types.at, types.length);
    if (d.schema_number == TYPESTOCK_ACCEPTED)
        print_typed(events, d, types.at);
    else
        print_refused(d.schema_number, d.schema_place, witness.at);
    free(witness.at);
    free(types.at);
    return d.schema_number;
}

/* Are all bytes 0? */
static bool zeros(const void *at, size_t length)
{
    for (size_t i = 0; i < length; i++)
        if (((const uint8_t *)at)[i] != 0)
            return false;
    return true;
}

/* A line for the elements that are open, and one for each event that would have been taken. */
static void print_taken(struct typestock_expected e)
{
    printf("inside");
    for (size_t i = 0; i < e.depth; i++)
        printf(" %" PRIu8, e.types[i]);
    printf("\n");
    for (size_t i = 0; i < e.count; i++)
        printf("open %s%" PRIu8 "\n", e.nils[i] ? "nil " : "", e.tags[i]);
    if (e.closes)
        printf("close\n");
    if (e.finishes)
        printf("finish\n");
}

/* The event file's answer, and what would have been taken where it is refused. */
static void print_expected(struct bytes schema, struct bytes events, size_t length)
{
    struct bytes witness = buffer(length);
    struct typestock_expected e = typestock_expect_document(
        schema.at, schema.length, events.at, events.length, witness.at, witness.length);
    bool refused = e.schema_number != TYPESTOCK_ACCEPTED;
    if (refused && (e.number != e.schema_number || e.place != e.schema_place))
        stop("a refused schema's number or place is not told twice", "");
    if ((refused || e.number == TYPESTOCK_TAKEN) && (e.depth != 0 || e.count != 0 || e.closes || e.finishes))
        stop("something is left to be taken", "");
    if (!zeros(e.types + e.depth, sizeof e.types - e.depth) || !zeros(e.tags + e.count, sizeof e.tags - e.count)
        || !zeros(e.nils + e.count, sizeof e.nils - e.count))
        stop("an entry past a count is not 0", "");
    if (refused)
        print_refused(e.schema_number, e.schema_place, witness.at);
    else if (e.number == TYPESTOCK_TAKEN)
        printf("accepted\n");
    else {
        printf("refused %" PRIu8 " at %zu\n", e.number, e.place);
        print_taken(e);
    }
    free(witness.at);
}

/* Writes a schema without the types that no valid document uses, and types the events under that. */
static void print_written_anew(struct bytes schema, struct bytes events)
{
    struct bytes out = buffer(schema.length + TYPESTOCK_MOST_GAINED);
    struct typestock_written w = typestock_write_reduced(schema.at, schema.length, out.at, out.length);
    if (w.number == TYPESTOCK_WRITTEN) {
        out.length = w.length;
        printf("written anew, %zu bytes for %zu\n", out.length, schema.length);
        print_document(out, events);
    } else {
        printf("not written anew: %" PRIu8 "\n", w.number);
    }
    free(out.at);
}

/* The number that a word of decimal digits is. */
static size_t number(const char *word)
{
    if (*word == 0 || word[strspn(word, "0123456789")] != 0)
        stop("not a length:", word);
    return strtoul(word, NULL, 10);
}

int main(int count, char **words)
{
    bool next = count > 3 && strcmp(words[1], "next") == 0;
    if (count != 3 && !(next && count <= 5))
        stop("is given", "SCHEMA EVENTS, or next SCHEMA EVENTS [LENGTH]");
    struct bytes schema = file(words[next ? 2 : 1]);
    struct bytes events = file(words[next ? 3 : 2]);
    if (next)
        print_expected(schema, events, count == 5 ? number(words[4]) : TYPESTOCK_WITNESS);
    else if (print_document(schema, events) == TYPESTOCK_UNUSED_TYPE)
        print_written_anew(schema, events);
    free(schema.at);
    free(events.at);
    return 0;
}
