/*
 * typestock: the typing engine of a stock-import pipeline, for C and C++.
 *
 * Link crates/typestock_c/out/libtypestock_c.a, which `rt lib` in crates/typestock_c writes; x86-64 Linux. The library calls memcpy and memset of C's
 * library and nothing else: it allocates nothing, reads and writes no file, and has no data that it writes. Nothing is kept between calls, so
 * any number of threads may call at once, each with buffers of its own. A call runs on a stack of 128 KB, which is tested and not proved.
 *
 * Each function answers every input: there is no byte of a schema or event file, no length and no cursor that it may not be given. What
 * it answers, and what each byte of a lent buffer holds afterwards, is proved; the promises stand in crates/typestock_c/specs/.
 *
 * THE CALLER'S DUTIES, which no proof can take over:
 *   - A run of bytes goes over as two arguments, a pointer and the number of bytes behind it. The number is true: that many bytes may be
 *     read there, and written where the pointer is not to const. It is at most PTRDIFF_MAX.
 *   - A pointer is never NULL. For no bytes pass any pointer that is not NULL, and the length 0.
 *   - A buffer (`witness`, `types`, `out`) shares no byte with a file or with another buffer. `schema` and `events` may be the same bytes.
 *   - The bytes are initialised, the buffers' too, and until the call returns no other thread writes any of them or reads a buffer.
 */
#ifndef TYPESTOCK_H
#define TYPESTOCK_H

#include <stdbool.h>
#include <stddef.h>
#include <stdint.h>

#ifdef __cplusplus
extern "C" {
#endif

/* The least length of a witness buffer: with fewer bytes every schema is refused with TYPESTOCK_SHORT_WITNESS. */
#define TYPESTOCK_WITNESS 532

/* In place of type A at the head of a witness: two roots compete, before any element is open. No type has this number. */
#define TYPESTOCK_NO_PARENT 255

/*
 * The greatest length of an accepted schema file with one ROOT and only the commands 10 to 14 and 1F. One with more ROOTs may be longer, by two
 * bytes for each, one with NIL by a byte for each, and one with expressions too: an expression has no largest length.
 */
#define TYPESTOCK_LONGEST_SCHEMA 8389

/*
 * The most bytes by which a written schema file can be longer than the one that it is written of: for blocks that are written by their states, a FINAL for
 * each of 32 states of 64 types, and 1,024 STEPs. That is counted, and not proved.
 */
#define TYPESTOCK_MOST_GAINED 8192

/* The most levels that may be open in a document. */
#define TYPESTOCK_LEVELS 64

/* The most openings that can be listed at one place: each of 32 tags plainly and as nil. */
#define TYPESTOCK_OPENINGS 64

/* The commands of a schema file, by their first bytes, each with the operands that follow it, a byte each. */
#define TYPESTOCK_TAGS 0x10  /* count: the number of tags */
#define TYPESTOCK_TYPE 0x11  /* tag, states: begins the next type's block; with 0 for the states an expression follows */
#define TYPESTOCK_FINAL 0x12 /* state: it accepts */
#define TYPESTOCK_STEP 0x13  /* from, type, to: a child of the type leads from the one state to the other */
#define TYPESTOCK_ROOT 0x14  /* type: the root element may be of it */
#define TYPESTOCK_NIL 0x15   /* the type of this block is nillable */
#define TYPESTOCK_DONE 0x1F  /* the end */

/* Those of an expression. */
#define TYPESTOCK_OPEN_BRACKET 0x30
#define TYPESTOCK_CLOSE_BRACKET 0x31
#define TYPESTOCK_USE 0x32    /* type: a child of it */
#define TYPESTOCK_OR 0x33     /* divides what is chosen from */
#define TYPESTOCK_REPEAT 0x34 /* what stands right before it, zero or more times */
#define TYPESTOCK_END 0x3F    /* the end of the expression */

/*
 * The events of an event file, likewise. An element that is opened as nil has a nillable type and no children: it is empty on purpose, whatever its
 * content would need.
 */
#define TYPESTOCK_OPEN 0x21     /* tag: an element opens */
#define TYPESTOCK_CLOSE 0x22    /* tag: the innermost element closes */
#define TYPESTOCK_OPEN_NIL 0x23 /* tag: an element opens as nil */
#define TYPESTOCK_FINISH 0x2F   /* the document ends */

/*
 * The answers to a schema file: the number of the first question that is answered no, with the place of the command in question. Each command
 * in turn is asked 2, 3, 4, 21, 22, 23, 5 and 6, in this order; after the last come 7, 8, 24 and 9.
 *
 * The content of a type is given by states, with FINAL and STEP, or, after a TYPE with state count 0, by an expression: 32 and a type is a use of
 * that type, what stands side by side comes in that order, 33 divides what is chosen from, 30 and 31 are brackets, 34 repeats the use or
 * the brackets before it zero or more times, and 3F ends the expression. Both may stand in one file. docs/FORMATS.md says what it becomes.
 *
 * NIL makes a type nillable. It is given at most once in a block: in one by states anywhere after its TYPE, in one by an expression after its 3F.
 * A nillable type bears a tree, a nil element, whatever its content.
 *
 * ROOT is given one to eight times, each time with another type, after all types and right before DONE. A document's root element may be of any of
 * these types.
 */
#define TYPESTOCK_ACCEPTED 0        /* accepted; place 0 */
#define TYPESTOCK_SHORT_WITNESS 1   /* the witness buffer has fewer than 532 bytes; place 0 */
#define TYPESTOCK_NO_COMMAND 2      /* no command, or its operands run past the end; an unfinished file: at its length */
#define TYPESTOCK_OUT_OF_ORDER 3    /* a command out of its order: also one of an expression outside, any other inside, NIL among these, a NIL
                                       outside a block, a FINAL or STEP after a 3F, and any but ROOT and DONE after a ROOT; a byte after
                                       DONE: at that byte */
#define TYPESTOCK_OUT_OF_RANGE 4    /* an operand out of range: also a ROOT with a type that was not given */
#define TYPESTOCK_TOO_MANY 5        /* a 65th type, a 1,025th step or a ninth ROOT; for an expression's steps at its 3F */
#define TYPESTOCK_REPEATED 6        /* a FINAL, STEP or NIL that its block already has, or a second ROOT of one type */
#define TYPESTOCK_UNKNOWN_TYPE 7    /* a STEP or a 32 with a type that was not given; the first such in the file */
#define TYPESTOCK_NO_TREE 8         /* no root type bears a tree, plain or nil; place 0 */
#define TYPESTOCK_COMPETITION 9     /* two types that both are nillable, or both bear a tree opened by 21, compete, as roots or inside a type, as
                                       the witness shows; place 0 */
#define TYPESTOCK_CANNOT_FOLLOW 21  /* in an expression, a 31 with no bracket open, a 34 that is not right after a 32 or a 31, or a 3F with
                                       a bracket open */
#define TYPESTOCK_TOO_MANY_USES 22  /* a 32nd use in one expression */
#define TYPESTOCK_TOO_MANY_BRACKETS 23 /* a 17th bracket open in an expression */
#define TYPESTOCK_UNUSED_TYPE 24    /* no valid document has an element of a type; the place of the first such TYPE. typestock_write_reduced
                                       writes the file without such types */

/*
 * The answers to an event file: the number of the first question that is answered no, with the place of the event in question.
 * Number 10 is for made-up values, which these functions take none of: it is never answered.
 */
#define TYPESTOCK_TAKEN 0             /* taken whole; the place is the file's length */
#define TYPESTOCK_FINISHED 11         /* an event after the finish */
#define TYPESTOCK_UNKNOWN_TAG 12      /* a tag that is not below the schema's count */
#define TYPESTOCK_NO_SUCH_OPENING 13  /* an opening with which, of its kind, no valid document goes on: any inside a nil element is such */
#define TYPESTOCK_TOO_DEEP 14         /* an opening of a 65th level */
#define TYPESTOCK_NOTHING_OPEN 15     /* a closing where no element is open */
#define TYPESTOCK_OTHER_TAG 16        /* a closing of another tag than the innermost element's */
#define TYPESTOCK_INCOMPLETE 17       /* a closing of an element, not nil, whose children form no word of its content automaton */
#define TYPESTOCK_ROOT_NOT_CLOSED 18  /* a finish before the root was opened and closed */
#define TYPESTOCK_NO_EVENT 19         /* none of the four events, or its tag runs past the end; no finish: at the file's length */
#define TYPESTOCK_NO_ROOM 20          /* an opening for whose type the buffer has no byte left */

/*
 * The answers of typestock_write_reduced: of those to a schema file TYPESTOCK_NO_COMMAND to TYPESTOCK_COMPETITION and TYPESTOCK_CANNOT_FOLLOW to
 * TYPESTOCK_TOO_MANY_BRACKETS, and then TYPESTOCK_NO_ROOM. There is no witness buffer and no question about unused types: neither
 * TYPESTOCK_SHORT_WITNESS nor TYPESTOCK_UNUSED_TYPE is answered.
 */
#define TYPESTOCK_WRITTEN 0 /* the file is written */

/* A schema file's answer. */
struct typestock_schema {
    uint8_t number; /* TYPESTOCK_ACCEPTED to TYPESTOCK_COMPETITION, or TYPESTOCK_CANNOT_FOLLOW to TYPESTOCK_UNUSED_TYPE */
    size_t place;   /* where a refused file is refused; 0 for an accepted one */
};

/* The answer to a schema file and an event file. */
struct typestock_document {
    uint8_t schema_number; /* the schema file's, as in struct typestock_schema */
    size_t schema_place;
    uint8_t number; /* the event file's: TYPESTOCK_TAKEN alone where it is taken whole, or TYPESTOCK_FINISHED to TYPESTOCK_NO_ROOM */
    size_t place;   /* the refused event's; the file's length where it is taken */
    size_t count;   /* the openings taken: that many types were written */
    /* where the schema is refused no event is read: number and place are the schema's once more, and count is 0 */
};

/* What would have been taken where an event file is refused. Entries of `types` past `depth`, and of `tags` and `nils` past `count`, are 0. */
struct typestock_expected {
    uint8_t schema_number; /* the schema file's, as in struct typestock_schema */
    size_t schema_place;
    uint8_t number; /* the event file's: TYPESTOCK_TAKEN alone where it is taken whole, or TYPESTOCK_FINISHED to TYPESTOCK_NO_EVENT */
    size_t place;   /* the refused event's; the file's length where it is taken */
    size_t depth;   /* the elements that are open there */
    uint8_t types[TYPESTOCK_LEVELS];  /* their types, `depth` of them, from the root down */
    size_t count;                     /* the openings that would have been taken there */
    uint8_t tags[TYPESTOCK_OPENINGS]; /* their tags, `count` of them, rising; of one tag the plain opening comes before the nil one */
    bool nils[TYPESTOCK_OPENINGS];    /* whether each is TYPESTOCK_OPEN_NIL, else it is TYPESTOCK_OPEN */
    bool closes;                      /* whether a TYPESTOCK_CLOSE of the innermost element's tag would have been taken there */
    bool finishes;                    /* whether a TYPESTOCK_FINISH would have been */
    /* where the schema is refused no event is read: number and place are the schema's once more, and the rest is 0 */
};

/* The answer of a call that writes a file. */
struct typestock_written {
    uint8_t number; /* TYPESTOCK_WRITTEN, or why nothing is written */
    size_t length;  /* the bytes written; 0 where nothing is */
};

/* The next opening of an event file, and where to look on from. Two bytes before `at` it begins, with TYPESTOCK_OPEN or TYPESTOCK_OPEN_NIL. */
struct typestock_opening {
    bool found;
    uint8_t tag;  /* the opening's tag; 0 where none is found */
    size_t at;    /* the place past the opening; where none is found, the place handed in */
    size_t level; /* the opening's level, the root's being 1; where none is found, the level handed in */
};

/*
 * Answers the schema file.
 *
 * schema    the file's bytes.
 * witness   a buffer, of TYPESTOCK_WITNESS bytes or more for an answer other than 1. On TYPESTOCK_COMPETITION its first 5 + n bytes say why:
 *           type A, types J and K, the length n of a word in two bytes, the low one first, and the word, a byte a type. J < K, both have one
 *           tag, and both bear a tree opened by 21 or both are nillable. Where A is TYPESTOCK_NO_PARENT they are root types: a document may
 *           begin with either, and n is 0. This is looked at first. Else no two roots compete: after that word of children an element of type A
 *           may go on with J or with K, opened by that kind, and A is the smallest type in which two compete. The word is shortest: no two types
 *           compete in A after fewer children. So A and n are fixed by the schema, n is at most 527, and J, K and the word are one choice of
 *           those that are left. The rest of the buffer is unchanged; on every other answer all of it is.
 */
struct typestock_schema typestock_check_schema(const uint8_t *schema, size_t schema_length, uint8_t *witness, size_t witness_length);

/*
 * Answers the schema file and, where that is accepted, types the event file under it.
 *
 * schema, witness   as above.
 * events            the event file's bytes.
 * types             a buffer: the first `count` bytes get the types of the openings taken, in order, also where a later event is refused;
 *                   the rest is unchanged. A byte for every two of the event file is always enough. It may have length 0.
 */
struct typestock_document typestock_type_document(
    const uint8_t *schema, size_t schema_length,
    const uint8_t *events, size_t events_length,
    uint8_t *witness, size_t witness_length,
    uint8_t *types, size_t types_length);

/*
 * Answers the schema file and, where that is accepted, tells what would have been taken where the event file is refused: the types of the elements
 * that are open there, each tag with each kind of opening, and whether a closing and a finish. Exactly those are told with which the events taken
 * begin a valid document, of any depth, and open no 65th level; the finish where it makes them a whole one. After a finish nothing is open and
 * nothing would be taken, and so where the file is taken whole.
 *
 * The file is walked with no buffer for types: TYPESTOCK_NO_ROOM is never answered, and number and place are those of typestock_type_document with a
 * buffer that is long enough.
 *
 * schema, witness   as above.
 * events            the event file's bytes.
 */
struct typestock_expected typestock_expect_document(
    const uint8_t *schema, size_t schema_length,
    const uint8_t *events, size_t events_length,
    uint8_t *witness, size_t witness_length);

/*
 * Writes a schema file without the types that no valid document uses: for files that were stored before such types were refused. The types that
 * stay are numbered anew in their order. The block of a type that goes is left out, and so are STEPs by it and its ROOT; all other commands keep
 * their order. A type that stays, and whose expression names one that goes, is written by its states: a TYPE with all of them, FINALs rising, and
 * STEPs rising by from, type and to. The written file is accepted, the same documents are valid under it, and each gets the same types, renumbered. A
 * file with nothing to leave out comes back byte for byte.
 *
 * schema    the file's bytes.
 * out       a buffer: where the file is written its first `length` bytes get the file, and the rest is unchanged; on every other number all of
 *           it is. It may have length 0. The written file is longer than the schema file only where expressions are written by states, and
 *           a buffer of schema_length + TYPESTOCK_MOST_GAINED bytes is enough.
 */
struct typestock_written typestock_write_reduced(const uint8_t *schema, size_t schema_length, uint8_t *out, size_t out_length);

/*
 * Finds the first opening, plain or nil, of the event file from the place `at` on, where `level` elements are open. It passes over closings and
 * finishes and stops where the file ends or goes on with what is no event. To go through all openings, start with at 0 and level 0 and hand back
 * the `at` and `level` of each; the first `count` of them are those that typestock_type_document wrote types of. A closing at level 0 leaves
 * 0, and a level of SIZE_MAX stays.
 */
struct typestock_opening typestock_next_opening(const uint8_t *events, size_t events_length, size_t at, size_t level);

#ifdef __cplusplus
}
#endif

#endif
