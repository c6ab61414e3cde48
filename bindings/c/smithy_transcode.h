/* Bodies of Smithy services from wire to wire, in process. A table is accepted once; each call then writes the canonical body, in the
   wanted wire, of the value that an input spells, into the caller's memory. Other calls compare two bodies, tell all that is wrong with
   one, or read a form of AWS Query. docs/TABLES.md says what a table is.

   Every call is proved safe for each table, root and input, and its number is that of the program, or 24, or 25 where there is no
   table: docs/PROGRAMS.md says what each means but the last. What no prover sees, and a caller owes:
   - A pointer's length is that of memory which the call may read, or write if it isn't const. Memory that may be written is
     initialised, as by `calloc`, and overlaps nothing else that the call is given.
   - A `size_t *`, a `smithy_table *` and a `smithy_task *` are aligned as C has them by itself.
   - A `smithy_table` is changed by these functions alone. One call at a time uses it, and none after it was freed. It is freed before
     it takes in another table: `smithy_table_accept` doesn't look at what stood there, which is lost. Threads may each have a table
     of their own.
   - The stack suffices. The deepest bodies took 80 KiB when it was measured, and bindings/c/test.c reads them on a thread of 128 KiB.
   - `malloc`, `realloc` and `free` are those of the C library, and no call is made from a signal handler.
   - A pointer is not null, even where its length is 0. The functions with `static inline`, at the end, see to null themselves. Bytes at
     null have no length. A call without a table answers 25, and one without a task, a place for a length or one for a table 2. */
#ifndef SMITHY_TRANSCODE_H
#define SMITHY_TRANSCODE_H

#include <stddef.h>
#include <stdint.h>

#ifdef __cplusplus
extern "C" {
#endif

/* The wires. A form, and CBOR whose lists and maps have their lengths, are written and not read: each CBOR is read as SMITHY_CBOR.
   JSON whose integers may have a fraction or an exponent is read and not written. */
enum {
    SMITHY_JSON = 0,
    SMITHY_JSON_NAME = 1,
    SMITHY_CBOR = 2,
    SMITHY_QUERY = 3,
    SMITHY_CBOR_DEFINITE = 4,
    SMITHY_JSON_INTEGRAL = 5,
    SMITHY_JSON_NAME_INTEGRAL = 6
};

/* What a call answers. */
enum {
    SMITHY_DONE = 0,
    SMITHY_USAGE = 2,                /* a wire that is none, a form whose action or version isn't UTF-8, a body of many that has no place, a
                                        prepared task that isn't of this table, or null in place of a task, of a length or of a table that is
                                        to be accepted */
    SMITHY_OUT_OF_MEMORY = 8,
    SMITHY_INVALID_INPUT = 10,       /* the input spells no value of the root: it is invalid, */
    SMITHY_TOO_DEEP = 11,            /* too deep, */
    SMITHY_TOO_WIDE = 12,            /* or has a number that is too wide, */
    SMITHY_NOT_CARRIED = 13,         /* or one that no instant or document carries */
    SMITHY_DOCUMENT = 14,            /* the wanted wire can't express the value: it has a document, */
    SMITHY_NULL = 15,                /* a null, */
    SMITHY_INSTANT = 16,             /* or an instant that the wire doesn't hold */
    SMITHY_TABLE_REFUSED = 20,
    SMITHY_NO_SUCH_SHAPE = 21,       /* the table has no shape of this name */
    SMITHY_NOT_A_STRUCTURE = 22,
    SMITHY_NO_ROOM = 24,             /* what is to be written is longer than the room for it */
    SMITHY_NO_TABLE = 25,            /* there is no table: it wasn't accepted, or was freed */
    SMITHY_DIFFERS = 40,             /* two bodies spell two values, and their first path is told */
    SMITHY_SECOND_INVALID_INPUT = 41, /* the first of two bodies spells a value, and the second none: as 10 to 13 */
    SMITHY_SECOND_TOO_DEEP = 42,
    SMITHY_SECOND_TOO_WIDE = 43,
    SMITHY_SECOND_NOT_CARRIED = 44,
    SMITHY_FOUND = 60,               /* something was found in a body, and all of it is told */
    SMITHY_NOT_WELL_FORMED = 61,     /* the body is no text of its wire */
    SMITHY_TOO_NESTED = 62,          /* more than 512 containers of the body nest */
    SMITHY_BAD_PAIR = 70,            /* a pair of the form has no =, a % without two digits after it, or isn't UTF-8 */
    SMITHY_NOT_A_FORM = 71,          /* the first pair isn't named Action, or the second isn't named Version */
    SMITHY_REPEATED = 72,            /* a pair of the form has the name of an earlier one */
    SMITHY_NO_VALUE = 73             /* the pairs of the form are those of no value of the root */
};

/* What is found in a body. */
enum {
    SMITHY_KIND_UNKNOWN = 1,         /* an entry that names no member of its structure or union */
    SMITHY_KIND_MISMATCH = 2,        /* what stands there is of another kind, or no value of its kind */
    SMITHY_KIND_WIDE = 3,            /* a big number that leaves the limits of its kind */
    SMITHY_KIND_NOT_CARRIED = 4,     /* the kind can't carry it */
    SMITHY_KIND_DEEP = 5,            /* more than 128 containers would be open */
    SMITHY_KIND_KEY = 6,             /* a key of the container at the path is no text */
    SMITHY_KIND_UNION = 7,           /* the union doesn't have one member */
    SMITHY_KIND_NULL = 8             /* a null stands in a list or a map that isn't sparse */
};

/* A table that was accepted. `{ NULL }` is none. */
typedef struct {
    uint8_t *pointer;
} smithy_table;

/* What is asked for: the name of the root structure, and the wires. Action and Version are those of a form. */
typedef struct {
    const char *root;
    size_t root_len;
    uint32_t from;
    uint32_t to;
    const char *action;
    size_t action_len;
    const char *version;
    size_t version_len;
} smithy_task;

/* A task that was prepared for a table, which keeps it: its root and its wires were looked up then. It is of this table alone, and none once
   that is freed. */
typedef struct {
    smithy_table *table;
    const uint8_t *pointer; /* that of the table when it was prepared */
    size_t number;
} smithy_prepared;

/* What is told of a form: the lengths of its action, its version and the body of its value, which stand one behind another. `pair` is
   the number of the pair that is refused, from 1, or 0. */
typedef struct {
    size_t action_len;
    size_t version_len;
    size_t body_len;
    uint64_t pair;
} smithy_form_told;

/* ---- the library's functions, as their proofs have them: a call takes a table, and hands it back in `place` */

uint8_t smithy_transcode_accept(const uint8_t *text, size_t text_len, smithy_table *place);
void smithy_transcode_free(smithy_table table);
uint8_t smithy_transcode_body(smithy_table table, smithy_table *place,
    const uint8_t *root, size_t root_len, uint32_t from, uint32_t to,
    const uint8_t *action, size_t action_len, const uint8_t *version, size_t version_len,
    const uint8_t *input, size_t input_len, uint8_t *out, size_t out_room, size_t *body_len);
uint8_t smithy_transcode_prepare(smithy_table table, smithy_table *place,
    const uint8_t *root, size_t root_len, uint32_t from, uint32_t to,
    const uint8_t *action, size_t action_len, const uint8_t *version, size_t version_len, size_t *task);
uint8_t smithy_transcode_task(smithy_table table, smithy_table *place, size_t task,
    const uint8_t *input, size_t input_len, uint8_t *out, size_t out_room, size_t *body_len);
uint8_t smithy_transcode_bodies(smithy_table table, smithy_table *place,
    const uint8_t *root, size_t root_len, uint32_t from, uint32_t to,
    const uint8_t *action, size_t action_len, const uint8_t *version, size_t version_len,
    const size_t *ends, size_t ends_len, const uint8_t *input, size_t input_len,
    uint8_t *out, size_t out_room, size_t *out_ends, size_t out_ends_len,
    uint8_t *statuses, size_t statuses_len, size_t *done);
uint8_t smithy_transcode_compare(smithy_table table, smithy_table *place,
    const uint8_t *root, size_t root_len, uint32_t first_wire, const uint8_t *first, size_t first_len,
    uint32_t second_wire, const uint8_t *second, size_t second_len, uint8_t *out, size_t out_room, size_t *path_len);
uint8_t smithy_transcode_findings(smithy_table table, smithy_table *place,
    const uint8_t *root, size_t root_len, uint32_t from, const uint8_t *input, size_t input_len,
    size_t *lens, size_t lens_room, uint8_t *kinds, size_t kinds_room, uint8_t *out, size_t out_room, size_t *count, size_t *len);
uint8_t smithy_transcode_form(smithy_table table, smithy_table *place,
    const uint8_t *root, size_t root_len, uint32_t to,
    const uint8_t *action, size_t action_len, const uint8_t *version, size_t version_len,
    const uint8_t *input, size_t input_len, uint8_t *out, size_t out_room, smithy_form_told *told);

/* ---- the same, where null stands for nothing */

static inline const uint8_t *smithy_bytes(const void *pointer)
{
    static const uint8_t nothing[1] = {0};
    return pointer == NULL ? nothing : (const uint8_t *)pointer;
}

/* Accepts the table that a text is: 0, 8 or 20; or 2 where `table` is null. */
static inline uint8_t smithy_table_accept(smithy_table *table, const void *text, size_t text_len)
{
    if (table == NULL) {
        return SMITHY_USAGE;
    }
    table->pointer = NULL;
    return smithy_transcode_accept(smithy_bytes(text), text == NULL ? 0 : text_len, table);
}

/* Frees a table, if there is one. */
static inline void smithy_table_free(smithy_table *table)
{
    if (table != NULL && table->pointer != NULL) {
        smithy_transcode_free(*table);
        table->pointer = NULL;
    }
}

/* Transcodes one body: 0, where the first `*body_len` bytes of `out` are the body; 24, where it has `*body_len` bytes, and `out` fewer;
   or any other, where `*body_len` is 0. Where the number isn't 0, `out` stays as it was. */
static inline uint8_t smithy_table_transcode(smithy_table *table, const smithy_task *task, const void *input, size_t input_len,
    void *out, size_t out_room, size_t *body_len)
{
    static uint8_t nothing[1];
    if (body_len == NULL) {
        return SMITHY_USAGE;
    }
    *body_len = 0;
    if (table == NULL || table->pointer == NULL) {
        return SMITHY_NO_TABLE;
    }
    if (task == NULL) {
        return SMITHY_USAGE;
    }
    return smithy_transcode_body(*table, table, smithy_bytes(task->root), task->root == NULL ? 0 : task->root_len,
        task->from, task->to, smithy_bytes(task->action), task->action == NULL ? 0 : task->action_len,
        smithy_bytes(task->version), task->version == NULL ? 0 : task->version_len,
        smithy_bytes(input), input == NULL ? 0 : input_len, out == NULL ? nothing : (uint8_t *)out, out == NULL ? 0 : out_room, body_len);
}

/* Prepares a task for bodies of this table: 0, or 2, 8, 21, 22 or 25. The table keeps each task that is prepared until it is freed. It stays
   where it is as long as the task is used. */
static inline uint8_t smithy_table_prepare(smithy_table *table, const smithy_task *task, smithy_prepared *prepared)
{
    if (prepared == NULL) {
        return SMITHY_USAGE;
    }
    prepared->table = NULL;
    if (table == NULL || table->pointer == NULL) {
        return SMITHY_NO_TABLE;
    }
    if (task == NULL) {
        return SMITHY_USAGE;
    }
    uint8_t number = smithy_transcode_prepare(*table, table, smithy_bytes(task->root), task->root == NULL ? 0 : task->root_len,
        task->from, task->to, smithy_bytes(task->action), task->action == NULL ? 0 : task->action_len,
        smithy_bytes(task->version), task->version == NULL ? 0 : task->version_len, &prepared->number);
    if (number == SMITHY_DONE) {
        prepared->table = table;
        prepared->pointer = table->pointer;
    }
    return number;
}

/* Transcodes one body as `smithy_table_transcode`, by a prepared task. It answers 2 where the task wasn't prepared, or for another table
   than the one that stands there now. */
static inline uint8_t smithy_prepared_transcode(const smithy_prepared *prepared, const void *input, size_t input_len,
    void *out, size_t out_room, size_t *body_len)
{
    static uint8_t nothing[1];
    if (body_len == NULL) {
        return SMITHY_USAGE;
    }
    *body_len = 0;
    if (prepared == NULL || prepared->table == NULL) {
        return SMITHY_USAGE;
    }
    if (prepared->table->pointer == NULL) {
        return SMITHY_NO_TABLE;
    }
    if (prepared->table->pointer != prepared->pointer) {
        return SMITHY_USAGE;
    }
    return smithy_transcode_task(*prepared->table, prepared->table, prepared->number, smithy_bytes(input), input == NULL ? 0 : input_len,
        out == NULL ? nothing : (uint8_t *)out, out == NULL ? 0 : out_room, body_len);
}

/* Transcodes `count` bodies, one behind another in `input`, each before its place in `ends`. Their bodies are written one behind another
   to `out`. `out_ends` and `statuses` have room for `count` numbers: where each body ends in `out`, and 0 or why it is refused, and
   then it has no bytes. It answers 0 where all are done; 24 where `out` has no room for the next; 2 where the next ends before it
   begins or behind the input; or 2, 8, 21, 22 or 25 where there is nothing to do. `*done` is how many bodies are done. */
static inline uint8_t smithy_table_transcode_all(smithy_table *table, const smithy_task *task, const size_t *ends, size_t count,
    const void *input, size_t input_len, void *out, size_t out_room, size_t *out_ends, uint8_t *statuses, size_t *done)
{
    static uint8_t nothing[1];
    static size_t none[1];
    if (done == NULL) {
        return SMITHY_USAGE;
    }
    *done = 0;
    if (table == NULL || table->pointer == NULL) {
        return SMITHY_NO_TABLE;
    }
    if (task == NULL) {
        return SMITHY_USAGE;
    }
    return smithy_transcode_bodies(*table, table, smithy_bytes(task->root), task->root == NULL ? 0 : task->root_len,
        task->from, task->to, smithy_bytes(task->action), task->action == NULL ? 0 : task->action_len,
        smithy_bytes(task->version), task->version == NULL ? 0 : task->version_len,
        ends == NULL ? none : ends, ends == NULL ? 0 : count, smithy_bytes(input), input == NULL ? 0 : input_len,
        out == NULL ? nothing : (uint8_t *)out, out == NULL ? 0 : out_room, out_ends == NULL ? none : out_ends, out_ends == NULL ? 0 : count,
        statuses == NULL ? nothing : statuses, statuses == NULL ? 0 : count, done);
}

/* Compares two bodies of one root, each in its wire: 0 where both spell one value; 40 where they spell two, and the first `*path_len`
   bytes of `path` are the text of the first path at which these differ; 24 where that text is longer than its room; 10 to 13 where the
   first body is refused, or 41 to 44 the second; or 2, 8, 21, 22 or 25. `path` is written to with 40 alone, and `*path_len` is 0 but
   with 40 and 24. */
static inline uint8_t smithy_table_compare(smithy_table *table, const char *root, size_t root_len,
    uint32_t first_wire, const void *first, size_t first_len, uint32_t second_wire, const void *second, size_t second_len,
    void *path, size_t path_room, size_t *path_len)
{
    static uint8_t nothing[1];
    if (path_len == NULL) {
        return SMITHY_USAGE;
    }
    *path_len = 0;
    if (table == NULL || table->pointer == NULL) {
        return SMITHY_NO_TABLE;
    }
    return smithy_transcode_compare(*table, table, smithy_bytes(root), root == NULL ? 0 : root_len,
        first_wire, smithy_bytes(first), first == NULL ? 0 : first_len, second_wire, smithy_bytes(second), second == NULL ? 0 : second_len,
        path == NULL ? nothing : (uint8_t *)path, path == NULL ? 0 : path_room, path_len);
}

/* Tells all that is wrong with a body of a root, and each entry that the table doesn't know, in the order of the body: 0 where nothing
   is; 60 where `lens` and `kinds`, which have room for `room` findings, hold the length of each path's text and each kind, and `texts`
   the texts, one behind another; 24 where some of it has no room; 61 or 62 where nothing was looked for; or 2, 8, 21, 22 or 25. With 60
   and 24 `*count` is how many findings there are, and `*texts_len` how long their texts are together; with any other number both are 0.
   Memory is written to with 60 alone. */
static inline uint8_t smithy_table_findings(smithy_table *table, const char *root, size_t root_len, uint32_t wire,
    const void *input, size_t input_len, size_t *lens, uint8_t *kinds, size_t room, void *texts, size_t texts_room,
    size_t *count, size_t *texts_len)
{
    static uint8_t nothing[1];
    static size_t none[1];
    if (count == NULL || texts_len == NULL) {
        return SMITHY_USAGE;
    }
    *count = 0;
    *texts_len = 0;
    if (table == NULL || table->pointer == NULL) {
        return SMITHY_NO_TABLE;
    }
    return smithy_transcode_findings(*table, table, smithy_bytes(root), root == NULL ? 0 : root_len, wire,
        smithy_bytes(input), input == NULL ? 0 : input_len, lens == NULL ? none : lens, lens == NULL ? 0 : room,
        kinds == NULL ? nothing : kinds, kinds == NULL ? 0 : room, texts == NULL ? nothing : (uint8_t *)texts,
        texts == NULL ? 0 : texts_room, count, texts_len);
}

/* Reads a form of AWS Query as a value of the task's root: 0 where `out` begins with its action, its version and the body of its value in
   the wire `task->to`, one behind another, and `*told` has their lengths; 24 where `out` is too short for these; 70 to 73 where the
   form is refused, where `told->pair` is the number of the pair with 70 and 72; 16 where the wire doesn't hold an instant of the value; or
   2, 8, 21, 22 or 25. `out` is written to with 0 alone. `task->from` isn't looked at. */
static inline uint8_t smithy_table_form(smithy_table *table, const smithy_task *task, const void *input, size_t input_len,
    void *out, size_t out_room, smithy_form_told *told)
{
    static uint8_t nothing[1];
    static const smithy_form_told nothing_told = {0, 0, 0, 0};
    if (told == NULL) {
        return SMITHY_USAGE;
    }
    *told = nothing_told;
    if (table == NULL || table->pointer == NULL) {
        return SMITHY_NO_TABLE;
    }
    if (task == NULL) {
        return SMITHY_USAGE;
    }
    return smithy_transcode_form(*table, table, smithy_bytes(task->root), task->root == NULL ? 0 : task->root_len, task->to,
        smithy_bytes(task->action), task->action == NULL ? 0 : task->action_len,
        smithy_bytes(task->version), task->version == NULL ? 0 : task->version_len,
        smithy_bytes(input), input == NULL ? 0 : input_len, out == NULL ? nothing : (uint8_t *)out, out == NULL ? 0 : out_room, told);
}

#ifdef __cplusplus
}
#endif

#endif
