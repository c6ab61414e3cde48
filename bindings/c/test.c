/* Calls each function of smithy_transcode.h, and ends with 1 where one answers otherwise than is expected. */
#include "smithy_transcode.h"

#include <pthread.h>
#include <stdio.h>
#include <stdlib.h>
#include <string.h>
#include <sys/resource.h>

static const char TEXT[] = "structure S\nmember a integer\nmember l L\nmember t timestamp\nmember x document\nlist L string sparse\n";
static int failed;

static void expect(const char *what, int holds)
{
    if (!holds) {
        fprintf(stderr, "failed: %s\n", what);
        failed = 1;
    }
}

static smithy_task task_of(const char *root, uint32_t from, uint32_t to)
{
    smithy_task task = {root, strlen(root), from, to, "Do", 2, "1", 1};
    return task;
}

/* One body into ample room: the number, and the body where there is one. */
static void row(smithy_table *table, smithy_task task, const char *input, size_t input_len, int number, const char *body, size_t body_len)
{
    uint8_t room[256];
    size_t len = 99;
    memset(room, 0x55, sizeof room);
    int answered = smithy_table_transcode(table, &task, input, input_len, room, sizeof room, &len);
    if (answered != number || len != body_len || memcmp(room, body, body_len) != 0) {
        fprintf(stderr, "failed: `%.*s` answers %d and `%.*s`, and not %d\n", (int)input_len, input, answered, (int)len, room, number);
        failed = 1;
    }
    for (size_t at = body_len; at < sizeof room; at++) {
        if (room[at] != 0x55) {
            fprintf(stderr, "failed: `%.*s` changes memory behind the body\n", (int)input_len, input);
            failed = 1;
            break;
        }
    }
}

#define TEXT_ROW(root, from, to, input, number, body) \
    row(&table, task_of(root, from, to), input, sizeof(input) - 1, number, body, sizeof(body) - 1)

static void rows(void)
{
    smithy_table table = {NULL};
    expect("a table is accepted", smithy_table_accept(&table, TEXT, sizeof TEXT - 1) == SMITHY_DONE && table.pointer != NULL);
    TEXT_ROW("S", SMITHY_JSON, SMITHY_JSON, "{\"z\":[1], \"l\":[\"x\"], \"a\" : 7}", SMITHY_DONE, "{\"a\":7,\"l\":[\"x\"]}");
    TEXT_ROW("S", SMITHY_JSON, SMITHY_CBOR, "{\"a\":7}", SMITHY_DONE, "\xbf\x61\x61\x07\xff");
    TEXT_ROW("S", SMITHY_JSON, SMITHY_CBOR_DEFINITE, "{\"l\":[\"x\"]}", SMITHY_DONE, "\xbf\x61\x6c\x81\x61\x78\xff");
    TEXT_ROW("S", SMITHY_CBOR, SMITHY_JSON_NAME, "\xa1\x61\x61\x07", SMITHY_DONE, "{\"a\":7}");
    TEXT_ROW("S", SMITHY_JSON, SMITHY_QUERY, "{\"a\":7}", SMITHY_DONE, "Action=Do&Version=1&a=7");
    TEXT_ROW("S", SMITHY_JSON, SMITHY_JSON, "{\"a\":7.5}", SMITHY_INVALID_INPUT, "");
    TEXT_ROW("S", SMITHY_JSON, SMITHY_JSON, "", SMITHY_DONE, "{}");
    TEXT_ROW("S", SMITHY_JSON, SMITHY_JSON, "{\"x\":1.5}", SMITHY_NOT_CARRIED, "");
    TEXT_ROW("S", SMITHY_JSON, SMITHY_CBOR, "{\"x\":1}", SMITHY_DOCUMENT, "");
    TEXT_ROW("S", SMITHY_JSON, SMITHY_QUERY, "{\"l\":[null]}", SMITHY_NULL, "");
    TEXT_ROW("S", SMITHY_JSON, SMITHY_CBOR, "{\"t\":1.5}", SMITHY_INSTANT, "");
    TEXT_ROW("S", SMITHY_QUERY, SMITHY_JSON, "{}", SMITHY_USAGE, "");
    TEXT_ROW("S", SMITHY_CBOR_DEFINITE, SMITHY_JSON, "\xa0", SMITHY_USAGE, "");
    TEXT_ROW("S", SMITHY_JSON_INTEGRAL, SMITHY_JSON, "{\"a\":7.0}", SMITHY_DONE, "{\"a\":7}");
    TEXT_ROW("S", SMITHY_JSON_NAME_INTEGRAL, SMITHY_JSON, "{\"a\":7.0}", SMITHY_DONE, "{\"a\":7}");
    TEXT_ROW("S", SMITHY_JSON, SMITHY_JSON_INTEGRAL, "{}", SMITHY_USAGE, "");
    TEXT_ROW("S", SMITHY_JSON, 99, "{}", SMITHY_USAGE, "");
    TEXT_ROW("Q", SMITHY_JSON, SMITHY_JSON, "{}", SMITHY_NO_SUCH_SHAPE, "");
    TEXT_ROW("\xff", SMITHY_JSON, SMITHY_JSON, "{}", SMITHY_NO_SUCH_SHAPE, "");
    TEXT_ROW("L", SMITHY_JSON, SMITHY_JSON, "[]", SMITHY_NOT_A_STRUCTURE, "");
    /* a wire that is none comes before the root */
    TEXT_ROW("Q", SMITHY_QUERY, SMITHY_JSON, "{}", SMITHY_USAGE, "");
    TEXT_ROW("Q", SMITHY_JSON, 99, "{}", SMITHY_USAGE, "");
    TEXT_ROW("L", SMITHY_JSON, SMITHY_JSON_INTEGRAL, "[]", SMITHY_USAGE, "");
    smithy_task form = task_of("S", SMITHY_JSON, SMITHY_QUERY);
    form.action = "\xff";
    form.action_len = 1;
    row(&table, form, "{}", 2, SMITHY_USAGE, "", 0);
    smithy_table_free(&table);
    expect("a table that is freed is none", table.pointer == NULL);
    TEXT_ROW("S", SMITHY_JSON, SMITHY_JSON, "{}", SMITHY_NO_TABLE, "");
    smithy_table_free(&table);
}

static void deep(void)
{
    smithy_table table = {NULL};
    char input[300] = "{\"z\":";
    size_t len = strlen(input);
    memset(input + len, '[', 128);
    memset(input + len + 128, ']', 128);
    input[len + 256] = '}';
    expect("a table is accepted", smithy_table_accept(&table, TEXT, sizeof TEXT - 1) == SMITHY_DONE);
    row(&table, task_of("S", SMITHY_JSON, SMITHY_JSON), input, len + 257, SMITHY_TOO_DEEP, "", 0);
    smithy_table_free(&table);
}

static void wide(void)
{
    static const char text[] = "structure S\nmember n bigInteger\n";
    static const char input[] = "{\"n\":1000000000000000000000000000000000000000}";
    smithy_table table = {NULL};
    expect("a table is accepted", smithy_table_accept(&table, text, sizeof text - 1) == SMITHY_DONE);
    row(&table, task_of("S", SMITHY_JSON, SMITHY_JSON), input, sizeof input - 1, SMITHY_TOO_WIDE, "", 0);
    smithy_table_free(&table);
}

/* Room for the body and no more, one byte less, and none. */
static void room(void)
{
    smithy_table table = {NULL};
    smithy_task task = task_of("S", SMITHY_JSON, SMITHY_JSON);
    uint8_t out[8] = {0};
    size_t len = 0;
    expect("a table is accepted", smithy_table_accept(&table, TEXT, sizeof TEXT - 1) == SMITHY_DONE);
    expect("the body fills the room", smithy_table_transcode(&table, &task, "{\"a\":7}", 7, out, 7, &len) == SMITHY_DONE && len == 7);
    memset(out, 0x55, sizeof out);
    expect("a byte is missing", smithy_table_transcode(&table, &task, "{\"a\":7}", 7, out, 6, &len) == SMITHY_NO_ROOM && len == 7);
    expect("nothing is written then", out[0] == 0x55);
    expect("there is no room", smithy_table_transcode(&table, &task, "{\"a\":7}", 7, NULL, 0, &len) == SMITHY_NO_ROOM && len == 7);
    expect("null is an empty input", smithy_table_transcode(&table, &task, NULL, 0, out, 8, &len) == SMITHY_DONE && len == 2);
    smithy_table_free(&table);
}

static void refused_tables(void)
{
    smithy_table table = {NULL};
    expect("no line of a table", smithy_table_accept(&table, "x\n", 2) == SMITHY_TABLE_REFUSED && table.pointer == NULL);
    expect("a float", smithy_table_accept(&table, "structure S\nmember a float\n", 27) == SMITHY_TABLE_REFUSED);
    expect("an empty table", smithy_table_accept(&table, NULL, 0) == SMITHY_DONE);
    TEXT_ROW("S", SMITHY_JSON, SMITHY_JSON, "{}", SMITHY_NO_SUCH_SHAPE, "");
    smithy_table_free(&table);
}

/* Null in place of a table, a task, a length or a count, with all else as it should be. */
static void nulls(void)
{
    smithy_table table = {NULL};
    smithy_task task = task_of("S", SMITHY_JSON, SMITHY_JSON);
    uint8_t out[8] = {0}, status = 77;
    size_t end = 2, out_end = 77, len = 99, done = 99;
    expect("null for the table that is accepted", smithy_table_accept(NULL, TEXT, sizeof TEXT - 1) == SMITHY_USAGE);
    smithy_table_free(NULL);
    expect("no table at all", smithy_table_transcode(NULL, &task, "{}", 2, out, 8, &len) == SMITHY_NO_TABLE && len == 0);
    expect("no table at all for many",
        smithy_table_transcode_all(NULL, &task, &end, 1, "{}", 2, out, 8, &out_end, &status, &done) == SMITHY_NO_TABLE && done == 0);
    expect("neither a table nor a length", smithy_table_transcode(NULL, NULL, "{}", 2, out, 8, NULL) == SMITHY_USAGE);
    expect("a table is accepted", smithy_table_accept(&table, TEXT, sizeof TEXT - 1) == SMITHY_DONE);
    len = done = 99;
    expect("no task", smithy_table_transcode(&table, NULL, "{}", 2, out, 8, &len) == SMITHY_USAGE && len == 0);
    expect("no task for many",
        smithy_table_transcode_all(&table, NULL, &end, 1, "{}", 2, out, 8, &out_end, &status, &done) == SMITHY_USAGE && done == 0);
    expect("no place for the length", smithy_table_transcode(&table, &task, "{}", 2, out, 8, NULL) == SMITHY_USAGE);
    expect("no place for the count",
        smithy_table_transcode_all(&table, &task, &end, 1, "{}", 2, out, 8, &out_end, &status, NULL) == SMITHY_USAGE);
    expect("nothing is written then", out[0] == 0 && out_end == 77 && status == 77);
    expect("the table is still there", smithy_table_transcode(&table, &task, "{}", 2, out, 8, &len) == SMITHY_DONE && len == 2);
    smithy_table_free(&table);
}

/* A table is freed before another one is accepted in its place: neither is lost, which the checkers of memory would tell. */
static void table_after_table(void)
{
    static const char other[] = "structure T\nmember b integer\n";
    smithy_table table = {NULL};
    expect("a table is accepted", smithy_table_accept(&table, TEXT, sizeof TEXT - 1) == SMITHY_DONE);
    smithy_table_free(&table);
    expect("another is accepted", smithy_table_accept(&table, other, sizeof other - 1) == SMITHY_DONE);
    TEXT_ROW("T", SMITHY_JSON, SMITHY_JSON, "{\"b\":7}", SMITHY_DONE, "{\"b\":7}");
    TEXT_ROW("S", SMITHY_JSON, SMITHY_JSON, "{}", SMITHY_NO_SUCH_SHAPE, "");
    smithy_table_free(&table);
}

/* A body of 128 containers, one in the other: what stands in front of those that repeat, one of them, and what stands inside of all. */
struct nest {
    const char *front, *open, *inside, *close;
    int refused; /* by the wires without documents */
};

static const struct nest NESTS[] = {
    {"", "\"s\":{", "", "}", 0},
    {"\"l\":", "[", "", "]", 0},
    {"\"m\":{", "\"k\":{", "", "}", 0},
    {"\"u\":{", "\"u\":{", "\"n\":7", "}", 0},
    {"\"x\":", "[", "", "]", 1},
    {"\"x\":{", "\"k\":{", "", "}", 1},
};

static size_t nested(const struct nest *nest, char *body)
{
    size_t len = (size_t)sprintf(body, "{%s", nest->front);
    int opened = nest->front[0] != 0 && nest->open[0] != '[';
    for (int n = opened; n < 127; n++) {
        len += (size_t)sprintf(body + len, "%s", nest->open);
    }
    len += (size_t)sprintf(body + len, "%s", nest->inside);
    for (int n = 0; n < 127; n++) {
        len += (size_t)sprintf(body + len, "%s", nest->close);
    }
    return len + (size_t)sprintf(body + len, "}");
}

/* The deepest bodies, from JSON to each wire, and from CBOR back. */
static void *deepest(void *unused)
{
    static const char text[] = "structure S\nmember s S\nmember l L\nmember m M\nmember u U\nmember x document\n"
                               "list L L\nmap M M\nunion U\nmember u U\nmember n long\n";
    static const uint32_t wires[] = {SMITHY_JSON, SMITHY_CBOR, SMITHY_CBOR_DEFINITE, SMITHY_QUERY};
    static char body[2048];
    static uint8_t out[1 << 18], back[4096];
    smithy_table table = {NULL};
    (void)unused;
    expect("a table is accepted", smithy_table_accept(&table, text, sizeof text - 1) == SMITHY_DONE);
    for (size_t n = 0; n < sizeof NESTS / sizeof NESTS[0]; n++) {
        size_t body_len = nested(&NESTS[n], body), len = 0, back_len = 0;
        for (size_t w = 0; w < sizeof wires / sizeof wires[0]; w++) {
            smithy_task task = task_of("S", SMITHY_JSON, wires[w]);
            int wanted = NESTS[n].refused && wires[w] != SMITHY_JSON ? SMITHY_DOCUMENT : SMITHY_DONE;
            expect("a deep body", smithy_table_transcode(&table, &task, body, body_len, out, sizeof out, &len) == wanted);
            if (wanted == SMITHY_DONE && (wires[w] == SMITHY_CBOR || wires[w] == SMITHY_CBOR_DEFINITE)) {
                task = task_of("S", SMITHY_CBOR, SMITHY_JSON);
                expect("a deep body of CBOR", smithy_table_transcode(&table, &task, out, len, back, sizeof back, &back_len) == SMITHY_DONE);
                expect("the same body", back_len == body_len && memcmp(back, body, body_len) == 0);
            }
        }
    }
    smithy_table_free(&table);
    return NULL;
}

/* A thread with no more stack than one of musl has by default. */
static void stack(void)
{
    pthread_attr_t attributes;
    pthread_t id;
    pthread_attr_init(&attributes);
    expect("a small stack", pthread_attr_setstacksize(&attributes, 128 << 10) == 0);
    expect("a thread", pthread_create(&id, &attributes, deepest, NULL) == 0);
    pthread_join(id, NULL);
    pthread_attr_destroy(&attributes);
}

/* A body of more than 16 MiB, which is the limit of the program and not of the library. */
static void long_body(void)
{
    static const size_t count = 17u << 20;
    smithy_table table = {NULL};
    smithy_task task = task_of("S", SMITHY_JSON, SMITHY_CBOR);
    char *input = malloc(count + 16);
    uint8_t *out = calloc(count + 16, 1);
    size_t len = 0;
    if (input == NULL || out == NULL) {
        expect("memory", 0);
        return;
    }
    memcpy(input, "{\"l\":[\"", 7);
    memset(input + 7, 'x', count);
    memcpy(input + 7 + count, "\"]}", 3);
    expect("a table is accepted", smithy_table_accept(&table, TEXT, sizeof TEXT - 1) == SMITHY_DONE);
    expect("a long body", smithy_table_transcode(&table, &task, input, count + 10, out, count + 16, &len) == SMITHY_DONE);
    expect("its length", len == 1 + 2 + 1 + 5 + count + 2);
    smithy_table_free(&table);
    free(input);
    free(out);
}

/* Many bodies of one call: each by its own, and what ends the call. */
static void many(void)
{
    static const char input[] = "{\"a\":1}{\"a\":}{ \"a\":2}";
    size_t ends[3] = {7, 13, 21};
    smithy_table table = {NULL};
    smithy_task task = task_of("S", SMITHY_JSON, SMITHY_JSON);
    uint8_t out[32] = {0}, statuses[3] = {0};
    size_t out_ends[3] = {0}, done = 9;
    expect("a table is accepted", smithy_table_accept(&table, TEXT, sizeof TEXT - 1) == SMITHY_DONE);
    expect("many", smithy_table_transcode_all(&table, &task, ends, 3, input, 21, out, sizeof out, out_ends, statuses, &done) == SMITHY_DONE && done == 3);
    expect("their statuses", statuses[0] == 0 && statuses[1] == SMITHY_INVALID_INPUT && statuses[2] == 0);
    expect("their ends", out_ends[0] == 7 && out_ends[1] == 7 && out_ends[2] == 14);
    expect("their bodies", memcmp(out, "{\"a\":1}{\"a\":2}", 14) == 0);
    memset(out, 0x55, sizeof out);
    out_ends[2] = statuses[2] = 77;
    expect("no room for the third", smithy_table_transcode_all(&table, &task, ends, 3, input, 21, out, 13, out_ends, statuses, &done) == SMITHY_NO_ROOM && done == 2);
    expect("the third stays", out[7] == 0x55 && out_ends[2] == 77 && statuses[2] == 77);
    ends[2] = 12;
    expect("an end before the one before it", smithy_table_transcode_all(&table, &task, ends, 3, input, 21, out, 32, out_ends, statuses, &done) == SMITHY_USAGE && done == 2);
    ends[2] = 22;
    expect("an end behind the input", smithy_table_transcode_all(&table, &task, ends, 3, input, 21, out, 32, out_ends, statuses, &done) == SMITHY_USAGE && done == 2);
    expect("an end behind the input, and no room", smithy_table_transcode_all(&table, &task, ends, 3, input, 21, out, 14, out_ends, statuses, &done) == SMITHY_USAGE && done == 2);
    expect("no place for ends, and no room", smithy_table_transcode_all(&table, &task, ends, 3, input, 21, out, 0, NULL, statuses, &done) == SMITHY_USAGE && done == 0);
    expect("no place for statuses", smithy_table_transcode_all(&table, &task, ends, 3, input, 21, out, 32, out_ends, NULL, &done) == SMITHY_USAGE && done == 0);
    expect("none", smithy_table_transcode_all(&table, &task, NULL, 0, NULL, 0, NULL, 0, NULL, NULL, &done) == SMITHY_DONE && done == 0);
    task.to = 9;
    expect("no such wire", smithy_table_transcode_all(&table, &task, ends, 3, input, 21, out, 32, out_ends, statuses, &done) == SMITHY_USAGE && done == 0);
    smithy_table_free(&table);
    expect("no table", smithy_table_transcode_all(&table, &task, ends, 3, input, 21, out, 32, out_ends, statuses, &done) == SMITHY_NO_TABLE && done == 0);
}

/* ---- prepared tasks */

static void prepared(void)
{
    smithy_table table = {NULL}, other = {NULL};
    static const char text[] = "structure T\nmember b integer\n";
    smithy_task to_cbor = task_of("S", SMITHY_JSON, SMITHY_CBOR), to_form = task_of("S", SMITHY_JSON, SMITHY_QUERY);
    smithy_prepared cbor, form, none = {NULL, NULL, 0};
    uint8_t out[64];
    size_t len = 99, number = 99;
    expect("a table is accepted", smithy_table_accept(&table, TEXT, sizeof TEXT - 1) == SMITHY_DONE);
    expect("another is accepted", smithy_table_accept(&other, text, sizeof text - 1) == SMITHY_DONE);
    expect("a task is prepared", smithy_table_prepare(&table, &to_cbor, &cbor) == SMITHY_DONE && cbor.number == 0);
    expect("another is prepared", smithy_table_prepare(&table, &to_form, &form) == SMITHY_DONE && form.number == 1);
    for (int n = 0; n < 3; n++) {
        expect("a body by a task", smithy_prepared_transcode(&cbor, "{\"a\":7}", 7, out, sizeof out, &len) == SMITHY_DONE && len == 5);
        expect("that body", memcmp(out, "\xbf\x61\x61\x07\xff", 5) == 0);
        expect("a body by the other", smithy_prepared_transcode(&form, "{\"a\":7}", 7, out, sizeof out, &len) == SMITHY_DONE && len == 23);
        expect("that form", memcmp(out, "Action=Do&Version=1&a=7", 23) == 0);
        expect("a body that is refused", smithy_prepared_transcode(&cbor, "{", 1, out, sizeof out, &len) == SMITHY_INVALID_INPUT && len == 0);
        expect("a body without room", smithy_prepared_transcode(&cbor, "{\"a\":7}", 7, out, 4, &len) == SMITHY_NO_ROOM && len == 5);
    }
    expect("no such number", smithy_transcode_task(table, &table, 2, smithy_bytes(NULL), 0, out, sizeof out, &len) == SMITHY_USAGE && len == 0);
    expect("a task of another table", smithy_transcode_task(other, &other, 0, smithy_bytes(NULL), 0, out, sizeof out, &len) == SMITHY_USAGE && len == 0);
    expect("a root of another table", smithy_table_prepare(&other, &to_cbor, &none) == SMITHY_NO_SUCH_SHAPE && none.table == NULL);
    expect("a task that wasn't prepared", smithy_prepared_transcode(&none, "", 0, out, sizeof out, &len) == SMITHY_USAGE && len == 0);
    to_cbor.root = "L";
    expect("a root that is none", smithy_table_prepare(&table, &to_cbor, &none) == SMITHY_NOT_A_STRUCTURE);
    to_cbor.to = SMITHY_JSON_INTEGRAL;
    expect("a wire that is none", smithy_table_prepare(&table, &to_cbor, &none) == SMITHY_USAGE);
    expect("no task to prepare", smithy_table_prepare(&table, NULL, &none) == SMITHY_USAGE);
    expect("no place for a task", smithy_table_prepare(&table, &to_form, NULL) == SMITHY_USAGE);
    expect("no number was given", smithy_transcode_prepare(table, &table, smithy_bytes("Q"), 1, 0, 0, smithy_bytes(NULL), 0, smithy_bytes(NULL), 0, &number) == SMITHY_NO_SUCH_SHAPE && number == 99);
    smithy_table_free(&other);
    smithy_prepared moved = cbor;
    moved.pointer = NULL;
    expect("a task of another table in this place", smithy_prepared_transcode(&moved, "", 0, out, sizeof out, &len) == SMITHY_USAGE && len == 0);
    smithy_table_free(&table);
    expect("a task of no table", smithy_prepared_transcode(&cbor, "", 0, out, sizeof out, &len) == SMITHY_NO_TABLE && len == 0);
    expect("no table to prepare for", smithy_table_prepare(&table, &to_form, &none) == SMITHY_NO_TABLE);
}

/* ---- two bodies compared */

/* One comparison: the number, and the text of the path where there is one. */
static void pair(smithy_table *table, const char *root, uint32_t wire1, const char *first, size_t first_len, uint32_t wire2,
    const char *second, size_t second_len, int number, const char *path)
{
    char room[64];
    size_t len = 99;
    memset(room, 0x55, sizeof room);
    int answered = smithy_table_compare(table, root, strlen(root), wire1, first, first_len, wire2, second, second_len, room, sizeof room, &len);
    if (answered != number || len != strlen(path) || memcmp(room, path, len) != 0 || room[len] != 0x55) {
        fprintf(stderr, "failed: `%.*s` and `%.*s` answer %d and `%.*s`, and not %d and `%s`\n", (int)first_len, first, (int)second_len, second,
            answered, (int)len, room, number, path);
        failed = 1;
    }
}

#define PAIR(root, wire1, first, wire2, second, number, path) \
    pair(&table, root, wire1, first, sizeof(first) - 1, wire2, second, sizeof(second) - 1, number, path)

static void compared(void)
{
    static char deep[512];
    static const char text[] = "structure S\nmember a integer\nmember n bigInteger\nmember x document\nmember m M\nmap M string\n";
    static const char wide[] = "{\"n\":1000000000000000000000000000000000000000}";
    smithy_table table = {NULL};
    char path[8];
    size_t len = 99;
    expect("a table is accepted", smithy_table_accept(&table, text, sizeof text - 1) == SMITHY_DONE);
    PAIR("S", SMITHY_JSON, "{\"z\":1, \"a\":7}", SMITHY_CBOR, "\xa1\x61\x61\x07", SMITHY_DONE, "");
    PAIR("S", SMITHY_JSON, "{\"a\":7}", SMITHY_JSON, "{\"a\":8}", SMITHY_DIFFERS, "$.a");
    PAIR("S", SMITHY_JSON, "{\"m\":{\"k\":\"x\"}}", SMITHY_JSON_NAME, "{\"m\":{}}", SMITHY_DIFFERS, "$.m{\"k\"}");
    PAIR("S", SMITHY_JSON_INTEGRAL, "{\"a\":7.0}", SMITHY_JSON_NAME_INTEGRAL, "{\"a\":7}", SMITHY_DONE, "");
    PAIR("S", SMITHY_JSON, "", SMITHY_CBOR, "", SMITHY_DONE, "");
    size_t deep_len = (size_t)sprintf(deep, "{\"z\":%0128d", 0);
    memset(deep + deep_len - 128, '[', 128);
    deep_len += (size_t)sprintf(deep + deep_len, "%0128d}", 0);
    memset(deep + deep_len - 129, ']', 128);
    static const char *const bodies[] = {"{\"a\":7.5}", deep, wide, "{\"x\":1.5}"};
    for (int n = 0; n < 4; n++) {
        pair(&table, "S", SMITHY_JSON, bodies[n], strlen(bodies[n]), SMITHY_JSON, "{", 1, SMITHY_INVALID_INPUT + n, "");
        pair(&table, "S", SMITHY_JSON, "{}", 2, SMITHY_JSON, bodies[n], strlen(bodies[n]), SMITHY_SECOND_INVALID_INPUT + n, "");
    }
    PAIR("S", SMITHY_QUERY, "", SMITHY_JSON, "{}", SMITHY_USAGE, "");
    PAIR("S", SMITHY_JSON, "{}", SMITHY_CBOR_DEFINITE, "\xa0", SMITHY_USAGE, "");
    PAIR("S", SMITHY_JSON, "{}", 99, "", SMITHY_USAGE, "");
    PAIR("Q", SMITHY_JSON, "{}", 99, "", SMITHY_USAGE, "");
    PAIR("Q", SMITHY_JSON, "{}", SMITHY_JSON, "{}", SMITHY_NO_SUCH_SHAPE, "");
    PAIR("\xff", SMITHY_JSON, "{}", SMITHY_JSON, "{}", SMITHY_NO_SUCH_SHAPE, "");
    PAIR("M", SMITHY_JSON, "{}", SMITHY_JSON, "{}", SMITHY_NOT_A_STRUCTURE, "");
    memset(path, 0x55, sizeof path);
    expect("the path fills its room",
        smithy_table_compare(&table, "S", 1, SMITHY_JSON, "{\"a\":1}", 7, SMITHY_JSON, "{}", 2, path, 3, &len) == SMITHY_DIFFERS && len == 3);
    expect("the path, and no more", memcmp(path, "$.aU", 4) == 0);
    memset(path, 0x55, sizeof path);
    expect("a path longer than its room",
        smithy_table_compare(&table, "S", 1, SMITHY_JSON, "{\"a\":1}", 7, SMITHY_JSON, "{}", 2, path, 2, &len) == SMITHY_NO_ROOM && len == 3);
    expect("nothing is written then", path[0] == 0x55);
    expect("no room at all",
        smithy_table_compare(&table, "S", 1, SMITHY_JSON, "{\"a\":1}", 7, SMITHY_JSON, NULL, 0, NULL, 0, &len) == SMITHY_NO_ROOM && len == 3);
    expect("no room for no path", smithy_table_compare(&table, "S", 1, SMITHY_JSON, NULL, 0, SMITHY_JSON, NULL, 0, NULL, 0, &len) == SMITHY_DONE && len == 0);
    expect("no place for the length", smithy_table_compare(&table, "S", 1, SMITHY_JSON, "", 0, SMITHY_JSON, "", 0, path, 8, NULL) == SMITHY_USAGE);
    smithy_table_free(&table);
    len = 99;
    expect("no table", smithy_table_compare(&table, "S", 1, SMITHY_JSON, "", 0, SMITHY_JSON, "", 0, path, 8, &len) == SMITHY_NO_TABLE && len == 0);
}

/* ---- findings */

struct findings {
    size_t lens[8];
    uint8_t kinds[8];
    char texts[64];
    size_t count, len;
};

static int find(smithy_table *table, const char *root, uint32_t wire, const char *input, size_t input_len, size_t room, size_t texts_room,
    struct findings *it)
{
    memset(it, 0x55, sizeof *it);
    return smithy_table_findings(table, root, strlen(root), wire, input, input_len, it->lens, it->kinds, room, it->texts, texts_room,
        &it->count, &it->len);
}

/* One finding in a body: its path and its kind. */
static void finding(smithy_table *table, uint32_t wire, const char *input, size_t input_len, const char *path, int kind)
{
    struct findings it;
    int answered = find(table, "S", wire, input, input_len, 8, 64, &it);
    if (answered != SMITHY_FOUND || it.count != 1 || it.len != strlen(path) || it.lens[0] != it.len || memcmp(it.texts, path, it.len) != 0
        || it.kinds[0] != kind || it.kinds[1] != 0x55 || it.texts[it.len] != 0x55) {
        fprintf(stderr, "failed: `%.*s` answers %d, `%.*s` and %d, and not `%s` and %d\n", (int)input_len, input, answered, (int)it.len, it.texts,
            it.kinds[0], path, kind);
        failed = 1;
    }
}

#define FINDING(wire, input, path, kind) finding(&table, wire, input, sizeof(input) - 1, path, kind)

static void findings(void)
{
    static const char text[] = "structure S\nmember a integer\nmember n bigInteger\nmember t timestamp\nmember l L\nmember u U\n"
                               "list L string\nunion U\nmember s S\nmember n long\n";
    static char nested[2048];
    smithy_table table = {NULL};
    struct findings it;
    expect("a table is accepted", smithy_table_accept(&table, text, sizeof text - 1) == SMITHY_DONE);
    FINDING(SMITHY_JSON, "{\"z\":1}", "${\"z\"}", SMITHY_KIND_UNKNOWN);
    FINDING(SMITHY_JSON, "{\"a\":7.5}", "$.a", SMITHY_KIND_MISMATCH);
    FINDING(SMITHY_JSON, "{\"n\":1000000000000000000000000000000000000000}", "$.n", SMITHY_KIND_WIDE);
    FINDING(SMITHY_JSON, "{\"t\":0.0000000001}", "$.t", SMITHY_KIND_NOT_CARRIED);
    FINDING(SMITHY_CBOR, "\xa1\x01\x07", "$", SMITHY_KIND_KEY);
    FINDING(SMITHY_JSON, "{\"u\":{}}", "$.u", SMITHY_KIND_UNION);
    FINDING(SMITHY_JSON, "{\"l\":[null]}", "$.l[0]", SMITHY_KIND_NULL);
    FINDING(SMITHY_JSON_INTEGRAL, "{\"a\":7.0,\"l\":[1]}", "$.l[0]", SMITHY_KIND_MISMATCH);
    size_t len = (size_t)sprintf(nested, "{\"z\":%0128d", 0);
    memset(nested + len - 128, '[', 128);
    len += (size_t)sprintf(nested + len, "%0128d}", 0);
    memset(nested + len - 129, ']', 128);
    expect("too deep", find(&table, "S", SMITHY_JSON, nested, len, 8, 64, &it) == SMITHY_FOUND && it.count == 2 && it.kinds[1] == SMITHY_KIND_DEEP);
    expect("nothing", find(&table, "S", SMITHY_JSON, "{\"a\":7}", 7, 8, 64, &it) == SMITHY_DONE && it.count == 0 && it.len == 0 && it.kinds[0] == 0x55);
    expect("nothing in an empty body", find(&table, "S", SMITHY_CBOR, NULL, 0, 0, 0, &it) == SMITHY_DONE && it.count == 0);
    expect("no text", find(&table, "S", SMITHY_JSON, "{", 1, 8, 64, &it) == SMITHY_NOT_WELL_FORMED && it.count == 0 && it.len == 0);
    memset(nested, '[', 513);
    memset(nested + 513, ']', 513);
    expect("too nested", find(&table, "S", SMITHY_JSON, nested, 1026, 8, 64, &it) == SMITHY_TOO_NESTED && it.count == 0);
    expect("no wire", find(&table, "S", SMITHY_QUERY, "", 0, 8, 64, &it) == SMITHY_USAGE);
    expect("a wire that is written alone", find(&table, "Q", SMITHY_CBOR_DEFINITE, "", 0, 8, 64, &it) == SMITHY_USAGE);
    expect("no shape", find(&table, "Q", SMITHY_JSON, "", 0, 8, 64, &it) == SMITHY_NO_SUCH_SHAPE);
    expect("no structure", find(&table, "L", SMITHY_JSON, "", 0, 8, 64, &it) == SMITHY_NOT_A_STRUCTURE);
    static const char three[] = "{\"z\":1, \"a\":\"x\", \"l\":[\"x\",7]}";
    expect("three", find(&table, "S", SMITHY_JSON, three, sizeof three - 1, 3, 15, &it) == SMITHY_FOUND && it.count == 3 && it.len == 15);
    expect("their texts", memcmp(it.texts, "${\"z\"}$.a$.l[1]U", 16) == 0 && it.lens[0] == 6 && it.lens[1] == 3 && it.lens[2] == 6);
    expect("their kinds", it.kinds[0] == SMITHY_KIND_UNKNOWN && it.kinds[1] == SMITHY_KIND_MISMATCH && it.kinds[2] == SMITHY_KIND_MISMATCH && it.kinds[3] == 0x55);
    expect("no room for a text", find(&table, "S", SMITHY_JSON, three, sizeof three - 1, 3, 14, &it) == SMITHY_NO_ROOM && it.count == 3 && it.len == 15);
    expect("nothing is written then", it.texts[0] == 0x55 && it.kinds[0] == 0x55 && it.lens[0] == it.lens[7]);
    expect("no room for a finding", find(&table, "S", SMITHY_JSON, three, sizeof three - 1, 2, 64, &it) == SMITHY_NO_ROOM && it.count == 3 && it.kinds[0] == 0x55);
    expect("no places",
        smithy_table_findings(&table, "S", 1, SMITHY_JSON, three, sizeof three - 1, NULL, NULL, 9, NULL, 9, &it.count, &it.len) == SMITHY_NO_ROOM && it.count == 3);
    expect("no place for the count",
        smithy_table_findings(&table, "S", 1, SMITHY_JSON, three, 2, it.lens, it.kinds, 3, it.texts, 15, NULL, &it.len) == SMITHY_USAGE);
    smithy_table_free(&table);
    expect("no table", find(&table, "S", SMITHY_JSON, "", 0, 8, 64, &it) == SMITHY_NO_TABLE && it.count == 0 && it.len == 0);
}

/* ---- forms */

/* One form into ample room: the number, the parts with a bar behind the action and the version, and the pair. */
static void form(smithy_table *table, smithy_task task, const char *input, int number, const char *parts, uint64_t refused)
{
    char room[128], found[160];
    smithy_form_told told = {9, 9, 9, 9};
    memset(room, 0x55, sizeof room);
    int answered = smithy_table_form(table, &task, input, strlen(input), room, sizeof room, &told);
    const char *version = room + told.action_len, *body = version + told.version_len;
    int len = snprintf(found, sizeof found, "%.*s|%.*s|%.*s", (int)told.action_len, room, (int)told.version_len, version, (int)told.body_len, body);
    if (answered != number || strlen(parts) != (size_t)len || memcmp(found, parts, (size_t)len) != 0 || body[told.body_len] != 0x55 || told.pair != refused) {
        fprintf(stderr, "failed: `%s` answers %d and `%s`, and not %d and `%s`\n", input, answered, found, number, parts);
        failed = 1;
    }
}

static void forms(void)
{
    smithy_table table = {NULL};
    smithy_task to_json = task_of("S", 99, SMITHY_JSON), to_query = task_of("S", SMITHY_JSON, SMITHY_QUERY);
    smithy_form_told told;
    char out[16];
    expect("a table is accepted", smithy_table_accept(&table, TEXT, sizeof TEXT - 1) == SMITHY_DONE);
    form(&table, to_json, "Action=Go&Version=1+2&l.member.1=x%26&a=7", SMITHY_DONE, "Go|1 2|{\"a\":7,\"l\":[\"x&\"]}", 0);
    form(&table, task_of("S", SMITHY_JSON, SMITHY_CBOR), "Action=Go&Version=1&a=7", SMITHY_DONE, "Go|1|\xbf\x61\x61\x07\xff", 0);
    form(&table, to_query, "Action=Go&Version=2&a=7", SMITHY_DONE, "Go|2|Action=Do&Version=1&a=7", 0);
    form(&table, to_json, "Action=Go&Version=1&a", SMITHY_BAD_PAIR, "||", 3);
    form(&table, to_json, "Action=Go&Version=%2", SMITHY_BAD_PAIR, "||", 2);
    form(&table, to_json, "", SMITHY_BAD_PAIR, "||", 1);
    form(&table, to_json, "Version=1&Action=Go", SMITHY_NOT_A_FORM, "||", 0);
    form(&table, to_json, "Action=Go", SMITHY_NOT_A_FORM, "||", 0);
    form(&table, to_json, "Action=Go&Version=1&a=7&a=7", SMITHY_REPEATED, "||", 4);
    form(&table, to_json, "Action=Go&Version=1&a=07", SMITHY_NO_VALUE, "||", 0);
    form(&table, task_of("S", SMITHY_JSON, SMITHY_CBOR), "Action=Go&Version=1&t=2000-01-01T00%3A00%3A00.5Z", SMITHY_INSTANT, "||", 0);
    form(&table, task_of("S", SMITHY_JSON, SMITHY_JSON_INTEGRAL), "", SMITHY_USAGE, "||", 0);
    form(&table, task_of("Q", SMITHY_JSON, 99), "", SMITHY_USAGE, "||", 0);
    form(&table, task_of("Q", SMITHY_JSON, SMITHY_JSON), "", SMITHY_NO_SUCH_SHAPE, "||", 0);
    form(&table, task_of("L", SMITHY_JSON, SMITHY_JSON), "", SMITHY_NOT_A_STRUCTURE, "||", 0);
    to_query.action = "\xff";
    to_query.action_len = 1;
    form(&table, to_query, "Action=Go&Version=2&a=7", SMITHY_USAGE, "||", 0);
    memset(out, 0x55, sizeof out);
    expect("the parts fill the room", smithy_table_form(&table, &to_json, "Action=Go&Version=1&a=7", 23, out, 10, &told) == SMITHY_DONE);
    expect("the parts, and no more", memcmp(out, "Go1{\"a\":7}U", 11) == 0);
    memset(out, 0x55, sizeof out);
    for (size_t room = 0; room < 10; room++) {
        expect("a byte is missing", smithy_table_form(&table, &to_json, "Action=Go&Version=1&a=7", 23, out, room, &told) == SMITHY_NO_ROOM);
        expect("nothing is written then", out[0] == 0x55 && told.action_len == 2 && told.version_len == 1 && told.body_len == 7 && told.pair == 0);
    }
    expect("no task", smithy_table_form(&table, NULL, "", 0, out, 16, &told) == SMITHY_USAGE && told.body_len == 0);
    expect("no place for what is told", smithy_table_form(&table, &to_json, "", 0, out, 16, NULL) == SMITHY_USAGE);
    smithy_table_free(&table);
    expect("no table", smithy_table_form(&table, &to_json, "", 0, out, 16, &told) == SMITHY_NO_TABLE && told.pair == 0);
}

/* So many calls with one table leave the memory of the process as it is. */
static void memory(long count)
{
    smithy_table table = {NULL};
    smithy_task task = task_of("S", SMITHY_JSON, SMITHY_CBOR);
    struct rusage begun, ended;
    uint8_t out[64] = {0};
    size_t len = 0;
    expect("a table is accepted", smithy_table_accept(&table, TEXT, sizeof TEXT - 1) == SMITHY_DONE);
    getrusage(RUSAGE_SELF, &begun);
    for (long n = 0; n < count; n++) {
        const char *body = n % 2 == 0 ? "{\"a\":7,\"l\":[\"x\",null]}" : "{\"a\":7,\"l\":[\"x\",nul]}";
        int answered = smithy_table_transcode(&table, &task, body, strlen(body), out, sizeof out, &len);
        if (answered != (n % 2 == 0 ? SMITHY_DONE : SMITHY_INVALID_INPUT)) {
            expect("a call of many", 0);
            break;
        }
    }
    getrusage(RUSAGE_SELF, &ended);
    expect("no growth of memory", ended.ru_maxrss - begun.ru_maxrss < 256);
    smithy_table_free(&table);
}

/* Four threads with a table each. */
static void *work(void *unused)
{
    smithy_table table = {NULL};
    smithy_task task = task_of("S", SMITHY_JSON, SMITHY_JSON);
    char body[32];
    uint8_t out[32] = {0};
    size_t len = 0;
    (void)unused;
    if (smithy_table_accept(&table, TEXT, sizeof TEXT - 1) != SMITHY_DONE) {
        return &failed;
    }
    for (int n = 0; n < 20000; n++) {
        int count = snprintf(body, sizeof body, "{\"a\":%d}", n);
        if (smithy_table_transcode(&table, &task, body, (size_t)count, out, sizeof out, &len) != SMITHY_DONE || len != (size_t)count || memcmp(out, body, len) != 0) {
            return &failed;
        }
    }
    smithy_table_free(&table);
    return NULL;
}

static void threads(void)
{
    pthread_t ids[4];
    for (int n = 0; n < 4; n++) {
        expect("a thread", pthread_create(&ids[n], NULL, work, NULL) == 0);
    }
    for (int n = 0; n < 4; n++) {
        void *fault = NULL;
        pthread_join(ids[n], &fault);
        expect("a thread's bodies", fault == NULL);
    }
}

/* test [COUNT]: COUNT is how many calls the test of memory makes: 0 where what watches the calls takes memory itself. */
int main(int words, char **word)
{
    many();
    prepared();
    compared();
    findings();
    forms();
    memory(words > 1 ? atol(word[1]) : 20000);
    threads();
    rows();
    deep();
    wide();
    room();
    nulls();
    table_after_table();
    stack();
    refused_tables();
    long_body();
    if (!failed) {
        puts("C: all rows are answered as they should be");
    }
    return failed;
}
