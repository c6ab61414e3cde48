/* speed COUNT THREADS TABLE ROOT BODY: COUNT times in each thread, transcodes a body of JSON to CBOR, compares it with itself, and lints it,
   and prints how many a second of each. `prepared` is transcoding by a task that was prepared once. */
#include "smithy_transcode.h"

#include <pthread.h>
#include <stdio.h>
#include <stdlib.h>
#include <string.h>
#include <sys/resource.h>
#include <time.h>

static char *text, *body;
static size_t text_len, body_len;
static smithy_task task;
static long count;

static char *whole(const char *path, size_t *len)
{
    FILE *file = fopen(path, "rb");
    char *bytes = malloc(1 << 20);
    if (file == NULL || bytes == NULL) {
        perror(path);
        exit(2);
    }
    *len = fread(bytes, 1, 1 << 20, file);
    fclose(file);
    return bytes;
}

static uint8_t transcode(smithy_table *table, uint8_t *room)
{
    size_t len;
    return smithy_table_transcode(table, &task, body, body_len, room, 1 << 20, &len);
}

static _Thread_local smithy_prepared ready;

static uint8_t prepared(smithy_table *table, uint8_t *room)
{
    size_t len;
    if (ready.table != table && smithy_table_prepare(table, &task, &ready) != SMITHY_DONE) {
        exit(3);
    }
    return smithy_prepared_transcode(&ready, body, body_len, room, 1 << 20, &len);
}

static uint8_t compare(smithy_table *table, uint8_t *room)
{
    size_t len;
    return smithy_table_compare(table, task.root, task.root_len, SMITHY_JSON, body, body_len, SMITHY_JSON, body, body_len, room, 1 << 20, &len);
}

static uint8_t findings(smithy_table *table, uint8_t *room)
{
    static size_t lens[1];
    size_t found, len;
    return smithy_table_findings(table, task.root, task.root_len, SMITHY_JSON, body, body_len, lens, room, 0, NULL, 0, &found, &len);
}

struct way {
    const char *name;
    uint8_t (*call)(smithy_table *table, uint8_t *room);
};

static void *repeat(void *way)
{
    smithy_table table = {NULL};
    uint8_t *room = calloc(1 << 20, 1);
    if (room == NULL || smithy_table_accept(&table, text, text_len) != SMITHY_DONE) {
        exit(3);
    }
    for (long n = 0; n < count; n++) {
        if (((struct way *)way)->call(&table, room) != SMITHY_DONE) {
            exit(4);
        }
    }
    smithy_table_free(&table);
    free(room);
    return NULL;
}

static double seconds(struct timespec it)
{
    return (double)it.tv_sec + (double)it.tv_nsec / 1e9;
}

static void measure(struct way *way, int threads)
{
    struct timespec begun, ended, cpu_begun, cpu_ended;
    pthread_t ids[64];
    clock_gettime(CLOCK_MONOTONIC, &begun);
    clock_gettime(CLOCK_PROCESS_CPUTIME_ID, &cpu_begun);
    for (int n = 0; n < threads && n < 64; n++) {
        pthread_create(&ids[n], NULL, repeat, way);
    }
    for (int n = 0; n < threads && n < 64; n++) {
        pthread_join(ids[n], NULL);
    }
    clock_gettime(CLOCK_MONOTONIC, &ended);
    clock_gettime(CLOCK_PROCESS_CPUTIME_ID, &cpu_ended);
    struct rusage used;
    getrusage(RUSAGE_SELF, &used);
    double all = (double)count * threads;
    printf("%-10s %d threads: %.0f bodies a second, %.0f a second of CPU, %ld KiB\n", way->name, threads, all / (seconds(ended) - seconds(begun)),
        all / (seconds(cpu_ended) - seconds(cpu_begun)), used.ru_maxrss);
}

int main(int words, char **word)
{
    struct way ways[] = {{"transcode", transcode}, {"prepared", prepared}, {"compare", compare}, {"findings", findings}};
    if (words != 6) {
        fprintf(stderr, "speed COUNT THREADS TABLE ROOT BODY\n");
        return 2;
    }
    count = atol(word[1]);
    text = whole(word[3], &text_len);
    body = whole(word[5], &body_len);
    task = (smithy_task){word[4], strlen(word[4]), SMITHY_JSON, SMITHY_CBOR, NULL, 0, NULL, 0};
    for (size_t n = 0; n < sizeof ways / sizeof ways[0]; n++) {
        measure(&ways[n], atoi(word[2]));
    }
    return 0;
}
