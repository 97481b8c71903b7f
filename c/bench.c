/*
 * How fast the call checks messages: those in the two files that `compare` takes, over and over.
 *
 *   bench MESSAGES EXPECTED ROUNDS
 */
#define _POSIX_C_SOURCE 199309L
#include "site_tables.h"

#include <inttypes.h>
#include <stdio.h>
#include <stdlib.h>
#include <time.h>

struct question {
    const uint8_t *message;
    size_t length;
    uint32_t group, kind, sites, articles;
};

enum { MOST = 1000000 };

static struct question questions[MOST];

static uint8_t *load(const char *name, size_t *length)
{
    FILE *file = fopen(name, "rb");
    if (file == NULL || fseek(file, 0, SEEK_END) != 0) {
        return NULL;
    }
    long end = ftell(file);
    rewind(file);
    uint8_t *bytes = end < 0 ? NULL : malloc((size_t)end + 1);
    if (bytes != NULL) {
        *length = fread(bytes, 1, (size_t)end, file);
    }
    fclose(file);
    return bytes;
}

static size_t index_questions(FILE *expected, const uint8_t *bytes, size_t length)
{
    size_t count = 0;
    size_t at = 0;
    char line[256];
    while (count < MOST && fgets(line, sizeof line, expected) != NULL) {
        struct question *q = &questions[count];
        if (sscanf(line, "%*u %" SCNu32 " %" SCNu32 " %" SCNu32 " %" SCNu32 " %zu", &q->group, &q->kind,
                   &q->sites, &q->articles, &q->length) != 5 ||
            q->length > length - at) {
            break;
        }
        q->message = bytes + at;
        at += q->length;
        count++;
    }
    return count;
}

int main(int argc, char **argv)
{
    if (argc != 4) {
        fprintf(stderr, "usage: bench MESSAGES EXPECTED ROUNDS\n");
        return 2;
    }
    size_t length = 0;
    uint8_t *bytes = load(argv[1], &length);
    FILE *expected = fopen(argv[2], "r");
    if (bytes == NULL || expected == NULL) {
        fprintf(stderr, "bench: cannot read its files\n");
        return 2;
    }
    size_t count = index_questions(expected, bytes, length);
    unsigned long rounds = strtoul(argv[3], NULL, 10);
    double actions = 0;
    struct timespec start, end;
    clock_gettime(CLOCK_MONOTONIC, &start);
    for (unsigned long round = 0; round < rounds; round++) {
        for (size_t i = 0; i < count; i++) {
            const struct question *q = &questions[i];
            int64_t answer = site_message_actions(q->message, q->length, q->group, q->kind, q->sites, q->articles);
            actions += answer > 0 ? (double)answer : 0;
        }
    }
    clock_gettime(CLOCK_MONOTONIC, &end);
    double seconds = (double)(end.tv_sec - start.tv_sec) + (double)(end.tv_nsec - start.tv_nsec) / 1e9;
    printf("library: %.0f million bytes and %.1f million actions a second\n",
           (double)length * (double)rounds / seconds / 1e6, actions / seconds / 1e6);
    free(bytes);
    return fclose(expected) != 0;
}
