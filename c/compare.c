/*
 * Holds the call to what another program expects: reads messages from one file, back to back, and from
 * another a line for each (index, group, kind, sites, articles, length, answer), and prints how many
 * answers agree. Ends with status 1 at the first that does not.
 *
 *   compare MESSAGES EXPECTED
 */
#include "site_tables.h"

#include <inttypes.h>
#include <stdio.h>
#include <stdlib.h>

/* The header's names have the numbers that docs/C.md gives them. */
_Static_assert(SITE_TABLES_KIND_ON_HAND == 1, "on-hand");
_Static_assert(SITE_TABLES_KIND_FLAGS == 2, "flags");
_Static_assert(SITE_TABLES_KIND_PRICE == 3, "price");
_Static_assert(SITE_TABLES_NO_TABLE == -1, "no table");
_Static_assert(SITE_TABLES_CUT == -9, "cut");
_Static_assert(SITE_TABLES_FOREIGN == -10, "foreign");
_Static_assert(SITE_TABLES_BROKEN == -11, "broken");
_Static_assert(SITE_TABLES_TRAILING == -12, "trailing");

/* The next bytes, in memory of exactly their length; NULL where there are none, or too few. */
static uint8_t *next(FILE *file, size_t length)
{
    uint8_t *bytes = length == 0 ? NULL : malloc(length);
    if (bytes != NULL && fread(bytes, 1, length, file) != length) {
        free(bytes);
        return NULL;
    }
    return bytes;
}

int main(int argc, char **argv)
{
    if (argc != 3) {
        fprintf(stderr, "usage: compare MESSAGES EXPECTED\n");
        return 2;
    }
    FILE *messages = fopen(argv[1], "rb");
    FILE *expected = fopen(argv[2], "r");
    if (messages == NULL || expected == NULL) {
        fprintf(stderr, "compare: cannot read its files\n");
        return 2;
    }
    unsigned long agreed = 0;
    char line[256];
    while (fgets(line, sizeof line, expected) != NULL) {
        unsigned long index, length;
        uint32_t group, kind, sites, articles;
        int64_t answer;
        if (sscanf(line, "%lu %" SCNu32 " %" SCNu32 " %" SCNu32 " %" SCNu32 " %lu %" SCNd64, &index,
                   &group, &kind, &sites, &articles, &length, &answer) != 7) {
            fprintf(stderr, "compare: bad line: %s", line);
            return 2;
        }
        /* no bytes: a null pointer is an empty message */
        uint8_t *message = next(messages, length);
        if (message == NULL && length != 0) {
            fprintf(stderr, "compare: too few bytes for message %lu\n", index);
            return 2;
        }
        int64_t given = site_message_actions(message, length, group, kind, sites, articles);
        free(message);
        if (given != answer) {
            printf("message %lu: %" PRId64 " given, %" PRId64 " expected\n", index, given, answer);
            return 1;
        }
        agreed++;
    }
    printf("%lu messages agree\n", agreed);
    return fclose(messages) != 0 || fclose(expected) != 0;
}
