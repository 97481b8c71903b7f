/*
 * Reads message files and prints a line for each: its name and what the call answers.
 *
 *   messages GROUP KIND SITES ARTICLES FILE...
 */
#include "site_tables.h"

#include <inttypes.h>
#include <stdio.h>
#include <stdlib.h>

/* No message of any group is longer than this: 16 sections of 8 intervals and 65,535 actions. */
enum { LONGEST = 6 + 16 * (5 + 8 * 10 + 65535 * 16) };

static uint8_t bytes[LONGEST + 1];

/* Reads a whole file into bytes; a longer one is cut one byte past the longest message, and refused. */
static int load(const char *name, size_t *length)
{
    FILE *file = fopen(name, "rb");
    if (file == NULL) {
        return 0;
    }
    *length = fread(bytes, 1, sizeof bytes, file);
    int whole = !ferror(file);
    return fclose(file) == 0 && whole;
}

int main(int argc, char **argv)
{
    if (argc < 5) {
        fprintf(stderr, "usage: messages GROUP KIND SITES ARTICLES FILE...\n");
        return 2;
    }
    uint32_t group = (uint32_t)strtoul(argv[1], NULL, 10);
    uint32_t kind = (uint32_t)strtoul(argv[2], NULL, 10);
    uint32_t sites = (uint32_t)strtoul(argv[3], NULL, 10);
    uint32_t articles = (uint32_t)strtoul(argv[4], NULL, 10);
    int status = 0;
    for (int i = 5; i < argc; i++) {
        size_t length = 0;
        if (!load(argv[i], &length)) {
            fprintf(stderr, "messages: cannot read %s\n", argv[i]);
            status = 1;
            continue;
        }
        int64_t answer = site_message_actions(bytes, length, group, kind, sites, articles);
        printf("%s %" PRId64 "\n", argv[i], answer);
    }
    return status;
}
