/*
 * Reads one message from standard input, and prints how many actions it carries, or the number of its refusal.
 *
 * The status is 0 for a count, 1 for a refusal, 2 where standard input cannot be read, and 3 where it has more bytes
 * than any message that a table writes.
 */
#include "site_tables.h"
#include <stdio.h>

/* The longest message that a table writes is an offer of 1,024 actions in a group of 8 sites. */
enum { LONGEST = 16475 };

int main(void)
{
    /* One byte more, so that a longer input is seen. */
    static uint8_t message[LONGEST + 1];
    size_t length = fread(message, 1, sizeof message, stdin);
    if (ferror(stdin)) {
        fprintf(stderr, "example: standard input cannot be read\n");
        return 2;
    }
    if (length > LONGEST) {
        fprintf(stderr, "example: the input is longer than any message that a table writes\n");
        return 3;
    }
    /* Group 1 has 3 sites. Its tables keep the pieces on hand of 4 articles. */
    int64_t actions = site_message_actions(message, length, 1, SITE_TABLES_KIND_ON_HAND, 3, 4);
    if (actions < 0) {
        printf("refused %d\n", (int)-actions);
        return 1;
    }
    printf("%d actions\n", (int)actions);
    return 0;
}
