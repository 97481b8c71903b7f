/*
 * Site tables: the call for C. It checks one message and counts the actions in it.
 *
 * docs/C.md says how to install it and link with it, and has a whole program.
 */
#ifndef SITE_TABLES_H
#define SITE_TABLES_H

#include <stddef.h>
#include <stdint.h>

#ifdef __cplusplus
extern "C" {
#endif

/* The kinds of figure: what a table keeps of each article. */
enum site_tables_kind {
    SITE_TABLES_KIND_ON_HAND = 1, /* pieces on hand */
    SITE_TABLES_KIND_FLAGS = 2,   /* flags that are switched on */
    SITE_TABLES_KIND_PRICE = 3    /* a price in cents */
};

/* Why there is no count: the answers below 0. */
enum site_tables_fault {
    SITE_TABLES_NO_TABLE = -1,  /* the group, sites or articles are outside their limits, or there is no such kind */
    SITE_TABLES_CUT = -9,       /* the record that is due is not there, or not whole */
    SITE_TABLES_FOREIGN = -10,  /* the message is of another group, or of another kind */
    SITE_TABLES_BROKEN = -11,   /* a record breaks one of the rules for its fields */
    SITE_TABLES_TRAILING = -12  /* the message is whole, and more bytes come after it */
};

/*
 * Answers how many actions the message carries, 0 or more, or the first fault that is met.
 *
 *   message    the first byte of the message; it may be null where length is 0, and only there
 *   length     how many bytes there are
 *   group      the group's number, from 1 to 65,535
 *   kind       the kind of the tables, a number of enum site_tables_kind
 *   sites      how many sites the group has, from 2 to 8
 *   articles   how many articles a table has, from 1 to 64
 *
 * The last four are checked first, for -1. Then the bytes are read, record by record. Each record is checked for -9,
 * then, if it is the header, for -10, and then for -11. If bytes are left after the last record, the answer is -12.
 *
 * The call only reads the bytes. It allocates nothing, keeps nothing and always ends. Any number of threads may make
 * it at once.
 */
int64_t site_message_actions(const uint8_t *message, size_t length, uint32_t group, uint32_t kind,
                             uint32_t sites, uint32_t articles);

#ifdef __cplusplus
}
#endif

#endif
