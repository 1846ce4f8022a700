/* lender.h: copies of what is lent to the library, of just the size that it is told, from malloc or at an end of room between memory that
 * can't be read, and whether they are as they should be after the call. Who includes it defines _DEFAULT_SOURCE, for edge.h. */
#ifndef LENDER_H
#define LENDER_H

#include "fordwhistle.h"

#include <stdlib.h>

#include "book.h"
#include "check.h"
#include "edge.h"

enum { FROM_MALLOC, AT_THE_END, AT_THE_START, LENDERS };

/* The longest book has all the room there is. */
enum { ROOM = LONGEST };

static int lender;

/* Where the room of records and books ends, and that of rows and of what is written. */
static uint8_t *edge, *row_edge;

/* What the bytes hold that a book or a record is written into. */
static uint8_t blank[ROOM];

static inline void no_room(void)
{
    puts("no room for a record and a row");
    exit(1);
}

/* A copy of so many bytes, in the room that ends there or from malloc. */
static inline void *lent(uint8_t *end, const void *bytes, size_t size)
{
    uint8_t *copy = lender == AT_THE_START ? end - ROOM : end - size;
    if (lender == FROM_MALLOC && (copy = malloc(size)) == NULL && size > 0)
        no_room();
    if (size > 0)
        memcpy(copy, bytes, size);
    return copy;
}

/* Whether a copy still holds these; it is given back. */
static inline int kept(void *copy, const void *bytes, size_t size)
{
    int same = size == 0 || memcmp(copy, bytes, size) == 0;
    if (lender == FROM_MALLOC)
        free(copy);
    return same;
}

static inline int is_written(fw_written answer, uint32_t refusal, uint32_t len)
{
    return answer.refusal == refusal && answer.len == len;
}

/* Whether what is lent to be written holds these bytes and past them what it did; it is given back. */
static inline int holds(uint8_t *out, size_t room, const uint8_t *written, size_t len)
{
    int past = room == len || memcmp(out + len, blank + len, room - len) == 0;
    return kept(out, written, len) && past;
}

/* Before anything is lent. */
static inline void make_room(void)
{
    edge = edge_of(ROOM);
    row_edge = edge_of(ROOM);
    if (edge == NULL || row_edge == NULL)
        no_room();
    memset(blank, 0xa5, sizeof blank);
}

#endif
