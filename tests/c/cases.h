/* cases.h: the cases that held.c reads from standard input, number by number, and what it lends of them to the library, up to an edge. Who
 * includes it defines _DEFAULT_SOURCE, for edge.h. */
#ifndef CASES_H
#define CASES_H

#include <stdio.h>
#include <string.h>

#include "edge.h"

/* Whole pages of any usual size; what is lent at most, which is as many words as a length of 16 bits counts, or several times as many bytes
 * as a book may have; and the bytes before what is lent to be written that are looked at too. */
enum { PAGES = 65536, ROOM = 8 * PAGES, BEFORE = 64 * 8 };

/* Bytes that are lent to be read. They and those to be written are put where they end at an edge, and no byte from there on can be read or
 * written. A copy says what they were. */
typedef struct {
    uint8_t *edge;
    size_t len;
    uint8_t as_lent[ROOM];
} lent;

static lent record_lent, book_lent;

/* Which of the two the case's function is called on, or null. */
static const lent *in_hand;

/* Bytes that are lent to be written, and what they and those before them should hold after the call. */
static struct {
    uint8_t *edge;
    size_t len;
    uint8_t after[BEFORE + ROOM];
} to_write;

/* Set where a case can't be read, nor what follows it. */
static int broken;

/* The next number of the given bytes. */
static inline uint64_t number(int bytes)
{
    uint64_t n = 0;
    for (int i = 0; i < bytes; i++) {
        int byte = getchar();
        if (byte == EOF) {
            broken = 1;
            return 0;
        }
        n |= (uint64_t)byte << (8 * i);
    }
    return n;
}

/* The next length of 32 bits, 0 where there is no room for so much. */
static inline size_t length(void)
{
    size_t len = (size_t)number(4);
    if (len <= ROOM)
        return len;
    broken = 1;
    return 0;
}

/* Takes what is lent in hand; its start. */
static inline const uint8_t *take(const lent *part)
{
    in_hand = part;
    return part->edge - part->len;
}

/* The next bytes, up to their edge, taken in hand. */
static inline const uint8_t *lend(lent *part, size_t len)
{
    if (fread(part->as_lent, 1, len, stdin) != len)
        broken = 1;
    part->len = len;
    memcpy(part->edge - len, part->as_lent, len);
    return take(part);
}

/* Whether a difference gets a line, asked once of each: a case of many depths may have many. */
static inline int told(void)
{
    static int lines;
    return !broken && lines++ < 10;
}

/* The next bytes, up to their edge, with a pattern before them; and in `after` those that should become of them, with the same. */
static inline void *lend_to_write(size_t len)
{
    uint8_t *start = to_write.edge - len;
    for (size_t i = 0; i < BEFORE; i++)
        start[(ptrdiff_t)i - BEFORE] = to_write.after[i] = (uint8_t)(128 + i);
    if (fread(start, 1, len, stdin) != len || fread(to_write.after + BEFORE, 1, len, stdin) != len)
        broken = 1;
    to_write.len = len;
    return start;
}

/* Which byte, counted from BEFORE bytes before what is lent to be written, is the first that is not what it should be, or the end. */
static inline size_t wrong_byte(void)
{
    size_t at = 0, end = BEFORE + to_write.len;
    const uint8_t *from = to_write.edge - end;
    if (memcmp(from, to_write.after, end) == 0)
        return end;
    while (from[at] == to_write.after[at])
        at++;
    return at;
}

/* As much of a record as one of 8 layers and a flange has, or of a book. Who writes the cases reads no line before the last of them, so
 * few bytes may wait there. */
static inline void print_start(const uint8_t *bytes, size_t len)
{
    for (size_t i = 0; i < len && i < 60; i++)
        printf("%02x", bytes[i]);
}

#endif
