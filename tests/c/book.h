/* book.h: document 01's book, and books by their records, for the C tests of what is asked of a book. */
#ifndef BOOK_H
#define BOOK_H

#include <string.h>

#include "record.h"

enum { LONGEST = 65536 };

/* Document 01's book: the plate at 0, the beam at 24, the index at 52, the last 16 bytes at 60. */
static const uint8_t sample[76] = {
    0xe8, 0x03, 0x64, 0x00, 0x1e, 0x00, 0xf4, 0x01, 0x74, 0x0e, 0x94, 0x11, 0x00, 0x00, 0x00, 0x00, 0x00, 0x00, 0x00,
    0x00, 0x00, 0x00, 0x00, 0x00, 0x90, 0x01, 0x58, 0x02, 0x1e, 0x00, 0xf4, 0x01, 0xd0, 0x07, 0xd0, 0x07, 0x80, 0x96,
    0x98, 0x00, 0x00, 0x00, 0x00, 0x00, 0x01, 0x00, 0x00, 0x00, 0x1c, 0x02, 0x90, 0x0c, 0x00, 0x00, 0x00, 0x00, 0x18,
    0x00, 0x00, 0x00, 0x34, 0x00, 0x00, 0x00, 0x02, 0x00, 0x00, 0x00, 0x4c, 0x00, 0x00, 0x00, 'B',  'O',  'O',  'K',
};

/* There is room for a record more than the longest book has. */
typedef struct {
    size_t len;
    uint8_t bytes[LONGEST + 64];
} book;

static inline void add_number(book *b, uint32_t number)
{
    put(b->bytes + b->len, 4, number);
    b->len += 4;
}

static inline void add_record(book *b, section s)
{
    record r = record_of(s);
    memcpy(b->bytes + b->len, r.bytes, r.len);
    b->len += r.len;
}

/* Ends a book of records with these last 16 bytes. */
static inline void add_end(book *b, uint32_t index, uint32_t n)
{
    add_number(b, index);
    add_number(b, n);
    add_number(b, (uint32_t)b->len + 8);
    memcpy(b->bytes + b->len, "BOOK", 4);
    b->len += 4;
}

/* The length of a record by its layer count and its flange. */
static inline uint32_t length_of(const uint8_t *bytes)
{
    return 24 + 4 * (uint32_t)bytes[20] + (bytes[22] != 0 || bytes[23] != 0 ? 4 : 0);
}

/* Ends a book of records with its index and its last 16 bytes. */
static inline void add_index(book *b)
{
    uint32_t index = (uint32_t)b->len, n = 0;
    for (uint32_t at = 0; at < index; at += length_of(b->bytes + at), n++)
        add_number(b, at);
    add_end(b, index, n);
}

/* So many records of one section; the next call writes over it. */
static inline book *book_of(section s, uint32_t n)
{
    static book b;
    b.len = 0;
    for (uint32_t k = 0; k < n; k++)
        add_record(&b, s);
    add_index(&b);
    return &b;
}

#endif
