/* edge.h: room between memory that can't be read, for what is lent to the library: it is not compiled with the sanitizers, so they would
 * not see it go past an end. Who includes it defines _DEFAULT_SOURCE, for MAP_ANONYMOUS. */
#ifndef EDGE_H
#define EDGE_H

#include <stddef.h>
#include <stdint.h>
#include <sys/mman.h>

/* How much can't be read on either side, in whole pages of any usual size. */
enum { BEYOND = 65536 };

/* The end of so much room, whole pages, or null. No byte from there on can be read or written, nor one before the room. */
static inline void *edge_of(size_t room)
{
    uint8_t *start = mmap(NULL, BEYOND + room + BEYOND, PROT_NONE, MAP_PRIVATE | MAP_ANONYMOUS, -1, 0);
    if (start == MAP_FAILED || mprotect(start + BEYOND, room, PROT_READ | PROT_WRITE) != 0)
        return NULL;
    return start + BEYOND + room;
}

#endif
