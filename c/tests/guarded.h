/* Slices between two pages that may not be touched, so that a read or a write beyond a slice ends
 * the program. */
#ifndef GUARDED_H
#define GUARDED_H

#include <stddef.h>
#include <stdint.h>

/* Pages that may be read and written, between two that may not. */
typedef struct {
    uint8_t *start;
    size_t size;
} guarded_region;

/* A region of at least size bytes. It ends the program if the system gives none. */
guarded_region guarded_make(size_t size);

/* Which end of a slice is at the page that may not be touched. */
typedef enum { GUARD_BEHIND, GUARD_BEFORE } guarded_side;

/* The place in a region of a slice of this length whose one end is guarded. A slice of no bytes is
   the first byte after the region, which may not be read. */
uint8_t *guarded_place(guarded_region region, guarded_side side, size_t length);

#endif
