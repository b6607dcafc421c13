/* The allocator of the test program, by the linker's --wrap=malloc, calloc, realloc and free. It
 * counts blocks, refuses what a test asks it to, and looks at each that is given back. */
#ifndef HEAP_H
#define HEAP_H

#include <stdbool.h>
#include <stddef.h>

/* From now on, whether a block may be taken: one that may not fails the row, as heap_faults
   says. */
void heap_allow(bool allowed);

/* From now on, whether a block that is taken is the test's own: it may be, and is neither counted, refused
   nor measured. */
void heap_own(bool is_own);

/* The allocation with this number from now on is refused: 1 the next, 0 none. */
void heap_refuse(long number);

/* The same, and every later one. */
void heap_refuse_from(long number);

/* How many blocks were asked for since heap_allow, refused ones too, and how many were refused. */
long heap_asked(void);
long heap_refused(void);

/* The bytes of the largest block that was asked for since heap_allow. From heap_measure(false) on blocks
   don't count for it, until heap_measure(true). */
size_t heap_most(void);
void heap_measure(bool measures);

/* How many blocks are taken and not given back. */
long heap_held(void);

/* What no block may hold when it is given back; at most 64 bytes, copied. */
void heap_add_secret(const void *bytes, size_t length);
void heap_forget_secrets(void);

/* How many blocks were taken that may not be, given back with a secret, or given back that weren't
   taken, since the last call of this. */
long heap_faults(void);

#endif
