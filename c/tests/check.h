/* Rows of a test, and the slices that they pass.
 *
 * Each slice ends at a page that may not be touched: the whole program runs once with that page
 * after each slice, and once with it before. Slices to be read can't be written. */
#ifndef CHECK_H
#define CHECK_H

#include <stdbool.h>
#include <stddef.h>
#include <stdint.h>

#include "../stun_types.h"
#include "guarded.h"

#define COUNT(array) (sizeof(array) / sizeof *(array))

typedef struct {
    const uint8_t *bytes;
    size_t length;
} slice;

/* ---- rows */

/* From now on slices are guarded at this side. */
void check_begin(guarded_side side);

/* Begins a row; what the row before was handed is gone. A row fails by its first false check, which
   is printed. An allocation fails it too, unless heap_allow says otherwise. */
void row(const char *group, const char *name);

/* Ends the last row. */
void check_end(void);

/* The bytes of all slices that were made in this row to be read. */
size_t row_bytes(void);

long rows_passed(void);
long rows_failed(void);

/* Fails the row. */
void fail(const char *format, ...);

#define CHECK(condition) \
    do { \
        if (!(condition)) fail("line %d: %s", __LINE__, #condition); \
    } while (0)

/* Whether an answer has these four fields; else the row fails. */
bool check_answer(stun_types_answer answer, stun_types_answer expected, int line);
#define ANSWERS(call, expected) check_answer(call, expected, __LINE__)

#define CHECK_BYTES(bytes, length, expected) check_bytes(bytes, length, expected, __LINE__)
void check_bytes(const uint8_t *bytes, size_t length, slice expected, int line);

/* ---- answers */

stun_types_answer answer_of(uint32_t code, uint32_t type, uint64_t expected, uint64_t actual);
#define OK_ANSWER answer_of(STUN_TYPES_OK, 0, 0, 0)
#define PLAIN(code) answer_of(code, 0, 0, 0)
#define LENGTHS(code, expected, actual) answer_of(code, 0, expected, actual)
#define OF_TYPE(code, type) answer_of(code, type, 0, 0)
#define NUMBER(code, actual) answer_of(code, 0, 0, actual)

/* ---- slices */

/* What a row can't know of a slice before a call: rooms and structs are filled with it. */
enum { FILL = 0xEE };

/* A slice to be read, with a copy of these bytes. */
slice given(const void *bytes, size_t length);

/* That of bytes in hexadecimal, where HH*N is N times the byte HH and spaces say nothing. */
slice hex(const char *digits);

/* That of a text. */
slice text(const char *letters);

/* The first bytes of a slice, and those from an offset on. */
slice front_of(slice whole, size_t length);
slice behind(slice whole, size_t offset);

/* A slice, with bytes changed or joined. */
slice changed(slice whole, size_t at, uint8_t byte);
slice joined(slice first, slice second);

/* A slice to be written, filled; and one with these bytes. */
uint8_t *room(size_t length);
uint8_t *copy(const void *bytes, size_t length);

/* The place for so many bytes at the guarded end of a room of this size. */
uint8_t *guarded_end(uint8_t *place, size_t size, size_t length);

/* Whether all bytes are those that rooms are filled with. */
bool is_untouched(const void *bytes, size_t length);

/* Whether all bytes are 0. */
bool is_zero(const void *bytes, size_t length);

/* A struct of this type, as a room. */
#define NEW(type) ((type *)(void *)room(sizeof(type)))

#endif
