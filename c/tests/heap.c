#include "heap.h"

#include <stdint.h>
#include <stdlib.h>
#include <string.h>

enum { BLOCKS = 256, SECRETS = 16, LONGEST = 64 };

void *__real_malloc(size_t size);
void __real_free(void *block);
void *__wrap_malloc(size_t size);
void *__wrap_calloc(size_t count, size_t size);
void *__wrap_realloc(void *block, size_t size);
void __wrap_free(void *block);

static struct {
    uint8_t *start;
    size_t size;
} blocks[BLOCKS];

static struct {
    uint8_t bytes[LONGEST];
    size_t length;
} secrets[SECRETS];

static bool is_allowed, are_all_refused, is_own, is_unmeasured;
static long asked, refused, refusals, held, faults;
static size_t secret_count, most;

void heap_allow(bool allowed) {
    is_allowed = allowed;
    is_own = is_unmeasured = false;
    asked = refused = refusals = 0;
    most = 0;
}

void heap_own(bool are_own) { is_own = are_own; }

void heap_measure(bool measures) { is_unmeasured = !measures; }

void heap_refuse(long number) {
    asked = 0;
    refused = number;
    are_all_refused = false;
}

void heap_refuse_from(long number) {
    heap_refuse(number);
    are_all_refused = true;
}

long heap_asked(void) { return asked; }

long heap_refused(void) { return refusals; }

size_t heap_most(void) { return most; }

long heap_held(void) { return held; }

void heap_add_secret(const void *bytes, size_t length) {
    if (length == 0) return;
    if (secret_count == SECRETS || length > LONGEST) abort();
    memcpy(secrets[secret_count].bytes, bytes, length);
    secrets[secret_count++].length = length;
}

void heap_forget_secrets(void) { secret_count = 0; }

long heap_faults(void) {
    long found = faults;
    faults = 0;
    return found;
}

static bool holds(const uint8_t *bytes, size_t length, const uint8_t *secret,
                  size_t secret_length) {
    const uint8_t *at = bytes, *end = bytes + length;
    while ((size_t)(end - at) >= secret_length) {
        at = memchr(at, secret[0], (size_t)(end - at) - secret_length + 1);
        if (at == NULL) return false;
        if (memcmp(at, secret, secret_length) == 0) return true;
        at++;
    }
    return false;
}

/* Counts the block that is asked for now, and says whether it is refused. */
static bool is_refused(size_t size) {
    if (is_own) return false;
    asked++;
    if (!is_allowed) faults++;
    if (size > most && !is_unmeasured) most = size;
    return refused != 0 && (are_all_refused ? asked >= refused : asked == refused);
}

static size_t place_of(const void *block) {
    size_t place = 0;
    while (place < BLOCKS && blocks[place].start != block) place++;
    return place;
}

void *__wrap_malloc(size_t size) {
    size_t place;
    void *block;
    if (is_refused(size)) {
        refusals++;
        return NULL;
    }
    block = __real_malloc(size);
    place = place_of(NULL);
    if (block == NULL || place == BLOCKS) abort();
    memset(block, 0xA5, size);
    blocks[place].start = block;
    blocks[place].size = size;
    held++;
    return block;
}

void __wrap_free(void *block) {
    size_t place, i;
    if (block == NULL) return;
    place = place_of(block);
    if (place == BLOCKS) {
        faults++;
        return;
    }
    for (i = 0; i < secret_count; i++)
        if (holds(blocks[place].start, blocks[place].size, secrets[i].bytes, secrets[i].length))
            faults++;
    blocks[place].start = NULL;
    held--;
    __real_free(block);
}

void *__wrap_calloc(size_t count, size_t size) {
    void *block;
    if (size != 0 && count > SIZE_MAX / size) return NULL;
    block = __wrap_malloc(count * size);
    return block == NULL ? NULL : memset(block, 0, count * size);
}

/* (always moved, so that the old block is looked at) */
void *__wrap_realloc(void *block, size_t size) {
    size_t place = block == NULL ? BLOCKS : place_of(block);
    void *moved = __wrap_malloc(size);
    if (moved == NULL) return NULL;
    if (place < BLOCKS) memcpy(moved, block, size < blocks[place].size ? size : blocks[place].size);
    __wrap_free(block);
    return moved;
}
