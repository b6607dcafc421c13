/* The memory of the program: it refuses requests, and looks at each block that is taken and given back.
 * .ci/hostile links it with the program, which `rt try` builds with AddressSanitizer. That calls the two
 * hooks below, and lets a program have interceptors of its own, which call those with one more
 * underscore.
 *
 * A block is filled when it is taken, so that when it is given back, the last byte that differs
 * shows how much of it was used. At the end it prints three lines in the form of the program's. */
#define _GNU_SOURCE
#include "reference.h"
#include <stdio.h>
#include <unistd.h>

size_t __sanitizer_get_allocated_size(const volatile void *block);
void *___interceptor_malloc(size_t size);
void *___interceptor_realloc(void *block, size_t size);
void *__interceptor_malloc(size_t size);
void *__interceptor_realloc(void *block, size_t size);

/* (a vector asks for at least four elements, and none of the library's has more than 24 bytes) */
enum { FILL = 0xA5, LEAST = 4 * 24, SECRETS = 10 };

/* What no block may hold when it is given back. */
static struct {
    const char *name;
    uint8_t bytes[64];
    size_t length;
} secrets[SECRETS];

static int count;
static long taken, unused, revealed;
static size_t asked, refused, is_refused_on, is_reserved;

/* From now on the request with this number is refused, 1 the next and 0 none, and if `on` isn't 0, every
 * later one. */
void memory_refuse(size_t number, size_t on) {
    asked = 0;
    refused = number;
    is_refused_on = on;
}

/* How many requests were made since then, refused ones too. */
size_t memory_asked(void) { return asked; }

/* How many blocks are taken and not given back. */
size_t memory_held(void) { return (size_t)taken; }

static int is_refused(void) {
    asked++;
    return refused != 0 && (is_refused_on ? asked >= refused : asked == refused);
}

void *__interceptor_malloc(size_t size) { return is_refused() ? NULL : ___interceptor_malloc(size); }

void *__interceptor_realloc(void *block, size_t size) {
    return is_refused() ? NULL : ___interceptor_realloc(block, size);
}

/* Memory that is reserved for later counts as used. */
void memory_reserve(size_t on) { is_reserved = on; }

static void add(const char *name, const void *bytes, size_t length) {
    secrets[count].name = name;
    memcpy(secrets[count].bytes, bytes, length);
    secrets[count++].length = length;
}

/* The block with which one of the two digests of an HMAC under the password begins, and the states
 * of hashers that have taken it in. */
static void add_block(const char *password, uint8_t pad) {
    uint32_t sha1[5] = {0x67452301, 0xEFCDAB89, 0x98BADCFE, 0x10325476, 0xC3D2E1F0}, sha256[8];
    uint8_t block[64] = {0};
    memcpy(block, password, strlen(password));
    for (int i = 0; i < 64; i++) block[i] ^= pad;
    memcpy(sha256, SHA256_START, sizeof sha256);
    sha1_block(sha1, block);
    sha256_block(sha256, block);
    add("the block of a key", block, 64);
    add("the state of a hasher for SHA-1", sha1, sizeof sha1);
    add("the state of a hasher for SHA-256", sha256, sizeof sha256);
}

/* (what was taken before the program began isn't its own) */
__attribute__((constructor)) static void begin(void) {
    uint8_t key[32];
    add("the password", "pass", 4);
    add_block("pass", 0x36);
    add_block("pass", 0x5C);
    /* the MD5 of `::`, by Python's hashlib */
    add("a long-term key, MD5", "\x45\x01\xC0\x91\xB0\x36\x6D\x76\xEA\x32\x18\xB6\xCF\xDD\x80\x97", 16);
    digest(2, (const uint8_t *) "::", 2, NULL, 0, key);
    add("a long-term key, SHA-256", key, 32);
    taken = 0;
}

void __sanitizer_malloc_hook(const volatile void *block, size_t size) {
    if (!block) return;
    taken++;
    memset((void *) block, is_reserved ? 0 : FILL, size);
}

void __sanitizer_free_hook(const volatile void *block) {
    if (!block) return;
    const uint8_t *bytes = (const uint8_t *) block;
    size_t size = __sanitizer_get_allocated_size(block), used = size;
    taken--;
    while (used > 0 && bytes[used - 1] == FILL) used--;
    if (size > LEAST && size > 2 * used) {
        unused++;
        dprintf(2, "a block of %zu bytes, of which %zu were used\n", size, used);
    }
    for (int i = 0; i < count; i++)
        if (memmem(bytes, size, secrets[i].bytes, secrets[i].length)) {
            revealed++;
            dprintf(2, "a block of %zu bytes with %s\n", size, secrets[i].name);
        }
}

static void report(const char *name, int right) { dprintf(1, "(%s): %s\n", name, right ? "right" : "wrong"); }

__attribute__((destructor)) static void end(void) {
    if (taken) dprintf(2, "blocks that were not given back: %ld\n", taken);
    report("every block is given back", taken == 0);
    report("at least half of each block is used", unused == 0);
    report("no secret is given back", revealed == 0);
}
