/* Digests, HMACs and checksums by bench/reference.h, which was written from the standards. */
#ifndef REFERENCE_H
#define REFERENCE_H

#include <stddef.h>
#include <stdint.h>

/* What a block of memory with a key may hold, and no block that is given back may, is given to
   heap_add_secret: the key, of at most 64 bytes, the blocks with which the two digests of an HMAC
   begin, and the states of hashers that took them in. */
void secrets_of(const void *key, size_t length, void (*add)(const void *bytes, size_t length));

/* The digest of a text, and its HMAC under a key of at most 64 bytes without zeros: SHA-1 (1) of 20
   bytes, or SHA-256 (2) of 32. They allocate. */
void digest_of(int algorithm, const void *bytes, size_t length, uint8_t *result);
void hmac_of(int algorithm, const char *key, const uint8_t *bytes, size_t length, uint8_t *result);

/* The HMAC of two texts, one after the other, under a key of any bytes, by the same numbers. It allocates
   nothing. */
void own_hmac(int algorithm, const void *key, size_t key_length, const uint8_t *front,
              size_t front_length, const uint8_t *back, size_t back_length, uint8_t *result);

/* CRC-32 of ISO-HDLC. */
uint32_t checksum_of(const uint8_t *bytes, size_t length);

#endif
