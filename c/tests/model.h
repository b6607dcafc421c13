/* The rules of docs/PROTOCOL.md once more, in C, each as it reads there and slowly: what the fuzzer
 * compares the library with. */
#ifndef MODEL_H
#define MODEL_H

#include <stdbool.h>
#include <stddef.h>
#include <stdint.h>

#include "../stun_types.h"

/* The most bytes of a message, and the most attributes in them. */
enum { MODEL_MOST = 65555, MODEL_ATTRIBUTES = 16384 };

/* Attributes, in order. */
typedef struct {
    size_t count;
    stun_types_attribute all[MODEL_ATTRIBUTES];
} model_list;

/* Why no header begins with the bytes; the length of the message, or 0 if it isn't known yet;
   why they are no message. */
stun_types_answer model_header(const uint8_t *bytes, size_t length);
stun_types_answer model_framed(const uint8_t *bytes, size_t length, size_t *message_length);
stun_types_answer model_parse(const uint8_t *bytes, size_t length);

/* Whether they are a header and whole attributes after it, as its length field counts them, in any
   order. */
bool model_is_whole(const uint8_t *bytes, size_t length);

/* What is shown. */
void model_shown(const uint8_t *bytes, size_t length, model_list *shown);

/* The first attribute that is shown from an offset on, after one of this type; false if there is none. */
bool model_next_shown(const uint8_t *bytes, size_t length, size_t at, unsigned last,
                      stun_types_attribute *attribute);

/* The first attribute of a type that is shown, or NULL. */
const stun_types_attribute *model_find(const model_list *shown, unsigned type);

/* The value of a FINGERPRINT at an offset. */
uint32_t model_fingerprint(const uint8_t *bytes, size_t at);

/* A key: its bytes, and the integrity algorithm that it was made for, or STUN_TYPES_INTEGRITY_ANY. */
enum { MODEL_KEY = 1024 };
typedef struct {
    bool is_there;
    uint32_t algorithm;
    size_t length;
    uint8_t bytes[MODEL_KEY];
} model_key;

/* Whether a key works with an integrity algorithm. */
bool model_serves(const model_key *key, uint32_t algorithm);

/* The HMAC that an integrity attribute with a value of so many bytes has at an offset; an algorithm is
   STUN_TYPES_INTEGRITY_SHA1 or STUN_TYPES_INTEGRITY_SHA256. */
void model_hmac(const uint8_t *bytes, size_t at, size_t value_length, uint32_t algorithm,
                const model_key *key, uint8_t *hmac);

/* Whether a policy, or a length that it asks for, means something. */
bool model_is_policy(const stun_types_policy *policy);
bool model_is_hmac_length(uint32_t length);

/* What a validation by a policy and with a key answers. */
stun_types_answer model_validate(const uint8_t *bytes, size_t length,
                                 const stun_types_policy *policy, const model_key *key,
                                 stun_types_validated *validated);

/* What reading a value answers. The address is as it is written, without a XOR. */
stun_types_answer model_address(const uint8_t *value, size_t length, stun_types_address *address);
stun_types_answer model_error(const uint8_t *value, size_t length, uint16_t *code);

/* How many bytes the number in a value of this type has: MODEL_NO_NUMBER if the value is none, and 0 if
   the type isn't known, so that a number may have any width. */
enum { MODEL_NO_NUMBER = 99 };
unsigned model_width(unsigned type);

/* How many zeros follow it. */
unsigned model_zeros(unsigned type);

/* One of the types that have a name and don't end a message: any number chooses one. */
uint16_t model_known(unsigned which);

/* What reading a number of so many bytes answers. */
stun_types_answer model_read_number(unsigned type, unsigned width, const uint8_t *value, size_t length);

/* The address that is written if this one is to be XORed, and the other way round. */
void model_xor(const uint8_t *bytes, stun_types_address *address);

/* The end of the first message of a stream that carries this, of which these are the bytes from its
   beginning on and which is read into a buffer of so many: its length, 0 if more bytes are needed, or
   why no message begins there. */
stun_types_answer model_cut(stun_types_stream_kind carries, const uint8_t *bytes, size_t length,
                            size_t buffer, size_t *message_length);

/* Whether bytes are UTF-8 (RFC 3629). */
bool model_is_utf8(const uint8_t *bytes, size_t length);

size_t model_padded(size_t length);
unsigned model_number(const uint8_t *bytes);
bool model_is_ending(unsigned type);

/* Whether addresses in attributes of this type are known to be XORed, or known not to be. */
bool model_is_xored(unsigned type);
bool model_is_plain(unsigned type);
stun_types_answer model_answer(uint32_t code, uint32_t type, uint64_t expected, uint64_t actual);

#endif
