/* What the parts of the fuzzer share. */
#ifndef FUZZ_H
#define FUZZ_H

#include <stdbool.h>
#include <stddef.h>
#include <stdint.h>

#include "../stun_types.h"
#include "../tests/guarded.h"
#include "../tests/model_client.h"

#define COUNT(array) (sizeof(array) / sizeof *(array))

enum { ROOM = 70000 };

/* ---- properties (inputs.c) */

/* Prints a property that doesn't hold, and the input, and ends the program. */
void broken(const char *file, int line, const char *property);
#define HOLDS(property) ((property) ? (void)0 : broken(__FILE__, __LINE__, #property))

#define SUCCEEDS(call) HOLDS(is_same(call, FINE))
bool is_same(stun_types_answer one, stun_types_answer other);
extern const stun_types_answer FINE, BAD_ARGUMENT;

/* ---- inputs (inputs.c) */

/* Begins an input, and ends it: what was placed is looked at. */
void begin_input(const uint8_t *bytes, size_t length, guarded_side side);
void end_input(void);
extern unsigned long inputs_passed;

/* The bytes of the input that are left; each is taken once, and is 0 after the end. */
typedef struct {
    const uint8_t *bytes;
    size_t left;
} source;

unsigned take(source *from);
unsigned take_two(source *from);
uint32_t take_four(source *from);
uint64_t take_eight(source *from);
void take_bytes(source *from, void *bytes, size_t length);

/* A number below a limit; one in so many inputs is any number of 32 bits. */
uint32_t take_below(source *from, uint32_t limit, unsigned one_in);

/* ---- slices (inputs.c) */

/* What a slice holds before a call writes it. */
enum { FILL = 0xEE };

/* A slice, until the input ends, whose one end is at a page that may not be touched: to be written, of
   at most 4,000 bytes, filled; or to be read, with a copy of bytes. end_input looks whether what is
   beside the slices was written, or those to be read were; release_places does so with those that were
   made since so many were used, and ends them. */
void *place(size_t length);
const void *copy_of(const void *bytes, size_t length);
bool is_filled(const void *bytes, size_t length);
size_t places_used(void);
void release_places(size_t first);

/* The same in a big region, which has one slice at a time, of at most ROOM bytes, or of PRINTED_MOST in
   PRINTED; it isn't filled, and nothing is looked at. */
enum { PRINTED_MOST = 1 << 20 };
typedef enum { GIVEN, WRITTEN, OTHER, PRINTED, BIG_REGIONS } big_region;
uint8_t *big_place(big_region region, size_t length);
const uint8_t *give(const uint8_t *bytes, size_t length);

/* A struct of this type, as a slice. */
#define NEW(type) ((type *)place(sizeof(type)))

/* A text of the input: any bytes, or letters, or what such a text often is; of at most 200 bytes. */
model_text take_text(source *from, const char *often);

/* An address, and one in 16 times any struct. */
const stun_types_address *take_address(source *from);

/* A policy: all zeros, one that means something, or any struct. */
const stun_types_policy *take_policy(source *from);

/* A list of at most 80 numbers, as often password algorithms as not. */
typedef struct {
    const uint16_t *all;
    size_t count;
} number_list;
number_list take_numbers(source *from, bool are_passwords);

/* ---- keys (keychain.c) */

/* A key that the library made, and what it is. */
typedef struct {
    stun_types_key key;
    model_key model;
} pair;

enum {
    NO_KEY,
    PASSWORD,
    PASSWORD_SHA1,
    PASSWORD_SHA256,
    LOGIN_MD5,
    LOGIN_SHA256,
    LONG_KEY,
    SECRET,
    PAIRS
};
extern pair pairs[PAIRS];

/* They are made once, and freed at the end of a program. */
void make_pairs(void);
void free_pairs(void);

/* ---- messages by the model (messages.c) */

typedef struct {
    uint8_t bytes[ROOM];
    size_t length;
} text;

void put_length(text *message);
/* The message as it was when it had this length. */
void cut(text *message, size_t length);
void start(text *message, unsigned type, const uint8_t *id);
void append(text *message, unsigned type, const void *value, size_t length);

/* Adds an integrity attribute, with the first bytes of its HMAC if it is cut. */
void sign(text *message, stun_types_integrity algorithm, const model_key *key);
void sign_cut(text *message, stun_types_integrity algorithm, const model_key *key, size_t length);
void finger(text *message);

/* Why an attribute with a value of so many bytes isn't added to whole ones in a slice of a size. */
stun_types_answer refusal_of(const text *written, size_t size, unsigned type, size_t length);

/* Signs it, and adds a FINGERPRINT, until one of both is refused; and what is answered then. */
stun_types_answer ended(text *wanted, size_t size, stun_types_integrity algorithm,
                        const model_key *key, bool is_fingered);

/* A message that is right, by a number; and one that is then changed. */
void seed(text *message, unsigned which);
void change(text *message, source *from);

/* A request as credentials protect it, a response to it, or something like that. */
void take_request(text *message, source *from);
void take_response(text *message, source *from, unsigned method, const uint8_t *id);

/* ---- subjects */

void check_read(const uint8_t *original, size_t length, source *from);

/* Reads the value of an attribute in each way: of one that is shown, and of any struct. */
void check_values(const uint8_t *bytes, size_t length, const stun_types_attribute *attribute,
                  source *from);
void check_outside(const uint8_t *bytes, size_t length, source *from);
void check_servers(const uint8_t *bytes, size_t length, const model_list *shown, source *from);
void check_clients(const uint8_t *bytes, size_t length, const model_list *shown, source *from);

/* Reads a challenge as the model does: whether it is one. Answers it: adds what it asks for to a
   message, in a slice of a size. */
bool check_challenge(const uint8_t *bytes, size_t length, const model_knowledge *knowledge);
void check_answer(text *wanted, size_t size, const uint8_t *response, size_t length,
                  number_list supported, model_text user, const pair *key, bool is_fingered);

void check_writing(source *from);
void check_stream(source *from);
void check_channel_data(source *from);
void check_numbers(source *from);
void check_keys(source *from);
void check_nonces(source *from);
void check_credentials(source *from);
void check_challenges(source *from);
void check_transactions(source *from);
void check_turn(source *from);
void check_allocations(source *from);
void check_ice(source *from);

#endif
