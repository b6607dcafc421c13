/* A call of vectors/README.md: the words that follow its verb, and the answer that is written to
 * it. Octets are slices with a guarded page at one end, as in check.h. */
#ifndef CALL_H
#define CALL_H

#include "../check.h"

/* The room that is given if a call names none: more than the longest message. */
enum { ANY_ROOM = 66000 };

/* ---- words */

/* The next word, or NULL after the last; and the text of all that are left. */
char *call_word(void);
const char *call_rest(void);

/* From now on the words are those of this text, which next_part cuts, and the answer is empty. */
void call_again(char *words);

/* The next word as octets, as a number of hexadecimal digits, and as a decimal number. A word of
   another form makes the answer `?`. */
slice call_octets(void);
uint16_t call_number(void);
uint64_t call_count(void);

/* The next word as a room: a number of octets, or `any`. */
size_t call_room(void);

/* Cuts a word at its next `mark`, and returns the part before it, or NULL after the last. */
char *next_part(char **word, char mark);

/* The octets that a part of a word spells. */
slice octets_of(const char *digits);

/* The transaction ID of 24 hexadecimal digits, or of fewer. */
stun_types_id id_of(const char *digits);

/* The numbers of a list of types, or of none for `-`; how many there are. */
size_t types_of(char *list, uint16_t *types, size_t room);

/* The algorithm of a word: sha1, sha256 or any. */
stun_types_integrity algorithm_of(const char *word);

/* ---- answers */

/* Appends to the answer. */
void answer_text(const char *format, ...);

/* Appends octets in hexadecimal, or `-`. */
void answer_octets(const uint8_t *octets, size_t length);

/* Appends the refusal of an answer that isn't OK, with a space or a mark before each number. */
void answer_refusal(stun_types_answer answer);
void answer_refusal_with(stun_types_answer answer, char mark);

/* Whether an answer is OK; else the refusal is appended. */
bool is_taken(stun_types_answer answer);

/* Appends the word of an algorithm. */
void answer_algorithm(stun_types_integrity algorithm);

/* Appends a separating space, unless the answer is empty. */
void answer_space(void);

/* How many letters the answer has so far. */
size_t answer_count(void);

/* Makes the answer `-` if it is empty. */
void answer_or_nothing(void);

/* The answer becomes `?`: the call is none that this runner knows. */
void answer_unknown(void);

/* Answers by a function in each of so many ways, which must agree: else `!!disagree`. */
void answer_each_way(void (*way)(uint32_t number), uint32_t count);

/* ---- keys */

/* Whether there are octets: C takes no password without any, and then the answer becomes `?`. */
bool is_secret(slice octets);

/* A key of these bytes for an algorithm; false, and refused, if there is no memory. No freed block
   may hold the bytes. */
bool make_key(stun_types_key *key, slice bytes, stun_types_integrity algorithm);

/* From now on no block that is given back may hold these octets. */
void keep_secret(slice octets);

/* Whether two answers have the same code and numbers. */
bool is_same_answer(stun_types_answer one, stun_types_answer other);

/* ---- messages */

/* A message that is being written into a room. */
typedef struct {
    uint8_t *room;
    size_t size, written;
} draft;

/* Begins a message of a class and a method in a room of this size. */
stun_types_answer draft_begin(draft *message, size_t size, stun_types_class message_class,
                              stun_types_method method, const stun_types_id *id);

/* Begins the response to a request, of class success or error. */
stun_types_answer draft_reply(draft *message, size_t size, slice request,
                              stun_types_class message_class);

/* Adds SOFTWARE, which names the library, and the error 420 with these types: the first refusal. */
stun_types_answer draft_unknown(draft *message, const uint16_t *types, size_t count);

/* Appends the message, after which the room must be untouched. */
void answer_draft(const draft *message);

/* A message with one attribute: the class and the transaction ID are those of a request. */
slice message_with(uint16_t type, slice value, const stun_types_id *id);

/* The header of octets that have one. */
stun_types_header header_of(slice octets);

/* Whether the message with the second header is a response to the request with the first. */
bool is_response_to(const stun_types_header *request, const stun_types_header *response);

/* Whether a message shows an attribute of a type: *value is that of the first. */
bool find_value(slice octets, uint16_t type, slice *value);

/* The number of the user whom a message names, by USERNAME or USERHASH: 0 alice, 1 bob, 2 carol, or 3 if
   it is none of them. */
size_t user_of(slice message);

/* ---- responders */

/* Appends what a response to a request is: `success`, or the code of its error. */
void answer_result(slice request, slice response);

/* Answers with what a server of users sends back for a message: by long-term credentials if it has
   nonces, else by short-term ones. */
void respond_to_user(bool by_nonce, slice message);

/* ---- verbs */

/* A verb, the function that answers its calls, and whether a call of it may allocate. */
typedef struct {
    const char *verb;
    void (*answer)(void);
    bool allocates;
} verb;

extern const verb verbs_of_parse[], verbs_of_show[], verbs_of_validate[], verbs_of_keys[],
    verbs_of_values[], verbs_of_write[], verbs_of_replies[], verbs_of_servers[], verbs_of_streams[],
    verbs_of_transactions[], verbs_of_authentication[], verbs_of_print[], verbs_of_turn[],
    verbs_of_turn_datagrams[], verbs_of_responders[], verbs_of_allocations[], verbs_of_ice_agents[];

/* The words of the classes, by their numbers. */
extern const char *const class_words[4];

/* The number of a class of this word. */
stun_types_class class_of(const char *word);

#endif
