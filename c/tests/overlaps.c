/* Arguments that overlap: for each call that writes one, each two of them share a byte, or as few as
 * their alignment allows, at either end; and they touch, which is allowed. */
#include <string.h>

#include "check.h"
#include "heap.h"
#include "keychain.h"
#include "samples.h"
#include "tests.h"
#include "turn_site.h"

enum { ARGUMENTS = 9, APART = 512 };

/* An argument of a call: what it is for the call, how many bytes it has, at which multiples it is
   aligned, and what it begins with, in hexadecimal; zeros follow. Of a call that is refused, verdicts are
   zeros, and nothing else has changed. SERVER is a TURN server, CLIENT a TURN client, and AGENT an ICE agent,
   which are made for all calls. */
typedef struct {
    enum { READ = 1, WRITTEN, VERDICT, KEY, SERVER, CLIENT, AGENT, LITE } is;
    size_t size, align;
    const char *begins;
} argument;

typedef struct {
    const char *name;
    uint64_t (*call)(void *const *at);
    argument arguments[ARGUMENTS];
} guarded_call;

/* What a call with overlapping arguments returns, as the functions below report it. */
#define REFUSED STUN_TYPES_BAD_ARGUMENT

#define REPORT(answer) return (uint64_t)(answer).code
#define REPORT_BOOL(answer) return (answer) ? 0 : (uint64_t)REFUSED
#define REPORT_COUNT(answer) return (answer) == SIZE_MAX ? (uint64_t)REFUSED : 0
#define CALL(name) static uint64_t name(void *const *at)

static const uint16_t ADDED = STUN_TYPES_ATTRIBUTE_SOFTWARE;

CALL(framed_length) { REPORT(stun_types_framed_length(at[0], 20, at[1])); }
CALL(read_header) { REPORT(stun_types_read_header(at[0], 20, at[1])); }
CALL(next) { REPORT_BOOL(stun_types_next(at[0], 28, at[1], at[2])); }
CALL(attributes) { REPORT_COUNT(stun_types_attributes(at[0], 28, at[1], 2)); }
CALL(find) { REPORT_BOOL(stun_types_find(at[0], 28, 0x0006, at[1])); }
CALL(read_xor_address) { REPORT(stun_types_read_xor_address(at[0], 28, at[1], at[2])); }
CALL(read_address) { REPORT(stun_types_read_address(at[0], 28, at[1], at[2])); }
CALL(read_error) { REPORT(stun_types_read_error(at[0], 28, at[1], at[2], at[3], at[4])); }
CALL(read_types) { REPORT(stun_types_read_types(at[0], 28, at[1], at[2], 2, at[3])); }
CALL(unknown_types) { REPORT_COUNT(stun_types_unknown_types(at[0], 28, at[1], 4, at[2], 2)); }
CALL(read_u8) { REPORT(stun_types_read_u8(at[0], 28, at[1], at[2])); }
CALL(read_u16) { REPORT(stun_types_read_u16(at[0], 28, at[1], at[2])); }
CALL(read_u32) { REPORT(stun_types_read_u32(at[0], 28, at[1], at[2])); }
CALL(read_u64) { REPORT(stun_types_read_u64(at[0], 28, at[1], at[2])); }
CALL(print) { REPORT(stun_types_print(at[0], 28, at[1], 100, at[2])); }
CALL(key_short_term) { REPORT(stun_types_key_short_term(at[0], at[1], 4)); }
CALL(key_long_term) {
    REPORT(stun_types_key_long_term(at[0], at[1], 4, at[2], 5, at[3], 4, STUN_TYPES_PASSWORD_MD5));
}
CALL(key_from_bytes) {
    REPORT(stun_types_key_from_bytes(at[0], at[1], 4, STUN_TYPES_INTEGRITY_ANY));
}
CALL(key_copy) { REPORT(stun_types_key_copy(at[0], at[1])); }
CALL(key_bytes) { REPORT(stun_types_key_bytes(at[0], at[1], 8, at[2], at[3])); }
CALL(userhash) { REPORT(stun_types_userhash(at[0], 4, at[1], 5, at[2])); }
CALL(validate_by_policy) {
    REPORT(stun_types_validate_by_policy(at[0], 28, at[1], at[2], at[3]));
}
CALL(validate) { REPORT(stun_types_validate(at[0], 28, at[1], at[2])); }
CALL(validate_short_term) { REPORT(stun_types_validate_short_term(at[0], 28, at[1], 4, at[2])); }
CALL(validate_long_term) {
    REPORT(stun_types_validate_long_term(at[0], 28, at[1], 4, at[2], 5, at[3], 4, at[4]));
}
CALL(covered_text) {
    REPORT(stun_types_covered_text(at[0], 28, STUN_TYPES_INTEGRITY_ANY, at[1]));
}
CALL(validate_with_hmac) {
    REPORT(stun_types_validate_with_hmac(at[0], 28, STUN_TYPES_INTEGRITY_ANY, at[1], at[2]));
}
CALL(begin) { REPORT(stun_types_begin(at[0], 40, 0x0001, at[1], at[2])); }
CALL(begin_reply) {
    REPORT(stun_types_begin_reply(at[0], 40, at[1], 28, STUN_TYPES_CLASS_SUCCESS, at[2]));
}
CALL(add) { REPORT(stun_types_add(at[0], 44, at[1], ADDED, at[2], 8)); }
CALL(add_u8) { REPORT(stun_types_add_u8(at[0], 44, at[1], 0x7FFF, 1)); }
CALL(add_u16) { REPORT(stun_types_add_u16(at[0], 44, at[1], 0x7FFF, 1)); }
CALL(add_u32) { REPORT(stun_types_add_u32(at[0], 44, at[1], 0x7FFF, 1)); }
CALL(add_u64) { REPORT(stun_types_add_u64(at[0], 44, at[1], 0x7FFF, 1)); }
CALL(add_xor_address) { REPORT(stun_types_add_xor_address(at[0], 44, at[1], 0x0020, at[2])); }
CALL(add_address) { REPORT(stun_types_add_address(at[0], 44, at[1], 0x0001, at[2])); }
CALL(add_error) {
    REPORT(stun_types_add_error(at[0], 44, at[1], STUN_TYPES_CODE_BAD_REQUEST, at[2], 4));
}
CALL(add_unknown_types) { REPORT(stun_types_add_unknown_types(at[0], 44, at[1], at[2], 4)); }
CALL(add_integrity) {
    REPORT(stun_types_add_integrity(at[0], 44, at[1], at[2], STUN_TYPES_INTEGRITY_SHA1));
}
CALL(next_covered_text) {
    REPORT(stun_types_next_covered_text(at[0], 44, 20, STUN_TYPES_INTEGRITY_SHA1, at[1]));
}
CALL(add_hmac) { REPORT(stun_types_add_hmac(at[0], 44, at[1], at[2], at[3])); }
CALL(add_fingerprint) { REPORT(stun_types_add_fingerprint(at[0], 44, at[1])); }
CALL(binding_reply) { REPORT(stun_types_binding_reply(at[0], 20, at[1], at[2], 60, at[3])); }
CALL(authenticate_short_term) {
    REPORT(stun_types_authenticate_short_term(at[0], 28, at[1], at[2], at[3]));
}
CALL(authenticate_long_term) {
    REPORT(stun_types_authenticate_long_term(at[0], 28, at[1], STUN_TYPES_NONCE_UNKNOWN, at[2], 2,
                                             at[3], at[4], at[5]));
}
CALL(finish_reply) {
    REPORT(stun_types_finish_reply(at[0], 44, at[1], at[2], at[3], at[4], false));
}
CALL(refuse_short_term) {
    REPORT(stun_types_refuse_short_term(at[0], 28, STUN_TYPES_CODE_BAD_REQUEST, at[1], 100, at[2]));
}
CALL(refuse_long_term) {
    REPORT(stun_types_refuse_long_term(at[0], 28, STUN_TYPES_CODE_UNAUTHORIZED, at[1], at[5], 200,
                                       at[6]));
}
CALL(security_features) { REPORT_BOOL(stun_types_security_features(at[0], 13, at[1])); }
CALL(make_nonce) {
    REPORT(stun_types_make_nonce(at[0], 0, 600, 7, at[1], at[2], STUN_TYPES_NONCE_LENGTH, at[3]));
}
CALL(judge_nonce) { REPORT(stun_types_judge_nonce(at[0], 0, 600, 7, at[1], at[2], 13, at[3])); }
CALL(transaction_begin) {
    REPORT(stun_types_transaction_begin(at[0], at[1], 28, at[2], STUN_TYPES_UDP,
                                        STUN_TYPES_UNPROTECTED, at[3], 0));
}
CALL(transaction_poll) { REPORT(stun_types_transaction_poll(at[0], 0, at[1])); }
CALL(transaction_receive) {
    REPORT(stun_types_transaction_receive(at[0], at[1], at[2], 28, at[3], 4, at[4]));
}
CALL(challenge_of) {
    REPORT(stun_types_challenge_of(at[0], 28, at[1], 2, true, at[2], 5, false, at[3]));
}
CALL(key_for) { REPORT(stun_types_key_for(at[0], at[1], 28, at[2], 2, at[3], 4, at[4], 4)); }
CALL(answer_challenge) {
    REPORT(stun_types_answer_challenge(at[0], 200, at[1], at[2], 28, at[3], 2, at[4], 4, at[5],
                                       false));
}
CALL(transactions_find) { REPORT_BOOL(stun_types_transactions_find(at[0], 1, at[1], 32, at[2])); }
CALL(transactions_next) { REPORT_BOOL(stun_types_transactions_next(at[0], 1, at[1])); }
CALL(round_trip) { REPORT_BOOL(stun_types_transaction_round_trip(at[0], 9, at[1])); }
CALL(stream_push) { REPORT(stun_types_stream_push(at[0], at[1], 40, at[2], 28, at[3])); }
CALL(channel_data_length) { REPORT(stun_types_channel_data_length(at[0], 8, at[1])); }
CALL(read_channel_data) { REPORT(stun_types_read_channel_data(at[0], 8, at[1])); }
CALL(write_channel_data) {
    REPORT(stun_types_write_channel_data(0x4000, at[0], 4, true, at[1], 20, at[2]));
}

CALL(turn_new) {
    REPORT(stun_types_turn_new(at[0], at[1], at[2]));
}
CALL(turn_set_rules) { REPORT(stun_types_turn_set_rules(at[0], at[1])); }
CALL(turn_set_limits) { REPORT(stun_types_turn_set_limits(at[0], at[1])); }
CALL(turn_set_alternate) { REPORT(stun_types_turn_set_alternate(at[0], at[1])); }
CALL(turn_client) {
    REPORT(stun_types_turn_client(at[0], 0, at[1], at[3], at[4], at[5], 60, at[6]));
}
CALL(turn_icmp) {
    REPORT(stun_types_turn_icmp(at[0], 0, at[1], 1, at[2], at[3], at[4], STUN_TYPES_TURN_NOTICE, at[5]));
}
CALL(turn_fields) { REPORT(stun_types_turn_fields(at[0], at[1])); }
CALL(turn_peer) {
    REPORT(stun_types_turn_peer(at[0], 0, at[1], 1, 3, at[2], at[3], STUN_TYPES_TURN_HEAD, at[4]));
}

CALL(allocation_new) { REPORT(stun_types_allocation_new(at[0], at[1])); }
CALL(allocation_want) {
    REPORT(stun_types_allocation_want(at[0], 0, STUN_TYPES_ALLOCATION_BIND, at[1]));
}
CALL(allocation_datagram) { REPORT(stun_types_allocation_datagram(at[0], 0, at[1], at[2], 28, at[3])); }
CALL(allocation_poll) { REPORT(stun_types_allocation_poll(at[0], 0, at[1], at[2], 40, at[3], at[4])); }
CALL(allocation_send) {
    REPORT(stun_types_allocation_send(at[0], 0, 3, at[1], at[2], at[3], STUN_TYPES_ALLOCATION_HEAD, at[4]));
}
CALL(allocation_send_whole) {
    REPORT(stun_types_allocation_send_whole(at[0], 0, 3, at[1], at[2], at[3], STUN_TYPES_ALLOCATION_HEAD, at[4]));
}
CALL(ice_new) { REPORT(stun_types_ice_new(at[0], at[1])); }
CALL(ice_set_peer) { REPORT(stun_types_ice_set_peer(at[0], 0, at[1], 4, at[2], 22)); }
CALL(ice_add_base) { REPORT(stun_types_ice_add_base(at[0], 0, at[1])); }
CALL(ice_add_remote) { REPORT(stun_types_ice_add_remote(at[0], 0, at[1])); }
CALL(ice_add_address) { REPORT(stun_types_ice_add_address(at[0], at[1])); }
CALL(ice_datagram) { REPORT(stun_types_ice_datagram(at[0], 0, 1, at[1], at[2], 28, 0, at[3], 64, at[4])); }
CALL(ice_poll) { REPORT(stun_types_ice_poll(at[0], 0, at[1], at[2], 40, at[3], at[4])); }
CALL(ice_status) { REPORT_BOOL(stun_types_ice_status(at[0], 1, at[1])); }
CALL(ice_lite_new) { REPORT(stun_types_ice_lite_new(at[0], at[1])); }
CALL(ice_lite_datagram) { REPORT(stun_types_ice_lite_datagram(at[0], 0, 1, at[1], at[2], 28, at[3], 64, at[4])); }
CALL(ice_candidate_read) { REPORT(stun_types_ice_candidate_read(at[0], 4, at[1])); }
CALL(ice_candidate_write) { REPORT(stun_types_ice_candidate_write(at[0], at[1], 40, at[2])); }
CALL(attempt_next) { REPORT_BOOL(stun_types_allocation_attempt_next(at[0], at[1])); }

/* Puts the slices into a struct that is passed. */
static void asks(void *const *at) {
    stun_types_asked *it = at[1];
    it->realm = at[2];
    it->realm_length = 5;
    it->nonce = at[3];
    it->nonce_length = 13;
    it->algorithms = at[4];
    it->algorithms_count = 1;
}

static void sets(void *const *at) {
    stun_types_turn_settings *it = at[1];
    it->realm = at[3];
    it->realm_length = 5;
    it->software = at[4];
    it->software_length = 4;
    it->denied = at[5];
    it->denied_count = 2;
    it->allowed = at[6];
    it->allowed_count = 1;
    it->listening = at[7];
    it->listening_count = 2;
}

static void rules(void *const *at) {
    stun_types_turn_settings *it = at[1];
    it->denied = at[2];
    it->denied_count = 2;
    it->allowed = at[3];
    it->allowed_count = 1;
    it->listening = at[4];
    it->listening_count = 2;
}

static void comes(void *const *at) {
    stun_types_turn_datagram *it = at[1];
    it->bytes = at[2];
    it->length = 20;
}

static void names(void *const *at) {
    stun_types_allocation_settings *it = at[1];
    it->user = at[2];
    it->user_length = 4;
    it->password = at[3];
    it->password_length = 6;
    it->software = at[4];
    it->software_length = 2;
}

static void logs_in(void *const *at) {
    stun_types_ice_settings *it = at[1];
    it->ufrag = at[2];
    it->ufrag_length = 4;
    it->password = at[3];
    it->password_length = 22;
    it->software = at[4];
    it->software_length = 2;
}

static void is_lite(void *const *at) {
    stun_types_ice_lite_settings *it = at[1];
    it->ufrag = at[2];
    it->ufrag_length = 4;
    it->password = at[3];
    it->password_length = 22;
    it->bases = at[4];
    it->base_count = 1;
}

static const struct {
    uint64_t (*call)(void *const *at);
    void (*put)(void *const *at);
} structs[] = {{refuse_long_term, asks}, {turn_new, sets}, {turn_set_rules, rules}, {turn_client, comes},
               {allocation_new, names}, {ice_new, logs_in}, {ice_lite_new, is_lite}};

/* ---- the calls, and what they are given: answers that aren't REFUSED, if no arguments overlap */

#define BYTES(size, begins) {READ, size, 1, begins}
#define GIVEN(size, begins) {READ, size, 8, begins}
#define ROOM(size, begins) {WRITTEN, size, 1, begins}
#define LEFT(size, begins) {WRITTEN, size, 8, begins}
#define ZEROED(size) {VERDICT, size, 8, ""}
#define HANDLE {KEY, sizeof(stun_types_key), 8, ""}

#define HEADER "0001 0000 2112A442 00*12"
#define USER "0001 0008 2112A442 00*12 0006 0004 75736572"
#define ATTRIBUTE GIVEN(sizeof(stun_types_attribute), "18 00*7 FF7F 0400")
#define ADDRESS GIVEN(sizeof(stun_types_address), "00*16 0100 0400")
#define BEGUN ROOM(44, HEADER), LEFT(sizeof(size_t), "14")
#define COUNTED LEFT(sizeof(size_t), "")
#define LIST GIVEN(4, "0100 0200")
#define SCHEDULE "F401 00*6 4C9A 00*6 07000000 10000000 00*16"
#define SENT SCHEDULE " 00*28 01000000 0100 01 04 0000"
#define POLICY GIVEN(sizeof(stun_types_policy), "")
#define HMAC {READ, sizeof(stun_types_hmac), 4, "08000000"}
#define TURN_SERVER {SERVER, sizeof(stun_types_turn), 8, ""}
#define TURN_CLIENT {CLIENT, sizeof(stun_types_allocation), 8, ""}
#define ICE_AGENT {AGENT, sizeof(stun_types_ice), 8, ""}
#define LITE_AGENT {LITE, sizeof(stun_types_ice_lite), 8, ""}

static const guarded_call calls[] = {
    {"stun_types_framed_length", framed_length, {BYTES(20, HEADER), COUNTED}},
    {"stun_types_read_header", read_header, {BYTES(20, HEADER), LEFT(sizeof(stun_types_header), "")}},
    {"stun_types_next", next,
     {BYTES(28, USER), LEFT(sizeof(stun_types_cursor), ""), LEFT(sizeof(stun_types_attribute), "")}},
    {"stun_types_attributes", attributes,
     {BYTES(28, USER), LEFT(2 * sizeof(stun_types_attribute), "")}},
    {"stun_types_find", find, {BYTES(28, USER), LEFT(sizeof(stun_types_attribute), "")}},
    {"stun_types_read_xor_address", read_xor_address,
     {BYTES(28, USER), ATTRIBUTE, LEFT(sizeof(stun_types_address), "")}},
    {"stun_types_read_address", read_address,
     {BYTES(28, USER), ATTRIBUTE, LEFT(sizeof(stun_types_address), "")}},
    {"stun_types_read_error", read_error,
     {BYTES(28, USER), ATTRIBUTE, LEFT(sizeof(uint16_t), ""), COUNTED, COUNTED}},
    {"stun_types_read_types", read_types, {BYTES(28, USER), ATTRIBUTE, LEFT(4, ""), COUNTED}},
    {"stun_types_unknown_types", unknown_types, {BYTES(28, USER), GIVEN(8, ""), LEFT(4, "")}},
    {"stun_types_read_u8", read_u8, {BYTES(28, USER), ATTRIBUTE, ROOM(1, "")}},
    {"stun_types_read_u16", read_u16, {BYTES(28, USER), ATTRIBUTE, LEFT(2, "")}},
    {"stun_types_read_u32", read_u32, {BYTES(28, USER), ATTRIBUTE, LEFT(4, "")}},
    {"stun_types_read_u64", read_u64, {BYTES(28, USER), ATTRIBUTE, LEFT(8, "")}},
    {"stun_types_print", print, {BYTES(28, USER), ROOM(100, ""), COUNTED}},
    {"stun_types_key_short_term", key_short_term, {HANDLE, BYTES(4, "")}},
    {"stun_types_key_long_term", key_long_term,
     {HANDLE, BYTES(4, ""), BYTES(5, ""), BYTES(4, "")}},
    {"stun_types_key_from_bytes", key_from_bytes, {HANDLE, BYTES(4, "")}},
    {"stun_types_key_copy", key_copy, {HANDLE, GIVEN(sizeof(stun_types_key), "")}},
    {"stun_types_key_bytes", key_bytes,
     {GIVEN(sizeof(stun_types_key), ""), ROOM(8, ""), COUNTED, LEFT(4, "")}},
    {"stun_types_userhash", userhash, {BYTES(4, ""), BYTES(5, ""), ROOM(32, "")}},
    {"stun_types_validate_by_policy", validate_by_policy,
     {BYTES(28, USER), POLICY, GIVEN(sizeof(stun_types_key), ""), ZEROED(16)}},
    {"stun_types_validate", validate,
     {BYTES(28, USER), GIVEN(sizeof(stun_types_key), ""), ZEROED(16)}},
    {"stun_types_validate_short_term", validate_short_term,
     {BYTES(28, USER), BYTES(4, ""), ZEROED(16)}},
    {"stun_types_validate_long_term", validate_long_term,
     {BYTES(28, USER), BYTES(4, ""), BYTES(5, ""), BYTES(4, ""), ZEROED(16)}},
    {"stun_types_covered_text", covered_text, {BYTES(28, USER), ZEROED(16)}},
    {"stun_types_validate_with_hmac", validate_with_hmac,
     {BYTES(28, USER), HMAC, ZEROED(16)}},
    {"stun_types_begin", begin, {ROOM(40, ""), BYTES(sizeof(stun_types_id), ""), COUNTED}},
    {"stun_types_begin_reply", begin_reply, {ROOM(40, ""), BYTES(28, USER), COUNTED}},
    {"stun_types_add", add, {BEGUN, BYTES(8, "")}},
    {"stun_types_add_u8", add_u8, {BEGUN}},
    {"stun_types_add_u16", add_u16, {BEGUN}},
    {"stun_types_add_u32", add_u32, {BEGUN}},
    {"stun_types_add_u64", add_u64, {BEGUN}},
    {"stun_types_add_xor_address", add_xor_address, {BEGUN, ADDRESS}},
    {"stun_types_add_address", add_address, {BEGUN, ADDRESS}},
    {"stun_types_add_error", add_error, {BEGUN, BYTES(4, "")}},
    {"stun_types_add_unknown_types", add_unknown_types, {BEGUN, GIVEN(8, "")}},
    {"stun_types_add_integrity", add_integrity, {BEGUN, GIVEN(sizeof(stun_types_key), "")}},
    {"stun_types_next_covered_text", next_covered_text, {BYTES(44, HEADER), ZEROED(16)}},
    {"stun_types_add_hmac", add_hmac,
     {BEGUN, GIVEN(sizeof(stun_types_covered), "08000000 00010018 14"), HMAC}},
    {"stun_types_add_fingerprint", add_fingerprint, {BEGUN}},
    {"stun_types_binding_reply", binding_reply,
     {BYTES(20, HEADER), ADDRESS, ROOM(60, ""), ZEROED(sizeof(size_t))}},
    {"stun_types_authenticate_short_term", authenticate_short_term,
     {BYTES(28, USER), POLICY, GIVEN(sizeof(stun_types_key), ""), ZEROED(24)}},
    {"stun_types_authenticate_long_term", authenticate_long_term,
     {BYTES(28, USER), POLICY, LIST, GIVEN(sizeof(stun_types_key), ""),
      GIVEN(sizeof(stun_types_key), ""), ZEROED(24)}},
    {"stun_types_finish_reply", finish_reply,
     {BEGUN, GIVEN(24, "01000000 00000000 08000000 08000000"), GIVEN(sizeof(stun_types_key), ""),
      GIVEN(sizeof(stun_types_key), "")}},
    {"stun_types_refuse_short_term", refuse_short_term, {BYTES(28, USER), ROOM(100, ""), COUNTED}},
    {"stun_types_refuse_long_term", refuse_long_term,
     {BYTES(28, USER), GIVEN(sizeof(stun_types_asked), ""), BYTES(5, ""),
      BYTES(13, "6F624D61744A6F733267414141"), GIVEN(2, "0100"), ROOM(200, ""), COUNTED}},
    {"stun_types_security_features", security_features,
     {BYTES(13, "6F624D61744A6F733241414141"), LEFT(4, "")}},
    {"stun_types_make_nonce", make_nonce,
     {GIVEN(sizeof(stun_types_key), ""), ADDRESS, ROOM(STUN_TYPES_NONCE_LENGTH, ""), COUNTED}},
    {"stun_types_judge_nonce", judge_nonce,
     {GIVEN(sizeof(stun_types_key), ""), ADDRESS, BYTES(13, ""), ZEROED(4)}},
    {"stun_types_transaction_begin", transaction_begin,
     {ZEROED(sizeof(stun_types_transaction)), BYTES(28, USER),
      GIVEN(sizeof(stun_types_schedule), SCHEDULE), GIVEN(sizeof(stun_types_key), "")}},
    {"stun_types_transaction_poll", transaction_poll,
     {LEFT(sizeof(stun_types_transaction), SENT), ZEROED(24)}},
    {"stun_types_transaction_receive", transaction_receive,
     {LEFT(sizeof(stun_types_transaction), SENT), GIVEN(sizeof(stun_types_key), ""), BYTES(28, USER),
      GIVEN(8, ""), ZEROED(16)}},
    {"stun_types_challenge_of", challenge_of,
     {BYTES(28, USER), LIST, BYTES(5, ""), LEFT(sizeof(stun_types_challenge), "")}},
    {"stun_types_key_for", key_for,
     {HANDLE, BYTES(28, USER), LIST, BYTES(4, ""), BYTES(4, "")}},
    {"stun_types_answer_challenge", answer_challenge,
     {ROOM(200, HEADER), LEFT(sizeof(size_t), "14"), BYTES(28, USER), LIST, BYTES(4, ""),
      GIVEN(sizeof(stun_types_key), "")}},
    {"stun_types_transactions_find", transactions_find,
     {GIVEN(sizeof(stun_types_transaction), SENT),
      BYTES(32, "0101 000C 2112A442 00*12 00200008 0001A147E112A643"), COUNTED}},
    {"stun_types_transactions_next", transactions_next,
     {GIVEN(sizeof(stun_types_transaction), SENT), LEFT(8, "")}},
    {"stun_types_transaction_round_trip", round_trip,
     {GIVEN(sizeof(stun_types_transaction), SENT "01"), LEFT(8, "")}},
    {"stun_types_stream_push", stream_push,
     {LEFT(sizeof(stun_types_stream), ""), ROOM(40, ""), BYTES(28, USER), COUNTED}},
    {"stun_types_channel_data_length", channel_data_length,
     {BYTES(8, "40000004 01020304"), COUNTED}},
    {"stun_types_read_channel_data", read_channel_data,
     {BYTES(8, "40000004 01020304"), LEFT(sizeof(stun_types_channel_data), "")}},
    {"stun_types_write_channel_data", write_channel_data,
     {BYTES(4, ""), ROOM(20, ""), COUNTED}},
    {"stun_types_turn_new", turn_new,
     {LEFT(sizeof(stun_types_turn), ""), GIVEN(sizeof(stun_types_turn_settings), ""),
      GIVEN(sizeof(stun_types_key), ""), BYTES(5, ""), BYTES(4, ""),
      GIVEN(2 * sizeof(stun_types_prefix), "00*18 0400 00*6 00*18 0600"),
      GIVEN(sizeof(stun_types_prefix), "00*18 0400"),
      GIVEN(2 * sizeof(stun_types_address), "00*18 0400 00*18 0600")}},
    {"stun_types_turn_set_rules", turn_set_rules,
     {TURN_SERVER, GIVEN(sizeof(stun_types_turn_settings), ""),
      GIVEN(2 * sizeof(stun_types_prefix), "00*18 0400 00*6 00*18 0600"),
      GIVEN(sizeof(stun_types_prefix), "00*18 0400"),
      GIVEN(2 * sizeof(stun_types_address), "00*18 0400 00*18 0600")}},
    {"stun_types_turn_set_limits", turn_set_limits,
     {TURN_SERVER, GIVEN(sizeof(stun_types_turn_limits), "")}},
    {"stun_types_turn_set_alternate", turn_set_alternate, {TURN_SERVER, ADDRESS}},
    {"stun_types_turn_client", turn_client,
     {TURN_SERVER, GIVEN(sizeof(stun_types_turn_datagram), "00*34 0400 00*18 0400"),
      BYTES(20, HEADER), GIVEN(sizeof(stun_types_key), ""), GIVEN(sizeof(stun_types_key), ""),
      ROOM(60, ""), ZEROED(sizeof(stun_types_turn_action))}},
    {"stun_types_turn_icmp", turn_icmp,
     {TURN_SERVER, ADDRESS, GIVEN(sizeof(stun_types_icmp), ""), BYTES(12, ""), ROOM(STUN_TYPES_TURN_NOTICE, ""),
      ZEROED(sizeof(stun_types_turn_notice))}},
    {"stun_types_turn_fields", turn_fields,
     {GIVEN(sizeof(stun_types_turn_relayed), "00*10 0400 0400"), ZEROED(sizeof(stun_types_turn_sent))}},
    {"stun_types_turn_peer", turn_peer,
     {TURN_SERVER, ADDRESS, BYTES(sizeof(stun_types_id), ""), ROOM(STUN_TYPES_TURN_HEAD, ""),
      ZEROED(sizeof(stun_types_turn_delivery))}},
    /* (the user's name isn't UTF-8) */
    {"stun_types_allocation_new", allocation_new,
     {LEFT(sizeof(stun_types_allocation), ""),
      GIVEN(sizeof(stun_types_allocation_settings), "00*18 0400 01000000"), BYTES(4, "FF*4"), BYTES(6, ""),
      BYTES(2, "")}},
    {"stun_types_allocation_want", allocation_want, {TURN_CLIENT, ADDRESS}},
    {"stun_types_allocation_datagram", allocation_datagram,
     {TURN_CLIENT, ADDRESS, BYTES(28, USER), ZEROED(sizeof(stun_types_allocation_data))}},
    {"stun_types_allocation_poll", allocation_poll,
     {TURN_CLIENT, BYTES(sizeof(stun_types_id), ""), ROOM(40, ""), LEFT(8, ""), LEFT(8, "")}},
    {"stun_types_allocation_send", allocation_send,
     {TURN_CLIENT, ADDRESS, BYTES(sizeof(stun_types_id), ""), ROOM(STUN_TYPES_ALLOCATION_HEAD, ""),
      ZEROED(sizeof(stun_types_allocation_head))}},
    {"stun_types_allocation_send_whole", allocation_send_whole,
     {TURN_CLIENT, ADDRESS, BYTES(sizeof(stun_types_id), ""), ROOM(STUN_TYPES_ALLOCATION_HEAD, ""),
      ZEROED(sizeof(stun_types_allocation_head))}},
    {"stun_types_allocation_attempt_next", attempt_next,
     {LEFT(sizeof(stun_types_allocation_attempt), "00*18 0400"),
      GIVEN(sizeof(stun_types_allocation_change), "00*16 08000000 03000000 00*82 B501")}},
    /* (the fragment is none) */
    {"stun_types_ice_new", ice_new,
     {LEFT(sizeof(stun_types_ice), ""), GIVEN(sizeof(stun_types_ice_settings), "00*56 01000000"),
      BYTES(4, "FF*4"), BYTES(22, ""), BYTES(2, "")}},
    {"stun_types_ice_set_peer", ice_set_peer, {ICE_AGENT, BYTES(4, "FF*4"), BYTES(22, "")}},
    {"stun_types_ice_add_base", ice_add_base,
     {ICE_AGENT, {READ, sizeof(stun_types_ice_base), 4, "00*18 0400"}}},
    {"stun_types_ice_add_remote", ice_add_remote,
     {ICE_AGENT, {READ, sizeof(stun_types_ice_remote), 4, "00*18 0400 01000000"}}},
    {"stun_types_ice_add_address", ice_add_address,
     {ICE_AGENT, {READ, sizeof(stun_types_address), 2, "00*18 0400"}}},
    {"stun_types_ice_datagram", ice_datagram,
     {ICE_AGENT, ADDRESS, BYTES(28, USER), ROOM(64, ""), ZEROED(sizeof(stun_types_ice_received))}},
    {"stun_types_ice_poll", ice_poll,
     {ICE_AGENT, BYTES(sizeof(stun_types_id), ""), ROOM(40, ""), ZEROED(sizeof(stun_types_ice_request)),
      LEFT(8, "")}},
    {"stun_types_ice_status", ice_status, {ICE_AGENT, ZEROED(sizeof(stun_types_ice_standing))}},
    {"stun_types_ice_lite_new", ice_lite_new,
     {LEFT(sizeof(stun_types_ice_lite), ""), GIVEN(sizeof(stun_types_ice_lite_settings), ""), BYTES(4, "FF*4"),
      BYTES(22, ""), {READ, sizeof(stun_types_ice_lite_base), 4, ""}}},
    {"stun_types_ice_lite_datagram", ice_lite_datagram,
     {LITE_AGENT, ADDRESS, BYTES(28, USER), ROOM(64, ""), ZEROED(sizeof(stun_types_ice_received))}},
    {"stun_types_ice_candidate_read", ice_candidate_read,
     {BYTES(4, "FF*4"), {WRITTEN, sizeof(stun_types_ice_candidate), 4, ""}}},
    {"stun_types_ice_candidate_write", ice_candidate_write,
     {{READ, sizeof(stun_types_ice_candidate), 4,
       "31 00*31 0100 0100 01000000 00*18 0400 00*18 0000 01000000 01000000"},
      ROOM(40, ""), LEFT(8, "")}},
};

/* ---- the arguments, in one block of memory */

static uint64_t words[APART * (ARGUMENTS + 2) / 8];
static uint8_t *const memory = (uint8_t *)words;

static size_t count_of(const guarded_call *it) {
    size_t count = 0;
    while (count < ARGUMENTS && it->arguments[count].size != 0) count++;
    return count;
}

/* The places of the arguments, far from each other. */
static void spread(void **at) {
    size_t i;
    for (i = 0; i < ARGUMENTS; i++) at[i] = memory + APART * (i + 1);
}

/* What the arguments of the call of this row begin with. */
static slice begins[ARGUMENTS];

/* Writes what the arguments are before a call, at these places. */
static void prepare(const guarded_call *it, void *const *at) {
    const size_t count = count_of(it);
    size_t i;
    memset(words, FILL, sizeof words);
    for (i = 0; i < count; i++) memset(at[i], 0, it->arguments[i].size);
    for (i = 0; i < count; i++)
        if (begins[i].length != 0) memcpy(at[i], begins[i].bytes, begins[i].length);
    for (i = 0; i < COUNT(structs); i++)
        if (structs[i].call == it->call) structs[i].put(at);
}

/* What a call returns that overlaps nothing; a key that it made is freed. */
static uint64_t allowed(const guarded_call *it, void *const *at) {
    uint64_t result;
    prepare(it, at);
    heap_allow(true);
    result = it->call(at);
    heap_allow(false);
    if (it->arguments[0].is == KEY) stun_types_keys_free(at[0], 1);
    return result;
}

/* That a call is refused, leaves each verdict as zeros, and changes nothing else. */
static void check_overlap(const guarded_call *it, void *const *at) {
    static uint64_t expected[COUNT(words)];
    const size_t count = count_of(it);
    size_t i;
    prepare(it, at);
    memcpy(expected, words, sizeof words);
    for (i = 0; i < count; i++)
        if (it->arguments[i].is == VERDICT)
            memset((uint8_t *)expected + ((uint8_t *)at[i] - memory), 0, it->arguments[i].size);
    CHECK(it->call(at) == REFUSED);
    CHECK(memcmp(words, expected, sizeof words) == 0);
}

/* Two arguments that share the least that they can, at either end, and two that touch. */
static void check_two(const guarded_call *it, size_t one, size_t other, uint64_t apart) {
    const size_t size = it->arguments[one].size, length = it->arguments[other].size;
    const size_t align = it->arguments[other].align;
    void *at[ARGUMENTS];
    uint8_t *place;
    spread(at);
    place = at[one];
    at[other] = place + (size - 1) / align * align;
    check_overlap(it, at);
    at[other] = place - (length - 1) / align * align;
    check_overlap(it, at);
    at[other] = place + (size + align - 1) / align * align;
    CHECK(allowed(it, at) == apart);
    at[other] = place - (length + align - 1) / align * align;
    CHECK(allowed(it, at) == apart);
}

/* Makes the server that calls are given. */
static void make_server(stun_types_turn *server) {
    static const stun_types_turn none = STUN_TYPES_TURN_INIT;
    stun_types_turn_settings settings;
    stun_types_key *secret = bytes_key(text("a secret of the server"), STUN_TYPES_INTEGRITY_ANY);
    memset(&settings, 0, sizeof settings);
    *server = none;
    heap_allow(true);
    ANSWERS(stun_types_turn_new(server, &settings, secret), OK_ANSWER);
    heap_allow(false);
    stun_types_key_free(secret);
}

/* Makes the client that calls are given. */
static void make_client(stun_types_allocation *client) {
    static const stun_types_allocation none = STUN_TYPES_ALLOCATION_INIT;
    stun_types_allocation_settings settings;
    memset(&settings, 0, sizeof settings);
    settings.server.family = 4;
    settings.transport = STUN_TYPES_UDP;
    settings.password = "secret";
    settings.password_length = 6;
    *client = none;
    heap_allow(true);
    ANSWERS(stun_types_allocation_new(client, &settings), OK_ANSWER);
    heap_allow(false);
}

/* Makes the agent that calls are given: it has the candidates that they add. */
static void make_agent(stun_types_ice *agent) {
    static const stun_types_ice none = STUN_TYPES_ICE_INIT;
    static const stun_types_ice_base base = {0, 0, 0, 0, 0, 4, 0, 0};
    static const stun_types_ice_remote remote = {{{0}, 0, 4}, 1, 0, 0, 0};
    stun_types_ice_settings settings;
    memset(&settings, 0, sizeof settings);
    settings.ufrag = "evtj";
    settings.ufrag_length = 4;
    settings.password = "VOkJxbRl1RmTxUk/WvJxBt";
    settings.password_length = 22;
    settings.role = STUN_TYPES_ICE_CONTROLLED;
    *agent = none;
    heap_allow(true);
    ANSWERS(stun_types_ice_new(agent, &settings), OK_ANSWER);
    heap_allow(false);
    ANSWERS(stun_types_ice_add_base(agent, 0, &base), OK_ANSWER);
    ANSWERS(stun_types_ice_add_remote(agent, 0, &remote), OK_ANSWER);
    ANSWERS(stun_types_ice_add_address(agent, &remote.address), OK_ANSWER);
}

/* Calls of an agent that return false: a path, a pair or a change of which the first or the last bytes are the
   agent's is zeros. */
static void test_agent(const stun_types_ice *agent) {
    static uint64_t at[40];
    static const struct {
        const char *name;
        size_t size;
    } lefts[] = {{"stun_types_ice_route", sizeof(stun_types_ice_path) / 8},
                 {"stun_types_ice_pair", sizeof(stun_types_ice_checked) / 8},
                 {"stun_types_ice_changes", sizeof(stun_types_ice_change) / 8}};
    size_t one;
    int way;
    for (one = 0; one < COUNT(lefts); one++) {
        row("overlaps", lefts[one].name);
        for (way = 0; way < 2; way++) {
            void *const left = at + 10;
            stun_types_ice *handle = (void *)(at + 10 + (way == 0 ? -1 : (int)lefts[one].size - 1));
            bool result;
            memset(at, FILL, sizeof at);
            *handle = *agent;
            if (one == 0) result = stun_types_ice_route(handle, 0, 1, left);
            else if (one == 1) result = stun_types_ice_pair(handle, 0, left);
            else result = stun_types_ice_changes(handle, left);
            CHECK(!result && is_zero(left, lefts[one].size * 8));
        }
    }
}

static void make_lite_agent(stun_types_ice_lite *agent) {
    static const stun_types_ice_lite none = STUN_TYPES_ICE_LITE_INIT;
    static const stun_types_ice_lite_base base = {1, 1, 0};
    stun_types_ice_lite_settings settings;
    memset(&settings, 0, sizeof settings);
    settings.ufrag = "evtj";
    settings.ufrag_length = 4;
    settings.password = "VOkJxbRl1RmTxUk/WvJxBt";
    settings.password_length = 22;
    settings.bases = &base;
    settings.base_count = 1;
    *agent = none;
    heap_allow(true);
    ANSWERS(stun_types_ice_lite_new(agent, &settings), OK_ANSWER);
    heap_allow(false);
}

/* A path of which the first or the last bytes are a lite agent's is zeros. */
static void test_lite_agent(const stun_types_ice_lite *agent) {
    static uint64_t at[40];
    const size_t size = sizeof(stun_types_ice_path) / 8;
    int way;
    row("overlaps", "stun_types_ice_lite_route");
    for (way = 0; way < 2; way++) {
        void *const left = at + 10;
        stun_types_ice_lite *handle = (void *)(at + 10 + (way == 0 ? -1 : (int)size - 1));
        memset(at, FILL, sizeof at);
        *handle = *agent;
        CHECK(!stun_types_ice_lite_route(handle, 0, 1, left) && is_zero(left, size * 8));
    }
}

/* A change of which the first or the last bytes are the client's is zeros, and is reported by the next call. */
static void test_change(const stun_types_allocation *client) {
    static uint64_t at[40];
    static const stun_types_address nobody;
    const size_t size = sizeof(stun_types_allocation_change) / 8;
    stun_types_allocation_change *change = (void *)(at + 10);
    stun_types_allocation *handle;
    int way;
    row("overlaps", "stun_types_allocation_changes");
    for (way = 0; way < 2; way++) {
        handle = (void *)(at + 10 + (way == 0 ? -1 : (int)size - 1));
        memset(at, FILL, sizeof at);
        *handle = *client;
        CHECK(!stun_types_allocation_changes(handle, change) && is_zero(change, sizeof *change));
    }
    handle = (void *)at;
    *handle = *client;
    ANSWERS(stun_types_allocation_want(handle, 0, STUN_TYPES_ALLOCATION_CLOSE, &nobody), OK_ANSWER);
    CHECK(stun_types_allocation_changes(handle, change) && change->kind == STUN_TYPES_ALLOCATION_OVER);
    CHECK(!stun_types_allocation_changes(handle, change) && is_zero(change, sizeof *change));
}

/* A flow of which the first or the last bytes are the server's, or the client's, is zeros; and so is one of a client
   in the server's handle. */
static void test_flow(void) {
    static uint64_t numbers[40];
    void *const at = numbers + 10;
    stun_types_flow *const flow = at;
    const size_t size = sizeof *flow / 8;
    stun_types_five_tuple *client;
    stun_types_turn *handle;
    int way;
    site_begin("stun_types_turn_flow");
    CHECK(site_allocate(0, 1) == 0 && site_bind(0, 0x4000, &site_peer) == 0);
    for (way = 0; way < 2; way++) {
        handle = (void *)(numbers + 10 + (way == 0 ? -1 : (int)size - 1));
        memset(numbers, FILL, sizeof numbers);
        *handle = *site.server;
        CHECK(!stun_types_turn_flow(handle, site.from, 0x4000, flow) && is_zero(flow, sizeof *flow));
        client = (void *)((char *)at + (way == 0 ? 2 - (int)sizeof *client : (int)sizeof *flow - 2));
        memset(numbers, FILL, sizeof numbers);
        *client = *site.from;
        CHECK(!stun_types_turn_flow(site.server, client, 0x4000, flow) && is_zero(flow, sizeof *flow));
        client = (void *)((char *)(numbers + 30) + (way == 0 ? 2 - (int)sizeof *client : (int)sizeof *handle - 2));
        handle = (void *)(numbers + 30);
        *handle = *site.server;
        *client = *site.from;
        CHECK(!stun_types_turn_flow(handle, client, 0x4000, flow) && is_zero(flow, sizeof *flow));
    }
    handle = (void *)(numbers + 15);
    client = (void *)(numbers + 17);
    *handle = *site.server;
    *client = *site.from;
    CHECK(stun_types_turn_flow(handle, client, 0x4000, flow) && flow->expires_at == 300 * SECOND);
    site_end();
}

/* What counts what it writes is 0 if it is refused: the number of the socket is read by the next call. And a
   user whose hash is in the handle is nobody. */
static void test_ends(void) {
    static uint64_t numbers[6];
    stun_types_turn *const at = (void *)(numbers + 2);
    stun_types_turn before;
    size_t first;
    site_begin("stun_types_turn_ended");
    CHECK(site_allocate(0, 1) == 0);
    CHECK(stun_types_turn_poll(site.server, 600 * SECOND) == 1);
    before = *site.server;
    for (first = 1; first <= 3; first++) {
        memset(numbers, FILL, sizeof numbers);
        *at = before;
        CHECK(stun_types_turn_ended(at, numbers + first, 2, 0) == 0);
        CHECK(memcmp(at, &before, sizeof before) == 0 && is_untouched(numbers, 16)
              && is_untouched(numbers + 4, 16));
    }
    row("overlaps", "stun_types_turn_over");
    for (first = 1; first <= 3; first++) {
        memset(numbers, FILL, sizeof numbers);
        *at = before;
        CHECK(stun_types_turn_over(at, numbers + first, 2, 0) == 0);
        CHECK(memcmp(at, &before, sizeof before) == 0 && is_untouched(numbers, 16));
    }
    row("overlaps", "stun_types_turn_end_user");
    CHECK(stun_types_turn_end_user(at, 600 * SECOND, (const void *)(numbers + 2)) == 0);
    CHECK(memcmp(at, &before, sizeof before) == 0);
    CHECK(stun_types_turn_ended(at, numbers, 2, 0) == 1);
    CHECK(memcmp(at, &before, sizeof before) == 0 && numbers[0] == site.action->ipv4.relay);
    site_end();
}

void test_overlaps(void) {
    stun_types_turn server;
    stun_types_allocation client;
    stun_types_ice agent;
    stun_types_ice_lite lite;
    size_t i, one, other;
    row("arguments that overlap", "a TURN server, a TURN client and ICE agents are made");
    make_server(&server);
    make_client(&client);
    make_agent(&agent);
    make_lite_agent(&lite);
    for (i = 0; i < COUNT(calls); i++) {
        const guarded_call *it = &calls[i];
        const size_t count = count_of(it);
        void *at[ARGUMENTS];
        uint64_t apart;
        row("arguments that overlap", it->name);
        for (one = 0; one < count; one++)
            begins[one] = it->arguments[one].is == SERVER   ? given(&server, sizeof server)
                          : it->arguments[one].is == CLIENT ? given(&client, sizeof client)
                          : it->arguments[one].is == AGENT  ? given(&agent, sizeof agent)
                          : it->arguments[one].is == LITE   ? given(&lite, sizeof lite)
                                                            : hex(it->arguments[one].begins);
        spread(at);
        apart = allowed(it, at);
        CHECK(apart != REFUSED);
        for (one = 0; one < count; one++)
            for (other = 0; other < count; other++)
                if (one != other && (it->arguments[one].is != READ || it->arguments[other].is != READ))
                    check_two(it, one, other, apart);
    }
    stun_types_turn_free(&server);
    test_change(&client);
    stun_types_allocation_free(&client);
    test_agent(&agent);
    stun_types_ice_free(&agent);
    test_lite_agent(&lite);
    stun_types_ice_lite_free(&lite);
    test_ends();
    test_flow();
}
