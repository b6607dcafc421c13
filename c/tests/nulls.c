/* Slices of length 0 that are NULL: each slice of each call, which c/run_tests looks for here. */
#include <string.h>

#include "check.h"
#include "heap.h"
#include "keychain.h"
#include "samples.h"
#include "tests.h"

static const stun_types_policy strict = {STUN_TYPES_INTEGRITY_ANY, 0, 0, 0};
static const stun_types_schedule schedule = STUN_TYPES_SCHEDULE;
static const stun_types_id id = {{0}};

#define NOTHING LENGTHS(STUN_TYPES_TRUNCATED, 20, 0)
#define NO_VALUE PLAIN(STUN_TYPES_BAD_ARGUMENT)
#define AN_ADDRESS {{192, 0, 2, 1}, 32853, 4}
#define NO_ADDRESS {{0}, 0, 0}
#define NOT_READY {NO_ADDRESS, NO_ADDRESS, NO_ADDRESS, NO_ADDRESS, NO_ADDRESS, NO_ADDRESS}
static const stun_types_address address = AN_ADDRESS;
static const stun_types_covered no_covered = {STUN_TYPES_INTEGRITY_SHA1, {0}, 0};
static const stun_types_hmac no_hmac = {STUN_TYPES_INTEGRITY_SHA1, {0}};

static void test_read(void) {
    static const stun_types_attribute none = {24, STUN_TYPES_ATTRIBUTE_UNKNOWN_ATTRIBUTES, 0};
    stun_types_attribute *attribute = NEW(stun_types_attribute);
    stun_types_cursor *cursor = NEW(stun_types_cursor);
    size_t *count = NEW(size_t), *other = NEW(size_t);
    uint16_t *code = NEW(uint16_t);
    const slice bytes = hex("0001 0004 2112A442 00*12 000A0000");
    memset(attribute, 0, sizeof *attribute);
    memset(cursor, 0, sizeof *cursor);
    ANSWERS(stun_types_framed_length(NULL, 0, count), OK_ANSWER);
    CHECK(*count == 0);
    ANSWERS(stun_types_parse(NULL, 0), NOTHING);
    ANSWERS(stun_types_read_header(NULL, 0, NEW(stun_types_header)), NOTHING);
    CHECK(!stun_types_next(NULL, 0, cursor, attribute));
    CHECK(stun_types_attributes(NULL, 0, NULL, 0) == 0);
    CHECK(stun_types_attributes(bytes.bytes, bytes.length, NULL, 0) == 1);
    CHECK(!stun_types_find(NULL, 0, 1, attribute));
    ANSWERS(stun_types_read_address(NULL, 0, attribute, NEW(stun_types_address)), NO_VALUE);
    ANSWERS(stun_types_read_xor_address(NULL, 0, attribute, NEW(stun_types_address)), NO_VALUE);
    ANSWERS(stun_types_read_error(NULL, 0, attribute, code, count, other), NO_VALUE);
    ANSWERS(stun_types_read_types(NULL, 0, attribute, NULL, 0, count), NO_VALUE);
    ANSWERS(stun_types_read_types(bytes.bytes, bytes.length, &none, NULL, 0, count), OK_ANSWER);
    CHECK(*count == 0);
    CHECK(stun_types_unknown_types(NULL, 0, NULL, 0, NULL, 0) == 0);
    CHECK(stun_types_unknown_types(bytes.bytes, bytes.length, NULL, 0, NULL, 0) == 1);
    ANSWERS(stun_types_print(NULL, 0, NULL, 0, count), NOTHING);
    CHECK(stun_types_print(bytes.bytes, bytes.length, NULL, 0, count).code == STUN_TYPES_TOO_SMALL);
    CHECK(*count == 0);
}

static void test_numbers_read(void) {
    stun_types_attribute *attribute = NEW(stun_types_attribute);
    memset(attribute, 0, sizeof *attribute);
    ANSWERS(stun_types_read_u8(NULL, 0, attribute, NEW(uint8_t)), NO_VALUE);
    ANSWERS(stun_types_read_u16(NULL, 0, attribute, NEW(uint16_t)), NO_VALUE);
    ANSWERS(stun_types_read_u32(NULL, 0, attribute, NEW(uint32_t)), NO_VALUE);
    ANSWERS(stun_types_read_u64(NULL, 0, attribute, NEW(uint64_t)), NO_VALUE);
    CHECK(stun_types_known_types(NULL, 0) == 11);
    CHECK(stun_types_text(STUN_TYPES_OK, NULL, 0) == sizeof "no error");
}

static void test_made(void) {
    stun_types_key *key = no_key();
    stun_types_validated *validated = NEW(stun_types_validated);
    stun_types_integrity *algorithm = NEW(stun_types_integrity);
    size_t *count = NEW(size_t);
    const slice bytes = hex(CHECK_EMPTY);
    heap_allow(true);
    ANSWERS(stun_types_key_long_term(key, NULL, 0, NULL, 0, NULL, 0, STUN_TYPES_PASSWORD_MD5),
            PLAIN(STUN_TYPES_BAD_ARGUMENT));
    ANSWERS(stun_types_key_long_term(key, NULL, 0, NULL, 0, "p", 1, STUN_TYPES_PASSWORD_MD5),
            OK_ANSWER);
    ANSWERS(stun_types_userhash(NULL, 0, NULL, 0, NEW(stun_types_hash)), OK_ANSWER);
    ANSWERS(stun_types_key_short_term(key, NULL, 0), PLAIN(STUN_TYPES_BAD_ARGUMENT));
    ANSWERS(stun_types_key_from_bytes(key, NULL, 0, STUN_TYPES_INTEGRITY_ANY),
            PLAIN(STUN_TYPES_BAD_ARGUMENT));
    ANSWERS(stun_types_key_bytes(key, NULL, 0, count, algorithm),
            LENGTHS(STUN_TYPES_TOO_SMALL, 16, 0));
    ANSWERS(stun_types_validate(NULL, 0, key, validated), NOTHING);
    ANSWERS(stun_types_validate_by_policy(NULL, 0, &strict, key, validated), NOTHING);
    ANSWERS(stun_types_covered_text(NULL, 0, STUN_TYPES_INTEGRITY_ANY, NEW(stun_types_covered)),
            NOTHING);
    ANSWERS(stun_types_validate_with_hmac(NULL, 0, STUN_TYPES_INTEGRITY_ANY, &no_hmac, validated),
            NOTHING);
    ANSWERS(stun_types_validate_short_term(NULL, 0, NULL, 0, validated), NOTHING);
    ANSWERS(stun_types_validate_short_term(bytes.bytes, bytes.length, NULL, 0, validated),
            PLAIN(STUN_TYPES_BAD_ARGUMENT));
    ANSWERS(stun_types_validate_long_term(NULL, 0, NULL, 0, NULL, 0, NULL, 0, validated), NOTHING);
    ANSWERS(stun_types_validate_long_term(bytes.bytes, bytes.length, NULL, 0, NULL, 0, NULL, 0,
                                          validated),
            PLAIN(STUN_TYPES_BAD_ARGUMENT));
    ANSWERS(stun_types_validate_long_term(bytes.bytes, bytes.length, NULL, 0, NULL, 0, "p", 1,
                                          validated),
            PLAIN(STUN_TYPES_INTEGRITY_FAILED));
    ANSWERS(stun_types_authenticate_short_term(NULL, 0, &strict, key,
                                               NEW(stun_types_authentication)),
            NOTHING);
    ANSWERS(stun_types_authenticate_long_term(NULL, 0, &strict, STUN_TYPES_NONCE_UNKNOWN, NULL, 0,
                                              key, key, NEW(stun_types_authentication)),
            NOTHING);
    ANSWERS(stun_types_authenticate_long_term(bytes.bytes, bytes.length, &strict,
                                              STUN_TYPES_NONCE_UNKNOWN, NULL, 0, key, key,
                                              NEW(stun_types_authentication)),
            OK_ANSWER);
    heap_allow(false);
    stun_types_key_free(key);
    stun_types_keys_free(NULL, 0);
}

static void test_written(void) {
    size_t *written = NEW(size_t), *other = NEW(size_t);
    uint8_t *bytes = room(40);
    stun_types_key *key = password_key(text("pass"));
    const slice request = hex(REQUEST);
    ANSWERS(stun_types_begin(NULL, 0, 1, &id, written), LENGTHS(STUN_TYPES_TOO_SMALL, 20, 0));
    ANSWERS(stun_types_begin_reply(NULL, 0, NULL, 0, STUN_TYPES_CLASS_SUCCESS, written), NOTHING);
    ANSWERS(stun_types_begin_reply(NULL, 0, request.bytes, request.length, STUN_TYPES_CLASS_SUCCESS,
                                   written),
            LENGTHS(STUN_TYPES_TOO_SMALL, 20, 0));
    *written = 0;
    ANSWERS(stun_types_add_u8(NULL, 0, written, 0x0018, 0), PLAIN(STUN_TYPES_BAD_ARGUMENT));
    ANSWERS(stun_types_add_u16(NULL, 0, written, 0x0027, 0), PLAIN(STUN_TYPES_BAD_ARGUMENT));
    ANSWERS(stun_types_add_u32(NULL, 0, written, 0x0024, 0), PLAIN(STUN_TYPES_BAD_ARGUMENT));
    ANSWERS(stun_types_add_u64(NULL, 0, written, 0x8029, 0), PLAIN(STUN_TYPES_BAD_ARGUMENT));
    ANSWERS(stun_types_add(NULL, 0, written, 0x8022, NULL, 0), PLAIN(STUN_TYPES_BAD_ARGUMENT));
    ANSWERS(stun_types_add_address(NULL, 0, written, 1, &address), PLAIN(STUN_TYPES_BAD_ARGUMENT));
    ANSWERS(stun_types_add_xor_address(NULL, 0, written, 0x20, &address),
            PLAIN(STUN_TYPES_BAD_ARGUMENT));
    ANSWERS(stun_types_add_error(NULL, 0, written, STUN_TYPES_CODE_BAD_REQUEST, NULL, 0),
            PLAIN(STUN_TYPES_BAD_ARGUMENT));
    ANSWERS(stun_types_add_unknown_types(NULL, 0, written, NULL, 0), PLAIN(STUN_TYPES_BAD_ARGUMENT));
    ANSWERS(stun_types_next_covered_text(NULL, 0, 0, STUN_TYPES_INTEGRITY_SHA1,
                                         NEW(stun_types_covered)),
            NO_VALUE);
    ANSWERS(stun_types_add_hmac(NULL, 0, written, &no_covered, &no_hmac), NO_VALUE);
    ANSWERS(stun_types_add_integrity(NULL, 0, written, key, STUN_TYPES_INTEGRITY_SHA1),
            PLAIN(STUN_TYPES_BAD_ARGUMENT));
    ANSWERS(stun_types_add_fingerprint(NULL, 0, written), PLAIN(STUN_TYPES_BAD_ARGUMENT));
    ANSWERS(stun_types_begin(bytes, 40, 1, &id, written), OK_ANSWER);
    ANSWERS(stun_types_add(bytes, 40, written, 0x8022, NULL, 0), OK_ANSWER);
    ANSWERS(stun_types_add_error(bytes, 40, written, STUN_TYPES_CODE_BAD_REQUEST, NULL, 0),
            OK_ANSWER);
    ANSWERS(stun_types_add_unknown_types(bytes, 40, written, NULL, 0), OK_ANSWER);
    CHECK(*written == 36);
    ANSWERS(stun_types_binding_reply(NULL, 0, &address, NULL, 0, written), OK_ANSWER);
    CHECK(*written == 0);
    ANSWERS(stun_types_write_channel_data(0x4000, NULL, 0, false, NULL, 0, other),
            LENGTHS(STUN_TYPES_TOO_SMALL, 4, 0));
    ANSWERS(stun_types_write_channel_data(0x4000, NULL, 0, false, bytes, 40, other), OK_ANSWER);
    CHECK(*other == 4);
    ANSWERS(stun_types_channel_data_length(NULL, 0, other), OK_ANSWER);
    ANSWERS(stun_types_read_channel_data(NULL, 0, NEW(stun_types_channel_data)),
            LENGTHS(STUN_TYPES_TRUNCATED, 4, 0));
    stun_types_key_free(key);
}

static void test_servers_with_credentials(void) {
    static const stun_types_authentication accepted = {
        STUN_TYPES_ACCEPTED, (stun_types_code)0, STUN_TYPES_INTEGRITY_SHA1, STUN_TYPES_INTEGRITY_SHA1,
        (stun_types_password)0, 0};
    static const stun_types_asked asked;
    stun_types_key *key = password_key(text("a secret of the server"));
    stun_types_nonce_state *state = NEW(stun_types_nonce_state);
    size_t *written = NEW(size_t);
    const slice request = hex(REQUEST);
    heap_allow(true);
    ANSWERS(stun_types_refuse_short_term(NULL, 0, 401, NULL, 0, written), NOTHING);
    ANSWERS(stun_types_refuse_short_term(request.bytes, request.length, 401, NULL, 0, written),
            LENGTHS(STUN_TYPES_TOO_SMALL, 44, 0));
    ANSWERS(stun_types_refuse_long_term(NULL, 0, 401, &asked, NULL, 0, written), NOTHING);
    ANSWERS(stun_types_refuse_long_term(request.bytes, request.length, 401, &asked, NULL, 0, written),
            LENGTHS(STUN_TYPES_TOO_SMALL, 52, 0));
    ANSWERS(stun_types_make_nonce(key, 0, 600, 7, &address, NULL, 0, written),
            LENGTHS(STUN_TYPES_TOO_SMALL, STUN_TYPES_NONCE_LENGTH, 0));
    ANSWERS(stun_types_judge_nonce(key, 0, 600, 7, &address, NULL, 0, state), OK_ANSWER);
    CHECK(*state == STUN_TYPES_NONCE_UNKNOWN);
    heap_allow(false);
    CHECK(!stun_types_security_features(NULL, 0, NEW(uint32_t)));
    *written = 0;
    ANSWERS(stun_types_finish_reply(NULL, 0, written, &accepted, key, no_key(), true),
            PLAIN(STUN_TYPES_BAD_ARGUMENT));
    stun_types_key_free(key);
}

static void test_answers(void) {
    static const uint16_t both[] = {STUN_TYPES_PASSWORD_SHA256, STUN_TYPES_PASSWORD_MD5};
    stun_types_key *key = no_key();
    size_t *written = NEW(size_t);
    uint8_t *bytes = room(200);
    const slice asks = hex(CHALLENGE);
    heap_allow(true);
    ANSWERS(stun_types_key_for(key, NULL, 0, NULL, 0, NULL, 0, NULL, 0),
            PLAIN(STUN_TYPES_BAD_ARGUMENT));
    ANSWERS(stun_types_key_for(key, NULL, 0, NULL, 0, NULL, 0, "p", 1), NOTHING);
    ANSWERS(stun_types_key_for(key, asks.bytes, asks.length, NULL, 0, NULL, 0, "p", 1),
            PLAIN(STUN_TYPES_NO_ALGORITHM));
    ANSWERS(stun_types_key_for(key, asks.bytes, asks.length, both, 2, NULL, 0, "p", 1), OK_ANSWER);
    heap_allow(false);
    *written = 0;
    ANSWERS(stun_types_answer_challenge(NULL, 0, written, NULL, 0, NULL, 0, NULL, 0, key, true),
            NOTHING);
    ANSWERS(stun_types_answer_challenge(NULL, 0, written, asks.bytes, asks.length, both, 2, NULL, 0,
                                        key, true),
            PLAIN(STUN_TYPES_BAD_ARGUMENT));
    ANSWERS(stun_types_begin(bytes, 200, 1, &id, written), OK_ANSWER);
    ANSWERS(stun_types_answer_challenge(bytes, 200, written, asks.bytes, asks.length, NULL, 0, NULL, 0,
                                        key, true),
            PLAIN(STUN_TYPES_NO_ALGORITHM));
    ANSWERS(stun_types_answer_challenge(bytes, 200, written, asks.bytes, asks.length, both, 2, NULL, 0,
                                        key, true),
            OK_ANSWER);
    ANSWERS(stun_types_parse(bytes, *written), OK_ANSWER);
    stun_types_key_free(key);
}

static void test_clients_and_streams(void) {
    stun_types_transaction *transaction = NEW(stun_types_transaction);
    stun_types_received *received = NEW(stun_types_received);
    stun_types_challenge *challenge = NEW(stun_types_challenge);
    stun_types_stream *stream = NEW(stun_types_stream);
    size_t *taken = NEW(size_t);
    const slice request = hex(REQUEST), asks = hex(CHALLENGE);
    ANSWERS(stun_types_transaction_begin(transaction, NULL, 0, &schedule, STUN_TYPES_UDP,
                                         STUN_TYPES_UNPROTECTED, no_key(), 0),
            NOTHING);
    ANSWERS(stun_types_transaction_begin(transaction, request.bytes, request.length, &schedule,
                                         STUN_TYPES_UDP, STUN_TYPES_UNPROTECTED, no_key(), 0),
            OK_ANSWER);
    ANSWERS(stun_types_transaction_receive(transaction, no_key(), NULL, 0, NULL, 0, received),
            OK_ANSWER);
    CHECK(received->kind == STUN_TYPES_NOT_FOR_THIS);
    CHECK(!stun_types_transactions_find(NULL, 0, NULL, 0, taken));
    CHECK(!stun_types_transactions_next(NULL, 0, NEW(uint64_t)));
    ANSWERS(stun_types_challenge_of(NULL, 0, NULL, 0, true, NULL, 0, false, challenge), NOTHING);
    ANSWERS(stun_types_challenge_of(asks.bytes, asks.length, NULL, 0, false, NULL, 0, false, challenge),
            PLAIN(STUN_TYPES_NO_ALGORITHM));
    memset(stream, 0, sizeof *stream);
    ANSWERS(stun_types_stream_push(stream, NULL, 0, NULL, 0, taken),
            PLAIN(STUN_TYPES_BAD_ARGUMENT));
    ANSWERS(stun_types_stream_push(stream, room(20), 20, NULL, 0, taken), OK_ANSWER);
    CHECK(*taken == 0);
}

static void test_turn_servers(void) {
    static const stun_types_turn none = STUN_TYPES_TURN_INIT;
    static const stun_types_turn_settings settings;
    static const stun_types_turn_datagram datagram = {NULL, 0, {AN_ADDRESS, AN_ADDRESS, 0}, NOT_READY, 0, 0, 0};
    stun_types_turn_datagram *full = NEW(stun_types_turn_datagram);
    stun_types_turn *server = NEW(stun_types_turn);
    stun_types_turn_action *action = NEW(stun_types_turn_action);
    stun_types_turn_delivery *delivery = NEW(stun_types_turn_delivery);
    stun_types_turn_notice *notice = NEW(stun_types_turn_notice);
    static const stun_types_icmp error = {0, 3, 3};
    stun_types_key *key = password_key(text("a secret of the server"));
    const slice request = hex(REQUEST);
    *server = none;
    heap_allow(true);
    ANSWERS(stun_types_turn_new(server, &settings, key), OK_ANSWER);
    ANSWERS(stun_types_turn_set_rules(server, &settings), OK_ANSWER);
    ANSWERS(stun_types_turn_client(server, 0, &datagram, no_key(), no_key(), NULL, 0, action),
            OK_ANSWER);
    CHECK(action->kind == STUN_TYPES_TURN_NOTHING);
    *full = datagram;
    full->bytes = request.bytes;
    full->length = request.length;
    ANSWERS(stun_types_turn_client(server, 0, full, no_key(), no_key(), NULL, 0, action),
            LENGTHS(STUN_TYPES_TOO_SMALL, 48, 0));
    ANSWERS(stun_types_turn_peer(server, 0, &address, 0, 0, &id, NULL, 0, delivery),
            LENGTHS(STUN_TYPES_TOO_SMALL, STUN_TYPES_TURN_HEAD, 0));
    ANSWERS(stun_types_turn_icmp(server, 0, &address, 0, &error, &id, NULL, 0, notice),
            LENGTHS(STUN_TYPES_TOO_SMALL, STUN_TYPES_TURN_NOTICE, 0));
    CHECK(stun_types_turn_ended(server, NULL, 0, 0) == 0);
    CHECK(stun_types_turn_over(server, NULL, 0, 0) == 0);
    heap_allow(false);
    stun_types_turn_free(server);
    stun_types_turns_free(NULL, 0);
    stun_types_key_free(key);
}

static void test_turn_clients(void) {
    static const stun_types_allocation none = STUN_TYPES_ALLOCATION_INIT;
    static const stun_types_allocation_settings nothing;
    stun_types_allocation_settings *settings = NEW(stun_types_allocation_settings);
    stun_types_allocation *client = NEW(stun_types_allocation);
    stun_types_allocation_data *data = NEW(stun_types_allocation_data);
    stun_types_allocation_head *around = NEW(stun_types_allocation_head);
    size_t *length = NEW(size_t);
    uint64_t *wake = NEW(uint64_t);
    const slice password = text("secret");
    *client = none;
    heap_allow(true);
    ANSWERS(stun_types_allocation_new(client, &nothing), PLAIN(STUN_TYPES_BAD_ARGUMENT));
    memset(settings, 0, sizeof *settings);
    settings->server = address;
    settings->transport = STUN_TYPES_UDP;
    settings->password = password.bytes;
    settings->password_length = password.length;
    ANSWERS(stun_types_allocation_new(client, settings), OK_ANSWER);
    ANSWERS(stun_types_allocation_want(client, 0, STUN_TYPES_ALLOCATION_ALLOCATE, &address), OK_ANSWER);
    ANSWERS(stun_types_allocation_datagram(client, 0, &address, NULL, 0, data), OK_ANSWER);
    CHECK(is_zero(data, sizeof *data));
    ANSWERS(stun_types_allocation_poll(client, 0, &id, NULL, 0, length, wake),
            LENGTHS(STUN_TYPES_TOO_SMALL, 28, 0));
    CHECK(*length == 0 && *wake == 500000000);
    ANSWERS(stun_types_allocation_send(client, 0, 0, &address, &id, NULL, 0, around), OK_ANSWER);
    CHECK(is_zero(around, sizeof *around));
    ANSWERS(stun_types_allocation_send_whole(client, 0, 0, &address, &id, NULL, 0, around), OK_ANSWER);
    CHECK(is_zero(around, sizeof *around));
    heap_allow(false);
    stun_types_allocation_free(client);
    stun_types_allocations_free(NULL, 0);
}

static void test_ice_agents(void) {
    static const stun_types_ice none = STUN_TYPES_ICE_INIT;
    static const stun_types_ice_settings no_settings;
    static const stun_types_ice_candidate candidate
        = {"1", 1, 1, 1, AN_ADDRESS, NO_ADDRESS, STUN_TYPES_UDP, STUN_TYPES_ICE_HOST};
    stun_types_ice_settings *settings = NEW(stun_types_ice_settings);
    stun_types_ice *agent = NEW(stun_types_ice);
    stun_types_ice_received *received = NEW(stun_types_ice_received);
    stun_types_ice_request *request = NEW(stun_types_ice_request);
    stun_types_ice_candidate *read = NEW(stun_types_ice_candidate);
    uint64_t *wake = NEW(uint64_t);
    size_t *written = NEW(size_t);
    const slice fragment = text("evtj"), password = text("VOkJxbRl1RmTxUk/WvJxBt");
    *agent = none;
    heap_allow(true);
    ANSWERS(stun_types_ice_new(agent, &no_settings), PLAIN(STUN_TYPES_BAD_ARGUMENT));
    memset(settings, 0, sizeof *settings);
    settings->ufrag = fragment.bytes;
    settings->ufrag_length = fragment.length;
    settings->password = password.bytes;
    settings->password_length = password.length;
    settings->role = STUN_TYPES_ICE_CONTROLLED;
    ANSWERS(stun_types_ice_new(agent, settings), OK_ANSWER);
    ANSWERS(stun_types_ice_set_peer(agent, 0, NULL, 0, password.bytes, password.length),
            PLAIN(STUN_TYPES_INVALID_DATA));
    ANSWERS(stun_types_ice_set_peer(agent, 0, fragment.bytes, fragment.length, NULL, 0),
            PLAIN(STUN_TYPES_BAD_ARGUMENT));
    ANSWERS(stun_types_ice_datagram(agent, 0, 1, &address, NULL, 0, 0, NULL, 0, received), OK_ANSWER);
    CHECK(is_zero(received, sizeof *received));
    ANSWERS(stun_types_ice_poll(agent, 0, &id, NULL, 0, request, wake), OK_ANSWER);
    CHECK(is_zero(request, sizeof *request) && *wake == UINT64_MAX);
    heap_allow(false);
    stun_types_ice_free(agent);
    stun_types_ices_free(NULL, 0);
    ANSWERS(stun_types_ice_candidate_read(NULL, 0, read), PLAIN(STUN_TYPES_INVALID_DATA));
    ANSWERS(stun_types_ice_candidate_write(&candidate, NULL, 0, written),
            LENGTHS(STUN_TYPES_TOO_SMALL, 44, 0));
    CHECK(*written == 0);
}

static void test_lite_agents(void) {
    static const stun_types_ice_lite none = STUN_TYPES_ICE_LITE_INIT;
    static const stun_types_ice_lite_settings no_settings;
    stun_types_ice_lite_settings *settings = NEW(stun_types_ice_lite_settings);
    stun_types_ice_lite *agent = NEW(stun_types_ice_lite);
    stun_types_ice_received *received = NEW(stun_types_ice_received);
    const slice fragment = text("evtj"), password = text("VOkJxbRl1RmTxUk/WvJxBt");
    *agent = none;
    heap_allow(true);
    ANSWERS(stun_types_ice_lite_new(agent, &no_settings), PLAIN(STUN_TYPES_BAD_ARGUMENT));
    memset(settings, 0, sizeof *settings);
    settings->ufrag = fragment.bytes;
    settings->ufrag_length = fragment.length;
    settings->password = password.bytes;
    settings->password_length = password.length;
    ANSWERS(stun_types_ice_lite_new(agent, settings), OK_ANSWER);
    ANSWERS(stun_types_ice_lite_datagram(agent, 0, 1, &address, NULL, 0, NULL, 0, received), OK_ANSWER);
    CHECK(is_zero(received, sizeof *received));
    heap_allow(false);
    stun_types_ice_lite_free(agent);
    stun_types_ice_lites_free(NULL, 0);
}

void test_nulls(void) {
    row("slices that are NULL", "that are read");
    test_read();
    row("slices that are NULL", "of which numbers are read");
    test_numbers_read();
    row("slices that are NULL", "of which keys are made, and those that are validated");
    test_made();
    row("slices that are NULL", "that are written");
    test_written();
    row("slices that are NULL", "of servers with credentials");
    test_servers_with_credentials();
    row("slices that are NULL", "of answers to a challenge");
    test_answers();
    row("slices that are NULL", "of clients and streams");
    test_clients_and_streams();
    row("slices that are NULL", "of TURN servers");
    test_turn_servers();
    row("slices that are NULL", "of TURN clients");
    test_turn_clients();
    row("slices that are NULL", "of ICE agents");
    test_ice_agents();
    row("slices that are NULL", "of lite ICE agents");
    test_lite_agents();
}
