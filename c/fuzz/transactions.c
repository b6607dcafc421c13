/* Transactions of a client: an array of them, and calls that the input chooses. */
#include <string.h>

#include "fuzz.h"

enum { COUNT_MOST = 5 };

static stun_types_transaction *all;
static stun_types_transaction expected[COUNT_MOST];
static const pair *keys[COUNT_MOST];
static size_t count;

static bool are_same(void) { return memcmp(all, expected, count * sizeof *all) == 0; }

/* A schedule: the default one, one that means something, or any struct. */
static const stun_types_schedule *take_schedule(source *from) {
    static const stun_types_schedule usual = STUN_TYPES_SCHEDULE;
    stun_types_schedule one = usual;
    unsigned how = take(from);
    if (how % 16 == 15) take_bytes(from, &one, sizeof one);
    if (how % 4 == 1) one.rto = how / 16 == 7 ? take_eight(from) : take_two(from);
    if (how % 4 == 1) one.reliable_wait = take_two(from);
    if (how % 4 == 2) one.requests = how / 16 == 7 ? take(from) : 1 + take(from) % 4;
    if (how % 4 == 2) one.last_wait = how / 16 == 6 ? take_four(from) : 1 + take(from) % 20;
    if (how / 4 % 4 == 1) one.min_hmac_length = 16 + take(from) % 5 * 4;
    if (how / 4 % 4 == 2) one.fingerprint = take(from);
    /* the greatest that there is for so many requests, and the next one */
    if (how % 64 == 54)
        one.rto = UINT64_MAX / (((uint64_t)1 << (one.requests - 1) % 64) - 1 + one.last_wait)
                  + take(from) % 2;
    if (how == 250) one.reserved = take(from);
    if (how == 251) one.min_hmac_length = take(from);
    return copy_of(&one, sizeof one);
}

/* A time soon after the last one, or any; times step back too. */
static uint64_t take_time(source *from, const stun_types_transaction *one) {
    unsigned how = take(from);
    uint64_t until;
    if (how % 16 == 15) return take_eight(from);
    if (how % 2 == 0 && model_next(one, &until)) return until - (how % 16 == 14 ? 1 : 0);
    return one->clock + take_two(from) - (how % 8 == 1 ? 30000u : 0u);
}

static void begin_one(size_t at, source *from) {
    static text request;
    const stun_types_schedule *schedule = take_schedule(from);
    uint32_t transport = take_below(from, 2, 32) + 1, protection = take_below(from, 4, 32) + 1;
    unsigned how = take(from);
    const pair *key = &pairs[how % 4 == 3 ? how / 4 % PAIRS : PASSWORD];
    uint64_t now = how / 32 == 7 ? take_eight(from) : take_two(from);
    const uint8_t *bytes;
    stun_types_answer answer;
    take_request(&request, from);
    bytes = copy_of(request.bytes, request.length < 1000 ? request.length : 1000);
    if (request.length > 1000) request.length = 1000;
    answer = model_begin(request.bytes, request.length, schedule, transport, protection,
                         &key->model, now, &expected[at]);
    HOLDS(is_same(stun_types_transaction_begin(&all[at], bytes, request.length, schedule,
                                               (stun_types_transport)transport,
                                               (stun_types_protection)protection, &key->key, now),
                  answer));
    if (answer.code == STUN_TYPES_OK) keys[at] = key;
}

/* Any struct, or a field of one changed. */
static void spoil(size_t at, source *from) {
    uint8_t bytes[sizeof *all];
    unsigned how = take(from);
    memcpy(bytes, &expected[at], sizeof bytes);
    if (how % 4 == 0) take_bytes(from, bytes, sizeof bytes);
    else if (how % 4 == 1) memset(bytes, 0, sizeof bytes);
    else if (how % 4 == 2) bytes[sizeof bytes - 20 + take(from) % 12] = (uint8_t)(take(from) % 9);
    else bytes[take(from) % sizeof bytes] = (uint8_t)take(from);
    memcpy(&expected[at], bytes, sizeof bytes);
    memcpy(&all[at], bytes, sizeof bytes);
}

static void poll_one(size_t at, source *from) {
    stun_types_action *told = NEW(stun_types_action), action;
    uint64_t now = take_time(from, &expected[at]);
    HOLDS(is_same(stun_types_transaction_poll(&all[at], now, told),
                  model_poll(&expected[at], now, &action)));
    HOLDS(memcmp(told, &action, sizeof action) == 0);
}

/* Bytes for one of the transactions, or for none. */
static const uint8_t *take_received(text *response, size_t at, source *from) {
    unsigned method = expected[at].method;
    unsigned type = (method & 0xF) | (method & 0x70) << 1 | (method & 0xF80) << 2;
    uint8_t id[12];
    memcpy(id, expected[at].id.bytes, sizeof id);
    if (take(from) % 32 == 31) id[take(from) % 12] ^= 1;
    take_response(response, from, type & 0x3EEF, id);
    if (response->length > 1000) response->length = 1000;
    return copy_of(response->bytes, response->length);
}

static void receive_one(size_t at, source *from) {
    static text response;
    const uint8_t *bytes = take_received(&response, at, from);
    number_list understood = take_numbers(from, false);
    stun_types_received *told = NEW(stun_types_received), received;
    unsigned how = take(from);
    const pair *key = how % 8 == 7 ? &pairs[how / 8 % PAIRS] : keys[at];
    HOLDS(is_same(stun_types_transaction_receive(&all[at], &key->key, bytes, response.length,
                                                 understood.all, understood.count, told),
                  model_receive(&expected[at], &key->model, bytes, response.length, understood.all,
                                understood.count, &received)));
    HOLDS(memcmp(told, &received, sizeof received) == 0);
}

static void end_one(size_t at, unsigned how) {
    if (how % 4 == 0)
        HOLDS(is_same(stun_types_transaction_cancel(&all[at]),
                      model_end(&expected[at], STUN_TYPES_CANCELLED)));
    else if (how % 4 == 1)
        HOLDS(is_same(stun_types_transaction_fail(&all[at]),
                      model_end(&expected[at], STUN_TYPES_TRANSPORT_FAILED)));
    else HOLDS(is_same(stun_types_transaction_stop_sending(&all[at]), model_stop(&expected[at])));
}

/* ---- what only looks */

static void look_for(size_t at, source *from) {
    static text response;
    const uint8_t *bytes = take_received(&response, at, from);
    size_t *told = NEW(size_t), wanted = 0;
    bool is_response = model_header(bytes, response.length).code == STUN_TYPES_OK
                       && (model_number(bytes) & 0x0100) != 0;
    bool is_there = stun_types_transactions_find(all, count, bytes, response.length, told);
    while (is_response && wanted < count
           && (expected[wanted].sent == 0 || expected[wanted].end != 0
               || memcmp(expected[wanted].id.bytes, bytes + 8, 12) != 0))
        wanted++;
    HOLDS(is_there == (is_response && wanted < count));
    if (is_there) HOLDS(*told == wanted);
    else HOLDS(is_filled(told, sizeof *told));
}

/* The soonest moment is that of one of them, and not after that of another. */
static void look_ahead(void) {
    uint64_t *told = NEW(uint64_t), soonest = UINT64_MAX, until;
    bool is_some = false, is_there = stun_types_transactions_next(all, count, told);
    size_t i;
    for (i = 0; i < count; i++) {
        if (!model_next(&expected[i], &until)) continue;
        is_some = true;
        if (until < soonest) soonest = until;
    }
    HOLDS(is_there == is_some);
    if (is_there) HOLDS(*told == soonest);
    else HOLDS(is_filled(told, sizeof *told));
}

static void look_back(size_t at, source *from) {
    uint64_t *told = NEW(uint64_t), now = take_time(from, &expected[at]), time = 0;
    bool is_there = stun_types_transaction_round_trip(&all[at], now, told);
    HOLDS(is_there == model_round_trip(&expected[at], now, &time));
    if (is_there) HOLDS(*told == time);
    else HOLDS(is_filled(told, sizeof *told));
}

void check_transactions(source *from) {
    unsigned steps = 4 + take(from) % 12, i;
    size_t at;
    count = 1 + take(from) % COUNT_MOST;
    all = place(count * sizeof *all);
    memset(all, 0, count * sizeof *all);
    memset(expected, 0, sizeof expected);
    for (at = 0; at < COUNT_MOST; at++) keys[at] = &pairs[PASSWORD];
    for (i = 0; i < steps; i++) {
        unsigned how = take(from);
        at = how / 16 % count;
        if (i < count) begin_one(i, from);
        switch (how % 16) {
        case 0: begin_one(at, from); break;
        case 1: spoil(at, from); break;
        case 2:
        case 3: end_one(at, take(from)); break;
        case 4:
        case 5: look_for(at, from); break;
        case 6: look_ahead(); break;
        case 7: look_back(at, from); break;
        case 8:
        case 9:
        case 10:
        case 11: poll_one(at, from); break;
        default:
            poll_one(at, from);
            receive_one(at, from);
            look_back(at, from);
        }
        HOLDS(are_same());
    }
    look_ahead();
}
