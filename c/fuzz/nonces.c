/* Nonces that a server makes and doesn't store. */
#include <string.h>

#include "fuzz.h"

enum { LENGTH = STUN_TYPES_NONCE_LENGTH };

static void check_judged(const model_server *server, const stun_types_key *secret, uint64_t now,
                         model_text nonce, stun_types_answer fault) {
    stun_types_nonce_state *state = NEW(stun_types_nonce_state);
    HOLDS(is_same(stun_types_judge_nonce(secret, server->features, server->window, now,
                                         server->client, nonce.bytes, nonce.length, state),
                  fault));
    if (fault.code != STUN_TYPES_OK) HOLDS(*state == STUN_TYPES_NONCE_UNKNOWN);
    else HOLDS((uint32_t)*state == model_nonce_state(server, now, nonce));
}

static uint32_t judged(const model_server *server, const stun_types_key *secret, uint64_t now,
                       const stun_types_address *client, model_text nonce) {
    stun_types_nonce_state state = (stun_types_nonce_state)99;
    SUCCEEDS(stun_types_judge_nonce(secret, server->features, server->window, now, client,
                                    nonce.bytes, nonce.length, &state));
    return state;
}

/* How many seconds' times a nonce can state. */
#define TIMES ((uint64_t)1 << 36)

/* A nonce is valid within its window, for its client alone and by its secret, and stale before and
   after: of these the input chooses. A window of TIMES - 1 never ends. */
static void check_window(const model_server *server, const pair *secret, uint64_t now,
                         model_text nonce, source *from) {
    stun_types_address other = *server->client;
    uint64_t window = server->window, end = now + (window < TIMES ? window : TIMES - 1);
    unsigned how = take(from);
    uint64_t at = how % 4 == 0 ? now : how % 4 == 1 ? end : how % 4 == 2 ? end + 1 : now - 1;
    bool is_within = how % 4 < 2 || window >= TIMES - 1;
    HOLDS(judged(server, &secret->key, at, server->client, nonce)
          == (is_within ? STUN_TYPES_NONCE_VALID : STUN_TYPES_NONCE_STALE));
    if (how / 4 % 4 == 0) {
        other.port ^= (uint16_t)(1 << take(from) % 16);
    } else if (how / 4 % 4 == 1) {
        other.octets[take(from) % (other.family == 4 ? 4 : 16)] ^= (uint8_t)(1 << take(from) % 8);
    } else if (how / 4 % 4 == 2) {
        other.family ^= 4 ^ 6;
    } else {
        secret = &pairs[secret == &pairs[SECRET] ? LONG_KEY : SECRET];
    }
    HOLDS(judged(server, &secret->key, at, &other, nonce) == STUN_TYPES_NONCE_UNKNOWN);
}

void check_nonces(source *from) {
    unsigned how = take(from);
    const pair *secret = &pairs[how % 4 == 0 ? how / 4 % PAIRS : SECRET];
    size_t size = how / 32 % 4 != 0 ? LENGTH
                  : how / 128 == 0  ? LENGTH + take(from) % 8
                                    : take(from) % LENGTH;
    size_t *written = NEW(size_t);
    uint8_t *room = place(size), made[LENGTH];
    model_server server;
    model_text nonce;
    stun_types_answer fault, answer;
    uint64_t now;
    server.secret = &secret->model;
    server.features = take_below(from, 4, 16);
    server.window = take(from) % 8 == 0 ? take_eight(from) : take(from) * 8u;
    server.client = take_address(from);
    now = take(from) % 8 == 0 ? take_eight(from) : take_two(from);
    answer = stun_types_make_nonce(&secret->key, server.features, server.window, now, server.client,
                                   room, size, written);
    fault = model_server_fault(&server);
    if (fault.code == STUN_TYPES_OK && size < LENGTH)
        HOLDS(is_same(answer, model_answer(STUN_TYPES_TOO_SMALL, 0, LENGTH, size)));
    else HOLDS(is_same(answer, fault));
    if (answer.code != STUN_TYPES_OK)
        HOLDS(is_filled(room, size) && is_filled(written, sizeof *written));
    memset(made, 'x', sizeof made);
    if (fault.code == STUN_TYPES_OK) model_nonce(&server, now, made);
    if (answer.code == STUN_TYPES_OK) {
        HOLDS(*written == LENGTH && memcmp(room, made, LENGTH) == 0);
        HOLDS(is_filled(room + LENGTH, size - LENGTH));
        nonce.bytes = room;
        nonce.length = LENGTH;
        check_window(&server, secret, now, nonce, from);
    }
    /* one that is changed or cut, of this server or of one with other features, at any time */
    if (take(from) % 2 == 0)
        made[take(from) % LENGTH] = (uint8_t) "0aA=\xFF"
                                              "9f"[take(from) % 7];
    if (take(from) % 8 == 0) server.features = take_below(from, 4, 16);
    nonce.length = take(from) % 16 == 0 ? take(from) % LENGTH : LENGTH;
    nonce.bytes = copy_of(made, nonce.length);
    how = take(from);
    if (how % 4 == 0) now = take_eight(from);
    else if (how % 4 == 1) now += take_two(from) - 0x8000u;
    else if (how % 4 == 2) now += server.window + how / 4 % 2;
    check_judged(&server, &secret->key, now, nonce, model_server_fault(&server));
}
