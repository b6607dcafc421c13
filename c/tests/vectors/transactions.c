/* A client's transaction, event by event, many of them, and the address that a response reports. */
#define _DEFAULT_SOURCE
#include "call.h"

#include <arpa/inet.h>
#include <stdlib.h>
#include <string.h>

enum { EVENTS = 64, TYPES_MOST = 80, MANY = 64 };

/* What happens in a transaction. */
typedef struct {
    const char *name;
    uint64_t time;
    slice octets;
    uint16_t types[TYPES_MOST];
    size_t count;
} event;

/* A call's transaction. */
static struct {
    stun_types_transport transport;
    stun_types_protection protection;
    stun_types_integrity made_for;
    stun_types_schedule schedule;
    slice key, request;
    event events[EVENTS];
    size_t count;
} script;

/* What was received last, and the time of the last poll; the latest time of all polls, and that at
   which the request was sent last. */
static stun_types_received last_received;
static uint64_t last_time, latest, sent_at;

/* The schedule of four numbers. */
static stun_types_schedule schedule_of(char *word) {
    stun_types_schedule schedule = {0, 0, 0, 0, 0, 0, 0};
    uint64_t numbers[4] = {0, 0, 0, 0};
    char *part;
    size_t at;
    for (at = 0; at < 4 && (part = next_part(&word, ':')) != NULL; at++)
        numbers[at] = strtoull(part, NULL, 10);
    if (at != 4) answer_unknown();
    schedule.rto = numbers[0];
    schedule.requests = (uint32_t)numbers[1];
    schedule.last_wait = (uint32_t)numbers[2];
    schedule.reliable_wait = numbers[3];
    return schedule;
}

/* Whether a transaction has begun. C has one code for a schedule with a 0 and for one too long, and for
   a wrong argument and a key that was made for one algorithm. */
static bool has_begun(stun_types_answer result, const stun_types_schedule *schedule) {
    bool is_zero = schedule->rto == 0 || schedule->requests == 0 || schedule->last_wait == 0;
    if (result.code == STUN_TYPES_BAD_ARGUMENT && script.made_for != STUN_TYPES_INTEGRITY_ANY) {
        answer_text("!KeyForOneAlgorithm");
        return false;
    }
    if (result.code != STUN_TYPES_OUT_OF_RANGE) return is_taken(result);
    CHECK(is_same_answer(result, PLAIN(STUN_TYPES_OUT_OF_RANGE)));
    answer_text(is_zero ? "!Zero" : "!TooLong");
    return false;
}

/* The word of an end. */
static const char *end_word(uint32_t end) {
    static const char *const ends[] = {
        "!", "answered", "timed-out", "not-authentic", "refused", "cancelled", "transport-failed",
    };
    return ends[end < COUNT(ends) ? end : 0];
}

static void answer_action(const stun_types_action *action) {
    answer_space();
    if (action->kind == STUN_TYPES_SEND_NOW) answer_text("send");
    else if (action->kind == STUN_TYPES_WAIT)
        answer_text("wait:%llu", (unsigned long long)action->until);
    else answer_text("ended:%s", end_word(action->end));
}

static void answer_received(const stun_types_received *received) {
    unsigned number = (unsigned)received->number;
    switch (received->kind) {
    case STUN_TYPES_NOT_FOR_THIS: answer_text("ignored"); break;
    case STUN_TYPES_DISCARDED_NOT_AUTHENTIC: answer_text("discarded:not-authentic"); break;
    case STUN_TYPES_DISCARDED_BID_DOWN: answer_text("discarded:bid-down"); break;
    case STUN_TYPES_DISCARDED_UNSIGNED: answer_text("discarded:unsigned-400"); break;
    case STUN_TYPES_DISCARDED_OTHER_ALGORITHM: answer_text("discarded:other-algorithm"); break;
    case STUN_TYPES_DISCARDED_NO_FINGERPRINT: answer_text("discarded:no-fingerprint"); break;
    case STUN_TYPES_FAILED_INTEGRITY: answer_text("failed:not-authentic"); break;
    case STUN_TYPES_FAILED_UNKNOWN_ATTRIBUTE: answer_text("failed:unknown:%04x", number); break;
    case STUN_TYPES_FAILED_NO_ERROR_CODE: answer_text("failed:no-code"); break;
    case STUN_TYPES_TAKEN_SUCCESS: answer_text("success"); break;
    case STUN_TYPES_TAKEN_ERROR: answer_text("error:%u", number); break;
    default: answer_text("!%u", (unsigned)received->kind);
    }
}

/* Whether the response that was received last is taken. */
static bool was_taken(void) {
    return last_received.kind == STUN_TYPES_TAKEN_SUCCESS ||
           last_received.kind == STUN_TYPES_TAKEN_ERROR;
}

/* The algorithm that authenticates it. */
static void answer_authenticated(void) {
    CHECK(was_taken() || last_received.algorithm == STUN_TYPES_INTEGRITY_ANY);
    answer_space();
    if (last_received.algorithm == STUN_TYPES_INTEGRITY_ANY) answer_text("no");
    else answer_algorithm(last_received.algorithm);
}

/* The code that it claims, if it is discarded. */
static void answer_claimed(void) {
    bool is_unknown = last_received.kind == STUN_TYPES_FAILED_UNKNOWN_ATTRIBUTE;
    answer_space();
    if (was_taken() || is_unknown || last_received.number == 0) answer_text("none");
    else answer_text("%u", (unsigned)last_received.number);
}

/* Whether an event has no argument. */
static bool is_plain(const char *word) {
    static const char *const plain[] = {
        "authenticated", "claimed", "stop-sending", "cancel", "transport-fails", "round-trip",
    };
    size_t at;
    for (at = 0; at < COUNT(plain); at++)
        if (strcmp(word, plain[at]) == 0) return true;
    return false;
}

/* Reads the events that are left. */
static void read_events(void) {
    char *word;
    script.count = 0;
    while ((word = call_word()) != NULL) {
        event *next = &script.events[script.count++];
        if (script.count == EVENTS) abort();
        memset(next, 0, sizeof *next);
        next->name = word;
        if (strcmp(word, "at") == 0) next->time = call_count();
        else if (strcmp(word, "got") == 0) next->octets = call_octets();
        else if (strcmp(word, "understand") == 0)
            next->count = types_of(call_word(), next->types, TYPES_MOST);
        else if (!is_plain(word)) answer_unknown();
    }
}

/* How long the response took, if it came at the time of the last poll. */
static void answer_round_trip(const stun_types_transaction *transaction) {
    uint64_t *time = NEW(uint64_t);
    answer_space();
    if (stun_types_transaction_round_trip(transaction, last_time, time))
        answer_text("%llu", (unsigned long long)*time);
    else {
        CHECK(is_untouched(time, sizeof *time));
        answer_text("unknown");
    }
}

/* Takes an event, and answers if it asks; false if there is no memory. */
static bool take(const event *it, stun_types_transaction *transaction, const stun_types_key *key,
                 const event *understood) {
    stun_types_action action;
    stun_types_received received;
    if (strcmp(it->name, "at") == 0) {
        /* (one that has ended looks at no clock) */
        if (latest < it->time && transaction->end == 0) latest = it->time;
        ANSWERS(stun_types_transaction_poll(transaction, it->time, &action), OK_ANSWER);
        last_time = it->time;
        if (action.kind == STUN_TYPES_SEND_NOW) sent_at = latest;
        CHECK(transaction->clock == latest && transaction->last == sent_at);
        answer_action(&action);
    } else if (strcmp(it->name, "got") == 0) {
        stun_types_transaction before = *transaction;
        stun_types_answer result = stun_types_transaction_receive(
            transaction, key, it->octets.bytes, it->octets.length, understood->types,
            understood->count, &received);
        if (!is_taken(result)) {
            CHECK(memcmp(&before, transaction, sizeof before) == 0);
            return false;
        }
        answer_space();
        answer_received(&received);
        last_received = received;
    } else if (strcmp(it->name, "authenticated") == 0) answer_authenticated();
    else if (strcmp(it->name, "claimed") == 0) answer_claimed();
    else if (strcmp(it->name, "round-trip") == 0) answer_round_trip(transaction);
    else if (strcmp(it->name, "stop-sending") == 0)
        ANSWERS(stun_types_transaction_stop_sending(transaction), OK_ANSWER);
    else if (strcmp(it->name, "cancel") == 0)
        ANSWERS(stun_types_transaction_cancel(transaction), OK_ANSWER);
    else if (strcmp(it->name, "transport-fails") == 0)
        ANSWERS(stun_types_transaction_fail(transaction), OK_ANSWER);
    return true;
}

/* Runs the script. */
static void run(void) {
    static const event nothing;
    const event *understood = &nothing;
    stun_types_key key = STUN_TYPES_KEY_INIT;
    stun_types_transaction transaction;
    stun_types_answer result;
    size_t at;
    bool goes_on;
    bool is_protected = script.protection == STUN_TYPES_SHORT_TERM ||
                        script.protection == STUN_TYPES_LONG_TERM;
    latest = sent_at = 0;
    if (is_protected && !make_key(&key, script.key, script.made_for)) return;
    result = stun_types_transaction_begin(&transaction, script.request.bytes, script.request.length,
                                        &script.schedule, script.transport, script.protection,
                                        &key, 0);
    goes_on = has_begun(result, &script.schedule);
    for (at = 0; at < script.count && goes_on; at++) {
        const event *it = &script.events[at];
        if (strcmp(it->name, "understand") == 0) understood = it;
        else goes_on = take(it, &transaction, &key, understood);
    }
    stun_types_key_free(&key);
    answer_or_nothing();
}

/* Reads how the request is protected, and what the usage specifies of responses. */
static void read_mechanism(char *word) {
    const char *part = next_part(&word, ':');
    script.protection = STUN_TYPES_UNPROTECTED;
    script.made_for = STUN_TYPES_INTEGRITY_ANY;
    if (part == NULL) answer_unknown();
    else if (strcmp(part, "first") == 0) script.protection = STUN_TYPES_FIRST_LONG_TERM;
    else if (strcmp(part, "short") == 0) script.protection = STUN_TYPES_SHORT_TERM;
    else if (strcmp(part, "long") == 0) script.protection = STUN_TYPES_LONG_TERM;
    while ((part = next_part(&word, ':')) != NULL)
        if (strcmp(part, "fingerprint") == 0) script.schedule.fingerprint = 1;
        else if (strncmp(part, "key-", 4) == 0) script.made_for = algorithm_of(part + 4);
        else script.schedule.min_hmac_length = (uint32_t)strtoul(part, NULL, 10);
}

static void transaction(void) {
    const char *transport = call_word();
    script.transport = strcmp(transport, "reliable") == 0 ? STUN_TYPES_TCP : STUN_TYPES_UDP;
    script.schedule = schedule_of(call_word());
    read_mechanism(call_word());
    script.key = call_octets();
    script.request = call_octets();
    read_events();
    run();
}

/* ---- many transactions, in an array with as many places as there is room for */

static struct {
    stun_types_transaction all[MANY];
    bool is_held[MANY];
    size_t count;
    stun_types_schedule schedule;
} table;

/* The number of a transaction ID that is a decimal number. */
static unsigned long long number_of(const stun_types_id *id) {
    unsigned long long number = 0;
    size_t at;
    for (at = 4; at < 12; at++) number = number << 8 | id->bytes[at];
    return number;
}

/* The place of the transaction with an ID; table.count if there is none. */
static size_t place_of(unsigned long long id) {
    size_t place;
    for (place = 0; place < table.count; place++)
        if (table.is_held[place] && number_of(&table.all[place].id) == id) break;
    return place;
}

static void free_place(size_t place) {
    memset(&table.all[place], 0, sizeof table.all[place]);
    table.is_held[place] = false;
}

static void begin_one(void) {
    const stun_types_key none = STUN_TYPES_KEY_INIT;
    uint64_t now = call_count();
    slice request = call_octets();
    stun_types_transaction begun;
    size_t place;
    stun_types_answer answer = stun_types_transaction_begin(
        &begun, request.bytes, request.length, &table.schedule, STUN_TYPES_UDP,
        STUN_TYPES_UNPROTECTED, &none, now);
    answer_space();
    if (answer.code == STUN_TYPES_NOT_A_REQUEST) {
        answer_text("not-a-request");
        return;
    }
    if (!is_taken(answer)) return;
    if (place_of(number_of(&begun.id)) < table.count) {
        answer_text("in-use");
        return;
    }
    for (place = 0; place < table.count && table.is_held[place];) place++;
    if (place == table.count) {
        answer_text("full");
        return;
    }
    table.all[place] = begun;
    table.is_held[place] = true;
    answer_text("begun");
}

/* What is to be done first; false if nothing is. */
static bool answer_first_task(uint64_t now) {
    stun_types_action action;
    size_t place;
    for (place = 0; place < table.count; place++) {
        unsigned long long id = number_of(&table.all[place].id);
        if (!table.is_held[place]) continue;
        ANSWERS(stun_types_transaction_poll(&table.all[place], now, &action), OK_ANSWER);
        if (action.kind == STUN_TYPES_WAIT) continue;
        if (action.kind == STUN_TYPES_SEND_NOW) answer_text("send:%llu", id);
        else {
            answer_text("%llu:ended:%s", id, end_word(action.end));
            free_place(place);
        }
        return true;
    }
    return false;
}

/* From when on there is something to do. (C passes over what has ended: its owner knows.) */
static void answer_wake(const char *before, const char *otherwise) {
    uint64_t *until = NEW(uint64_t);
    size_t place;
    for (place = 0; place < table.count; place++)
        if (table.is_held[place] && table.all[place].end != 0) {
            answer_text("%s0", before);
            return;
        }
    if (stun_types_transactions_next(table.all, table.count, until))
        answer_text("%s%llu", before, (unsigned long long)*until);
    else {
        CHECK(is_untouched(until, sizeof *until));
        answer_text("%s", otherwise);
    }
}

static void receive_one(void) {
    const stun_types_key none = STUN_TYPES_KEY_INIT;
    slice bytes = call_octets();
    size_t *place = NEW(size_t), at;
    stun_types_received received;
    answer_space();
    if (!stun_types_transactions_find(table.all, table.count, bytes.bytes, bytes.length, place)) {
        stun_types_header header;
        CHECK(is_untouched(place, sizeof *place));
        /* one that waits for nothing is known by its ID alone */
        memset(&header, 0, sizeof header);
        if (stun_types_read_header(bytes.bytes, bytes.length, &header).code == STUN_TYPES_OK
            && stun_types_parse(bytes.bytes, bytes.length).code == STUN_TYPES_OK
            && place_of(number_of(&header.id)) < table.count)
            answer_text("%llu:", number_of(&header.id));
        answer_text("ignored");
        return;
    }
    at = *place;
    ANSWERS(stun_types_transaction_receive(&table.all[at], &none, bytes.bytes, bytes.length, NULL, 0,
                                           &received),
            OK_ANSWER);
    answer_text("%llu:", number_of(&table.all[at].id));
    answer_received(&received);
}

/* Whether there is a transaction with the ID of the next word, after a call for it. */
static void call_for(stun_types_answer (*call)(stun_types_transaction *)) {
    size_t place = place_of(call_count());
    answer_space();
    answer_text(place < table.count ? "yes" : "no");
    if (place < table.count && call != NULL) ANSWERS(call(&table.all[place]), OK_ANSWER);
}

static void transactions(void) {
    const char *word;
    memset(&table, 0, sizeof table);
    table.count = (size_t)call_count();
    table.schedule = schedule_of(call_word());
    if (table.count > MANY) abort();
    while ((word = call_word()) != NULL) {
        if (strcmp(word, "begin") == 0) begin_one();
        else if (strcmp(word, "got") == 0) receive_one();
        else if (strcmp(word, "has") == 0) call_for(NULL);
        else if (strcmp(word, "stop-sending") == 0) call_for(stun_types_transaction_stop_sending);
        else if (strcmp(word, "cancel") == 0) call_for(stun_types_transaction_cancel);
        else if (strcmp(word, "transport-fails") == 0) call_for(stun_types_transaction_fail);
        else if (strcmp(word, "wake") == 0) {
            answer_space();
            answer_wake("", "unknown");
        } else if (strcmp(word, "at") == 0) {
            uint64_t now = call_count();
            answer_space();
            if (!answer_first_task(now)) answer_wake("wait:", "idle");
        } else answer_unknown();
    }
}

/* A client that asks at each moment that it is asked to wait for. */
static void schedule(void) {
    const stun_types_key none = STUN_TYPES_KEY_INIT;
    stun_types_schedule given_schedule = schedule_of(call_word());
    stun_types_id id = id_of("1");
    stun_types_transaction begun;
    stun_types_action action = {STUN_TYPES_SEND_NOW, (stun_types_end)0, 0, 0};
    draft request;
    uint64_t now = 0;
    ANSWERS(draft_begin(&request, 20, STUN_TYPES_CLASS_REQUEST, STUN_TYPES_METHOD_BINDING, &id), OK_ANSWER);
    if (!has_begun(stun_types_transaction_begin(&begun, request.room, 20, &given_schedule,
                                                STUN_TYPES_UDP, STUN_TYPES_UNPROTECTED, &none, 0),
                   &given_schedule))
        return;
    while (action.kind != STUN_TYPES_ENDED) {
        ANSWERS(stun_types_transaction_poll(&begun, now, &action), OK_ANSWER);
        answer_space();
        if (action.kind == STUN_TYPES_SEND_NOW) answer_text("%llu", (unsigned long long)now);
        else answer_text("end:%llu", (unsigned long long)now);
        if (action.kind == STUN_TYPES_ENDED) CHECK(action.end == STUN_TYPES_TIMED_OUT);
        else {
            ANSWERS(stun_types_transaction_poll(&begun, now, &action), OK_ANSWER);
            CHECK(action.kind == STUN_TYPES_WAIT && action.until > now);
            now = action.until;
        }
    }
}

/* Appends an address as a text. */
static void answer_address(const stun_types_address *address) {
    char text[INET6_ADDRSTRLEN];
    bool is_v4 = address->family == 4;
    if (inet_ntop(is_v4 ? AF_INET : AF_INET6, address->octets, text, sizeof text) == NULL) abort();
    answer_text(is_v4 ? "%s:%u" : "[%s]:%u", text, (unsigned)address->port);
}

static void mapped(void) {
    slice request = call_octets(), response = call_octets();
    stun_types_header asked, answered;
    stun_types_attribute attribute;
    stun_types_address address;
    if (!is_taken(stun_types_parse(response.bytes, response.length))) return;
    asked = header_of(request);
    answered = header_of(response);
    if (answered.message_class != STUN_TYPES_CLASS_SUCCESS || !is_response_to(&asked, &answered))
        answer_text("-");
    else if (!stun_types_find(response.bytes, response.length, STUN_TYPES_ATTRIBUTE_XOR_MAPPED_ADDRESS,
                              &attribute))
        answer_refusal(OF_TYPE(STUN_TYPES_MISSING_ATTRIBUTE, STUN_TYPES_ATTRIBUTE_XOR_MAPPED_ADDRESS));
    else if (is_taken(stun_types_read_xor_address(response.bytes, response.length, &attribute,
                                                  &address)))
        answer_address(&address);
}

const verb verbs_of_transactions[] = {
    {"transaction", transaction, true}, {"schedule", schedule, false},
    {"transactions", transactions, false}, {"mapped", mapped, false},
    {NULL, NULL, false},
};
