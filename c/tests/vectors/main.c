/* Answers the calls of vectors/README.md through the header: a call in each line of standard input,
 * and its answer in a line of standard output.
 *
 * Each call is made with the guarded page after each slice, and with it before. Then each
 * allocation that the call asks for is refused in turn, alone and with all that follow: the answer has
 * to be `!OutOfMemory`, or the same if the library does without (a key that isn't prepared). If any of
 * these has another answer than it should have, the answer is `!!` and what happened. So it is if a
 * call is out of memory and no allocation was refused, or asks for more than c/stun_types.h says. */
#include <ctype.h>
#include <stdarg.h>
#include <stdio.h>
#include <stdlib.h>
#include <string.h>

#include "../heap.h"
#include "call.h"

enum { ANSWER_MOST = 1 << 20 };

static char *rest;
static bool is_unknown, is_out_of_memory;
static char answer[ANSWER_MOST], first[ANSWER_MOST], first_way[ANSWER_MOST];
static size_t answer_length;

static const verb *const tables[] = {
    verbs_of_parse,  verbs_of_show,    verbs_of_validate, verbs_of_keys,
    verbs_of_values, verbs_of_write,   verbs_of_replies,  verbs_of_servers,
    verbs_of_streams, verbs_of_transactions, verbs_of_authentication, verbs_of_print,
    verbs_of_turn,   verbs_of_turn_datagrams, verbs_of_responders, verbs_of_allocations,
    verbs_of_ice_agents,
};

/* ---- answers */

void answer_unknown(void) { is_unknown = true; }

void answer_text(const char *format, ...) {
    va_list arguments;
    int more;
    va_start(arguments, format);
    more = vsnprintf(answer + answer_length, ANSWER_MOST - answer_length, format, arguments);
    va_end(arguments);
    if (more < 0 || (size_t)more >= ANSWER_MOST - answer_length) abort();
    answer_length += (size_t)more;
}

void answer_octets(const uint8_t *octets, size_t length) {
    static const char digits[] = "0123456789abcdef";
    size_t at;
    if (length == 0) answer_text("-");
    if (2 * length >= ANSWER_MOST - answer_length) abort();
    for (at = 0; at < length; at++) {
        answer[answer_length++] = digits[octets[at] >> 4];
        answer[answer_length++] = digits[octets[at] & 15];
    }
    answer[answer_length] = 0;
}

void answer_space(void) {
    if (answer_length != 0) answer_text(" ");
}

size_t answer_count(void) { return answer_length; }

void answer_or_nothing(void) {
    if (answer_length == 0) answer_text("-");
}

void answer_algorithm(stun_types_integrity algorithm) {
    CHECK(algorithm == STUN_TYPES_INTEGRITY_SHA1 || algorithm == STUN_TYPES_INTEGRITY_SHA256);
    answer_text(algorithm == STUN_TYPES_INTEGRITY_SHA1 ? "sha1" : "sha256");
}

/* Appends a name and two numbers. */
static void answer_lengths(const char *name, char mark, stun_types_answer refused) {
    answer_text("!%s%c%llu%c%llu", name, mark, (unsigned long long)refused.expected, mark,
                (unsigned long long)refused.actual);
}

void answer_refusal_with(stun_types_answer refused, char mark) {
    unsigned long long expected = refused.expected, actual = refused.actual;
    switch (refused.code) {
    case STUN_TYPES_NOT_STUN: answer_text("!NotStun"); break;
    case STUN_TYPES_TRUNCATED: answer_lengths("Truncated", mark, refused); break;
    case STUN_TYPES_TOO_LARGE: answer_lengths("TooLarge", mark, refused); break;
    case STUN_TYPES_FINGERPRINT_MISMATCH: answer_text("!FingerprintMismatch"); break;
    case STUN_TYPES_MISSING_ATTRIBUTE:
        answer_text("!MissingAttribute%c%04x", mark, (unsigned)refused.type);
        break;
    case STUN_TYPES_INVALID_DATA: answer_text("!InvalidAttributeData"); break;
    case STUN_TYPES_INTEGRITY_FAILED: answer_text("!IntegrityFailed"); break;
    case STUN_TYPES_OUT_OF_MEMORY: is_out_of_memory = true; break;
    case STUN_TYPES_TOO_SMALL: answer_lengths("TooSmall", mark, refused); break;
    case STUN_TYPES_EXISTS:
        answer_text("!AttributeExists%c%04x", mark, (unsigned)refused.type);
        break;
    case STUN_TYPES_ENDING_TYPE:
        answer_text("!EndingType%c%04x", mark, (unsigned)refused.type);
        break;
    /* (of an error code: the header names the least one, and the answer the greatest) */
    case STUN_TYPES_OUT_OF_RANGE:
        answer_text("!OutOfRange%c%llu%c300%c%llu", mark, actual, mark, mark, expected);
        break;
    case STUN_TYPES_NOT_A_REQUEST: answer_text("!NotARequest"); break;
    case STUN_TYPES_NOT_SIGNED: answer_text("!NotSigned"); break;
    case STUN_TYPES_SIGNED: answer_text("!Signed"); break;
    case STUN_TYPES_NOT_A_CHALLENGE: answer_text("!NotAChallenge"); break;
    case STUN_TYPES_BID_DOWN: answer_text("!BidDown"); break;
    case STUN_TYPES_INCOMPLETE: answer_text("!Incomplete"); break;
    case STUN_TYPES_NO_ALGORITHM: answer_text("!NoAlgorithm"); break;
    case STUN_TYPES_SAME_CREDENTIALS: answer_text("!SameCredentials"); break;
    default: answer_text("!Code%u", (unsigned)refused.code);
    }
}

void answer_refusal(stun_types_answer refused) { answer_refusal_with(refused, ' '); }

bool is_taken(stun_types_answer result) {
    if (result.code == STUN_TYPES_OK) return true;
    answer_refusal(result);
    return false;
}

bool is_same_answer(stun_types_answer one, stun_types_answer other) {
    return one.code == other.code && one.type == other.type && one.expected == other.expected
        && one.actual == other.actual;
}

void answer_each_way(void (*way)(uint32_t number), uint32_t count) {
    size_t begun = answer_length;
    uint32_t number;
    for (number = 0; number < count; number++) {
        answer_length = begun;
        answer[begun] = 0;
        way(number);
        if (number == 0) strcpy(first_way, answer);
        if (is_unknown || is_out_of_memory || strcmp(first_way, answer) == 0) continue;
        answer_text(" !!disagree, way %u", (unsigned)number);
        return;
    }
}

/* ---- words */

char *call_word(void) { return next_part(&rest, ' '); }

const char *call_rest(void) { return rest == NULL ? "" : rest; }

void call_again(char *words) {
    rest = words;
    answer_length = 0;
    answer[0] = 0;
}

char *next_part(char **word, char mark) {
    char *part = *word, *end;
    if (part == NULL) return NULL;
    end = strchr(part, mark);
    if (end == NULL) *word = NULL;
    else {
        *end = 0;
        *word = end + 1;
    }
    return part;
}

slice octets_of(const char *word) {
    static uint8_t octets[1 << 18];
    size_t length = 0;
    if (strcmp(word, "-") == 0) return given(octets, 0);
    for (; *word != 0; word += 2) {
        char pair[3] = {0, 0, 0};
        if (!isxdigit((unsigned char)word[0]) || !isxdigit((unsigned char)word[1])
            || length == sizeof octets) {
            answer_unknown();
            break;
        }
        memcpy(pair, word, 2);
        octets[length++] = (uint8_t)strtoul(pair, NULL, 16);
    }
    return given(octets, length);
}

slice call_octets(void) {
    const char *word = call_word();
    if (word == NULL) answer_unknown();
    return octets_of(word == NULL ? "-" : word);
}

static uint64_t number_of(const char *word, int base) {
    char *end = NULL;
    unsigned long long number = word == NULL ? 0 : strtoull(word, &end, base);
    if (word == NULL || end == word || *end != 0) answer_unknown();
    return number;
}

uint16_t call_number(void) { return (uint16_t)number_of(call_word(), 16); }

uint64_t call_count(void) { return number_of(call_word(), 10); }

size_t call_room(void) {
    char *word = call_word();
    if (word == NULL) answer_unknown();
    if (word == NULL || strcmp(word, "any") == 0) return ANY_ROOM;
    return (size_t)strtoul(word, NULL, 10);
}

stun_types_id id_of(const char *digits) {
    stun_types_id id;
    size_t length = strlen(digits), at;
    memset(&id, 0, sizeof id);
    for (at = 0; at < length && at < 24; at++) {
        char digit[2] = {0, 0};
        uint8_t *octet = &id.bytes[11 - at / 2];
        digit[0] = digits[length - 1 - at];
        *octet = (uint8_t)(*octet | strtoul(digit, NULL, 16) << (at % 2 * 4));
    }
    return id;
}

size_t types_of(char *list, uint16_t *types, size_t most) {
    size_t count = 0;
    char *part;
    if (strcmp(list, "-") == 0) return 0;
    while ((part = next_part(&list, ',')) != NULL) {
        if (count == most) abort();
        types[count++] = (uint16_t)number_of(part, 16);
    }
    return count;
}

stun_types_integrity algorithm_of(const char *word) {
    if (strcmp(word, "sha1") == 0) return STUN_TYPES_INTEGRITY_SHA1;
    if (strcmp(word, "sha256") == 0) return STUN_TYPES_INTEGRITY_SHA256;
    if (strcmp(word, "any") != 0) answer_unknown();
    return STUN_TYPES_INTEGRITY_ANY;
}

const char *const class_words[4] = {"request", "indication", "success", "error"};

stun_types_class class_of(const char *word) {
    uint32_t number;
    for (number = 0; number < 4; number++)
        if (strcmp(class_words[number], word) == 0) return (stun_types_class)number;
    answer_unknown();
    return STUN_TYPES_CLASS_REQUEST;
}

/* ---- keys */

void keep_secret(slice octets) {
    /* (fewer bytes are found by chance in the addresses that a freed block held) */
    if (octets.length >= 4) heap_add_secret(octets.bytes, octets.length < 64 ? octets.length : 64);
}

bool is_secret(slice octets) {
    if (octets.length == 0) answer_unknown();
    return octets.length != 0;
}

bool make_key(stun_types_key *key, slice bytes, stun_types_integrity algorithm) {
    keep_secret(bytes);
    return is_taken(stun_types_key_from_bytes(key, bytes.bytes, bytes.length, algorithm));
}

/* ---- calls */

/* The verb of this name, or NULL. */
static const verb *verb_of(const char *name) {
    size_t at;
    for (at = 0; at < COUNT(tables); at++) {
        const verb *one = tables[at];
        for (; one->verb != NULL; one++)
            if (strcmp(one->verb, name) == 0) return one;
    }
    return NULL;
}

/* Which allocations are refused. */
typedef void refusal(long number);

/* How many bytes an allocation has at most, as c/stun_types.h says. */
static size_t greatest_block(void) { return 2 * row_bytes() + 1024; }

/* Makes the call once; how many allocations it asked for. */
static long make(const char *call, guarded_side side, refusal *refuse, long refused) {
    static char copy[ANSWER_MOST];
    const verb *asked_for;
    long asked, before = rows_failed();
    if (strlen(call) >= sizeof copy) abort();
    strcpy(copy, call);
    rest = copy;
    is_unknown = is_out_of_memory = false;
    answer_length = 0;
    answer[0] = 0;
    asked_for = verb_of(call_word());
    check_begin(side);
    row("call", call);
    heap_allow(asked_for != NULL && asked_for->allocates);
    heap_forget_secrets();
    refuse(refused);
    if (asked_for == NULL) answer_unknown();
    else asked_for->answer();
    asked = heap_asked();
    if (is_out_of_memory && heap_refused() == 0) fail("out of memory, and no block was refused");
    if (heap_most() > greatest_block()) fail("a block of %zu bytes", heap_most());
    heap_refuse(0);
    /* (a refusal may come before the last word) */
    if (call_word() != NULL && strchr(answer, '!') == NULL && !is_out_of_memory) answer_unknown();
    check_end();
    if (is_unknown) strcpy(answer, "?");
    else if (is_out_of_memory) strcpy(answer, "!OutOfMemory");
    if (rows_failed() != before) strcpy(answer, "!!a check failed");
    return asked;
}

/* Makes the call with each of so many allocations refused in turn. Whether it was out of memory in
   one of them; if it answers anything else than the first time, that is printed, and *is_same false. */
static bool is_refused_by(const char *call, refusal *refuse, long asked, bool *is_same) {
    bool is_refused = false;
    long number;
    for (number = 1; number <= asked && *is_same; number++) {
        make(call, GUARD_BEHIND, refuse, number);
        if (strcmp(answer, "!OutOfMemory") == 0) is_refused = true;
        else if (strcmp(answer, first) != 0) {
            printf("!!with allocation %ld%s refused, the answer is %s\n", number,
                   refuse == heap_refuse ? "" : " and later ones", answer);
            *is_same = false;
        }
    }
    return is_refused;
}

/* Makes the call in all the ways, and prints its answer. */
static void print_answer(const char *call) {
    long asked = make(call, GUARD_BEHIND, heap_refuse, 0);
    bool is_same = true, is_refused;
    strcpy(first, answer);
    make(call, GUARD_BEFORE, heap_refuse, 0);
    if (strcmp(first, answer) != 0) {
        printf("!!guarded before, the answer is %s\n", answer);
        return;
    }
    if (strcmp(first, "?") != 0 && asked != 0) {
        is_refused = is_refused_by(call, heap_refuse, asked, &is_same);
        if (is_same) is_refused = is_refused_by(call, heap_refuse_from, asked, &is_same) && is_refused;
        if (!is_same) return;
        if (!is_refused) {
            printf("!!%ld allocations were refused for nothing\n", asked);
            return;
        }
    }
    if (heap_held() != 0) {
        printf("!!%ld blocks are still held\n", heap_held());
        return;
    }
    printf("%s\n", first);
}

int main(void) {
    static char call[ANSWER_MOST];
    while (fgets(call, sizeof call, stdin) != NULL) {
        call[strcspn(call, "\n")] = 0;
        print_answer(call);
    }
    return 0;
}
