/* Measures an implementation of stun_bench.h: one line for each workload, with its bytes, the least and the
 * median nanoseconds of a round, and the answer of one round. The driver makes all inputs itself and knows each
 * answer beforehand; it ends with status 1 if an answer is another one. With the word `quick` it runs each
 * workload once, and measures nothing. With the word `growth` it measures how the work grows with the number of
 * attributes. With names of workloads it measures these. */
#define _POSIX_C_SOURCE 199309L
#include <stdio.h>
#include <time.h>

#include "reference.h"
#include "stun_bench.h"

#define COUNT(array) (sizeof(array) / sizeof *(array))
enum { MOST = 65536, REPEATS = 15, BATCH_NS = 20000000 };

typedef struct { uint8_t bytes[MOST]; size_t length; } Text;

/* ---- inputs */

static const char PASSWORD[] = "VOkJxbRl1RmTxUk/WvJxBt";
static const char USER[] = "evtj:h6vYabcd:0123456789"; /* 24 bytes: the check has 100 with SHA-1, and no padding */
static const char SHORT_USER[] = "evtj:h6vYab"; /* 11 bytes: the check has 100 with SHA-256 */
static const uint8_t PRIORITY[] = {0x6E, 0x00, 0x01, 0xFF};
static const uint8_t CONTROLLED[] = {0x93, 0x2F, 0xF9, 0xB1, 0x51, 0x26, 0x3B, 0x36};

static void put_length(Text *message, size_t length) { put16(message->bytes + 2, (uint32_t)length - 20); }

static void begin(Text *message) {
    static const uint8_t front[20] = {0, 1, 0, 0, 0x21, 0x12, 0xA4, 0x42, 1, 2, 3, 4, 5, 6, 7, 8, 9, 10, 11, 12};
    memcpy(message->bytes, front, sizeof front);
    message->length = sizeof front;
}

static void add(Text *message, uint32_t type, const void *value, size_t length) {
    uint8_t *at = message->bytes + message->length;
    memset(at, 0, 4 + (length + 3) / 4 * 4);
    put16(at, type);
    put16(at + 2, (uint32_t)length);
    memcpy(at + 4, value, length);
    message->length += 4 + (length + 3) / 4 * 4;
    put_length(message, message->length);
}

static void sign(Text *message, int algorithm) {
    uint8_t value[32];
    put_length(message, message->length + 4 + digest_length(algorithm));
    hmac(algorithm, PASSWORD, strlen(PASSWORD), message->bytes, message->length, value);
    add(message, algorithm == 1 ? 0x0008 : 0x001C, value, digest_length(algorithm));
}

static void finger(Text *message) {
    uint8_t value[4];
    put_length(message, message->length + 8);
    put32(value, reference_crc(message->bytes, message->length) ^ 0x5354554E);
    add(message, 0x8028, value, sizeof value);
}

static void ice_check(Text *message, const char *user, int algorithm) {
    begin(message);
    add(message, 0x0006, user, strlen(user));
    add(message, 0x0024, PRIORITY, sizeof PRIORITY);
    add(message, 0x8029, CONTROLLED, sizeof CONTROLLED);
    if (algorithm != 0) sign(message, algorithm), finger(message);
}

/* A relayed packet of 1,200 bytes: an address, and data up to what is to follow. */
static void relayed(Text *message, size_t behind) {
    static const uint8_t address[8] = {0, 1, 0xA1, 0x47, 0xE1, 0x12, 0xA6, 0x43};
    static uint8_t data[1200];
    for (size_t i = 0; i < sizeof data; i++) data[i] = (uint8_t)(i * 7 + 1);
    begin(message);
    add(message, 0x0012, address, sizeof address);
    add(message, 0x0013, data, sizeof data - behind - message->length - 4);
}

/* ---- workloads: each knows its answer */

enum {
    PARSE, ITERATE, FIND, PRINT, SHORT_KEY, LONG_KEY, VALIDATE, CREDENTIALS, RECEIVE, HMAC, UNPREPARED, ONCE, USERNAME, WRITE_VEC,
    WRITE_SLICE, PLAIN_VEC, PLAIN_SLICE, EMPTIES, CRC, TYPED
};

typedef struct {
    const char *name;
    int kind, algorithm;
    uint32_t type;
    const char *user;
    const Text *text;
    uint64_t answer;
} Workload;

static uint8_t destination[MOST];

/* Loops that a library may have itself, if a call from C costs it more than the work. */
__attribute__((weak)) uint64_t stun_bench_parses(const uint8_t *message, size_t length, uint64_t rounds) {
    uint64_t sum = 0;
    while (rounds--) sum += stun_bench_parse(message, length);
    return sum;
}

__attribute__((weak)) uint64_t stun_bench_long_keys(const uint8_t *user, size_t user_length, const uint8_t *realm,
                                                    size_t realm_length, const uint8_t *password,
                                                    size_t password_length, uint32_t algorithm, uint64_t rounds) {
    uint64_t sum = 0;
    while (rounds--)
        sum += stun_bench_long_key(user, user_length, realm, realm_length, password, password_length, algorithm);
    return sum;
}

static uint64_t run(const Workload *w, uint64_t rounds) {
    const uint8_t *bytes = w->text->bytes, *user = (const uint8_t *)w->user, *password = (const uint8_t *)PASSWORD;
    size_t length = w->text->length, user_length = w->user ? strlen(w->user) : 0, password_length = strlen(PASSWORD);
    uint32_t algorithm = (uint32_t)w->algorithm;
    uint64_t sum = 0;
    switch (w->kind) {
    case PARSE:
        return stun_bench_parses(bytes, length, rounds);
    case LONG_KEY:
        return stun_bench_long_keys(user, user_length, (const uint8_t *)"realm", 5, password, password_length, algorithm,
                                    rounds);
    case FIND:
        return stun_bench_find(bytes, length, w->type, rounds);
    case VALIDATE:
        return stun_bench_validate(bytes, length, password, password_length, rounds);
    case CREDENTIALS:
        return stun_bench_validate_credentials(bytes, length, password, password_length, rounds);
    case RECEIVE:
        return stun_bench_receive(bytes, length, password, password_length, rounds);
    case HMAC:
        return stun_bench_hmac(bytes, length, password, password_length, algorithm, rounds);
    case UNPREPARED:
        return stun_bench_hmac_unprepared(bytes, length, password, password_length, algorithm, rounds);
    case ONCE:
        return stun_bench_hmac_once(bytes, length, password, password_length, algorithm, rounds);
    case WRITE_VEC:
        return stun_bench_write_vec(user, user_length, password, password_length, algorithm, rounds);
    case WRITE_SLICE:
        return stun_bench_write_slice(user, user_length, password, password_length, algorithm, destination,
                                      sizeof destination, rounds);
    case PLAIN_VEC:
        return stun_bench_write_plain_vec(user, user_length, rounds);
    case PLAIN_SLICE:
        return stun_bench_write_plain_slice(user, user_length, destination, sizeof destination, rounds);
    }
    for (uint64_t i = 0; i < rounds; i++) switch (w->kind) {
        case ITERATE: sum += stun_bench_iterate(bytes, length); break;
        case CRC: sum += stun_bench_crc(bytes, length); break;
        case SHORT_KEY: sum += stun_bench_short_key(password, password_length); break;
        case PRINT: sum += stun_bench_print(bytes, length); break;
        case USERNAME: sum += stun_bench_username(user, user_length); break;
        case EMPTIES: sum += stun_bench_write_empties(w->type, destination, sizeof destination); break;
        case TYPED: sum += stun_bench_typed(w->type, bytes, length); break;
        }
    return sum;
}

static uint64_t parse_answer(const Text *message) { return (uint64_t)1 << 40 | get32(message->bytes); }

static uint64_t iterate_answer(const Text *message) {
    uint64_t sum = 0;
    for (size_t at = 20; at < message->length;) {
        uint32_t header = get32(message->bytes + at), length = header & 0xFFFF;
        uint64_t first = length == 0 ? 0 : message->bytes[at + 4];
        sum = sum * 31 + at + ((uint64_t)(header >> 16) << 20) + ((uint64_t)length << 40) + first;
        at += 4 + (length + 3) / 4 * 4;
    }
    return sum;
}

static uint64_t write_answer(const Text *message) {
    return (uint64_t)message->length << 32 | get32(message->bytes + message->length - 4);
}

/* The offset of the first attribute of a type, or 0. */
static uint64_t find_answer(const Text *message, uint32_t type) {
    for (size_t at = 20; at < message->length;) {
        uint32_t header = get32(message->bytes + at);
        if (header >> 16 == type) return at;
        at += 4 + ((header & 0xFFFF) + 3) / 4 * 4;
    }
    return 0;
}

static uint64_t receive_answer(const Text *message, uint64_t verdict) {
    return verdict + (find_answer(message, 0x0006) << 8) + (find_answer(message, 0x0024) << 24);
}

/* The HMAC that an integrity attribute holds after the message. */
static uint64_t hmac_answer(const Text *message, int algorithm) {
    static Text copy;
    copy = *message;
    sign(&copy, algorithm);
    return get32(copy.bytes + message->length + 4);
}

/* ---- measuring */

static uint64_t now(void) {
    struct timespec t;
    clock_gettime(CLOCK_MONOTONIC, &t);
    return (uint64_t)t.tv_sec * 1000000000 + (uint64_t)t.tv_nsec;
}

static int by_size(const void *a, const void *b) {
    double x = *(const double *)a, y = *(const double *)b;
    return x < y ? -1 : x > y;
}

/* Measures, and answers whether each sum is the rounds times the answer. */
static int measure(const Workload *w) {
    double times[REPEATS];
    uint64_t rounds = 1;
    for (;; rounds *= 2) {
        uint64_t start = now(), sum = run(w, rounds), passed = now() - start;
        if (sum != rounds * w->answer) return 0;
        if (passed >= BATCH_NS / 2) {
            rounds = rounds * BATCH_NS / passed + 1;
            break;
        }
    }
    for (int i = 0; i < REPEATS; i++) {
        uint64_t start = now(), sum = run(w, rounds);
        times[i] = (double)(now() - start) / (double)rounds;
        if (sum != rounds * w->answer) return 0;
    }
    qsort(times, REPEATS, sizeof *times, by_size);
    printf("%-34s %6zu %12.1f %12.1f %016llx\n", w->name, w->text->length, times[0], times[REPEATS / 2],
           (unsigned long long)w->answer);
    return 1;
}

/* Whether it is one of the words, or there are none. */
static int is_wanted(const char *name, char **words) {
    if (*words == NULL) return 1;
    while (*words && strcmp(*words, name) != 0) words++;
    return *words != NULL;
}

/* Runs a workload once, or measures it; answers whether it did right. */
static int try(const Workload *w, int quick) {
    uint64_t answer;
    int writes = w->kind == WRITE_SLICE || w->kind == PLAIN_SLICE || w->kind == EMPTIES;
    memset(destination, 0xFF, sizeof destination);
    answer = run(w, 1);
    if (answer == UINT64_MAX) {
        printf("%-34s not there\n", w->name);
        return 1;
    }
    if (answer != w->answer || (writes && memcmp(destination, w->text->bytes, w->text->length) != 0)) {
        printf("%-34s WRONG: %016llx, and not %016llx\n", w->name, (unsigned long long)answer,
               (unsigned long long)w->answer);
        return 0;
    }
    if (quick) {
        printf("%-34s %6zu %016llx\n", w->name, w->text->length, (unsigned long long)answer);
        return 1;
    }
    if (measure(w)) return 1;
    printf("%-34s WRONG: not the same in each round\n", w->name);
    return 0;
}

/* How many bytes the text of a message with n such attributes has. */
static uint64_t print_answer(uint32_t n) {
    static const char head[] =
        "Message(class: Request, method: 1(0x1: BINDING), transaction: 0x102030405060708090a0b0c, attributes: [";
    static const char each[] = "RawAttribute (type: AttributeType(49152), len: 0, data: Borrowed(DataSlice([])))";
    return strlen(head) + n * strlen(each) + (n - 1) * strlen(", ") + strlen("])");
}

/* How the work grows with the number of attributes, each of type 0xC000 and without a value. */
static int growth(void) {
    static const uint32_t counts[] = {1, 10, 100, 1000, 16000};
    static Text plain, with_hmac;
    int right = 1;
    for (size_t i = 0; i < COUNT(counts); i++) {
        uint32_t n = counts[i];
        begin(&plain);
        for (uint32_t k = 0; k < n; k++) add(&plain, 0xC000, "", 0);
        with_hmac = plain, sign(&with_hmac, 1);
        printf("%u attributes\n", n);
        const Workload workloads[] = {
            {"parse", PARSE, 0, 0, NULL, &plain, parse_answer(&plain)},
            {"iterate", ITERATE, 0, 0, NULL, &plain, iterate_answer(&plain)},
            {"look up a type that is not there", FIND, 0, 0xC001, NULL, &with_hmac, 0},
            {"look up MESSAGE-INTEGRITY", FIND, 0, 0x0008, NULL, &with_hmac, plain.length},
            {"add them", EMPTIES, 0, n, NULL, &plain, write_answer(&plain)},
            {"print", PRINT, 0, 0, NULL, &plain, print_answer(n)},
            {"validate, SHA-1", VALIDATE, 1, 0, NULL, &with_hmac, 1},
        };
        for (size_t k = 0; k < COUNT(workloads); k++) right &= try(&workloads[k], 0);
    }
    return right;
}

int main(int count, char **words) {
    static Text header, algorithm, check, check_256, plain, packet, packet_finger, packet_1, packet_256, empties, many;
    static Text plain_256, packet_plain, empties_1, empties_1000, empties_2000;
    static Text key, address, software, error;
    int quick = count > 1 && strcmp(words[1], "quick") == 0, right = 1;
    if (count > 1 && strcmp(words[1], "growth") == 0) return growth() ? 0 : 1;
    begin(&header);
    begin(&algorithm);
    add(&algorithm, 0x001D, "\0\2\0\0", 4);
    ice_check(&check, USER, 1);
    ice_check(&check_256, SHORT_USER, 2);
    ice_check(&plain, USER, 0);
    ice_check(&plain_256, SHORT_USER, 0);
    relayed(&packet, 0);
    relayed(&packet_finger, 8), finger(&packet_finger);
    relayed(&packet_1, 24), packet_plain = packet_1, sign(&packet_1, 1);
    relayed(&packet_256, 36), sign(&packet_256, 2);
    begin(&empties);
    for (uint32_t i = 0; i < 16000; i++) add(&empties, 0xC000 + i % 256, "", 0);
    empties_1 = empties, sign(&empties_1, 1);
    begin(&empties_1000), begin(&empties_2000);
    for (int i = 0; i < 1000; i++) add(&empties_1000, 0xC000, "", 0);
    for (int i = 0; i < 2000; i++) add(&empties_2000, 0xC000, "", 0);
    for (size_t i = 0; i < MOST; i++) many.bytes[i] = (uint8_t)(i * 31 >> 3);
    many.length = MOST;
    key.length = strlen(PASSWORD);
    address = (Text){{0, 1, 0xA1, 0x47, 0xE1, 0x12, 0xA6, 0x43}, 8};
    software = (Text){"stun_types benchmark", 20};
    error = (Text){"\0\0\4\1Unauthorized", 16};
    const Workload workloads[] = {
        {"parse a header", PARSE, 0, 0, NULL, &header, parse_answer(&header)},
        {"parse one attribute", PARSE, 0, 0, NULL, &algorithm, parse_answer(&algorithm)},
        {"parse an ICE check", PARSE, 0, 0, NULL, &check, parse_answer(&check)},
        {"parse a packet", PARSE, 0, 0, NULL, &packet, parse_answer(&packet)},
        {"parse a packet with FINGERPRINT", PARSE, 0, 0, NULL, &packet_finger, parse_answer(&packet_finger)},
        {"parse 16,000 attributes", PARSE, 0, 0, NULL, &empties, parse_answer(&empties)},
        {"iterate a header", ITERATE, 0, 0, NULL, &header, iterate_answer(&header)},
        {"iterate one attribute", ITERATE, 0, 0, NULL, &algorithm, iterate_answer(&algorithm)},
        {"iterate an ICE check", ITERATE, 0, 0, NULL, &check, iterate_answer(&check)},
        {"iterate a packet", ITERATE, 0, 0, NULL, &packet, iterate_answer(&packet)},
        {"iterate a packet with FINGERPRINT", ITERATE, 0, 0, NULL, &packet_finger, iterate_answer(&packet_finger)},
        {"iterate 16,000 attributes", ITERATE, 0, 0, NULL, &empties, iterate_answer(&empties)},
        {"find two attributes: the first", FIND, 0, 0x0006, NULL, &check, find_answer(&check, 0x0006)},
        {"find two attributes: the second", FIND, 0, 0x0024, NULL, &check, find_answer(&check, 0x0024)},
        {"validate an ICE check, SHA-1", VALIDATE, 1, 0, NULL, &check, 1},
        {"validate an ICE check, SHA-256", VALIDATE, 2, 0, NULL, &check_256, 2},
        {"validate a packet, SHA-1", VALIDATE, 1, 0, NULL, &packet_1, 1},
        {"validate a packet, SHA-256", VALIDATE, 2, 0, NULL, &packet_256, 2},
        {"validate 16,000 attributes, SHA-1", VALIDATE, 1, 0, NULL, &empties_1, 1},
        {"validate by credentials, SHA-1", CREDENTIALS, 1, 0, NULL, &check, 1},
        {"validate by credentials, SHA-256", CREDENTIALS, 2, 0, NULL, &check_256, 2},
        {"receive an ICE check, SHA-1", RECEIVE, 1, 0, NULL, &check, receive_answer(&check, 1)},
        {"receive an ICE check, SHA-256", RECEIVE, 2, 0, NULL, &check_256, receive_answer(&check_256, 2)},
        {"HMAC of an ICE check, SHA-1", HMAC, 1, 0, NULL, &plain, hmac_answer(&plain, 1)},
        {"HMAC of an ICE check, SHA-256", HMAC, 2, 0, NULL, &plain_256, hmac_answer(&plain_256, 2)},
        {"HMAC of a packet, SHA-1", HMAC, 1, 0, NULL, &packet_plain, hmac_answer(&packet_plain, 1)},
        {"HMAC of 16,000 attributes, SHA-1", HMAC, 1, 0, NULL, &empties, hmac_answer(&empties, 1)},
        {"key made, one HMAC, SHA-1", ONCE, 1, 0, NULL, &plain, hmac_answer(&plain, 1)},
        {"key made, one HMAC, SHA-256", ONCE, 2, 0, NULL, &plain_256, hmac_answer(&plain_256, 2)},
        {"HMAC, key not prepared, SHA-1", UNPREPARED, 1, 0, NULL, &plain, hmac_answer(&plain, 1)},
        {"HMAC, key not prepared, SHA-256", UNPREPARED, 2, 0, NULL, &plain_256, hmac_answer(&plain_256, 2)},
        {"short-term key, twice", SHORT_KEY, 1, 0, NULL, &key, 1},
        {"long-term key by MD5, twice", LONG_KEY, 1, 0, USER, &key, 1},
        {"long-term key by SHA-256, twice", LONG_KEY, 2, 0, USER, &key, 1},
        {"make a USERNAME", USERNAME, 0, 0, USER, &plain, (uint64_t)24 << 32 | ('e' + '9')},
        {"write a plain check, vector", PLAIN_VEC, 0, 0, USER, &plain, write_answer(&plain)},
        {"write a plain check, slice", PLAIN_SLICE, 0, 0, USER, &plain, write_answer(&plain)},
        {"send an ICE check, SHA-1, vector", WRITE_VEC, 1, 0, USER, &check, write_answer(&check)},
        {"send an ICE check, SHA-1, slice", WRITE_SLICE, 1, 0, USER, &check, write_answer(&check)},
        {"send an ICE check, SHA-256, vector", WRITE_VEC, 2, 0, SHORT_USER, &check_256, write_answer(&check_256)},
        {"send an ICE check, SHA-256, slice", WRITE_SLICE, 2, 0, SHORT_USER, &check_256, write_answer(&check_256)},
        {"write 1,000 empty attributes", EMPTIES, 0, 1000, NULL, &empties_1000, write_answer(&empties_1000)},
        {"write 2,000 empty attributes", EMPTIES, 0, 2000, NULL, &empties_2000, write_answer(&empties_2000)},
        {"CRC of an ICE check", CRC, 0, 0, NULL, &check, reference_crc(check.bytes, check.length)},
        {"CRC of a packet", CRC, 0, 0, NULL, &packet, reference_crc(packet.bytes, packet.length)},
        {"CRC of 64 KB", CRC, 0, 0, NULL, &many, reference_crc(many.bytes, many.length)},
        {"read XOR-MAPPED-ADDRESS", TYPED, 0, 0x0020, NULL, &address, (uint64_t)0x8055 << 32 | 0xC0000201},
        {"read SOFTWARE", TYPED, 0, 0x8022, NULL, &software, (uint64_t)20 << 32 | ('s' + 'k')},
        {"read ERROR-CODE", TYPED, 0, 0x0009, NULL, &error, (uint64_t)401 << 32 | 12},
    };
    for (size_t i = 0; i < COUNT(workloads); i++)
        if (is_wanted(workloads[i].name, words + 1 + quick)) right &= try(&workloads[i], quick);
    return right ? 0 : 1;
}
