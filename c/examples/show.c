/* Prints the header and the attributes of a STUN message on standard input, one line each, as the
 * program stun_show does. With a password as its one argument it also checks the integrity with it
 * as a short-term key, and the last line says how that ended.
 *
 *     cc -I c c/examples/show.c libstun_types.a -o show
 *     ./show [password] < message
 *
 * The status is 0 if the message was shown (and is valid with the password that was given), 1
 * if it was refused or isn't valid, and 2 with every other end. */
#define _POSIX_C_SOURCE 200809L
#include <errno.h>
#include <stdio.h>
#include <string.h>
#include <unistd.h>

#include "stun_types.h"

enum { SHOWN = 0, REFUSED = 1, FAILED = 2 };
enum { LONGEST_INPUT = 131072 };

/* The input, and room for one byte more, which shows that it is too long. */
static uint8_t input[LONGEST_INPUT + 1];

static int fail(const char *line) {
    puts(line);
    return FAILED;
}

/* Reads standard input up to its end, or until the input is too long. False: a read failed. */
static bool read_input(size_t *length) {
    *length = 0;
    while (*length < sizeof input) {
        ssize_t got = read(STDIN_FILENO, input + *length, sizeof input - *length);
        if (got == 0) return true;
        if (got < 0 && errno != EINTR) return false;
        if (got > 0) *length += (size_t)got;
    }
    return true;
}

static void print_hex(const uint8_t *bytes, size_t length) {
    for (size_t i = 0; i < length; i++) printf("%02x", (unsigned)bytes[i]);
}

/* A transaction ID as a number, without the zeros in front. */
static void print_id(const stun_types_id *id) {
    size_t at = 0;
    while (at < sizeof id->bytes - 1 && id->bytes[at] == 0) at++;
    printf("0x%x", (unsigned)id->bytes[at]);
    print_hex(id->bytes + at + 1, sizeof id->bytes - at - 1);
}

static void print_header(const stun_types_header *header) {
    static const char *const classes[] = {"Request", "Indication", "Success", "Error"};
    printf("%s method=%u id=", classes[header->message_class & 3], (unsigned)header->method);
    print_id(&header->id);
    printf(" length=%u\n", (unsigned)header->length);
}

/* The offset, the type, the length of the value, and the value or a dash. */
static void print_attribute(const uint8_t *message, const stun_types_attribute *attribute) {
    printf("%zu 0x%04x %u ", attribute->value_at - 4, (unsigned)attribute->type,
           (unsigned)attribute->length);
    if (attribute->length == 0) putchar('-');
    print_hex(message + attribute->value_at, attribute->length);
    putchar('\n');
}

/* No message has more attributes: 65,532 bytes follow a header, and each has four at least. */
enum { MOST_ATTRIBUTES = 65532 / 4 };

static void print_attributes(const uint8_t *message, size_t length) {
    static stun_types_attribute attributes[MOST_ATTRIBUTES];
    size_t count = stun_types_attributes(message, length, attributes, MOST_ATTRIBUTES), i;
    for (i = 0; i < count; i++) print_attribute(message, &attributes[i]);
}

static void print_refusal(stun_types_answer answer) {
    unsigned long long expected = answer.expected, actual = answer.actual;
    switch (answer.code) {
    case STUN_TYPES_NOT_STUN: puts("not STUN"); break;
    case STUN_TYPES_TRUNCATED: printf("truncated %llu %llu\n", expected, actual); break;
    case STUN_TYPES_TOO_LARGE: printf("too large %llu %llu\n", expected, actual); break;
    case STUN_TYPES_FINGERPRINT_MISMATCH: puts("fingerprint mismatch"); break;
    default: puts(stun_types_status_text(answer.code)); break;
    }
}

/* What the last line says of the integrity. */
static const char *verdict(stun_types_answer answer, stun_types_integrity algorithm) {
    switch (answer.code) {
    case STUN_TYPES_OK: return algorithm == STUN_TYPES_INTEGRITY_SHA1 ? "Sha1" : "Sha256";
    case STUN_TYPES_MISSING_ATTRIBUTE: return "missing";
    case STUN_TYPES_INTEGRITY_FAILED: return "failed";
    default: return "malformed";
    }
}

/* Prints the report of a message. A key that is NULL asks for no line on the integrity. */
static int report(const uint8_t *message, size_t length, const stun_types_key *key) {
    stun_types_answer answer = stun_types_parse(message, length);
    stun_types_header header;
    stun_types_validated validated;
    if (answer.code == STUN_TYPES_OK) answer = stun_types_read_header(message, length, &header);
    if (answer.code != STUN_TYPES_OK) {
        print_refusal(answer);
        return REFUSED;
    }
    print_header(&header);
    print_attributes(message, length);
    if (key == NULL) return SHOWN;
    answer = stun_types_validate(message, length, key, &validated);
    printf("integrity: %s\n", verdict(answer, validated.algorithm));
    return answer.code == STUN_TYPES_OK ? SHOWN : REFUSED;
}

/* Reads the input and prints its report. */
static int show(const stun_types_key *key) {
    size_t length;
    if (!read_input(&length)) return fail("read failed");
    if (length > LONGEST_INPUT) return fail("input too long");
    return report(input, length, key);
}

/* Whether a text is UTF-8: a user's hash is made of nothing else. */
static bool is_utf8(const char *text, size_t length) {
    stun_types_hash hash;
    return stun_types_userhash(text, length, text, 0, &hash).code == STUN_TYPES_OK;
}

/* The same with a password, which makes the key. */
static int show_with(const char *password) {
    stun_types_key key = STUN_TYPES_KEY_INIT;
    if (!is_utf8(password, strlen(password))) return fail("usage: stun_show [password]");
    stun_types_answer made = stun_types_key_short_term(&key, password, strlen(password));
    if (made.code != STUN_TYPES_OK) return fail(stun_types_status_text(made.code));
    int status = show(&key);
    stun_types_key_free(&key);
    return status;
}

int main(int count, char **arguments) {
    int status;
    if (count > 2) {
        status = fail("usage: stun_show [password]");
    } else {
        status = count == 2 ? show_with(arguments[1]) : show(NULL);
    }
    return fflush(stdout) == 0 && !ferror(stdout) ? status : FAILED;
}
