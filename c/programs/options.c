/* The arguments of the programs. */
#include "program.h"

#include <stdarg.h>

enum { MOST_USER = 513 }; /* bytes of a USERNAME (RFC 8489, section 14.3) */

options asked = {.family = AF_UNSPEC, .server = {.port = "3478"}};

int say(int status, const char *format, ...) {
    va_list values;
    fprintf(stderr, "%s: ", asked.program);
    va_start(values, format);
    vfprintf(stderr, format, values);
    va_end(values);
    fputc('\n', stderr);
    return status;
}

int end_output(void) {
    if (fflush(stdout) == 0 && !ferror(stdout)) return STATUS_DONE;
    return say(STATUS_BROKEN, "standard output: %s", strerror(errno));
}

int print_text(const char *text) {
    fputs(text, stdout);
    return end_output();
}

bool read_seconds(const char *text, uint32_t most, uint64_t *milliseconds) {
    uint32_t seconds;
    if (!read_number(text, 1, most, &seconds)) return false;
    *milliseconds = (uint64_t)seconds * 1000;
    return true;
}

/* Copies a text of that length, which is followed by a 0. */
static bool keep(char *to, size_t room, const char *text, size_t length) {
    if (length == 0 || length >= room) return false;
    memcpy(to, text, length);
    to[length] = 0;
    return true;
}

/* Reads nothing, or a colon and a port. */
static bool read_port(const char *text, target *to) {
    uint32_t number;
    if (*text == 0) return true;
    if (*text != ':' || !read_number(text + 1, 1, 65535, &number)) return false;
    snprintf(to->port, sizeof to->port, "%u", (unsigned)number);
    return true;
}

bool read_target(const char *text, target *to) {
    if (*text == '[') {
        const char *end = strchr(text, ']');
        return end != NULL && keep(to->host, sizeof to->host, text + 1, (size_t)(end - text) - 1) &&
               strchr(to->host, ':') != NULL && read_port(end + 1, to);
    }
    const char *colon = strchr(text, ':');
    if (colon == NULL || strchr(colon + 1, ':') != NULL) colon = text + strlen(text);
    return keep(to->host, sizeof to->host, text, (size_t)(colon - text)) && read_port(colon, to);
}

bool take_option(int letter, const char *value) {
    switch (letter) {
    case '4': asked.family = AF_INET; return true;
    case '6': asked.family = AF_INET6; return true;
    case 't': return asked.reliable = true;
    case 'v': return asked.verbose = true;
    case 'u': asked.user = value; return *value != 0 && strlen(value) <= MOST_USER;
    case 'f': asked.password_file = value; return *value != 0;
    case 'w': return read_seconds(value, 3600, &asked.wait);
    default: return false;
    }
}

/* Reads the first line of a file, or of standard input. */
static int read_line(const char *path) {
    FILE *from = strcmp(path, "-") == 0 ? stdin : fopen(path, "re");
    if (from == NULL) return say(STATUS_BROKEN, "%s: %s", path, strerror(errno));
    bool is_read = fgets(asked.password, sizeof asked.password, from) != NULL;
    bool failed = ferror(from) != 0, ended = feof(from) != 0;
    if (from != stdin) fclose(from);
    if (failed) return say(STATUS_BROKEN, "%s: it can't be read", path);
    size_t length = is_read ? strcspn(asked.password, "\r\n") : 0;
    if (is_read && asked.password[length] == 0 && !ended) {
        return say(STATUS_BROKEN, "%s: the first line is too long, or has a zero", path);
    }
    asked.password[length] = 0;
    return STATUS_DONE;
}

int read_password(void) {
    const char *given = getenv("STUN_PASSWORD");
    if (asked.user == NULL) return STATUS_DONE;
    if (asked.password_file != NULL) {
        int status = read_line(asked.password_file);
        if (status != STATUS_DONE) return status;
    } else if (given == NULL) {
        return say(STATUS_MISUSED, "a password is needed: --password-file FILE, or STUN_PASSWORD");
    } else if (*given != 0 && !keep(asked.password, sizeof asked.password, given, strlen(given))) {
        return say(STATUS_MISUSED, "STUN_PASSWORD is too long");
    }
    return asked.password[0] != 0 ? STATUS_DONE : say(STATUS_MISUSED, "the password is empty");
}
