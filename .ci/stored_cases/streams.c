/* Linked with the programs by .ci/cases, since `rt try --cases` compares standard output alone, and
 * takes arguments that are UTF-8 alone. What a program writes to standard error is written to
 * standard output at its end, after a line `standard error:`. In an argument \xHH becomes a byte;
 * \f and hexadecimal digits become the name of a file with these bytes; \vNAME=VALUE at the end of
 * one sets a variable of the environment. */
#define _GNU_SOURCE
#include <stdio.h>
#include <stdlib.h>
#include <string.h>
#include <sys/mman.h>
#include <unistd.h>

static int errors;

static char byte_of(const char *from) {
    char digits[3] = {from[0], from[1], 0};
    return (char) strtol(digits, NULL, 16);
}

static char *file_of(const char *from) {
    static char names[8][32];
    static int count;
    int file = memfd_create("file", 0);
    if (file < 0 || count == 8) abort();
    for (; from[0] && from[1]; from += 2) {
        char byte = byte_of(from);
        if (write(file, &byte, 1) != 1) abort();
    }
    snprintf(names[count], sizeof names[count], "/proc/self/fd/%d", file);
    return names[count++];
}

static void set_variables(char *argument) {
    char *from = strstr(argument, "\\v");
    while (from) {
        *from = 0;
        char *next = strstr(from + 2, "\\v");
        if (next) *next = 0;
        char *value = strchr(from + 2, '=');
        if (!value) abort();
        *value = 0;
        if (setenv(from + 2, value + 1, 1) < 0) abort();
        if (next) *next = '\\';
        from = next;
    }
}

__attribute__((constructor)) static void begin(int count, char **arguments) {
    for (int i = 1; i < count; i++) {
        if (!strncmp(arguments[i], "\\f", 2)) {
            arguments[i] = file_of(arguments[i] + 2);
            continue;
        }
        set_variables(arguments[i]);
        char *to = arguments[i];
        for (char *from = to; *from;) {
            if (from[0] == '\\' && from[1] == 'x' && from[2] && from[3]) {
                *to++ = byte_of(from + 2);
                from += 4;
            } else {
                *to++ = *from++;
            }
        }
        *to = 0;
    }
    errors = memfd_create("errors", 0);
    if (errors < 0 || dup2(errors, 2) < 0) abort();
}

__attribute__((destructor)) static void end(void) {
    static const char head[] = "standard error:\n";
    char bytes[4096];
    ssize_t length = pread(errors, bytes, sizeof bytes, 0);
    if (length <= 0) return;
    if (write(1, head, sizeof head - 1) < 0 || write(1, bytes, (size_t) length) < 0) abort();
}
