/* What is wrong with the settings, and what would be right. */
#include "server.h"

int start_status = STATUS_BROKEN;

static char fault[512];

bool fault_is(const char *format, ...) {
    va_list values;
    va_start(values, format);
    vsnprintf(fault, sizeof fault, format, values);
    va_end(values);
    return false;
}

const char *fault_text(void) { return fault; }

const char *fault_word(void) {
    static char word[sizeof fault];
    size_t at = 0;
    for (; fault[at] != 0; at++) word[at] = (unsigned char)fault[at] <= ' ' ? '_' : fault[at];
    word[at] = 0;
    return word;
}

bool refuse_file(const char *path, int line) {
    fprintf(stderr, "stun-server: %s", path);
    if (line > 0) fprintf(stderr, ":%d", line);
    fprintf(stderr, ": %s\n", fault_text());
    start_status = STATUS_WRONG_SETTINGS;
    return false;
}

bool complain(const char *what) {
    fprintf(stderr, "stun-server: turn: %s\n", what);
    start_status = STATUS_WRONG_SETTINGS;
    return false;
}

bool complain_of(int which, size_t turn, const char *what) {
    fprintf(stderr, "stun-server: ");
    print_place(stderr, which, turn);
    fprintf(stderr, ": %s\n", what);
    start_status = STATUS_WRONG_SETTINGS;
    return false;
}
