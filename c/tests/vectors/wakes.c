/* When an ICE agent or a TURN client wants to be polled. */
#include "wakes.h"

#include <stdio.h>
#include <string.h>

/* How often a call may ask, and the longest call. */
enum { MOST_WAKES = 64, CALL_MOST = 1 << 20 };

/* The moments that were found, and how many of them this run has used. */
static uint64_t moments[MOST_WAKES];
static size_t found, used;
static bool has_ended;

void wakes_run(void (*run)(void)) {
    static char words[CALL_MOST], copied[CALL_MOST];
    snprintf(words, sizeof words, "%s", call_rest());
    found = 0;
    do {
        strcpy(copied, words);
        call_again(copied);
        used = 0;
        has_ended = false;
        run();
    } while (has_ended);
}

bool wakes_next(uint64_t *moment) {
    if (used == found) return false;
    *moment = moments[used++];
    return true;
}

void wakes_keep(uint64_t moment) {
    if (found == MOST_WAKES) {
        answer_unknown();
        return;
    }
    moments[found++] = moment;
    has_ended = true;
}

bool wakes_has_ended(void) { return has_ended; }
