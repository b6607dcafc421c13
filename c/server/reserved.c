/* Reserved relay sockets: each of an Allocate request with EVEN-PORT and its R bit, by the token that takes it
 * (RFC 8656, section 7.2). */
#include "server.h"

enum { SECONDS = 30 };

/* In the order of their ends. */
static struct {
    reserved_socket *all;
    size_t count;
} reserved;

bool begin_reserved(void) {
    if (setting(RESERVATIONS) == 0) return true;
    reserved.all = calloc(setting(RESERVATIONS), sizeof *reserved.all);
    return reserved.all != NULL;
}

bool insert_reserved(const reserved_socket *of, uint64_t now) {
    if (reserved.count == setting(RESERVATIONS)) return false;
    reserved.all[reserved.count] = *of;
    reserved.all[reserved.count++].until = now + (uint64_t)SECONDS * 1000000000;
    return true;
}

bool remove_reserved(uint64_t token, reserved_socket *removed) {
    for (size_t i = 0; i < reserved.count; i++) {
        if (reserved.all[i].token != token) continue;
        *removed = reserved.all[i];
        reserved.count--;
        memmove(&reserved.all[i], &reserved.all[i + 1], (reserved.count - i) * sizeof *reserved.all);
        return true;
    }
    return false;
}

size_t count_reserved(void) { return reserved.count; }

bool is_reserved_over(uint64_t now) { return reserved.count > 0 && reserved.all[0].until <= now; }
