/* A server that is drained makes no more allocations: the library is offered no socket for them, so that it refuses
 * with 508, or sends the client to another server. */
#include "server.h"

#include <sys/mman.h>

/* What the supervisor writes, in memory that all processes share. */
static struct {
    _Atomic uint32_t is_draining;
    _Atomic uint32_t turn; /* the alternates in use are alternates[turn % 2] */
    stun_types_address alternates[2][2]; /* of IPv4 and of IPv6; family 0: none */
} *orders;

void renew_alternates(void) {
    uint32_t next = atomic_load_explicit(&orders->turn, memory_order_relaxed) + 1;
    stun_types_address *into = orders->alternates[next % 2], read;
    memset(into, 0, sizeof orders->alternates[0]);
    for (size_t turn = 0; text_setting(ALTERNATE, turn) != NULL; turn++) {
        if (read_end(text_setting(ALTERNATE, turn), &read)) into[read.family == 4 ? 0 : 1] = read;
    }
    atomic_store_explicit(&orders->turn, next, memory_order_release);
}

bool prepare_drain(void) {
    orders = shared_memory(sizeof *orders);
    if (orders != NULL) renew_alternates();
    return orders != NULL;
}

void protect_orders(void) {
    if (orders != NULL) (void)mprotect(orders, sizeof *orders, PROT_READ);
}

void drain(void) { atomic_store_explicit(&orders->is_draining, 1, memory_order_relaxed); }

bool is_draining(void) {
    return orders != NULL && atomic_load_explicit(&orders->is_draining, memory_order_relaxed) != 0;
}

stun_types_address alternate_of(uint16_t family) {
    for (;;) {
        uint32_t turn = atomic_load_explicit(&orders->turn, memory_order_acquire);
        stun_types_address found = orders->alternates[turn % 2][family == 4 ? 0 : 1];
        atomic_thread_fence(memory_order_acquire);
        if (atomic_load_explicit(&orders->turn, memory_order_relaxed) == turn) return found;
    }
}
