/* A limit of the answers to one prefix: the first 24 bits of an IPv4 address, or 56 of IPv6; and of the
 * octets and datagrams that are relayed for one user, or one allocation. Each prefix may have `rate` answers
 * at once, and `rate` a second from then on.
 *
 * For each prefix the table has the time until which its answers are paid for: an answer moves it
 * by a `rate`th of a second, and is given if it then is at most a second ahead (the generic cell
 * rate algorithm). The place of the prefix that has been quiet longest goes to a new one, so that
 * many forged addresses don't take answers from the others, and one prefix with many forged
 * addresses doesn't lose its place. Processes may write a place at once: then an answer too many or
 * too few is given. */
#include "server.h"

#include <sys/random.h>

enum { SETS = 4096, WAYS = 4, SET_BITS = 12 };
enum { SECOND = 1000000000 };

typedef struct {
    _Atomic uint64_t prefix; /* 0: free */
    _Atomic uint64_t paid_until;
} place;

struct rate_table {
    _Alignas(64) place places[SETS][WAYS];
    uint64_t multiplier; /* odd and random, so that nobody can choose prefixes of one set */
};

rate_table *make_rate_table(void) {
    rate_table *made = shared_memory(sizeof *made);
    if (made == NULL) return NULL;
    if (getrandom(&made->multiplier, sizeof made->multiplier, 0) != sizeof made->multiplier) {
        cannot("no random numbers");
        return NULL;
    }
    made->multiplier |= 1;
    return made;
}

/* A number for the prefix of an address, other than 0. */
static uint64_t prefix_of(const stun_types_address *source) {
    uint64_t prefix = source->family;
    int length = source->family == 4 ? 3 : 7;
    for (int i = 0; i < length; i++) prefix = prefix << 8 | source->octets[i];
    return prefix;
}

/* The place of a prefix, or the one that it takes. */
static place *find_place(rate_table *table, uint64_t prefix) {
    place *set = table->places[prefix * table->multiplier >> (64 - SET_BITS)], *quiet = set;
    for (place *at = set; at < set + WAYS; at++) {
        if (atomic_load_explicit(&at->prefix, memory_order_relaxed) == prefix) return at;
        if (atomic_load_explicit(&at->paid_until, memory_order_relaxed) <
            atomic_load_explicit(&quiet->paid_until, memory_order_relaxed)) {
            quiet = at;
        }
    }
    atomic_store_explicit(&quiet->prefix, prefix, memory_order_relaxed);
    atomic_store_explicit(&quiet->paid_until, 0, memory_order_relaxed);
    return quiet;
}

/* Moves a time by a price, if it then is at most a second ahead. */
static bool pay(uint64_t *until, uint64_t price, uint64_t now) {
    uint64_t paid = (*until > now ? *until : now) + price;
    if (paid > now + SECOND) return false;
    *until = paid;
    return true;
}

/* The same in the table. */
static bool pay_in(rate_table *table, uint64_t prefix, uint64_t price, uint64_t now) {
    place *of = find_place(table, prefix);
    uint64_t until = atomic_load_explicit(&of->paid_until, memory_order_relaxed);
    if (!pay(&until, price, now)) return false;
    atomic_store_explicit(&of->paid_until, until, memory_order_relaxed);
    return true;
}

bool may_answer(rate_table *table, const stun_types_address *source, uint32_t rate, uint64_t now) {
    return pay_in(table, prefix_of(source), SECOND / rate, now);
}

/* What octets, or datagrams, take of a second; more than a second has take it all. */
static uint64_t price_of(size_t amount, uint32_t rate) {
    return amount < rate ? (uint64_t)amount * SECOND / rate : SECOND;
}

bool may_pass(rate_table *table, uint64_t user, uint32_t rate, size_t amount, uint64_t now) {
    return pay_in(table, user, price_of(amount, rate), now);
}

bool may_pass_by(uint64_t *paid_until, uint32_t rate, size_t amount, uint64_t now) {
    return pay(paid_until, price_of(amount, rate), now);
}
