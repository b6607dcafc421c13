/* A fuzzer of the library: its entry is that of libFuzzer, LLVMFuzzerTestOneInput,
 *
 *     c/fuzz/corpus corpus
 *     c/library.py libstun_types.a
 *     clang -std=c99 -O1 -g -fsanitize=fuzzer -o fuzzer c/fuzz.c c/fuzz/[a-z]*.c c/tests/model*.c \
 *         c/tests/reference.c c/tests/guarded.c libstun_types.a
 *     ./fuzzer -max_total_time=3600 -max_len=2000 -artifact_prefix=./ corpus
 *
 * (./fuzzer FILE runs one input), and with FUZZ_MAIN it has a main of its own, which makes so many inputs by itself (200,000
 * unless an argument says otherwise, the same in each run) and ends with a line 'N passed, M
 * failed'.
 *
 * The first byte of an input says what it is: a message to be read, one that is right and is changed,
 * a run of adds, a stream that is cut, ChannelData, numbers, keys, nonces, a request with
 * credentials, a challenge, calls of transactions, what comes to a TURN server or client, or to an ICE agent. What the library answers is compared with
 * tests/model.h and its kin, which follow docs/PROTOCOL.md. Slices end at a page that may not be
 * touched. */
#include <stdio.h>
#include <stdlib.h>

#include "fuzz/fuzz.h"

int LLVMFuzzerTestOneInput(const uint8_t *data, size_t size);

static void check_changed(source *from) {
    static text message;
    seed(&message, take_two(from));
    change(&message, from);
    check_read(message.bytes, message.length, from);
}

static void check_any(source *from) {
    if (from->left <= MODEL_MOST + 40) check_read(from->bytes, from->left, from);
}

static void (*const subjects[])(source *from)
    = {check_any,         check_changed,    check_changed,      check_changed,     check_writing,
       check_writing,     check_stream,     check_channel_data, check_numbers,     check_keys,
       check_credentials, check_challenges, check_nonces,       check_transactions,
       check_turn,        check_turn,       check_turn,        check_allocations,
       check_ice};

int LLVMFuzzerTestOneInput(const uint8_t *data, size_t size) {
    source from;
    unsigned kind;
    from.bytes = data;
    from.left = size;
    kind = take(&from);
    begin_input(data, size, kind < 128 ? GUARD_BEHIND : GUARD_BEFORE);
    subjects[kind % COUNT(subjects)](&from);
    end_input();
    return 0;
}

#ifdef FUZZ_MAIN
static uint64_t state = 0x9E3779B97F4A7C15;

/* xorshift64* (Vigna, 2016) */
static uint64_t next(void) {
    state ^= state >> 12;
    state ^= state << 25;
    state ^= state >> 27;
    return state * 0x2545F4914F6CDD1D;
}

int main(int count, char **arguments) {
    static uint8_t data[2000];
    unsigned long inputs = count > 1 ? strtoul(arguments[1], NULL, 10) : 200000, i;
    for (i = 0; i < inputs; i++) {
        size_t length = next() % 16 == 0 ? next() % sizeof data : next() % 200, j;
        for (j = 0; j < length; j++) data[j] = (uint8_t)(next() >> 56);
        LLVMFuzzerTestOneInput(data, length);
    }
    free_pairs();
    printf("%lu passed, 0 failed\n", inputs_passed);
    return inputs_passed == 0;
}
#endif
