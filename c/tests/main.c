/* Tests of the library through its header, of what the rows of vectors/ can't say: tests [PART..].
 * Without a PART all are run. The last line is 'N passed, M failed'. */
#include <stdio.h>
#include <string.h>

#include "check.h"
#include "heap.h"
#include "tests.h"

static const struct {
    const char *name;
    void (*run)(void);
} parts[] = {
    {"numbers", test_numbers}, {"reading", test_reading}, {"keys", test_keys},
    {"hmacs", test_hmacs}, {"writing", test_writing}, {"servers", test_servers}, {"clients", test_clients},
    {"streams", test_streams}, {"nulls", test_nulls}, {"calls", test_calls},
    {"overlaps", test_overlaps}, {"turn", test_turn}, {"turn_answers", test_turn_answers}, {"turn_more", test_turn_more},
    {"allocations", test_allocations}, {"ice", test_ice},
};

static int is_asked(int count, char **arguments, const char *name) {
    int i;
    for (i = 1; i < count; i++)
        if (strcmp(arguments[i], name) == 0) return 1;
    return count <= 1;
}

int main(int count, char **arguments) {
    int side;
    size_t i;
    for (side = GUARD_BEHIND; side <= GUARD_BEFORE; side++) {
        check_begin(side == GUARD_BEFORE ? GUARD_BEFORE : GUARD_BEHIND);
        for (i = 0; i < COUNT(parts); i++)
            if (is_asked(count, arguments, parts[i].name)) parts[i].run();
        row("memory", "every block is given back");
        CHECK(heap_held() == 0);
        check_end();
    }
    printf("%ld passed, %ld failed\n", rows_passed(), rows_failed());
    return rows_failed() != 0 || rows_passed() == 0;
}
