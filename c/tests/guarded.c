#define _DEFAULT_SOURCE
#include "guarded.h"

#include <stdlib.h>
#include <sys/mman.h>
#include <unistd.h>

guarded_region guarded_make(size_t size) {
    size_t page = (size_t)sysconf(_SC_PAGESIZE);
    guarded_region region;
    uint8_t *all;
    region.size = (size / page + 1) * page;
    all = mmap(NULL, region.size + 2 * page, PROT_NONE, MAP_PRIVATE | MAP_ANONYMOUS, -1, 0);
    if (all == MAP_FAILED) abort();
    region.start = all + page;
    if (mprotect(region.start, region.size, PROT_READ | PROT_WRITE) != 0) abort();
    return region;
}

uint8_t *guarded_place(guarded_region region, guarded_side side, size_t length) {
    if (length == 0) return region.start + region.size;
    return side == GUARD_BEFORE ? region.start : region.start + region.size - length;
}
