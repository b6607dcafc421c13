/* Looks at each request for memory of the runner: .ci/vectors links it with the runner, which `rt try`
 * builds with AddressSanitizer, and that calls the hook. At the end it prints the bytes of the largest
 * block in a line of its own. */
#include <stddef.h>
#include <stdio.h>

void __sanitizer_malloc_hook(const volatile void *block, size_t size);

static size_t most;

void __sanitizer_malloc_hook(const volatile void *block, size_t size) {
    if (block != NULL && size > most) most = size;
}

__attribute__((destructor)) static void end(void) { dprintf(1, "most %zu\n", most); }
