// Loaded before the C library. Fails the allocation with the number in REFUSE, and reports that by a byte on
// descriptor 3.

#include "../preload.h"

extern void *__libc_malloc(size_t size);
extern void *__libc_realloc(void *old, size_t size);

static long allocations;

static int is_refused(void) {
    if (++allocations != number_of("REFUSE"))
        return 0;
    report("!");
    return 1;
}

void *malloc(size_t size) {
    return is_refused() ? 0 : __libc_malloc(size);
}

void *realloc(void *old, size_t size) {
    return is_refused() ? 0 : __libc_realloc(old, size);
}
