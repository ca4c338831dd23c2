// Loaded before the C library. Fails the read of standard input with the number in FAIL_READ, or the write to
// standard output with the number in FAIL_WRITE, and reports that by a byte on descriptor 3.

#include "../preload.h"

extern int *__errno_location(void);

enum { INPUT_OUTPUT_ERROR = 5 };

static long reads;
static long writes;

static long failed(void) {
    report("!");
    *__errno_location() = INPUT_OUTPUT_ERROR;
    return -1;
}

long read(int descriptor, void *bytes, size_t count) {
    if (descriptor == 0 && ++reads == number_of("FAIL_READ"))
        return failed();
    return syscall(SYS_READ, descriptor, bytes, count);
}

long write(int descriptor, const void *bytes, size_t count) {
    if (descriptor == 1 && ++writes == number_of("FAIL_WRITE"))
        return failed();
    return syscall(SYS_WRITE, descriptor, bytes, count);
}
