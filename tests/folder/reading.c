// Loaded before the C library. Before the read of a range with the number in PAUSE_AT it stops the process by SIGSTOP. With
// SHORT=1 each read of a range returns at most half of the bytes that are asked for, with INTERRUPT=1 each is interrupted
// once. It reports each by a letter on descriptor 3.
#include "../preload.h"

enum { SYS_PREAD64 = 17, SYS_GETPID = 39, SYS_KILL = 62 };
enum { INTERRUPTED = 4, STOP = 19 };

extern int *__errno_location(void);

static long calls;
static int interrupted;

static long read_range(int file, void *buffer, size_t size, long place) {
    if (number_of("INTERRUPT") == 1 && !interrupted) {
        interrupted = 1;
        *__errno_location() = INTERRUPTED;
        return -1;
    }
    interrupted = 0;
    calls++;
    report("r");
    if (calls == number_of("PAUSE_AT"))
        syscall(SYS_KILL, syscall(SYS_GETPID), STOP);
    if (number_of("SHORT") == 1 && size > 1)
        size /= 2;
    return syscall(SYS_PREAD64, file, buffer, size, place);
}

long pread64(int file, void *buffer, size_t size, long place) { return read_range(file, buffer, size, place); }

long pread(int file, void *buffer, size_t size, long place) { return read_range(file, buffer, size, place); }
