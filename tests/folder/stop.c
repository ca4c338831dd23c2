// Loaded before the C library. Before the system call with the number in STOP_AT it ends the process by
// SIGKILL; before that in PAUSE_AT it stops the process by SIGSTOP. It counts calls that change files or take
// a lock, and reports each by a letter on descriptor 3. With NAMES=1 the path of the file follows, or both paths,
// each after a tab, and a line feed.

#include "../preload.h"

typedef unsigned int mode_t;

enum {
    SYS_OPEN = 2,
    SYS_GETPID = 39,
    SYS_KILL = 62,
    SYS_FLOCK = 73,
    SYS_FSYNC = 74,
    SYS_RENAME = 82,
    SYS_MKDIR = 83,
    SYS_UNLINK = 87,
    SYS_READLINK = 89,
};
enum { KILL = 9, STOP = 19 };
enum { WRITE_ONLY = 01, CREATE = 0100, TRUNCATE = 01000 };

static long calls;

// Reports a path after a tab.
static void report_path(const char *path) {
    size_t size = 0;
    while (path[size] != 0)
        size++;
    report("\t");
    syscall(SYS_WRITE, 3, path, size);
}

// Counts a call that concerns a path, or two of them.
static void count(const char *letter, const char *path, const char *other) {
    calls++;
    long process = syscall(SYS_GETPID);
    if (calls == number_of("STOP_AT"))
        syscall(SYS_KILL, process, KILL);
    if (calls == number_of("PAUSE_AT"))
        syscall(SYS_KILL, process, STOP);
    report(letter);
    if (number_of("NAMES") == 1) {
        report_path(path);
        if (other != 0)
            report_path(other);
        report("\n");
    }
}

// Counts a call that concerns an open file, whose path is that of its link in /proc.
static void count_open(const char *letter, int descriptor) {
    char link[32] = "/proc/self/fd/", digits[12], path[4096];
    int size = 0, end = 14;
    do
        digits[size++] = (char)('0' + descriptor % 10);
    while (descriptor /= 10);
    while (size > 0)
        link[end++] = digits[--size];
    link[end] = 0;
    long length = syscall(SYS_READLINK, link, path, sizeof path - 1);
    path[length > 0 ? length : 0] = 0;
    count(letter, path, 0);
}

int open(const char *path, int flags, mode_t mode) {
    if (flags & (WRITE_ONLY | CREATE | TRUNCATE))
        count("o", path, 0);
    return (int)syscall(SYS_OPEN, path, flags, mode);
}

long write(int descriptor, const void *bytes, size_t size) {
    if (descriptor > 3)
        count_open("w", descriptor);
    return syscall(SYS_WRITE, descriptor, bytes, size);
}

int fsync(int descriptor) {
    count_open("s", descriptor);
    return (int)syscall(SYS_FSYNC, descriptor);
}

int rename(const char *from, const char *to) {
    count("r", from, to);
    return (int)syscall(SYS_RENAME, from, to);
}

int unlink(const char *path) {
    count("u", path, 0);
    return (int)syscall(SYS_UNLINK, path);
}

int mkdir(const char *path, mode_t mode) {
    count("d", path, 0);
    return (int)syscall(SYS_MKDIR, path, mode);
}

int flock(int descriptor, int how) {
    count_open("l", descriptor);
    return (int)syscall(SYS_FLOCK, descriptor, how);
}
