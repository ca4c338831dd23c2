// Shared by the libraries that tests load before the C library. They are compiled without its headers, so they
// declare the functions and the numbers of x86-64 Linux that they use.

typedef unsigned long size_t;
extern long syscall(long number, ...);
extern char *getenv(const char *name);

enum { SYS_READ = 0, SYS_WRITE = 1 };

// Returns the number in an environment variable, 0 if it isn't set.
static inline long number_of(const char *name) {
    const char *text = getenv(name);
    long number = 0;
    while (text != 0 && *text != 0)
        number = number * 10 + (*text++ - '0');
    return number;
}

// Reports a call to the test, by a letter on descriptor 3.
static inline void report(const char *letter) {
    syscall(SYS_WRITE, 3, letter, 1);
}
