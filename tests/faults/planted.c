// planted: the program with a mistake, for tests that must find it.
//
// With STARTER it is a static program, before which no library is loaded; else the library that it
// loads before all others. MISTAKE is one of the numbers below, PROGRAM and LIBRARY are paths.
#define _GNU_SOURCE
#include <dlfcn.h>
#include <stdio.h>
#include <stdlib.h>
#include <string.h>
#include <unistd.h>

enum { NOTHING, KEEPS, HALVES, PASSES_OVER, FORGETS };

#ifdef STARTER
int main(int count, char **words) {
    char libraries[8192];
    const char *others = getenv("LD_PRELOAD");
    (void)count;
    snprintf(libraries, sizeof libraries, "%s:%s", LIBRARY, others ? others : "");
    setenv("LD_PRELOAD", libraries, 1);
    execv(PROGRAM, words);
    return 99;
}
#else
extern void *__libc_malloc(size_t);
extern void *__libc_realloc(void *, size_t);
static const char want[] = "refused OutOfMemory\n";
static int has_wanted;

// KEEPS: an edit whose allocation is refused is carried out, and answered as if it were not.
void *malloc(size_t size) {
    static void *(*next)(size_t);
    if (!next) next = dlsym(RTLD_NEXT, "malloc");
    void *got = next(size);
    if (got || MISTAKE != KEEPS) return got;
    has_wanted = 1;
    return __libc_malloc(size);
}

void *realloc(void *old, size_t size) {
    static void *(*next)(void *, size_t);
    if (!next) next = dlsym(RTLD_NEXT, "realloc");
    void *got = next(old, size);
    if (got || MISTAKE != KEEPS) return got;
    has_wanted = 1;
    return __libc_realloc(old, size);
}

// FORGETS: a file that is saved is never put in its place.
int rename(const char *from, const char *to) {
    static int (*next)(const char *, const char *);
    if (!next) next = dlsym(RTLD_NEXT, "rename");
    return MISTAKE == FORGETS ? 0 : next(from, to);
}

// How much of an answer is written before its newline. HALVES: half of an array's elements.
static size_t kept(const char *from, size_t size) {
    const char *digits = memrchr(from, ' ', size);
    if (MISTAKE != HALVES || size < 6 || memcmp(from, "array ", 6) || !digits) return size;
    size_t count = from + size - digits - 2;
    return count < 4 ? size : size - 1 - count / 4 * 2;
}

ssize_t write(int file, const void *from, size_t size) {
    static ssize_t (*next)(int, const void *, size_t);
    if (!next) next = dlsym(RTLD_NEXT, "write");
    if (file != 1) return next(file, from, size);
    int is_kept = has_wanted && size == 3 && !memcmp(from, "ok\n", 3);
    has_wanted = 0;
    if (is_kept) return next(file, want, sizeof want - 1) > 0 ? (ssize_t)size : -1;
    size_t less = kept(from, size);
    ssize_t got = next(file, from, less);
    if (less < size && next(file, "\n", 1) != 1) return -1;
    // PASSES_OVER: a write that fails counts as done.
    return less < size || (got <= 0 && MISTAKE == PASSES_OVER) ? (ssize_t)size : got;
}
#endif
