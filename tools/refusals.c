// refusals: a library to load before a program, which refuses allocations and lets reads and writes fail.
//
// Numbers in the environment say what happens; those that lack are 0. Allocations are calls of malloc and realloc,
// reads are those of every file, writes those to standard output. All are counted from 1.
//   REFUSED_ALLOCATION    the first allocation that is refused; 0: none
//   REFUSED_ALLOCATIONS   how many are refused from that one on; 0: one
//   READ_BYTES, WRITE_BYTES   the most bytes of a read, of a write; 0: as many as are asked for
//   FAILED_READ, READ_ERROR   the read that fails, and its errno
//   FAILED_WRITE, WRITE_ERROR the write that fails, and its errno; 0: the write takes no byte
//   FAILED_CHANGE, CHANGE_ERROR   the same of the writes to files, their syncs and renames, which are counted together
//   ENDLESS_READ          1: each read gives one newline, and no file is asked
//   STEER_FROM, STEER_TO  pipes by which another process steers this one at each read of standard input
//   TELL                  1: the number of allocations is told on standard error at the end
#define _GNU_SOURCE
#include <dlfcn.h>
#include <errno.h>
#include <stdint.h>
#include <stdio.h>
#include <stdlib.h>
#include <sys/wait.h>
#include <unistd.h>

// What the steering process asks for.
enum { RUN = 1, FORK = 2, LEAVE = 3, END = 4 };

// Which allocations are refused from the next one on, where `first` is not -1.
struct order { int64_t what, first, count; };

// Bytes that were read so far, or the status of the fork that ended; allocations since the last order, and refusals.
struct report { int64_t has_ended, value, seen, refused; };

static int is_ready;
static int64_t first_refused, refusals, seen, refused, reads, writes, changes, consumed;
static int64_t read_bytes, write_bytes, failed_read, read_error, failed_write, write_error, is_endless;
static int64_t failed_change, change_error;
static int64_t steer_from, steer_to;

static int64_t number(const char *name) {
    const char *text = getenv(name);
    return text ? atoll(text) : 0;
}

static void prepare(void) {
    is_ready = 1;
    first_refused = number("REFUSED_ALLOCATION");
    refusals = number("REFUSED_ALLOCATIONS");
    if (!refusals) refusals = 1;
    read_bytes = number("READ_BYTES");
    write_bytes = number("WRITE_BYTES");
    failed_read = number("FAILED_READ");
    read_error = number("READ_ERROR");
    failed_write = number("FAILED_WRITE");
    write_error = number("WRITE_ERROR");
    failed_change = number("FAILED_CHANGE");
    change_error = number("CHANGE_ERROR");
    is_endless = number("ENDLESS_READ");
    steer_from = number("STEER_FROM");
    steer_to = number("STEER_TO");
}

static int is_refused(void) {
    if (!is_ready) prepare();
    seen++;
    if (!first_refused || seen < first_refused || seen - first_refused >= refusals) return 0;
    refused++;
    return 1;
}

void *malloc(size_t size) {
    static void *(*next)(size_t);
    if (!next) next = dlsym(RTLD_NEXT, "malloc");
    return is_refused() ? NULL : next(size);
}

void *realloc(void *old, size_t size) {
    static void *(*next)(void *, size_t);
    if (!next) next = dlsym(RTLD_NEXT, "realloc");
    return is_refused() ? NULL : next(old, size);
}

static ssize_t next_read(int file, void *to, size_t size) {
    static ssize_t (*next)(int, void *, size_t);
    if (!next) next = dlsym(RTLD_NEXT, "read");
    return next(file, to, size);
}

static ssize_t next_write(int file, const void *from, size_t size) {
    static ssize_t (*next)(int, const void *, size_t);
    if (!next) next = dlsym(RTLD_NEXT, "write");
    return next(file, from, size);
}

static void tell_steerer(int64_t has_ended, int64_t value) {
    struct report report = {has_ended, value, seen, refused};
    if (next_write(steer_to, &report, sizeof report) != sizeof report) _exit(97);
}

// Goes on in a fork. Its parent waits for its end, and then for the next order.
static void fork_here(void) {
    pid_t fork_id = fork();
    int status;
    if (fork_id < 0) _exit(98);
    if (fork_id == 0) {
        tell_steerer(0, consumed);
        return;
    }
    if (waitpid(fork_id, &status, 0) != fork_id) _exit(98);
    tell_steerer(1, status);
}

static ssize_t steered_read(void *to, size_t size) {
    struct order order;
    tell_steerer(0, consumed);
    for (;;) {
        if (next_read(steer_from, &order, sizeof order) != sizeof order) _exit(96);
        if (order.what == FORK) fork_here();
        if (order.what == LEAVE) _exit(0);
        if (order.what == END || order.what == RUN) break;
    }
    if (order.first >= 0) {
        first_refused = order.first;
        refusals = order.count;
        seen = refused = 0;
    }
    if (order.what == END) return 0;
    ssize_t got = next_read(0, to, size);
    if (got > 0) consumed += got;
    return got;
}

ssize_t read(int file, void *to, size_t size) {
    if (!is_ready) prepare();
    if (steer_to && file == 0) return steered_read(to, size);
    reads++;
    if (reads == failed_read) {
        errno = read_error;
        return -1;
    }
    if (is_endless && size) {
        *(char *)to = '\n';
        return 1;
    }
    return next_read(file, to, read_bytes && size > (size_t)read_bytes ? (size_t)read_bytes : size);
}

// Counts a call that changes a file; whether it fails.
static int fails_to_change(void) {
    if (!is_ready) prepare();
    changes++;
    if (changes == failed_change) errno = change_error;
    return changes == failed_change;
}

ssize_t write(int file, const void *from, size_t size) {
    if (!is_ready) prepare();
    if (file == 2) return next_write(file, from, size);
    if (file != 1) {
        if (fails_to_change()) return change_error ? -1 : 0;
    } else if (++writes == failed_write) {
        errno = write_error;
        return write_error ? -1 : 0;
    }
    return next_write(file, from, write_bytes && size > (size_t)write_bytes ? (size_t)write_bytes : size);
}

int fsync(int file) {
    static int (*next)(int);
    if (!next) next = dlsym(RTLD_NEXT, "fsync");
    return fails_to_change() ? -1 : next(file);
}

int rename(const char *from, const char *to) {
    static int (*next)(const char *, const char *);
    if (!next) next = dlsym(RTLD_NEXT, "rename");
    return fails_to_change() ? -1 : next(from, to);
}

ssize_t __write(int file, const void *from, size_t size) { return write(file, from, size); }

__attribute__((destructor)) static void tell(void) {
    char line[128];
    if (!number("TELL")) return;
    int length = snprintf(line, sizeof line, "allocations=%lld reads=%lld writes=%lld changes=%lld\n",
                          (long long)seen, (long long)reads, (long long)writes, (long long)changes);
    if (next_write(2, line, length) < 0) _exit(3);
}
