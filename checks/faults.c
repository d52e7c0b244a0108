// Stands before the C library (LD_PRELOAD), for faults.py, nomemory.py, no_threads.py, stops.py and memory.py. It lets
// one call of a program end otherwise: of the kind that FAULTS names the FAULTS_AT-th. "memory": no memory is given.
// "fault": a call for a file or a stream fails (EIO). "interrupted": it fails once (EINTR). "short": of several bytes
// one is read or written. "lost": a write at a place is said to be done, and is not. "thread": a thread is not started
// (EAGAIN). "threads": nor is any behind it. Without FAULTS_AT none does. With FAULTS_BEHIND only the calls count
// between that read of standard input and the next one; 0 is the start. "unlocked": no file has locks (EOPNOTSUPP).
// The file that FAULTS_TOLD names gets how many calls of the kind there were, the name of the one, and how many threads
// were started. The file that FAULTS_ASKED names gets a line for each call of malloc and realloc: how many bytes were
// asked for. Each read of a file at a place also takes FAULTS_TAKES bytes of memory, and frees them. To the file that
// FAULTS_NOTES names each call is added that did something to a file or to standard output, and each sync that failed:
// a letter, the last part of the file's name, a place, how many bytes; then the bytes.
#define _GNU_SOURCE
#include <dlfcn.h>
#include <errno.h>
#include <fcntl.h>
#include <pthread.h>
#include <stdarg.h>
#include <stdio.h>
#include <stdlib.h>
#include <string.h>
#include <sys/stat.h>
#include <sys/syscall.h>
#include <unistd.h>

extern void *__libc_malloc(size_t);
extern void *__libc_realloc(void *, size_t);

static char kind;
static int onwards;
static long at, seen, behind = -1, reads, threads;
static const char *name = "none";
static int notes = -1, asked = -1, noting;
static size_t takes;

// The file that a variable names, for writing behind its end, or -1.
static int to_write(const char *variable) {
    const char *path = getenv(variable);
    return path ? syscall(SYS_openat, AT_FDCWD, path, O_WRONLY | O_CREAT | O_TRUNC | O_APPEND, 0600) : -1;
}

__attribute__((constructor)) static void begin(void) {
    const char *said = getenv("FAULTS"), *number = getenv("FAULTS_AT"), *from = getenv("FAULTS_BEHIND");
    const char *more = getenv("FAULTS_TAKES");
    at = number ? atol(number) : 0;
    takes = more ? (size_t)atol(more) : 0;
    behind = from ? atol(from) : -1;
    kind = said ? said[0] : 0;
    onwards = said && !strcmp(said, "threads");
    notes = to_write("FAULTS_NOTES");
    asked = to_write("FAULTS_ASKED");
}

__attribute__((destructor)) static void end(void) {
    const char *path = getenv("FAULTS_TOLD");
    char text[64];
    int size = snprintf(text, sizeof text, "%ld %s %ld", seen, name, threads);
    kind = 0;
    int file = path ? syscall(SYS_openat, AT_FDCWD, path, O_WRONLY | O_CREAT | O_TRUNC, 0600) : -1;
    if (file >= 0) {
        syscall(SYS_write, file, text, (size_t)size);
        syscall(SYS_close, file);
    }
}

// A program that had threads ends by this call, and no destructor runs.
void _exit(int status) {
    end();
    for (;;)
        syscall(SYS_exit_group, status);
}

// Whether this call is the one.
static int is_it(const char *call) {
    if (behind >= 0 && __atomic_load_n(&reads, __ATOMIC_SEQ_CST) != behind)
        return 0;
    long number = __atomic_add_fetch(&seen, 1, __ATOMIC_SEQ_CST);
    if (onwards ? number < at : number != at)
        return 0;
    name = call;
    return 1;
}

static int is_refused(const char *call) {
    if ((kind != 'f' && kind != 'i') || !is_it(call))
        return 0;
    errno = kind == 'i' ? EINTR : EIO;
    return 1;
}

// The bytes that a read or a write moves at most.
static size_t moved(const char *call, size_t count) {
    return kind == 's' && count > 1 && is_it(call) ? 1 : count;
}

// Notes a call on an open file that did something.
static long noted(long done, char letter, int file, const void *bytes, long place) {
    char link[64], path[4096], line[4200];
    if (notes < 0 || done < 0)
        return done;
    snprintf(link, sizeof link, "/proc/self/fd/%d", file);
    ssize_t length = syscall(SYS_readlink, link, path, sizeof path - 1);
    path[length > 0 ? length : 0] = 0;
    char *last = file == 1 ? "-" : strrchr(path, '/') ? strrchr(path, '/') + 1 : path;
    long count = bytes ? done : 0;
    int size = snprintf(line, sizeof line, "%c %s %ld %ld\n", letter, last, place, count);
    // two threads may note at once
    while (__atomic_exchange_n(&noting, 1, __ATOMIC_ACQUIRE))
        continue;
    syscall(SYS_write, notes, line, (size_t)size);
    if (count)
        syscall(SYS_write, notes, bytes, (size_t)count);
    __atomic_store_n(&noting, 0, __ATOMIC_RELEASE);
    return done;
}

// Whether a growth to so many bytes is refused, which is noted.
static int is_too_much(const char *call, size_t size) {
    char line[32];
    if (asked >= 0)
        syscall(SYS_write, asked, line, (size_t)snprintf(line, sizeof line, "%zu\n", size));
    return kind == 'm' && is_it(call);
}

// A thread that starts is counted.
int pthread_create(pthread_t *thread, const pthread_attr_t *with, void *(*start)(void *), void *given) {
    if (kind == 't' && is_it(__func__))
        return EAGAIN;
    int (*call)(pthread_t *, const pthread_attr_t *, void *(*)(void *), void *) = dlsym(RTLD_NEXT, __func__);
    int status = call(thread, with, start, given);
    if (status == 0)
        __atomic_add_fetch(&threads, 1, __ATOMIC_SEQ_CST);
    return status;
}

#ifndef NO_MEMORY
void *malloc(size_t size) { return is_too_much("malloc", size) ? NULL : __libc_malloc(size); }
void *realloc(void *from, size_t size) { return is_too_much("realloc", size) ? NULL : __libc_realloc(from, size); }
#endif

#define CALL(call, ...) is_refused(#call) ? -1 : syscall(SYS_##call, __VA_ARGS__)
// A call that the system never interrupts.
#define BRIEF(call, ...) kind != 'i' && is_refused(#call) ? -1 : syscall(SYS_##call, __VA_ARGS__)

int open(const char *path, int flags, ...) {
    va_list more;
    va_start(more, flags);
    mode_t mode = flags & O_CREAT ? va_arg(more, mode_t) : 0;
    va_end(more);
    int file = CALL(openat, AT_FDCWD, path, flags, mode);
    if (flags & O_CREAT && file >= 0)
        noted(0, 'C', file, NULL, 0);
    return file;
}

int fcntl(int file, int order, ...) {
    va_list more;
    va_start(more, order);
    long argument = va_arg(more, long);
    va_end(more);
    return CALL(fcntl, file, order, argument);
}

ssize_t read(int file, void *to, size_t count) {
    ssize_t done = CALL(read, file, to, moved("read", count));
    if (file == 0)
        __atomic_add_fetch(&reads, 1, __ATOMIC_SEQ_CST);
    return done;
}
ssize_t write(int file, const void *from, size_t count) {
    return noted(CALL(write, file, from, moved("write", count)), 'A', file, from, 0);
}
ssize_t pread(int file, void *to, size_t count, off_t place) {
    void *volatile taken = takes ? malloc(takes) : NULL;
    free(taken);
    return CALL(pread64, file, to, moved("pread", count), place);
}
ssize_t pwrite(int file, const void *from, size_t count, off_t place) {
    if (kind == 'l' && is_it("pwrite"))
        return (ssize_t)count;
    return noted(CALL(pwrite64, file, from, moved("pwrite", count), place), 'W', file, from, place);
}
// A sync that failed is noted too, by a letter of its own.
static int synced(int done, int file) {
    int why = errno;
    noted(done < 0 && why == EIO ? 0 : done, done < 0 ? 'F' : 'S', file, NULL, 0);
    errno = why;
    return done;
}
int fsync(int file) { return synced(CALL(fsync, file), file); }
int fdatasync(int file) { return synced(CALL(fdatasync, file), file); }
int ftruncate(int file, off_t size) { return noted(CALL(ftruncate, file, size), 'T', file, NULL, size); }
int flock(int file, int order) {
    if (kind == 'u') {
        errno = EOPNOTSUPP;
        return -1;
    }
    return CALL(flock, file, order);
}
int fchmod(int file, mode_t mode) { return BRIEF(fchmod, file, mode); }
int unlink(const char *path) { return BRIEF(unlink, path); }
off_t lseek(int file, off_t place, int from) { return BRIEF(lseek, file, place, from); }
int statx(int folder, const char *path, int flags, unsigned int wanted, struct statx *to) {
    return BRIEF(statx, folder, path, flags, wanted, to);
}
