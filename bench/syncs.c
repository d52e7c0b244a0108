// Stands before the C library (LD_PRELOAD), for served.py. Each fsync and fdatasync takes SYNCS_MS milliseconds more,
// and the file that SYNCS_TOLD names gets how many there were.
#define _GNU_SOURCE
#include <dlfcn.h>
#include <fcntl.h>
#include <stdatomic.h>
#include <stdio.h>
#include <stdlib.h>
#include <sys/syscall.h>
#include <time.h>
#include <unistd.h>

static atomic_long syncs;

static int synced(int number, int file) {
    const char *said = getenv("SYNCS_MS");
    long ms = said ? atol(said) : 0;
    struct timespec wait = {ms / 1000, ms % 1000 * 1000000};
    atomic_fetch_add(&syncs, 1);
    if (ms)
        nanosleep(&wait, 0);
    return syscall(number, file);
}

int fsync(int file) { return synced(SYS_fsync, file); }
int fdatasync(int file) { return synced(SYS_fdatasync, file); }

static void tell(void) {
    const char *path = getenv("SYNCS_TOLD");
    FILE *file = path ? fopen(path, "w") : 0;
    if (file) {
        fprintf(file, "%ld", syncs);
        fclose(file);
    }
}

// A program that had threads ends by this call, and no destructor runs.
void _exit(int status) {
    tell();
    syscall(SYS_exit_group, status);
    __builtin_unreachable();
}

__attribute__((destructor)) static void end(void) { tell(); }
