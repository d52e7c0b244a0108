// A front end of `vtl serve` without a copy of its own, for bench/served.py: answers are read from standard input,
// requests are written to standard output. Each of HOSTS hosts has a drive of its own and writes COUNT blocks of
// 262,144 bytes to it, a filemark behind each GROUP of them; where GROUP is 0, it gives COUNT times TEST UNIT READY. At
// most WINDOW commands of a host wait for their answers. Each answer has to be GOOD. The pipe to the library is made
// larger first, as a front end may do. The seconds that it took are written to standard error.
#define _GNU_SOURCE
#include <fcntl.h>
#include <stdint.h>
#include <stdio.h>
#include <stdlib.h>
#include <string.h>
#include <sys/uio.h>
#include <time.h>
#include <unistd.h>

enum { BLOCK = 262144, HEADER = 16, MOST = 16, PIPE = 1 << 20 };

static unsigned char data[BLOCK];
static unsigned long sent[MOST];
static unsigned long all, group;

static void fail(const char *why) {
    fprintf(stderr, "front: %s\n", why);
    exit(1);
}

static void write_all(struct iovec *parts, int count) {
    while (count) {
        ssize_t done = writev(1, parts, count);
        if (done < 0)
            fail("a request was not written");
        while (count && (size_t)done >= parts->iov_len) {
            done -= parts->iov_len;
            parts++;
            count--;
        }
        if (count) {
            parts->iov_base = (char *)parts->iov_base + done;
            parts->iov_len -= done;
        }
    }
}

// The next command of this host, a WRITE(6), a WRITE FILEMARKS or a TEST UNIT READY; 0 where there is none.
static int give(int host) {
    if (sent[host] == all)
        return 0;
    int has_data = group && sent[host] % (group + 1) != group;
    unsigned char front[HEADER + 6] = {1, host + 1, host + 1, 6};
    if (group)
        memcpy(front + HEADER, has_data ? "\x0a\0\4\0\0" : "\x10\0\0\0\1", 6);
    if (has_data)
        front[5] = BLOCK >> 16;
    struct iovec parts[] = {{front, sizeof front}, {data, BLOCK}};
    write_all(parts, has_data ? 2 : 1);
    sent[host]++;
    return 1;
}

// The host of the next answer.
static int good(void) {
    unsigned char answer[HEADER];
    for (size_t have = 0; have < sizeof answer;) {
        ssize_t more = read(0, answer + have, sizeof answer - have);
        if (more <= 0)
            fail("the answers ended");
        have += more;
    }
    if (answer[2] || answer[3])
        fail("a status in the place of GOOD");
    return answer[1] - 1;
}

int main(int count, char **words) {
    if (count != 5)
        fail("front HOSTS COUNT GROUP WINDOW");
    int hosts = atoi(words[1]), window = atoi(words[4]);
    unsigned long count_each = strtoul(words[2], NULL, 10);
    group = strtoul(words[3], NULL, 10);
    if (hosts < 1 || hosts > MOST || (group && count_each % group))
        fail("front HOSTS COUNT GROUP WINDOW");
    all = count_each + (group ? count_each / group : 0);
    if (fcntl(1, F_SETPIPE_SZ, PIPE) < 0)
        fail("the pipe was not made larger");
    for (int at = 0; at < BLOCK; at++)
        data[at] = rand();
    struct timespec start, end;
    clock_gettime(CLOCK_MONOTONIC, &start);
    long waiting = 0;
    for (int round = 0; round < window; round++)
        for (int host = 0; host < hosts; host++)
            waiting += give(host);
    while (waiting)
        waiting += give(good()) - 1;
    clock_gettime(CLOCK_MONOTONIC, &end);
    fprintf(stderr, "%.9f\n", end.tv_sec - start.tv_sec + (end.tv_nsec - start.tv_nsec) / 1e9);
}
