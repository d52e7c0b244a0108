// A plain program in the place of `vtl serve` for served.py: frames come by standard input, answers go to standard
// output. The blocks of each host go to a file of its own, FOLDER/N.plain, by a thread of its own, with SYNCS
// syncs for each BLOCKS blocks; a filemark is answered when all of them are in the file. No command is checked.
#include <fcntl.h>
#include <pthread.h>
#include <stdint.h>
#include <stdio.h>
#include <stdlib.h>
#include <string.h>
#include <unistd.h>

enum { HEADER = 16, HOSTS = 4, ROOM = 64, MARKS = 0x10 };

struct block {
    unsigned char *data;
    size_t length;
};

static struct host {
    pthread_mutex_t lock;
    pthread_cond_t changed;
    pthread_t writer;
    struct block blocks[ROOM];
    unsigned long came, written;
    int file, ended;
} hosts[HOSTS];

static unsigned long most, syncs;

static void fail(const char *why) {
    fprintf(stderr, "files: %s\n", why);
    exit(1);
}

static void *write_blocks(void *given) {
    struct host *host = given;
    pthread_mutex_lock(&host->lock);
    for (;;) {
        while (host->written == host->came && !host->ended)
            pthread_cond_wait(&host->changed, &host->lock);
        if (host->written == host->came)
            break;
        struct block block = host->blocks[host->written % ROOM];
        pthread_mutex_unlock(&host->lock);
        if (write(host->file, block.data, block.length) != (ssize_t)block.length)
            fail("a block was not written");
        free(block.data);
        unsigned long due = (host->written + 1) * syncs / most - host->written * syncs / most;
        while (due--)
            if (fsync(host->file))
                fail("a file was not synced");
        pthread_mutex_lock(&host->lock);
        host->written++;
        pthread_cond_broadcast(&host->changed);
    }
    pthread_mutex_unlock(&host->lock);
    return 0;
}

static int whole(unsigned char *bytes, size_t count) {
    for (size_t done = 0; done < count;) {
        ssize_t got = read(0, bytes + done, count - done);
        if (got <= 0)
            return 0;
        done += (size_t)got;
    }
    return 1;
}

// Hands a block to the host's writer; or, where it is none, waits until all blocks of the host are written.
static void take(struct host *host, struct block block) {
    pthread_mutex_lock(&host->lock);
    while (block.data ? host->came - host->written == ROOM : host->written != host->came)
        pthread_cond_wait(&host->changed, &host->lock);
    if (block.data)
        host->blocks[host->came++ % ROOM] = block;
    pthread_cond_broadcast(&host->changed);
    pthread_mutex_unlock(&host->lock);
}

static void open_file(struct host *host, const char *folder, int number) {
    char path[4096];
    snprintf(path, sizeof path, "%s/%d.plain", folder, number);
    host->file = open(path, O_CREAT | O_WRONLY | O_TRUNC, 0644);
    pthread_mutex_init(&host->lock, 0);
    pthread_cond_init(&host->changed, 0);
    if (host->file < 0 || pthread_create(&host->writer, 0, write_blocks, host))
        fail("a file was not opened");
}

int main(int count, char **words) {
    if (count != 4 || !(most = strtoul(words[2], 0, 10)))
        fail("files FOLDER BLOCKS SYNCS");
    syncs = strtoul(words[3], 0, 10);
    for (int at = 0; at < HOSTS; at++)
        open_file(&hosts[at], words[1], at + 1);
    unsigned char header[HEADER], command[HEADER];
    while (whole(header, HEADER) && header[3] <= HEADER && whole(command, header[3])) {
        size_t length = (size_t)header[4] << 24 | header[5] << 16 | header[6] << 8 | header[7];
        struct block block = {length ? malloc(length) : 0, length};
        if (header[1] < 1 || header[1] > HOSTS || !block.data != !length || !whole(block.data, length))
            fail("a frame is not whole");
        if (length || command[0] == MARKS)
            take(&hosts[header[1] - 1], block);
        unsigned char answer[HEADER] = {header[0], header[1]};
        if (write(1, answer, HEADER) != HEADER)
            fail("an answer was not written");
    }
    for (int at = 0; at < HOSTS; at++) {
        pthread_mutex_lock(&hosts[at].lock);
        hosts[at].ended = 1;
        pthread_cond_broadcast(&hosts[at].changed);
        pthread_mutex_unlock(&hosts[at].lock);
        pthread_join(hosts[at].writer, 0);
    }
    return 0;
}
