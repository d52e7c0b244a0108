/* A libiscsi client: iscsi PORTAL TARGET LUN WORK COUNT BLOCK GROUP DEPTH. WORK is ready, write or read; it prints the
 * seconds that COUNT commands take, of which at most DEPTH wait for their answers. A write has a filemark behind each
 * GROUP blocks. */
#include <poll.h>
#include <stdio.h>
#include <stdlib.h>
#include <string.h>
#include <time.h>
#include <iscsi/iscsi.h>
#include <iscsi/scsi-lowlevel.h>

static int lun, waiting, failed;
static unsigned char *data;
static long moved;

static double now(void)
{
    struct timespec t;
    clock_gettime(CLOCK_MONOTONIC, &t);
    return t.tv_sec + t.tv_nsec / 1e9;
}

static void answered(struct iscsi_context *iscsi, int status, void *given, void *more)
{
    struct scsi_task *task = given;
    /* early warning and a filemark are answered by CHECK CONDITION with key 0 */
    if (status != SCSI_STATUS_GOOD && !(status == SCSI_STATUS_CHECK_CONDITION && task->sense.key == 0)) {
        fprintf(stderr, "status %d: %s\n", status, iscsi_get_error(iscsi));
        failed = 1;
    }
    moved += task->datain.size;
    scsi_free_scsi_task(task);
    waiting--;
    (void) more;
}

static void served(struct iscsi_context *iscsi)
{
    struct pollfd it = {.fd = iscsi_get_fd(iscsi), .events = iscsi_which_events(iscsi)};
    poll(&it, 1, -1);
    if (iscsi_service(iscsi, it.revents) < 0)
        failed = 1;
}

static void send_one(struct iscsi_context *iscsi, const unsigned char *block, int direction, int length)
{
    struct scsi_task *task = scsi_create_task(6, (unsigned char *) block, direction, length);
    struct iscsi_data out = {.data = data, .size = length};
    if (iscsi_scsi_command_async(iscsi, lun, task, answered, direction == SCSI_XFER_WRITE ? &out : NULL, NULL))
        failed = 1;
    waiting++;
}

static void sync_one(struct iscsi_context *iscsi, const unsigned char *block)
{
    for (int tries = 0; tries < 8; tries++) {
        struct scsi_task *task = scsi_create_task(6, (unsigned char *) block, SCSI_XFER_NONE, 0);
        task = iscsi_scsi_command_sync(iscsi, lun, task, NULL);
        int status = task ? task->status : -1;
        if (task)
            scsi_free_scsi_task(task);
        if (status == SCSI_STATUS_GOOD)
            return;
    }
    fprintf(stderr, "%02x: %s\n", block[0], iscsi_get_error(iscsi));
    exit(1);
}

int main(int count_of, char **words)
{
    if (count_of != 9)
        return 2;
    const char *work = words[4];
    int count = atoi(words[5]), block = atoi(words[6]), group = atoi(words[7]), depth = atoi(words[8]);
    unsigned char ready[6] = {0}, load[6] = {0x1b, 0, 0, 0, 1, 0}, rewind[6] = {1}, mark[6] = {0x10, 0, 0, 0, 1, 0};
    unsigned char moves[6] = {work[0] == 'w' ? 0x0a : 0x08, 0, block >> 16, block >> 8, block, 0};
    int is_ready = !strcmp(work, "ready");
    struct iscsi_context *iscsi = iscsi_create_context("iqn.2000-01.example:bench");
    lun = atoi(words[3]);
    data = malloc(block + 1);
    memset(data, 0x5a, block + 1);
    iscsi_set_targetname(iscsi, words[2]);
    iscsi_set_session_type(iscsi, ISCSI_SESSION_NORMAL);
    iscsi_set_header_digest(iscsi, ISCSI_HEADER_DIGEST_NONE);
    iscsi_set_isid_oui(iscsi, 0x023d, lun);
    if (iscsi_full_connect_sync(iscsi, words[1], -1)) {
        fprintf(stderr, "%s\n", iscsi_get_error(iscsi));
        return 1;
    }
    sync_one(iscsi, load);
    sync_one(iscsi, rewind);
    double start = now();
    for (int at = 0; at < count && !failed; at++) {
        if (is_ready)
            send_one(iscsi, ready, SCSI_XFER_NONE, 0);
        else
            send_one(iscsi, moves, work[0] == 'w' ? SCSI_XFER_WRITE : SCSI_XFER_READ, block);
        while (waiting >= depth && !failed)
            served(iscsi);
        /* a filemark behind each group; a read meets one there */
        if (!is_ready && at % group == group - 1) {
            if (work[0] == 'w')
                send_one(iscsi, mark, SCSI_XFER_NONE, 0);
            else
                send_one(iscsi, moves, SCSI_XFER_READ, block);
        }
    }
    while (waiting && !failed)
        served(iscsi);
    printf("%.6f %ld\n", now() - start, moved);
    return failed;
}
