/* iscsi-test-cu begins with READ CAPACITY(10), and ends where it is not answered: it is made for disks. This file,
 * before libiscsi, answers the first one in the place of a tape drive or a changer, which have no such command. */
#define _GNU_SOURCE
#include <dlfcn.h>
#include <stdlib.h>
#include <iscsi/iscsi.h>
#include <iscsi/scsi-lowlevel.h>

struct scsi_task *iscsi_scsi_command_sync(struct iscsi_context *iscsi, int lun, struct scsi_task *task,
                                          struct iscsi_data *data)
{
    struct scsi_task *(*send)(struct iscsi_context *, int, struct scsi_task *, struct iscsi_data *);
    static int is_answered;
    *(void **) &send = dlsym(RTLD_NEXT, "iscsi_scsi_command_sync");
    if (task->cdb[0] != 0x25 || is_answered)
        return send(iscsi, lun, task, data);
    is_answered = 1;
    /* 101 blocks of 512 bytes */
    task->status = SCSI_STATUS_GOOD;
    task->datain.size = 8;
    task->datain.data = calloc(1, 8);
    task->datain.data[3] = 100;
    task->datain.data[6] = 2;
    return task;
}
