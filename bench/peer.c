/* The other end of a pipe for served.py: reads frames as `vtl serve` does, and answers each GOOD, with no data. */
#include <stddef.h>
#include <stdint.h>
#include <unistd.h>

enum { HEADER = 16, MOST = 1 << 21 };

static unsigned char buffer[MOST];

static int whole(size_t count) {
    size_t done = 0;
    while (done < count) {
        ssize_t got = read(0, buffer + done, count - done);
        if (got <= 0) return 0;
        done += (size_t)got;
    }
    return 1;
}

int main(void) {
    while (whole(HEADER)) {
        unsigned char answer[HEADER] = {buffer[0], buffer[1], 0, 0, 0, 0, 0, 0,
                                        buffer[8], buffer[9], buffer[10], buffer[11]};
        uint32_t data = (uint32_t)buffer[4] << 24 | (uint32_t)buffer[5] << 16 | (uint32_t)buffer[6] << 8 | buffer[7];
        if (!whole(buffer[3] + (size_t)data) || write(1, answer, HEADER) != HEADER) return 1;
    }
    return 0;
}
