// A process that only computes, for served.py: how much more two of them get done at once is what the machine gives to
// two processes that share nothing.
#include <stdint.h>
#include <stdio.h>

int main(void) {
    uint64_t a = 1, b = 2, c = 3;
    for (uint64_t at = 0; at < 300000000; at++) {
        a = a * 3 + at;
        b ^= b << 3 ^ at;
        c += c >> 2 ^ a;
    }
    return printf("%c", (int)((a ^ b ^ c) & 1) + '0') != 1;
}
