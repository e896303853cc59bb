// Writes a log of as many entries as wav takes, all due at cycle 0, for bench/entries to time.
//   entries none|channel|wave|held|absent
#include <stdint.h>
#include <stdio.h>
#include <string.h>

enum { MOST = 131070, CYCLES = 960 };

static void number(uint32_t n, int bytes) {
    for (; bytes > 0; bytes--, n >>= 8) putchar(n & 255);
}

static void entry(uint16_t address, uint8_t byte) {
    number(0, 4);
    number(address, 2);
    putchar(byte);
    putchar(0);
}

int main(int argc, char **argv) {
    const char *kind = argc == 2 ? argv[1] : "";
    const uint32_t count = strcmp(kind, "none") ? MOST : 0;
    number(1, 2);
    number(16, 2);
    number(count, 4);
    number(16, 4);
    number(CYCLES, 4);
    for (uint32_t i = 0; i < count; i++) {
        if (!strcmp(kind, "channel")) entry(0x404, i);
        else if (!strcmp(kind, "wave") || (!strcmp(kind, "held") && i > 0)) entry(4 * (i % 160), i % 64);
        else if (!strcmp(kind, "held")) entry(0x400, 0x80);
        else if (!strcmp(kind, "absent")) entry(0x300 + i % 256, i);
        else return 2;
    }
    return 0;
}
