// The recorder's adds in plain C, for bench/run to time beside ours: the same refusals in the same order, the record by value.
//   add ROUNDS    fills a buffer of 1,048,576 bytes with 131,070 adds, so many times
#include <stdint.h>
#include <stdio.h>
#include <stdlib.h>

typedef struct { uint32_t entries, last; } Recorder;
typedef struct { Recorder recorder; uint32_t refused; } Turn;

static void put16(uint8_t *p, uint32_t n) { p[0] = (uint8_t)n, p[1] = (uint8_t)(n >> 8); }
static void put32(uint8_t *p, uint32_t n) { put16(p, n), put16(p + 2, n >> 16); }

static Turn start(uint8_t *b, size_t size) {
    (void)b;
    return (Turn){{0, 0}, size < 16 ? 2 : 0};
}

static Turn add(Recorder r, uint32_t cycle, uint16_t address, uint8_t byte, uint8_t *b, size_t size) {
    if (r.entries > 0 && cycle < r.last) return (Turn){r, 17};
    if (r.entries >= 1000000) return (Turn){r, 6};
    const size_t at = 16 + 8 * (size_t)r.entries;
    if (at + 8 > size) return (Turn){r, 2};
    put32(b + at, cycle);
    put16(b + at + 4, address);
    b[at + 6] = byte;
    b[at + 7] = 0;
    return (Turn){{r.entries + 1, cycle}, 0};
}

static Turn finish(Recorder r, uint32_t cycles, uint8_t *b, size_t size) {
    if (r.entries > 0 && cycles <= r.last) return (Turn){r, 18};
    if (r.entries > 1000000) return (Turn){r, 6};
    if (16 + 8 * (size_t)r.entries > size) return (Turn){r, 2};
    put32(b, 1 | 16 << 16);
    put32(b + 4, r.entries);
    put32(b + 8, 16);
    put32(b + 12, cycles);
    return (Turn){r, 0};
}

// What is written hangs on the sum so far, and so does which byte is added to it: no compiler can leave out those that are not read.
static uint32_t round_of(uint32_t sum, uint8_t *b, size_t size) {
    const uint32_t first = sum % 2147483648u;
    Recorder r = start(b, size).recorder;
    for (uint32_t i = 0; i < 131070; i++) r = add(r, first + 16000 * i, (uint16_t)(first + i), (uint8_t)i, b, size).recorder;
    sum += finish(r, UINT32_MAX, b, size).recorder.entries;
    return sum + b[sum % 1048576];
}

int main(int argc, char **argv) {
    if (argc != 2) return 2;
    const uint32_t rounds = (uint32_t)atoi(argv[1]);
    const size_t size = 1048576;
    uint8_t *b = calloc(size, 1);
    uint32_t sum = 0;
    for (uint32_t i = 0; i < rounds; i++) sum = round_of(sum, b, size);
    printf("%u\n", sum);
    return 0;
}
