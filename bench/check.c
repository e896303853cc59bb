// A plain C loop that makes the tests of a log's check, for bench/run to time beside ours.
//   check make COUNT    writes a log of COUNT entries
//   check TIMES         checks the log on standard input so many times
#include <stdint.h>
#include <stdio.h>
#include <stdlib.h>
#include <string.h>

static uint32_t u16(const uint8_t *p) { return p[0] | p[1] << 8; }
static uint32_t u32(const uint8_t *p) { return u16(p) | u16(p + 2) << 16; }

static int make(uint32_t count) {
    const uint32_t cycles = 4000000000u;
    uint8_t head[16] = {1, 0, 16, 0};
    memcpy(head + 4, &count, 4);
    head[8] = 16;
    memcpy(head + 12, &cycles, 4);
    fwrite(head, 1, 16, stdout);
    for (uint32_t i = 0; i < count; i++) {
        uint32_t due = i * 3999;
        uint8_t entry[8] = {0, 0, 0, 0, 0, 4, (uint8_t)i, 0};
        memcpy(entry, &due, 4);
        fwrite(entry, 1, 8, stdout);
    }
    return 0;
}

// 0 and the count, or the refusal's number and the index
static uint32_t check(const uint8_t *b, size_t size, uint32_t *value) {
    *value = 0;
    if (size < 16) return 3;
    if (u16(b) != 1) return 4;
    if (u16(b + 2) != 16 || u32(b + 8) != 16) return 5;
    uint32_t count = u32(b + 4), cycles = u32(b + 12), before = 0;
    if (count > 1000000) return 6;
    if (size != 16 + 8 * (size_t)count) return 7;
    for (uint32_t i = 0; i < count; i++) {
        const uint8_t *e = b + 16 + 8 * (size_t)i;
        uint32_t due = u32(e);
        if (e[7] != 0 || due >= cycles || due < before) {
            *value = i;
            return 8;
        }
        before = due;
    }
    *value = count;
    return 0;
}

int main(int argc, char **argv) {
    if (argc > 2 && strcmp(argv[1], "make") == 0) return make(atoi(argv[2]));
    if (argc != 2) return 2;
    const uint32_t times = atoi(argv[1]);
    uint8_t *b = malloc(8000016);
    size_t size = fread(b, 1, 8000016, stdin);
    uint32_t sum = 0, value, number;
    for (uint32_t i = 1; i < times; i++) {
        if (size > 1) b[size - 2] = (uint8_t)i;
        number = check(b, size, &value);
        sum += number ? number : value;
    }
    number = check(b, size, &value);
    if (number) printf("refused %u %u\n", number, value);
    else printf("entries %u cycles %u\n", value, u32(b + 12));
    printf("sum %u\n", sum);
    return 0;
}
