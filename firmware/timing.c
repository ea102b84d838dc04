// Does scans over and over through the library and prints a checksum of the answers, for firmware/speed.
//     timing file|prepared < INPUT
// The input is the one that crates/timed takes for scans (bench/run): a byte for the operation, a four-byte count of times, a two-byte length and the
// file, a two-byte count and the scans of six bytes each. The checksum is that program's too.
#include <stdio.h>
#include <stdlib.h>
#include <string.h>
#include "rsf.h"

enum { MOST_CALLS = 682, SCAN_BYTES = 6 };

static uint8_t file[65536], calls[MOST_CALLS * SCAN_BYTES], scratch[RSF_MOST_SCRATCH];
static uint32_t sensors[MOST_CALLS];
static uint16_t requests[MOST_CALLS];
static rsf_prepared prepared;

static uint32_t mix(uint32_t sum, uint32_t x)
{
    return (uint32_t)(((uint64_t)sum * 31 + x) % 4294967291u);
}

static uint32_t mix_scan(uint32_t sum, rsf_scan_result s)
{
    return s.number != 0 ? mix(sum, s.number) : mix(mix(sum, s.vector), s.passes);
}

static uint32_t number(const uint8_t *bytes, size_t len)
{
    uint32_t x = 0;
    while (len-- > 0)
        x = x << 8 | *bytes++;
    return x;
}

static void fill(uint8_t *into, size_t len)
{
    if (fread(into, 1, len, stdin) != len) {
        fprintf(stderr, "the input is cut off\n");
        exit(2);
    }
}

static uint32_t scan_file(rsf_past past, size_t len, uint32_t times, size_t count)
{
    uint32_t sum = 1;
    for (; times > 0; times--)
        for (size_t i = 0; i < count; i++) {
            rsf_scan_result s = rsf_scan(file, len, past, sensors[i], requests[i]);
            past = s.past;
            sum = mix_scan(sum, s);
        }
    return sum;
}

static uint32_t scan_prepared(rsf_past past, uint32_t times, size_t count)
{
    uint32_t sum = 1;
    for (; times > 0; times--)
        for (size_t i = 0; i < count; i++) {
            rsf_scan_result s = rsf_scan_prepared(&prepared, past, sensors[i], requests[i]);
            past = s.past;
            sum = mix_scan(sum, s);
        }
    return sum;
}

int main(int argc, char **argv)
{
    uint8_t head[7];
    fill(head, 7);
    uint32_t times = number(head + 1, 4);
    size_t len = number(head + 5, 2);
    fill(file, len);
    fill(head, 2);
    size_t count = number(head, 2);
    if (argc != 2 || count > MOST_CALLS)
        return 2;
    fill(calls, count * SCAN_BYTES);
    for (size_t i = 0; i < count; i++) {
        sensors[i] = number(calls + i * SCAN_BYTES, 4);
        requests[i] = (uint16_t)number(calls + i * SCAN_BYTES + 4, 2);
    }
    rsf_past past = rsf_start(file, len, scratch, sizeof scratch).past;
    rsf_prepare(file, len, &prepared);
    uint32_t sum = strcmp(argv[1], "file") == 0 ? scan_file(past, len, times, count) : scan_prepared(past, times, count);
    printf("%lu\n", (unsigned long)sum);
    return 0;
}
