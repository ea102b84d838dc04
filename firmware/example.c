// A controller in small. example SET [sensor request].. [name]: loads the set file, starts, scans with these words, and finds the point.
#include <stdio.h>
#include <stdlib.h>
#include <string.h>
#include "rsf.h"

static uint8_t file[RSF_MOST_FILE + 1], scratch[RSF_MOST_SCRATCH]; // a byte more than any set has: a longer file is refused, not cut

// At power-up: whether the controller may run. Where it may not it sends nothing, and the outputs stay at what the site calls off.
static int start(size_t len, rsf_past *past)
{
    rsf_load_result l = rsf_load(file, len);
    rsf_start_result s = rsf_start(file, len, scratch, sizeof scratch);
    rsf_verdict v = s.verdict; // 20 where the file does not load
    *past = s.past;
    if (l.number != 0)
        printf("do not run: the file is refused, %u at byte %zu\n", l.number, l.offset);
    else if (v.number != 0)
        printf("do not run: the set is refused, %u; read word %lu, output %u, request %u\n", v.number, (unsigned long)v.word, v.output, v.request);
    return v.number == 0;
}

// In each scan of the PLC: the past for the next one. A refused scan has no vector, and what the actuators get then is decided by the controller's
// maker: the last vector was safe for its own scan's sensors. Here nothing new is sent, so that the last vector stays, and there is an alarm.
// Where time counts: rsf_prepare(file, len, &set) once, in place of rsf_load, and rsf_scan_prepared(&set, past, sensor, request) here.
static rsf_past turn(size_t len, rsf_past past, uint32_t sensor, uint16_t request)
{
    rsf_scan_result s = rsf_scan(file, len, past, sensor, request);
    if (s.number == 0)
        printf("send %u after %u passes\n", s.vector, s.passes);
    else
        printf("alarm: the scan is refused, %u; nothing is sent\n", s.number);
    return s.past; // also where the scan was refused
}

int main(int argc, char **argv)
{
    FILE *in = argc > 1 ? fopen(argv[1], "rb") : NULL;
    size_t len = in ? fread(file, 1, sizeof file, in) : 0; // no file is a file of no bytes, and is refused
    rsf_past past;
    int i = 2;
    if (in) fclose(in);
    if (!start(len, &past))
        return 1;
    for (; i + 1 < argc; i += 2) {
        unsigned long sensor = strtoul(argv[i], NULL, 0), request = strtoul(argv[i + 1], NULL, 0);
        if (sensor > UINT32_MAX || request > UINT16_MAX)
            return 2;
        past = turn(len, past, (uint32_t)sensor, (uint16_t)request);
    }
    if (i < argc) {
        rsf_find_result f = rsf_find(file, len, (const uint8_t *)argv[i], strlen(argv[i])); // a name is its bytes, without the zero behind them
        if (f.number == 0)
            printf("%s is %s %zu\n", argv[i], f.output != 0 ? "output" : "read point", f.point);
        else
            printf("%s is refused, %u\n", argv[i], f.number);
    }
    return 0;
}
