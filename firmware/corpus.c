// The corpus of crates/cases, on standard input, through the library. It prints the lines of crates/cases/stdout that the library can give: LOAD,
// LOADED, FIND, SCRATCH, the start's verdict and SCANS of files (kind F), STATE (S), NAMES (N), JUDGES and STARTS (B, there without the outputs of
// the started set, which the library does not hand out). Each scan is done by rsf_scan and by rsf_scan_prepared.
// What else the header says is tested on the way; where it does not hold a line COMPLAINT is printed.
#include <inttypes.h>
#include <string.h>
#include "cases.h"
#include "rsf.h"

#if defined(__STDC_VERSION__) && __STDC_VERSION__ >= 201112L
#define AT(type, field, bytes) _Static_assert(offsetof(type, field) == bytes, #type "." #field)
AT(rsf_past, output, 0);
AT(rsf_past, accepted, 2);
AT(rsf_past, sensor, 4);
AT(rsf_load_result, number, 0);
AT(rsf_load_result, r, 1);
AT(rsf_load_result, n, 2);
AT(rsf_load_result, m, 3);
AT(rsf_load_result, offset, 8);
AT(rsf_verdict, number, 0);
AT(rsf_verdict, output, 1);
AT(rsf_verdict, request, 2);
AT(rsf_verdict, word, 4);
AT(rsf_start_result, verdict, 0);
AT(rsf_start_result, past, 8);
AT(rsf_scan_result, number, 0);
AT(rsf_scan_result, vector, 2);
AT(rsf_scan_result, passes, 4);
AT(rsf_scan_result, past, 8);
AT(rsf_find_result, number, 0);
AT(rsf_find_result, output, 1);
AT(rsf_find_result, point, 8);
AT(rsf_prepared, bytes, 0);
_Static_assert(sizeof(rsf_past) == 8 && sizeof(rsf_load_result) == 16 && sizeof(rsf_verdict) == 8, "sizes");
_Static_assert(sizeof(rsf_start_result) == 16 && sizeof(rsf_scan_result) == 16 && sizeof(rsf_find_result) == 16, "sizes");
_Static_assert(sizeof(rsf_prepared) == RSF_PREPARED_BYTES && RSF_PREPARED_BYTES == 1837, "sizes");
#endif

enum { FILL = 0xA5, BEHIND = 16, MOST_SIZE = 40000, MOST_OUTPUTS = 12 };

static struct corpus_case c;
static uint8_t copy[MOST_RECORD], arena[MOST_SIZE + BEHIND];
static rsf_prepared prepared;
static unsigned long cases, answered, scans, complaints;
static size_t longest, most_scratch;

static void complain(const char *what)
{
    printf("COMPLAINT case %lu: %s\n", cases, what);
    complaints++;
}

static void see(int holds, const char *what)
{
    if (!holds)
        complain(what);
}

static int is_all(const uint8_t *bytes, size_t len, uint8_t value)
{
    size_t i = 0;
    while (i < len && bytes[i] == value)
        i++;
    return i == len;
}

static int is_same_past(rsf_past a, rsf_past b)
{
    return a.output == b.output && a.accepted == b.accepted && a.sensor == b.sensor;
}

static int is_same_verdict(rsf_verdict a, rsf_verdict b)
{
    return a.number == b.number && a.output == b.output && a.request == b.request && a.word == b.word;
}

// ---- scans

// One scan, by rsf_scan and by rsf_scan_prepared.
static rsf_scan_result scan(rsf_past past, uint32_t sensor, uint16_t request)
{
    rsf_scan_result a = rsf_scan(c.file, c.len, past, sensor, request);
    rsf_scan_result b = rsf_scan_prepared(&prepared, past, sensor, request);
    rsf_past next = {a.vector, 1, sensor};
    scans++;
    see(a.number == b.number && a.vector == b.vector && a.passes == b.passes && is_same_past(a.past, b.past), "rsf_scan and rsf_scan_prepared differ");
    if (a.number != 0) {
        next = past;
        next.accepted = past.accepted != 0;
        see(a.vector == 0 && a.passes == 0, "a refused scan has a vector or passes");
    }
    see(is_same_past(a.past, next), "a scan's past is neither its own nor, where it is refused, the one before");
    return a;
}

// The scans of a words record, each with the past that the one before gave; and the last past.
static void print_scans(rsf_past past, const uint8_t *calls, size_t count)
{
    for (; count >= SCAN_BYTES; calls += SCAN_BYTES, count -= SCAN_BYTES) {
        rsf_scan_result a = scan(past, four_of(calls), two_of(calls + 4));
        if (a.number != 0)
            printf(" !%u", a.number);
        else
            printf(" %u/%u", a.vector, a.passes);
        past = a.past;
    }
    printf(" = %" PRIu32 " %u %u\n", past.sensor, past.output, past.accepted != 0);
}

// Kind S: the past at the front of the record, then scans. The mark is handed over as it is, any byte.
static void print_state(void)
{
    rsf_past past = {0, 0, 0};
    printf("STATE");
    if (c.count >= STATE_BYTES) {
        past.sensor = four_of(c.more);
        past.output = two_of(c.more + 4);
        past.accepted = c.more[6];
        print_scans(past, c.more + STATE_BYTES, c.count - STATE_BYTES);
    } else {
        see(c.count == 0, "a state is cut off");
        print_scans(past, c.more, 0);
    }
}

// ---- names

static void print_found(const uint8_t *name, size_t len)
{
    rsf_find_result f = rsf_find(c.file, c.len, name, len);
    if (f.number != 0) {
        printf(" !%u", f.number);
        see(f.output == 0 && f.point == 0, "a name that is not found has a point");
    } else {
        printf(" %c%zu", f.output != 0 ? 'O' : 'R', f.point);
        see(f.output <= 1, "output is neither 0 nor 1");
    }
}

// Kind N: each name of the record.
static void print_names(void)
{
    size_t at = 0;
    printf("NAMES");
    while (at < c.count && c.more[at] < c.count - at) {
        print_found(c.more + at + 1, c.more[at]);
        at += 1 + (size_t)c.more[at];
    }
    printf("\n");
}

// The names of a file that loads, read off its fields: r + n of them behind the counts. The rest word stands behind them, if there is one.
static uint16_t print_own_names(rsf_load_result l)
{
    size_t at = 5, k;
    printf("FIND");
    for (k = 0; k < (size_t)l.r + l.n; k++) {
        size_t body = two_of(c.file + at + 1), skip = k < l.r ? 2 : 0;
        print_found(c.file + at + 3 + skip, body - skip);
        at += 3 + body;
    }
    printf("\n");
    return c.file[at] == 6 ? two_of(c.file + at + 3) : 0;
}

// ---- the verdict and the start, with scratch of many sizes

static size_t scratch_bytes(size_t n)
{
    return n < 3 ? 1 : ((size_t)1 << n) / 8;
}

// The sum of the arena of a call with so much scratch, without the bytes that are free afterwards.
static uint32_t sum_behind(size_t room, size_t n, uint8_t number)
{
    size_t i = number == 21 ? 0 : scratch_bytes(n);
    uint32_t sum = 0;
    for (; i < room + BEHIND; i++)
        sum = (uint32_t)(((uint64_t)sum * 31 + arena[i]) % 4294967291u);
    return sum;
}

static void print_verdict(rsf_verdict v, uint32_t sum)
{
    int worded = v.number == 22 || v.number == 23 || v.number == 58;
    printf(" %u", v.number);
    if (worded)
        printf("/%" PRIu32, v.word);
    if (v.number == 23)
        printf("/%u", v.request);
    if (v.number == 58)
        printf("/%u", v.output);
    printf(":%" PRIu32, sum);
    see((worded || v.word == 0) && (v.number == 23 || v.request == 0) && (v.number == 58 || v.output == 0), "a verdict has a value too many");
}

static rsf_verdict judge_with(size_t room)
{
    memset(arena, FILL, room + BEHIND);
    return rsf_judge(c.file, c.len, arena, room);
}

static rsf_start_result start_with(size_t room)
{
    rsf_start_result s;
    memset(arena, FILL, room + BEHIND);
    s = rsf_start(c.file, c.len, arena, room);
    see(s.verdict.number == 0 || (s.past.output == 0 && s.past.sensor == 0), "a refused start has a past");
    see(s.past.sensor == 0 && s.past.accepted == 0, "a start's past has a sensor word or the mark");
    return s;
}

// The size at a place of a sizes record.
static size_t size_at(size_t i)
{
    size_t room = two_of(c.more + i);
    see(room <= MOST_SIZE, "a size is larger than the arena");
    return room <= MOST_SIZE ? room : 0;
}

// Kind B: the verdict and the start with each size of the record.
static void print_buffers(size_t n)
{
    size_t i;
    printf("JUDGES");
    for (i = 0; i + 2 <= c.count; i += 2) {
        size_t room = size_at(i);
        rsf_verdict v = judge_with(room);
        print_verdict(v, sum_behind(room, n, v.number));
    }
    printf("\nSTARTS");
    for (i = 0; i + 2 <= c.count; i += 2) {
        size_t room = size_at(i);
        rsf_start_result s = start_with(room);
        print_verdict(s.verdict, sum_behind(room, n, s.verdict.number));
        printf("=%u", s.past.accepted);
    }
    printf("\n");
}

// The verdict with just the scratch that the set needs, and with one byte less.
static rsf_verdict print_scratch(size_t n)
{
    size_t need = scratch_bytes(n);
    rsf_verdict v = judge_with(need), less;
    printf("SCRATCH %zu", need);
    print_verdict(v, sum_behind(need, n, v.number));
    less = judge_with(need - 1);
    print_verdict(less, sum_behind(need - 1, n, less.number));
    printf("\n");
    if (need > most_scratch)
        most_scratch = need;
    return v;
}

// ---- files

// Kind F, of a file that loads.
static void print_file(rsf_load_result l)
{
    uint16_t rest;
    rsf_verdict v;
    rsf_start_result s;
    printf("LOADED %u %u %u\n", l.r, l.n, l.m);
    rest = print_own_names(l);
    v = print_scratch(l.n);
    s = start_with(scratch_bytes(l.n));
    see(is_same_verdict(v, s.verdict), "rsf_judge and rsf_start differ");
    if (s.verdict.number == 0) {
        see(s.past.output == rest, "a start's past is not the rest word");
        printf("ACCEPT\nSCANS");
        print_scans(s.past, c.more, c.count);
    } else if (v.number == 22)
        printf("NOVECTOR %" PRIu32 "\n", v.word);
    else if (v.number == 58)
        printf("CLASH %" PRIu32 " %u\n", v.word, v.output);
    else if (v.number == 23)
        printf("NOEND %" PRIu32 " %u\n", v.word, v.request);
    else
        printf("START %u\n", v.number);
}

// A file that does not load is refused by every function, with nothing written but the prepared set.
static void see_refused(rsf_load_result l)
{
    rsf_past past = {1, 1, 1};
    rsf_find_result f = rsf_find(c.file, c.len, (const uint8_t *)"7", 1);
    see(l.r == 0 && l.n == 0 && l.m == 0, "a file that does not load has counts");
    see(judge_with(RSF_MOST_SCRATCH).number == 20 && is_all(arena, RSF_MOST_SCRATCH + BEHIND, FILL), "rsf_judge of a file that does not load");
    see(start_with(RSF_MOST_SCRATCH).verdict.number == 20 && is_all(arena, RSF_MOST_SCRATCH + BEHIND, FILL), "rsf_start of a file that does not load");
    see(scan(past, 0, 0).number == 30, "a scan of a file that does not load");
    see(f.number == 20 && f.output == 0 && f.point == 0, "rsf_find in a file that does not load");
    see(is_all(prepared.bytes, RSF_PREPARED_BYTES, 0), "what rsf_prepare makes of a file that does not load");
}

// Prepares the set over two contents: it has to write every byte, none behind them, and to answer as rsf_load does.
static void prepare(rsf_load_result l)
{
    static struct { rsf_prepared set; uint8_t behind[BEHIND]; } lent;
    rsf_load_result p;
    memset(&prepared, 0, sizeof prepared);
    rsf_prepare(c.file, c.len, &prepared);
    memset(&lent, FILL, sizeof lent);
    p = rsf_prepare(c.file, c.len, &lent.set);
    see(p.number == l.number && p.r == l.r && p.n == l.n && p.m == l.m && p.offset == l.offset, "rsf_load and rsf_prepare differ");
    see(memcmp(&lent.set, &prepared, sizeof prepared) == 0, "rsf_prepare leaves a byte as it was");
    see(is_all(lent.behind, BEHIND, FILL), "rsf_prepare writes behind its bytes");
}

static void print_case(void)
{
    rsf_load_result l = rsf_load(c.file, c.len);
    answered++;
    memcpy(copy, c.file, c.len);
    prepare(l);
    if (l.number != 0) {
        printf("LOAD %u %zu\n", l.number, l.offset);
        see_refused(l);
    } else {
        see(l.offset == 0, "a file that loads has an offset");
        if (c.len > longest)
            longest = c.len;
        switch (c.kind) {
        case 'F': print_file(l); break;
        case 'S': print_state(); break;
        case 'N': print_names(); break;
        default: print_buffers(l.n);
        }
    }
    see(memcmp(copy, c.file, c.len) == 0, "a call changed the file");
}

int main(void)
{
    while (read_case(&c)) {
        cases++;
        if (c.kind != 'R')
            print_case();
    }
    see(longest == RSF_MOST_FILE, "RSF_MOST_FILE is not the length of the longest file that loads");
    see(most_scratch == RSF_MOST_SCRATCH, "RSF_MOST_SCRATCH is not the most scratch that a set needs");
    see(scratch_bytes(MOST_OUTPUTS) == RSF_MOST_SCRATCH, "RSF_MOST_SCRATCH is not for twelve outputs");
    fprintf(stderr, "%lu of %lu cases, %lu scans by both functions, %lu complaints\n", answered, cases, scans, complaints);
    return complaints != 0;
}
