// What a caller can do wrong and gets an answer to all the same, each in a process of its own.
//     wrong EXAMPLES
// takes sets from the folder of examples, prints a line for each, and fails where the answer is not what the header says. What the header says that
// no call can test, as null pointers and overlap, is not tried.
#define _DEFAULT_SOURCE
#include <stdio.h>
#include <stdlib.h>
#include <string.h>
#include <sys/mman.h>
#include <sys/wait.h>
#include <unistd.h>
#include "rsf.h"

enum { PAGE = 4096, ROOM = 2 * PAGE };

struct set {
    uint8_t file[RSF_MOST_FILE];
    size_t len;
};

static struct set p, parcel, sorting, pusher;
static uint8_t scratch[RSF_MOST_SCRATCH];

// A test is over at the first thing that is not as it should be.
static void see(int holds, const char *what)
{
    if (!holds) {
        printf("%s: NO\n", what);
        exit(1);
    }
}

static int is_past(rsf_past past, unsigned output, unsigned accepted, uint32_t sensor)
{
    return past.output == output && past.accepted == accepted && past.sensor == sensor;
}

static int is_same(rsf_scan_result a, rsf_scan_result b)
{
    return a.number == b.number && a.vector == b.vector && a.passes == b.passes && is_past(a.past, b.past.output, b.past.accepted, b.past.sensor);
}

// A scan by both functions, which have to agree.
static rsf_scan_result scan(const struct set *set, rsf_past past, uint32_t sensor, uint16_t request)
{
    rsf_prepared prepared;
    rsf_scan_result a = rsf_scan(set->file, set->len, past, sensor, request);
    rsf_prepare(set->file, set->len, &prepared);
    see(is_same(a, rsf_scan_prepared(&prepared, past, sensor, request)), "both scans agree");
    return a;
}

static rsf_past first_past(const struct set *set)
{
    rsf_start_result s = rsf_start(set->file, set->len, scratch, sizeof scratch);
    see(s.verdict.number == 0, "the set is accepted");
    return s.past;
}

static void past_never_set(void)
{
    rsf_past past;
    rsf_scan_result a;
    memset(&past, 0xAB, sizeof past);
    a = scan(&p, past, 0, 0);
    see(a.number == 30 && a.vector == 0 && is_past(a.past, 0xABAB, 1, 0xABABABAB), "30, and the past comes back");
}

static void past_of_another_file(void)
{
    rsf_past past = scan(&parcel, first_past(&parcel), 0, 2).past;
    see(scan(&p, past, 0, 3).number == 0, "past words in width: a right scan");
    past = scan(&parcel, first_past(&parcel), 0, 8).past;
    see(past.output == 8 && scan(&p, past, 0, 3).number == 30, "past words too wide: 30");
}

// Output 2 of the parcel hall, sent in the last scan, keeps output 1 off in the next one. A past that is not handed on loses that.
static void past_not_handed_on(void)
{
    rsf_past past = first_past(&parcel);
    rsf_scan_result a = scan(&parcel, past, 0, 4);
    see(a.vector == 4 && scan(&parcel, a.past, 0, 2).vector == 0, "handed on: output 1 is held off");
    see(scan(&parcel, past, 0, 2).vector == 2, "not handed on: a right scan of the first past");
}

static void mark_of_any_byte(void)
{
    rsf_past one = {0, 1, 0}, other = {0, 1, 0};
    unsigned byte;
    for (byte = 1; byte < 256; byte++) {
        other.accepted = (uint8_t)byte;
        see(is_same(scan(&pusher, one, 1, 3), scan(&pusher, other, 1, 3)), "any byte but 0 says yes");
        see(scan(&pusher, other, 1, 0x8000).past.accepted == 1, "and comes back as 1");
    }
    one.accepted = 0;
    see(scan(&pusher, other, 1, 3).vector == 2 && scan(&pusher, one, 1, 3).vector == 1, "0 says no");
}

static void words_too_wide(void)
{
    rsf_past past = first_past(&pusher);
    see(scan(&pusher, past, 8, 0).number == 31, "a bit behind the read points: 31");
    see(scan(&pusher, past, 4, 0).number == 31, "a bit at a past point: 31");
    see(scan(&pusher, past, 0x80000000, 0xFFFF).number == 31, "31 comes first");
    see(scan(&pusher, past, 0, 4).number == 32, "a bit behind the outputs: 32");
}

static void number_ignored(void)
{
    rsf_past past = first_past(&pusher);
    rsf_scan_result a = scan(&pusher, past, 4, 3);
    see(a.vector == 0 && a.passes == 0 && is_past(a.past, past.output, past.accepted, past.sensor), "vector 0, and the past as it was");
    see(is_same(scan(&pusher, a.past, 1, 3), scan(&pusher, past, 1, 3)), "the next scan is as if there had been none");
}

static void scan_without_start(void)
{
    rsf_past zeros = {0, 0, 0};
    see(is_same(scan(&parcel, zeros, 1, 15), scan(&parcel, first_past(&parcel), 1, 15)), "a right scan");
    see(rsf_start(sorting.file, sorting.len, scratch, sizeof scratch).verdict.number == 58, "the set is rejected");
    see(scan(&sorting, zeros, 176, 0).number == 33, "33 at the word that rejects it");
    see(scan(&sorting, zeros, 0, 0).number == 0, "a right scan at another");
}

static void scratch_of_many_sizes(void)
{
    uint8_t lent[24];
    size_t room, i, free;
    for (room = 0; room < sizeof lent; room++) { // the rejected sorting system has seven outputs: 16 bytes
        memset(lent, 0xA5, sizeof lent);
        see(rsf_judge(sorting.file, sorting.len, lent, room).number == (room < 16 ? 21 : 58), "21 with less than the set needs");
        free = room < 16 ? 0 : 16;
        for (i = free; i < sizeof lent; i++)
            see(lent[i] == 0xA5, "21 leaves the scratch as it was, and other verdicts what is behind");
    }
    see(is_past(rsf_start(p.file, p.len, lent, 0).past, 0, 0, 0), "a start that is refused gives zeros");
}

static void names_of_any_bytes(void)
{
    static const uint8_t belt[] = "belt";
    see(rsf_find(pusher.file, pusher.len, belt, 4).number == 0, "the name");
    see(rsf_find(pusher.file, pusher.len, belt, 5).number == 41, "the name with the zero behind it: 41");
    see(rsf_find(pusher.file, pusher.len, belt, 0).number == 40, "no byte: 40");
    see(rsf_find(pusher.file, pusher.len, pusher.file, 9).number == 40, "nine bytes: 40");
}

// The end of a page, behind which nothing may be read or written.
static uint8_t *end_of_page(void)
{
    uint8_t *pages = (uint8_t *)mmap(NULL, ROOM, PROT_READ | PROT_WRITE, MAP_PRIVATE | MAP_ANONYMOUS, -1, 0);
    see(pages != MAP_FAILED && mprotect(pages + PAGE, PAGE, PROT_NONE) == 0, "two pages");
    return pages + PAGE;
}

// A file of each length up to the whole, at the end of a page.
static void file_cut(void)
{
    uint8_t *end = end_of_page();
    rsf_past past = {0, 0, 0};
    size_t len;
    for (len = 0; len <= parcel.len; len++) {
        uint8_t *file = end - len;
        int whole = len == parcel.len;
        memcpy(file, parcel.file, len);
        see((rsf_load(file, len).number == 0) == whole, "refused where it is cut");
        see(rsf_judge(file, len, scratch, sizeof scratch).number == (whole ? 0 : 20), "the verdict: 20");
        see(rsf_scan(file, len, past, 0, 0).number == (whole ? 0 : 30), "the scan: 30");
        see(rsf_find(file, len, file, len < 8 ? len : 8).number == (whole ? 41 : 20), "finding: 20");
    }
}

// Each byte in turn has another value at the second scan: that is a scan of what the file says now.
static void file_changed(void)
{
    static struct set now;
    rsf_past past = scan(&parcel, first_past(&parcel), 0, 5).past;
    size_t at;
    unsigned step;
    for (at = 0; at < parcel.len; at++)
        for (step = 1; step < 256; step += 2) {
            rsf_scan_result a;
            now = parcel;
            now.file[at] = (uint8_t)(now.file[at] + step);
            a = scan(&now, past, 0, 2);
            see(rsf_load(now.file, now.len).number == 0 || a.number == 30, "30 where it does not load any more");
            see(a.number == 0 || is_past(a.past, past.output, past.accepted, past.sensor), "a refused scan keeps the past");
        }
}

// Bytes that no rsf_prepare gave: all the same, from a generator, and prepared ones with one byte changed.
static void prepared_of_any_bytes(void)
{
    static rsf_prepared good, set;
    rsf_past past = {0, 0, 0};
    uint32_t x = 1;
    unsigned round, k;
    rsf_prepare(parcel.file, parcel.len, &good);
    for (round = 0; round < 256; round++) {
        memset(&set, (int)round, sizeof set);
        see(rsf_scan_prepared(&set, past, 0, 0).number == 30, "all bytes the same: 30");
        for (k = 0; k < sizeof set; k++) {
            x = x * 1664525 + 1013904223;
            set.bytes[k] = (uint8_t)(x >> 24);
        }
        see(rsf_scan_prepared(&set, past, 0, 0).number == 30, "chance bytes: 30");
    }
    for (k = 0; k < sizeof set; k++)
        for (round = 1; round < 256; round += 2) {
            rsf_scan_result a;
            set = good;
            set.bytes[k] = (uint8_t)(set.bytes[k] + round);
            a = rsf_scan_prepared(&set, past, 0, 2);
            see(a.number == 0 || (30 <= a.number && a.number <= 33 && a.vector == 0), "one byte changed: an answer");
        }
}

static void prepared_at_the_end_of_a_page(void)
{
    rsf_prepared *set = (rsf_prepared *)(void *)(end_of_page() - RSF_PREPARED_BYTES);
    rsf_past past = first_past(&pusher);
    see(rsf_prepare(pusher.file, pusher.len, set).number == 0, "written");
    see(is_same(rsf_scan_prepared(set, past, 1, 3), scan(&pusher, past, 1, 3)), "scanned");
}

static const struct {
    const char *name;
    void (*test)(void);
} TESTS[] = {
    {"a past that was never set", past_never_set},
    {"a past of another file", past_of_another_file},
    {"a past that is not handed on", past_not_handed_on},
    {"a mark of any byte", mark_of_any_byte},
    {"words too wide", words_too_wide},
    {"a number ignored", number_ignored},
    {"a scan without a start, or of a rejected set", scan_without_start},
    {"scratch of many sizes", scratch_of_many_sizes},
    {"names of any bytes", names_of_any_bytes},
    {"a file cut", file_cut},
    {"a file changed between scans", file_changed},
    {"a prepared set of any bytes", prepared_of_any_bytes},
    {"a prepared set at the end of a page", prepared_at_the_end_of_a_page},
};

// The set file of that name in the folder.
static void read_set(struct set *set, const char *folder, const char *name)
{
    char path[4096];
    FILE *in;
    snprintf(path, sizeof path, "%s/%s.set", folder, name);
    in = fopen(path, "rb");
    see(in != NULL, path);
    set->len = fread(set->file, 1, sizeof set->file, in);
    fclose(in);
}

// Whether the test ends well, in a process of its own.
static int is_well(unsigned k)
{
    int status;
    pid_t child;
    fflush(stdout);
    child = fork();
    if (child == 0) {
        TESTS[k].test();
        exit(0);
    }
    if (child < 0 || waitpid(child, &status, 0) != child)
        return 0;
    if (WIFSIGNALED(status))
        printf("%s: signal %d\n", TESTS[k].name, WTERMSIG(status));
    return WIFEXITED(status) && WEXITSTATUS(status) == 0;
}

int main(int argc, char **argv)
{
    unsigned k, well = 0, all = sizeof TESTS / sizeof TESTS[0];
    see(argc == 2, "one argument, the folder of examples");
    read_set(&p, argv[1], "p");
    read_set(&parcel, argv[1], "parcel-hall");
    read_set(&sorting, argv[1], "sorting");
    read_set(&pusher, argv[1], "pusher");
    for (k = 0; k < all; k++) {
        int holds = is_well(k);
        printf("%s: %s\n", TESTS[k].name, holds ? "as the header says" : "NOT as the header says");
        well += holds != 0;
    }
    return well != all;
}
