// How deep the stack gets below a caller of the library. Each function runs on a painted stack of its own.
//     stack FILE.. < CORPUS
// prints a row for each set file and one for the deepest calls over all files of the corpus, and fails where a call goes deeper than RSF_STACK.
#define _XOPEN_SOURCE 700
#include <string.h>
#include <ucontext.h>
#include "cases.h"
#include "rsf.h"

enum { FUNCTIONS = 8, WORDS = 8192 };
static const uint64_t PAINT = 0xA5A5A5A5A5A5A5A5;
static const char *const NAMES[FUNCTIONS] = {"", "load", "judge", "start", "scan", "find", "prepare", "prepared"};

static uint64_t area[WORDS]; // the painted stack: 64 KB
static ucontext_t home, there;
static struct corpus_case c;
static uint8_t scratch[RSF_MOST_SCRATCH];
static rsf_prepared prepared;
static rsf_past past;
static int which;
static volatile unsigned sink;

// The call that is measured; with 0 none, to know what the measuring takes.
static void call(void)
{
    switch (which) {
    case 1: sink = rsf_load(c.file, c.len).number; break;
    case 2: sink = rsf_judge(c.file, c.len, scratch, sizeof scratch).number; break;
    case 3: sink = rsf_start(c.file, c.len, scratch, sizeof scratch).verdict.number; break;
    case 4: sink = rsf_scan(c.file, c.len, past, 0, 1).number; break;
    case 5: sink = rsf_find(c.file, c.len, (const uint8_t *)"belt", 4).number; break;
    case 6: sink = rsf_prepare(c.file, c.len, &prepared).number; break;
    case 7: sink = rsf_scan_prepared(&prepared, past, 0, 1).number; break;
    default: sink = 0;
    }
}

// The bytes of stack that the call wrote to, from its deepest one up.
static size_t depth_of(int function)
{
    size_t i = 0;
    which = function;
    memset(area, 0xA5, sizeof area);
    getcontext(&there);
    there.uc_stack.ss_sp = area;
    there.uc_stack.ss_size = sizeof area;
    there.uc_link = &home;
    makecontext(&there, call, 0);
    swapcontext(&home, &there);
    while (i < WORDS && area[i] == PAINT)
        i++;
    return sizeof area - i * sizeof area[0];
}

// Makes each depth the larger of what it was and of what the file's calls take; the depth without a call is taken off. The first call of a function
// may go through the dynamic linker, which is not the library's stack: so there is one before it counts.
static void deepen(size_t deepest[FUNCTIONS])
{
    size_t base = depth_of(0);
    int f;
    past = rsf_start(c.file, c.len, scratch, sizeof scratch).past;
    rsf_prepare(c.file, c.len, &prepared);
    for (f = 1; f < FUNCTIONS; f++) {
        size_t depth = depth_of(f) - base;
        if (depth > deepest[f])
            deepest[f] = depth;
    }
}

// A row of the table; whether each depth is within the limit.
static int print_row(const char *name, const size_t deepest[FUNCTIONS])
{
    int f, within = 1;
    printf("%-18s", name);
    for (f = 1; f < FUNCTIONS; f++) {
        printf("%9zu", deepest[f]);
        within = within && deepest[f] <= RSF_STACK;
    }
    printf("\n");
    return within;
}

static int print_file(const char *path)
{
    const char *name = strrchr(path, '/') ? strrchr(path, '/') + 1 : path;
    size_t deepest[FUNCTIONS] = {0};
    FILE *in = fopen(path, "rb");
    if (!in) {
        fprintf(stderr, "cannot read %s\n", path);
        exit(2);
    }
    c.len = fread(c.file, 1, sizeof c.file, in);
    fclose(in);
    deepen(deepest);
    return print_row(name, deepest);
}

int main(int argc, char **argv)
{
    size_t deepest[FUNCTIONS] = {0};
    int f, within = 1;
    for (f = 0; f < FUNCTIONS; f++)
        depth_of(f);
    printf("%-18s", "bytes of stack");
    for (f = 1; f < FUNCTIONS; f++)
        printf("%9s", NAMES[f]);
    printf("\n");
    for (f = 1; f < argc; f++)
        within = print_file(argv[f]) && within;
    while (read_case(&c))
        if (c.kind != 'R')
            deepen(deepest);
    within = print_row("the corpus", deepest) && within;
    if (!within)
        fprintf(stderr, "a call goes deeper than RSF_STACK, %d bytes\n", RSF_STACK);
    return !within;
}
