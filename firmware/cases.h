// Reading a corpus (reference/README.md, "The corpus") from standard input: cases, each a byte for its kind and the records of that kind.
#ifndef CASES_H
#define CASES_H
#include <stddef.h>
#include <stdint.h>
#include <stdio.h>
#include <stdlib.h>

enum { MOST_RECORD = 65535, SCAN_BYTES = 6, STATE_BYTES = 7 };

// A case. Of kind R, a set made by hand, which the library does not take, the records are read and not kept apart.
struct corpus_case {
    int kind;
    size_t len, count;
    uint8_t file[MOST_RECORD], more[MOST_RECORD];
};

static inline uint16_t two_of(const uint8_t *b)
{
    return (uint16_t)(b[0] << 8 | b[1]);
}

static inline uint32_t four_of(const uint8_t *b)
{
    return (uint32_t)two_of(b) << 16 | two_of(b + 2);
}

// The next record, and its length.
static size_t read_record(uint8_t *into)
{
    uint8_t head[2];
    size_t len = fread(head, 1, 2, stdin) == 2 ? two_of(head) : MOST_RECORD + 1;
    if (len > MOST_RECORD || fread(into, 1, len, stdin) != len) {
        fprintf(stderr, "the input ends within a record: it is not a corpus\n");
        exit(2);
    }
    return len;
}

// The next case; whether there was one.
static int read_case(struct corpus_case *c)
{
    c->kind = getchar();
    if (c->kind == EOF)
        return 0;
    c->len = read_record(c->file);
    c->count = read_record(c->more);
    if (c->kind == 'R')
        read_record(c->more);
    else if (c->kind != 'F' && c->kind != 'S' && c->kind != 'N' && c->kind != 'B') {
        fprintf(stderr, "no kind of case is %d: it is not a corpus\n", c->kind);
        exit(2);
    }
    return 1;
}
#endif
