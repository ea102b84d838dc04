// The filter in plain C, to measure the proved code against: the same algorithm, with structs by pointer. Nothing of it is proved; it is no part
// of the product. It reads what crates/timed reads on standard input and prints the same line: a checksum of the answers.
#include <stdbool.h>
#include <stddef.h>
#include <stdint.h>
#include <stdio.h>
#include <string.h>

enum { MOST_READS = 20, MOST_OUTPUTS = 12, MOST_POINTS = 24, MOST_CONSTRAINTS = 64, NAME_PLACES = 8 };
enum { MOST_FILE = 8192, MOST_SCRATCH = 512, PLACES = 251, LANES = 16, WORDS = 8, TRAIL = 1024, SIGN_BITS = 32 };
enum kind { SENSOR, PAST_OUTPUT, PAST_SENSOR };

struct read_point {
    uint8_t kind, index;
    uint8_t name[NAME_PLACES];
};

struct output_point {
    uint8_t name[NAME_PLACES];
};

// Masks of the points named plain and negated, bit k being point k, and the rank of each output named.
struct constraint {
    uint32_t read_plain, read_negated;
    uint16_t out_plain, out_negated;
    uint8_t ranks[MOST_OUTPUTS];
};

struct set {
    size_t r, n, m;
    struct read_point reads[MOST_READS];
    struct output_point outputs[MOST_OUTPUTS];
    struct constraint constraints[MOST_CONSTRAINTS];
    uint16_t rest; // the outputs that count as on before the first scan
};

struct state {
    struct set set;
    uint16_t past_output;
    uint32_t past_sensor;
    bool accepted; // a scan was accepted since the start
};

// At one read word: the holds, the most passes of a walk and, of each combined constraint whose read literals are true, the outputs named plain,
// all the outputs named, and those that yield.
struct table {
    uint16_t f0, f1, limit;
    size_t count;
    uint16_t plain[MOST_CONSTRAINTS], named[MOST_CONSTRAINTS], flip[MOST_CONSTRAINTS];
};

// ---- names

static bool is_name_byte(uint8_t b)
{
    return 0x21 <= b && b <= 0x7E;
}

static bool is_same_name(const uint8_t *a, const uint8_t *b)
{
    for (size_t k = 0; k < NAME_PLACES; k++)
        if (a[k] != b[k])
            return false;
    return true;
}

// Whether the places hold 1 to 8 name bytes and then zeros.
static bool is_name(const uint8_t *name)
{
    size_t k = 0;
    while (k < NAME_PLACES && name[k] != 0) {
        if (!is_name_byte(name[k]))
            return false;
        k++;
    }
    if (k == 0)
        return false;
    for (; k < NAME_PLACES; k++)
        if (name[k] != 0)
            return false;
    return true;
}

static size_t name_length(const uint8_t *name)
{
    size_t k = 0;
    while (k < NAME_PLACES && name[k] != 0)
        k++;
    return k;
}

static bool is_zero(const uint8_t *bytes, size_t len)
{
    for (size_t k = 0; k < len; k++)
        if (bytes[k] != 0)
            return false;
    return true;
}

// Whether one of the first i read points or of the first j outputs has the name.
static bool is_used(const struct set *s, size_t i, size_t j, const uint8_t *name)
{
    for (size_t k = 0; k < i; k++)
        if (is_same_name(s->reads[k].name, name))
            return true;
    for (size_t k = 0; k < j; k++)
        if (is_same_name(s->outputs[k].name, name))
            return true;
    return false;
}

// ---- when a set is well formed

static bool is_kind_ok(const struct set *s, size_t k)
{
    const struct read_point *p = &s->reads[k];
    switch (p->kind) {
    case SENSOR:
        return p->index == 0;
    case PAST_OUTPUT:
        return p->index < s->n;
    case PAST_SENSOR:
        return p->index < k && s->reads[p->index].kind == SENSOR;
    }
    return false;
}

static bool are_points_ok(const struct set *s)
{
    for (size_t k = 0; k < s->r; k++)
        if (!is_kind_ok(s, k) || !is_name(s->reads[k].name) || is_used(s, k, 0, s->reads[k].name))
            return false;
    for (size_t k = s->r; k < MOST_READS; k++)
        if (s->reads[k].kind != SENSOR || s->reads[k].index != 0 || !is_zero(s->reads[k].name, NAME_PLACES))
            return false;
    for (size_t j = 0; j < s->n; j++)
        if (!is_name(s->outputs[j].name) || is_used(s, s->r, j, s->outputs[j].name))
            return false;
    for (size_t j = s->n; j < MOST_OUTPUTS; j++)
        if (!is_zero(s->outputs[j].name, NAME_PLACES))
            return false;
    return true;
}

// Whether the masks name r read points and n outputs at most, no point both ways, and an output; ranks stand only at outputs that are named.
static bool is_constraint_ok(const struct set *s, const struct constraint *c)
{
    uint16_t named = c->out_plain | c->out_negated;
    if ((c->read_plain | c->read_negated) >> s->r != 0 || (c->read_plain & c->read_negated) != 0)
        return false;
    if (named >> s->n != 0 || (c->out_plain & c->out_negated) != 0 || named == 0)
        return false;
    for (size_t k = 0; k < MOST_OUTPUTS; k++)
        if ((named >> k & 1) == 0 && c->ranks[k] != 0)
            return false;
    return true;
}

static bool is_constraint_zero(const struct constraint *c)
{
    return c->read_plain == 0 && c->read_negated == 0 && c->out_plain == 0 && c->out_negated == 0 && is_zero(c->ranks, MOST_OUTPUTS);
}

static bool is_well_formed(const struct set *s)
{
    if (s->r > MOST_READS || s->n < 1 || s->n > MOST_OUTPUTS || s->r + s->n > MOST_POINTS || s->m > MOST_CONSTRAINTS)
        return false;
    if (!are_points_ok(s))
        return false;
    for (size_t i = 0; i < s->m; i++)
        if (!is_constraint_ok(s, &s->constraints[i]))
            return false;
    for (size_t i = s->m; i < MOST_CONSTRAINTS; i++)
        if (!is_constraint_zero(&s->constraints[i]))
            return false;
    return s->rest >> s->n == 0;
}

// ---- a read word's active constraints, and their table

// The literals of the constraints, one array for each kind, and which constraints are simple.
struct literals {
    uint32_t read_plain[MOST_CONSTRAINTS], read_named[MOST_CONSTRAINTS];
    uint16_t out_plain[MOST_CONSTRAINTS], out_negated[MOST_CONSTRAINTS];
    uint64_t simple;
};

static void make_literals(const struct set *s, struct literals *l)
{
    l->simple = 0;
    for (size_t i = 0; i < s->m; i++) {
        const struct constraint *c = &s->constraints[i];
        l->read_plain[i] = c->read_plain;
        l->read_named[i] = c->read_plain | c->read_negated;
        l->out_plain[i] = c->out_plain;
        l->out_negated[i] = c->out_negated;
        l->simple |= (uint64_t)(__builtin_popcount(c->out_plain | c->out_negated) == 1) << i;
    }
}

// Of the constraints those whose literals of read points 0 to 2 are all true at w, bit i telling of constraint i, and those whose other read literals are. A
// constraint is active where both are, and the others are the same at eight words in a row.
static uint64_t low_active(const struct literals *l, size_t m, uint32_t w)
{
    uint64_t active = 0;
    for (size_t i = 0; i < m; i++)
        active |= (uint64_t)((w % WORDS & l->read_named[i] % WORDS) == l->read_plain[i] % WORDS) << i;
    return active;
}

static uint64_t high_active(const struct literals *l, size_t m, uint32_t w)
{
    uint64_t active = 0;
    for (size_t i = 0; i < m; i++)
        active |= (uint64_t)((w / WORDS & l->read_named[i] / WORDS) == l->read_plain[i] / WORDS) << i;
    return active;
}

static void make_lows(const struct literals *l, size_t m, uint64_t *lows)
{
    for (uint32_t j = 0; j < WORDS; j++)
        lows[j] = low_active(l, m, j);
}

// The outputs of `own` of the lowest rank among them.
static uint16_t yielding(const struct constraint *c, uint16_t own, size_t n)
{
    uint16_t low = 256, out = 0;
    for (size_t k = 0; k < n; k++)
        if ((own >> k & 1) != 0 && c->ranks[k] < low)
            low = c->ranks[k];
    for (size_t k = 0; k < n; k++)
        if ((own >> k & 1) != 0 && c->ranks[k] == low)
            out |= (uint16_t)(1u << k);
    return out;
}

// The table where the constraints of the mask are active. The two loops over its entries have no branch, so that a compiler makes vector instructions of
// them, and no rest: the entries are filled up to a multiple of sixteen with such that are never true.
static void build(const struct set *s, const struct literals *l, uint64_t active, struct table *t)
{
    uint64_t holding = active & l->simple;
    t->f0 = t->f1 = 0;
    for (size_t i = 0; i < s->m; i++) {
        bool held = (holding >> i & 1) != 0;
        t->f0 |= held ? l->out_plain[i] : 0;
        t->f1 |= held ? l->out_negated[i] : 0;
    }
    uint16_t unheld = (uint16_t)(((1u << s->n) - 1) & ~(unsigned)(t->f0 | t->f1));
    t->limit = (uint16_t)((1u << __builtin_popcount(unheld)) - 1);
    t->count = 0;
    for (size_t i = 0; i < s->m; i++) {
        const struct constraint *c = &s->constraints[i];
        uint16_t named = c->out_plain | c->out_negated;
        if (((active ^ holding) >> i & 1) != 0) {
            t->plain[t->count] = c->out_plain;
            t->named[t->count] = named;
            t->flip[t->count] = yielding(c, named & unheld, s->n);
            t->count++;
        }
    }
    for (; t->count % LANES != 0; t->count++) {
        t->plain[t->count] = 1;
        t->named[t->count] = t->flip[t->count] = 0;
    }
}

// Of such a table what judging a vector needs: nothing is held, every constraint of the mask has an entry, simple or not, and what yields is left out.
static void enter(const struct literals *l, size_t m, uint64_t active, struct table *t)
{
    t->f0 = t->f1 = 0;
    t->count = 0;
    for (size_t i = 0; i < m; i++)
        if ((active >> i & 1) != 0) {
            t->plain[t->count] = l->out_plain[i];
            t->named[t->count] = l->out_plain[i] | l->out_negated[i];
            t->count++;
        }
    for (; t->count % LANES != 0; t->count++) {
        t->plain[t->count] = 1;
        t->named[t->count] = 0;
    }
}

static bool are_reads_true(const struct constraint *c, uint32_t w)
{
    return (w & c->read_plain) == c->read_plain && (w & c->read_negated) == 0;
}

// The same at one read word, straight from the set and not filled up: a scan needs one table.
static void build_at(const struct set *s, uint32_t w, struct table *t)
{
    t->f0 = t->f1 = 0;
    for (size_t i = 0; i < s->m; i++) {
        const struct constraint *c = &s->constraints[i];
        if (__builtin_popcount(c->out_plain | c->out_negated) == 1 && are_reads_true(c, w)) {
            t->f0 |= c->out_plain;
            t->f1 |= c->out_negated;
        }
    }
    uint16_t unheld = (uint16_t)(((1u << s->n) - 1) & ~(unsigned)(t->f0 | t->f1));
    t->limit = (uint16_t)((1u << __builtin_popcount(unheld)) - 1);
    t->count = 0;
    for (size_t i = 0; i < s->m; i++) {
        const struct constraint *c = &s->constraints[i];
        uint16_t named = c->out_plain | c->out_negated;
        if (__builtin_popcount(named) > 1 && are_reads_true(c, w)) {
            t->plain[t->count] = c->out_plain;
            t->named[t->count] = named;
            t->flip[t->count] = yielding(c, named & unheld, s->n);
            t->count++;
        }
    }
}

static uint16_t start_vector(const struct table *t, uint16_t request)
{
    return (uint16_t)((request & ~t->f0) | t->f1);
}

static uint16_t pass(const struct table *t, uint16_t v)
{
    uint16_t flips = 0;
    for (size_t i = 0; i < t->count; i++) {
        uint16_t flip = t->flip[i];
        flips |= (v & t->named[i]) == t->plain[i] ? flip : 0;
    }
    return v ^ flips;
}

static bool is_safe(const struct table *t, uint16_t v)
{
    if ((v & t->f1) != t->f1 || (v & t->f0) != 0)
        return false;
    uint16_t hits = 0;
    for (size_t i = 0; i < t->count; i++)
        hits |= (v & t->named[i]) == t->plain[i] ? 1 : 0;
    return hits == 0;
}

// ---- the verdict

// The bytes of scratch, a bit for each vector.
static size_t scratch_bytes(size_t n)
{
    return n < 3 ? 1 : (size_t)1 << (n - 3);
}

struct verdict {
    unsigned number; // 0: accepted; else the refusal
    uint32_t word;
    uint16_t last; // the request of 23, the output of 58
};

// Eight vectors that differ in their outputs 0 to 2 alone are judged at once: of each entry the outputs from 3 on, and the byte of the vectors at which its
// literals of outputs 0 to 2 are true; of the holds likewise.
struct eight {
    uint16_t held, f0, f1;
    uint16_t plain[MOST_CONSTRAINTS], named[MOST_CONSTRAINTS], low[MOST_CONSTRAINTS];
};

static uint16_t low_true(uint16_t plain, uint16_t named)
{
    uint16_t low = 0;
    for (unsigned j = 0; j < 8; j++)
        low |= (j & named) == (plain & 7u) ? (uint16_t)(1u << j) : 0;
    return low;
}

static void make_eight(const struct table *t, struct eight *e, size_t n)
{
    uint16_t there = n < 3 ? (uint16_t)((1u << (1u << n)) - 1) : 255;
    e->held = low_true(t->f1, t->f1) & low_true(0, t->f0) & there;
    e->f0 = t->f0 / 8;
    e->f1 = t->f1 / 8;
    for (size_t i = 0; i < t->count; i++) {
        e->plain[i] = t->plain[i] / 8;
        e->named[i] = t->named[i] / 8;
        e->low[i] = low_true(t->plain[i], t->named[i]);
    }
}

// Which of the vectors 8 b to 8 b + 7 are safe.
static uint8_t safe_byte(const struct eight *e, size_t count, uint16_t b)
{
    if ((b & e->f1) != e->f1 || (b & e->f0) != 0)
        return 0;
    uint16_t hits = 0;
    for (size_t i = 0; i < count; i++) {
        uint16_t low = e->low[i];
        hits |= (b & e->named[i]) == e->plain[i] ? low : 0;
    }
    return (uint8_t)(e->held & ~hits);
}

// Marks the safe vectors and no others; whether there is one.
static bool mark_safe(const struct table *t, uint8_t *marks, size_t n, size_t bytes)
{
    struct eight e;
    make_eight(t, &e, n);
    uint8_t any = 0;
    for (size_t b = 0; b < bytes; b++) {
        uint8_t safe = safe_byte(&e, t->count, (uint16_t)b);
        marks[b] = safe;
        any |= safe;
    }
    return any != 0;
}

static bool is_marked(const uint8_t *marks, uint16_t v)
{
    return (marks[v / 8] >> v % 8 & 1) != 0;
}

static void put_mark(uint8_t *marks, uint16_t v)
{
    marks[v / 8] |= (uint8_t)(1u << v % 8);
}

// Marks the path of so many vectors from `from`: the last of them are in the trail, and those before are gone over again.
static void mark_path(const struct table *t, uint16_t from, unsigned made, const uint16_t *trail, uint8_t *marks)
{
    unsigned lost = made < TRAIL ? 0 : made - TRAIL;
    uint16_t v = from;
    for (unsigned k = 0; k < lost; k++) {
        put_mark(marks, v);
        if (k + 1 < lost)
            v = pass(t, v);
    }
    for (unsigned k = lost; k < made; k++)
        put_mark(marks, trail[k % TRAIL]);
}

// Whether the walk from `from` comes to a mark within the limit; its path is then marked, at once where one pass leads to a mark.
static bool settle(const struct table *t, uint16_t from, uint8_t *marks, uint16_t *trail)
{
    if (is_marked(marks, from))
        return true;
    if (t->limit != 0 && is_marked(marks, pass(t, from))) {
        put_mark(marks, from);
        return true;
    }
    uint16_t v = from;
    unsigned made = 0;
    for (; !is_marked(marks, v); made++) {
        trail[made % TRAIL] = v;
        if (made == t->limit)
            return false;
        v = pass(t, v);
    }
    mark_path(t, from, made, trail, marks);
    return true;
}

// The place of a mask among the masks that are kept.
static size_t place_of(uint64_t active)
{
    return active % PLACES;
}

// Whether one of the vectors of n outputs is safe: vector 0, or another.
static bool is_any_safe(const struct table *t, size_t n)
{
    if (is_safe(t, 0))
        return true;
    struct eight e;
    make_eight(t, &e, n);
    for (size_t b = 0; b < scratch_bytes(n); b++)
        if (safe_byte(&e, t->count, (uint16_t)b) != 0)
            return true;
    return false;
}

// The first word from w on without a safe vector, or 2^r. The masks kept are of words that have one.
static uint32_t first_without(const struct set *s, const struct literals *l, uint32_t w, uint64_t *seen)
{
    uint64_t lows[WORDS];
    make_lows(l, s->m, lows);
    uint64_t high = high_active(l, s->m, w);
    for (; w < (uint32_t)1 << s->r; w++) {
        if (w % WORDS == 0)
            high = high_active(l, s->m, w);
        uint64_t active = high & lows[w % WORDS];
        if (seen[place_of(active)] == active)
            continue;
        struct table t;
        enter(l, s->m, active, &t);
        if (!is_any_safe(&t, s->n))
            return w;
        seen[place_of(active)] = active;
    }
    return w;
}

// The rejection by a word without a safe vector: 58 with the lowest output that is forced both ways there, if there is one, and else 22.
static struct verdict none_at(const struct set *s, uint32_t w)
{
    struct table t;
    build_at(s, w, &t);
    unsigned both = t.f0 & t.f1;
    return both == 0 ? (struct verdict){ 22, w, 0 } : (struct verdict){ 58, w, (uint16_t)__builtin_ctz(both) };
}

// The first word that fails, and how.
static struct verdict first_failing(const struct set *s, const struct literals *l, uint64_t *seen, uint8_t *scratch)
{
    size_t vectors = (size_t)1 << s->n, bytes = scratch_bytes(s->n);
    uint64_t lows[WORDS], high = 0;
    uint16_t trail[TRAIL];
    make_lows(l, s->m, lows);
    for (uint32_t w = 0; w < (uint32_t)1 << s->r; w++) {
        if (w % WORDS == 0)
            high = high_active(l, s->m, w);
        uint64_t active = high & lows[w % WORDS];
        if (seen[place_of(active)] == active)
            continue;
        struct table t;
        build(s, l, active, &t);
        if ((t.f0 & t.f1) != 0 || !mark_safe(&t, scratch, s->n, bytes))
            return none_at(s, w);
        for (size_t g = 0; g < vectors; g++)
            if (!settle(&t, start_vector(&t, (uint16_t)g), scratch, trail))
                return (struct verdict){ 23, w, (uint16_t)g };
        seen[place_of(active)] = active;
    }
    return (struct verdict){ 0, 0, 0 };
}

static struct verdict judge(const struct set *s, uint8_t *scratch, size_t len)
{
    if (!is_well_formed(s))
        return (struct verdict){ 20, 0, 0 };
    if (len < scratch_bytes(s->n))
        return (struct verdict){ 21, 0, 0 };
    struct literals l;
    make_literals(s, &l);
    uint64_t seen[PLACES] = { 0 };
    struct verdict found = first_failing(s, &l, seen, scratch);
    if (found.number != 23)
        return found;
    uint32_t without = first_without(s, &l, found.word + 1, seen);
    return without < (uint32_t)1 << s->r ? none_at(s, without) : found;
}

// The state of an accepted set, and a state of zeros of any other.
static struct verdict start(const struct set *s, uint8_t *scratch, size_t len, struct state *st)
{
    struct verdict v = judge(s, scratch, len);
    memset(st, 0, sizeof *st);
    if (v.number == 0) {
        st->set = *s;
        st->past_output = s->rest;
    }
    return v;
}

// ---- the scan

struct sent {
    unsigned number; // 0: sent; else the refusal
    uint16_t vector, passes;
};

static bool is_sensor_word(const struct set *s, uint32_t sensor)
{
    uint32_t past = 0;
    for (size_t k = 0; k < s->r; k++)
        if (s->reads[k].kind != SENSOR)
            past |= (uint32_t)1 << k;
    return sensor >> s->r == 0 && (sensor & past) == 0;
}

// Until a scan is accepted a past sensor reads as the sensor does now.
static uint32_t read_word(const struct state *st, uint32_t sensor)
{
    uint32_t past_sensor = st->accepted ? st->past_sensor : sensor;
    uint32_t w = 0;
    for (size_t k = 0; k < st->set.r; k++) {
        const struct read_point *p = &st->set.reads[k];
        uint32_t bit = p->kind == SENSOR ? sensor >> k : p->kind == PAST_OUTPUT ? (uint32_t)st->past_output >> p->index : past_sensor >> p->index;
        w |= (bit & 1) << k;
    }
    return w;
}

static struct sent scan(struct state *st, uint32_t sensor, uint16_t request)
{
    const struct set *s = &st->set;
    if (!is_well_formed(s) || st->past_output >> s->n != 0 || st->past_sensor >> s->r != 0)
        return (struct sent){ 30, 0, 0 };
    if (!is_sensor_word(s, sensor))
        return (struct sent){ 31, 0, 0 };
    if (request >> s->n != 0)
        return (struct sent){ 32, 0, 0 };
    struct table t;
    build_at(s, read_word(st, sensor), &t);
    if ((t.f0 & t.f1) != 0)
        return (struct sent){ 33, 0, 0 };
    uint16_t v = start_vector(&t, request), made = 0;
    while (!is_safe(&t, v)) {
        if (made == t.limit)
            return (struct sent){ 33, 0, 0 };
        v = pass(&t, v);
        made++;
    }
    st->past_output = v;
    st->past_sensor = sensor;
    st->accepted = true;
    return (struct sent){ 0, v, made };
}

// ---- loading

// TAG_WIDE is that of a constraint that names a read point above 15, TAG_CONSTRAINT that of every other.
enum tag { TAG_COUNTS = 1, TAG_READ, TAG_OUTPUT, TAG_CONSTRAINT, TAG_END, TAG_REST, TAG_WIDE, TAGS };

// By tag: the shortest body, the longest body, and what a body's length is a multiple of.
static const uint8_t lengths[TAGS][3] = { { 0, 0, 1 }, { 2, 2, 1 }, { 3, 10, 1 }, { 1, 8, 1 }, { 2, 48, 2 }, { 0, 0, 1 }, { 2, 2, 1 }, { 3, 72, 3 } };

struct field {
    uint8_t tag;
    size_t len;
    const uint8_t *body;
};

static bool is_constraint(uint8_t tag)
{
    return tag == TAG_CONSTRAINT || tag == TAG_WIDE;
}

static bool is_due(uint8_t due, uint8_t tag)
{
    return tag == due || (due == TAG_CONSTRAINT && (tag == TAG_END || tag == TAG_WIDE));
}

// Refusals 1 to 4, or 0 and the field at `at`.
static unsigned take_field(const uint8_t *file, size_t len, size_t at, uint8_t due, size_t m, struct field *f)
{
    if (len - at < 3)
        return 1;
    f->tag = file[at];
    f->len = (size_t)file[at + 1] * 256 + file[at + 2];
    f->body = file + at + 3;
    if (len - at - 3 < f->len)
        return 1;
    if (!is_due(due, f->tag))
        return 2;
    if (is_constraint(f->tag) && m == MOST_CONSTRAINTS)
        return 3;
    if (f->len < lengths[f->tag][0] || f->len > lengths[f->tag][1] || f->len % lengths[f->tag][2] != 0)
        return 4;
    return 0;
}

// The name at its eight places; refusal 7 or 0.
static unsigned load_name(uint8_t *name, const uint8_t *bytes, size_t len)
{
    for (size_t k = 0; k < len; k++) {
        if (!is_name_byte(bytes[k]))
            return 7;
        name[k] = bytes[k];
    }
    return 0;
}

static unsigned load_counts(struct set *s, const struct field *f)
{
    s->r = f->body[0];
    s->n = f->body[1];
    return s->r > MOST_READS || s->n < 1 || s->n > MOST_OUTPUTS || s->r + s->n > MOST_POINTS ? 5 : 0;
}

static unsigned load_read(struct set *s, size_t i, const struct field *f)
{
    struct read_point *p = &s->reads[i];
    p->kind = f->body[0];
    p->index = f->body[1];
    if (!is_kind_ok(s, i))
        return 6;
    if (load_name(p->name, f->body + 2, f->len - 2) != 0)
        return 7;
    return is_used(s, i, 0, p->name) ? 8 : 0;
}

static unsigned load_output(struct set *s, size_t j, const struct field *f)
{
    struct output_point *p = &s->outputs[j];
    if (load_name(p->name, f->body, f->len) != 0)
        return 7;
    return is_used(s, s->r, j, p->name) ? 8 : 0;
}

// A literal as its bytes say it; clear: the bits that have to be zero are.
struct said {
    bool clear, out, negated;
    uint8_t number, rank;
};

// The literal at place i of a body: two bytes, or three with TAG_WIDE.
static struct said said_at(const uint8_t *body, size_t i, uint8_t tag)
{
    uint8_t first = body[i];
    bool out = (first & 0x40) != 0, negated = (first & 0x80) != 0;
    if (tag == TAG_WIDE)
        return (struct said){ (first & 0x3F) == 0, out, negated, body[i + 1], body[i + 2] };
    return (struct said){ (first & 0x30) == 0, out, negated, first & 0x0F, body[i + 1] };
}

static bool is_literal(const struct set *s, struct said l)
{
    if (!l.clear)
        return false;
    if (l.out)
        return l.number < s->n;
    return l.rank == 0 && l.number < s->r;
}

// The masks of a word of literals: a bit for the place of each plain one, and SIGN_BITS above it for that of each negated one.
static void put_masks(struct constraint *c, uint64_t word)
{
    uint32_t plain = (uint32_t)word, negated = (uint32_t)(word >> SIGN_BITS);
    c->read_plain = plain % (1u << MOST_READS);
    c->read_negated = negated % (1u << MOST_READS);
    c->out_plain = (uint16_t)(plain >> MOST_READS);
    c->out_negated = (uint16_t)(negated >> MOST_READS);
}

// Whether the constraint names a read point above 15.
static bool names_high(const struct constraint *c)
{
    return (c->read_plain | c->read_negated) >> 16 != 0;
}

static unsigned load_constraint(struct set *s, const struct field *f)
{
    struct constraint *c = &s->constraints[s->m];
    uint64_t word = 0;
    size_t next = 0, step = lengths[f->tag][2];
    for (size_t i = 0; i < f->len; i += step) {
        struct said l = said_at(f->body, i, f->tag);
        if (!is_literal(s, l))
            return 9;
        size_t place = l.number + (l.out ? (size_t)MOST_READS : 0);
        if (place < next)
            return 10;
        word |= (uint64_t)1 << (place + (size_t)l.negated * SIGN_BITS);
        next = place + 1;
        if (l.out)
            c->ranks[l.number] = l.rank;
    }
    put_masks(c, word);
    s->m++;
    if (f->tag == TAG_WIDE && !names_high(c))
        return 59;
    return next <= MOST_READS ? 11 : 0;
}

static unsigned load_rest(struct set *s, const struct field *f)
{
    s->rest = (uint16_t)(f->body[0] * 256 + f->body[1]);
    return s->rest == 0 || s->rest >> s->n != 0 ? 54 : 0;
}

// Fields in their order; a refusal's number, with the offset of the field, or 0.
static unsigned load_fields(const uint8_t *file, size_t len, struct set *s, size_t *at)
{
    struct field f;
    unsigned refusal = take_field(file, len, *at, TAG_COUNTS, 0, &f);
    if (refusal != 0 || (refusal = load_counts(s, &f)) != 0)
        return refusal;
    *at += 3 + f.len;
    for (size_t i = 0; i < s->r; i++, *at += 3 + f.len) {
        refusal = take_field(file, len, *at, TAG_READ, 0, &f);
        if (refusal != 0 || (refusal = load_read(s, i, &f)) != 0)
            return refusal;
    }
    for (size_t j = 0; j < s->n; j++, *at += 3 + f.len) {
        refusal = take_field(file, len, *at, TAG_OUTPUT, 0, &f);
        if (refusal != 0 || (refusal = load_output(s, j, &f)) != 0)
            return refusal;
    }
    if (*at < len && file[*at] == TAG_REST) {
        refusal = take_field(file, len, *at, TAG_REST, 0, &f);
        if (refusal != 0 || (refusal = load_rest(s, &f)) != 0)
            return refusal;
        *at += 3 + f.len;
    }
    for (;; *at += 3 + f.len) {
        refusal = take_field(file, len, *at, TAG_CONSTRAINT, s->m, &f);
        if (refusal != 0)
            return refusal;
        if (f.tag == TAG_END)
            break;
        if ((refusal = load_constraint(s, &f)) != 0)
            return refusal;
    }
    *at += 3;
    return *at < len ? 12 : 0;
}

// A refused file leaves a set of zeros.
static unsigned load(const uint8_t *file, size_t len, struct set *s, size_t *offset)
{
    *offset = 0;
    memset(s, 0, sizeof *s);
    unsigned refusal = load_fields(file, len, s, offset);
    if (refusal != 0)
        memset(s, 0, sizeof *s);
    return refusal;
}

// ---- writing

static size_t file_length(const struct set *s)
{
    size_t len = 8;
    for (size_t k = 0; k < s->r; k++)
        len += 5 + name_length(s->reads[k].name);
    for (size_t j = 0; j < s->n; j++)
        len += 3 + name_length(s->outputs[j].name);
    if (s->rest != 0)
        len += 5;
    for (size_t i = 0; i < s->m; i++) {
        const struct constraint *c = &s->constraints[i];
        size_t literals = (size_t)(__builtin_popcount(c->read_plain | c->read_negated) + __builtin_popcount(c->out_plain | c->out_negated));
        len += 3 + literals * (names_high(c) ? 3 : 2);
    }
    return len;
}

// The header of a field whose body ends before `end`.
static void put_header(uint8_t *field, uint8_t tag, const uint8_t *end)
{
    size_t len = (size_t)(end - field) - 3;
    field[0] = tag;
    field[1] = (uint8_t)(len >> 8);
    field[2] = (uint8_t)len;
}

static uint8_t *put_name(uint8_t *to, const uint8_t *name)
{
    for (size_t k = 0; k < NAME_PLACES && name[k] != 0; k++)
        *to++ = name[k];
    return to;
}

// The literals of the points that are named, numbered from `base` on; the rank is 0 where there are no ranks. The number of a wide one is a byte of its own.
static uint8_t *put_literals(uint8_t *to, bool wide, uint8_t base, uint32_t negated, uint32_t named, const uint8_t *ranks)
{
    for (; named != 0; named &= named - 1) {
        unsigned k = (unsigned)__builtin_ctz(named);
        *to++ = (uint8_t)((negated >> k & 1) << 7 | base | (wide ? 0 : k));
        if (wide)
            *to++ = (uint8_t)k;
        *to++ = ranks == NULL ? 0 : ranks[k];
    }
    return to;
}

static void put_file(const struct set *s, uint8_t *buf)
{
    uint8_t *field = buf, *end = buf + 3;
    *end++ = (uint8_t)s->r;
    *end++ = (uint8_t)s->n;
    put_header(field, TAG_COUNTS, end);
    for (size_t k = 0; k < s->r; k++) {
        field = end;
        field[3] = s->reads[k].kind;
        field[4] = s->reads[k].index;
        end = put_name(field + 5, s->reads[k].name);
        put_header(field, TAG_READ, end);
    }
    for (size_t j = 0; j < s->n; j++) {
        field = end;
        end = put_name(field + 3, s->outputs[j].name);
        put_header(field, TAG_OUTPUT, end);
    }
    if (s->rest != 0) {
        field = end;
        field[3] = (uint8_t)(s->rest >> 8);
        field[4] = (uint8_t)s->rest;
        end = field + 5;
        put_header(field, TAG_REST, end);
    }
    for (size_t i = 0; i < s->m; i++) {
        field = end;
        const struct constraint *c = &s->constraints[i];
        bool wide = names_high(c);
        end = put_literals(field + 3, wide, 0, c->read_negated, c->read_plain | c->read_negated, NULL);
        end = put_literals(end, wide, 0x40, c->out_negated, c->out_plain | c->out_negated, c->ranks);
        put_header(field, wide ? TAG_WIDE : TAG_CONSTRAINT, end);
    }
    put_header(end, TAG_END, end + 3);
}

static unsigned write_set(const struct set *s, uint8_t *buf, size_t len)
{
    if (!is_well_formed(s))
        return 20;
    if (len < file_length(s))
        return 24;
    put_file(s, buf);
    return 0;
}

// ---- the text of a set

// A place in a buffer: what has no place there is not stored, and is counted.
struct place {
    uint8_t *buf;
    size_t len, at;
};

static void text_byte(struct place *p, uint8_t b)
{
    if (p->at < p->len)
        p->buf[p->at] = b;
    p->at++;
}

static void text_bytes(struct place *p, const char *bytes)
{
    for (; *bytes != 0; bytes++)
        text_byte(p, (uint8_t)*bytes);
}

// A space and a name.
static void text_name(struct place *p, const uint8_t *name)
{
    text_byte(p, ' ');
    for (size_t k = 0; k < NAME_PLACES && name[k] != 0; k++)
        text_byte(p, name[k]);
}

static void text_rank(struct place *p, uint8_t rank)
{
    text_bytes(p, " rank ");
    if (rank >= 100)
        text_byte(p, (uint8_t)('0' + rank / 100));
    if (rank >= 10)
        text_byte(p, (uint8_t)('0' + rank / 10 % 10));
    text_byte(p, (uint8_t)('0' + rank % 10));
}

static void text_literal(struct place *p, bool *others, const uint8_t *name, bool plain)
{
    if (*others)
        text_bytes(p, " and");
    *others = true;
    text_name(p, name);
    text_bytes(p, plain ? " on" : " off");
}

static void text_constraint(struct place *p, const struct set *s, const struct constraint *c)
{
    bool others = false;
    bool several = __builtin_popcount(c->out_plain | c->out_negated) > 1;
    text_bytes(p, "never");
    for (size_t k = 0; k < MOST_READS; k++)
        if ((c->read_plain | c->read_negated) >> k & 1)
            text_literal(p, &others, s->reads[k].name, c->read_plain >> k & 1);
    for (size_t k = 0; k < MOST_OUTPUTS; k++)
        if ((c->out_plain | c->out_negated) >> k & 1) {
            text_literal(p, &others, s->outputs[k].name, c->out_plain >> k & 1);
            if (several || c->ranks[k] != 0)
                text_rank(p, c->ranks[k]);
        }
    text_byte(p, '\n');
}

static void text_read(struct place *p, const struct set *s, size_t k)
{
    const uint8_t kind = s->reads[k].kind, index = s->reads[k].index;
    text_bytes(p, kind == 0 ? "sensor" : "past");
    text_name(p, s->reads[k].name);
    if (kind != 0) {
        text_bytes(p, " of");
        text_name(p, kind == 1 ? s->outputs[index].name : s->reads[index].name);
    }
    text_byte(p, '\n');
}

static size_t text_lines(const struct set *s, uint8_t *buf, size_t len)
{
    struct place p = { buf, len, 0 };
    for (size_t j = 0; j < s->n; j++) {
        text_bytes(&p, "output");
        text_name(&p, s->outputs[j].name);
        text_byte(&p, '\n');
    }
    for (size_t k = 0; k < s->r; k++)
        text_read(&p, s, k);
    for (size_t j = 0; j < MOST_OUTPUTS; j++)
        if (s->rest >> j & 1) {
            text_bytes(&p, "rest");
            text_name(&p, s->outputs[j].name);
            text_byte(&p, '\n');
        }
    for (size_t i = 0; i < s->m; i++)
        text_constraint(&p, s, &s->constraints[i]);
    text_bytes(&p, "end\n");
    return p.at;
}

// Measured first, as the proved code does.
static unsigned put_text(const struct set *s, uint8_t *buf, size_t len)
{
    uint8_t none[1];
    if (!is_well_formed(s))
        return 20;
    if (len < text_lines(s, none, sizeof none))
        return 24;
    text_lines(s, buf, len);
    return 0;
}

// ---- the program

// Where a checksum begins: not at 0, which answers of 0 would leave as it is however many they are.
enum { SUM_BEGIN = 1 };

static uint32_t mix(uint32_t sum, uint32_t x)
{
    return (uint32_t)(((uint64_t)sum * 31 + x) % 4294967291u);
}

static uint32_t two(const uint8_t *b)
{
    return (uint32_t)b[0] << 8 | b[1];
}

static uint32_t four(const uint8_t *b)
{
    return two(b) << 16 | two(b + 2);
}

static uint32_t judge_often(const struct set *s, uint32_t times)
{
    static uint8_t scratch[MOST_SCRATCH];
    uint32_t sum = SUM_BEGIN;
    for (; times > 0; times--) {
        struct verdict v = judge(s, scratch, sizeof scratch);
        sum = mix(sum, v.number);
        if (v.number == 22 || v.number == 23 || v.number == 58)
            sum = mix(sum, v.word);
        if (v.number == 23 || v.number == 58)
            sum = mix(sum, v.last);
    }
    return sum;
}

static uint32_t scan_often(const struct set *s, uint32_t times)
{
    static uint8_t scratch[MOST_SCRATCH], head[2], calls[65536 * 6];
    static struct state st;
    uint32_t sum = SUM_BEGIN;
    size_t got = fread(head, 1, 2, stdin);
    size_t count = two(head);
    got += fread(calls, 6, count, stdin);
    if (got != 2 + count || count * 6 > 4096)
        return 0;
    start(s, scratch, sizeof scratch, &st);
    for (; times > 0; times--)
        for (size_t i = 0; i < count; i++) {
            struct sent a = scan(&st, four(calls + 6 * i), (uint16_t)two(calls + 6 * i + 4));
            sum = a.number == 0 ? mix(mix(sum, a.vector), a.passes) : mix(sum, a.number);
        }
    return sum;
}

static uint32_t load_often(const uint8_t *file, size_t len, uint32_t times)
{
    static struct set s;
    size_t offset;
    uint32_t sum = SUM_BEGIN;
    for (; times > 0; times--) {
        unsigned refusal = load(file, len, &s, &offset);
        if (refusal != 0) {
            sum = mix(sum, refusal);
            continue;
        }
        size_t k = times % 12;
        const struct constraint *c = &s.constraints[times % 64];
        sum = mix(mix(sum, c->read_plain), c->read_negated);
        sum = mix(mix(mix(sum, c->out_plain), c->out_negated), s.rest);
        uint8_t places[4] = { s.reads[k].name[0], s.reads[k].name[7], s.outputs[k].name[0], c->ranks[k] };
        sum = mix(sum, four(places));
    }
    return sum;
}

static uint32_t write_often(const struct set *s, uint32_t times)
{
    static uint8_t buf[MOST_FILE];
    uint32_t sum = SUM_BEGIN;
    for (; times > 0; times--) {
        sum = mix(sum, write_set(s, buf, sizeof buf));
        sum = mix(sum, buf[times % MOST_FILE]);
    }
    return sum;
}

static uint32_t text_often(const struct set *s, uint32_t times)
{
    static uint8_t buf[65536];
    uint32_t sum = SUM_BEGIN;
    for (; times > 0; times--) {
        sum = mix(sum, put_text(s, buf, sizeof buf));
        sum = mix(sum, buf[times % 4096]);
    }
    return sum;
}

int main(void)
{
    static uint8_t head[7], file[65536];
    static struct set s;
    size_t offset;
    if (fread(head, 1, sizeof head, stdin) != sizeof head)
        return 1;
    uint32_t times = four(head + 1), sum = 0;
    size_t len = two(head + 5);
    if (fread(file, 1, len, stdin) != len || len > MOST_FILE)
        return 1;
    load(file, len, &s, &offset);
    if (head[0] == 1)
        sum = judge_often(&s, times);
    else if (head[0] == 2)
        sum = scan_often(&s, times);
    else if (head[0] == 3)
        sum = load_often(file, len, times);
    else if (head[0] == 4)
        sum = write_often(&s, times);
    else if (head[0] == 5)
        sum = text_often(&s, times);
    printf("%lu\n", (unsigned long)sum);
    return 0;
}
