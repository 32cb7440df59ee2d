/* c_check base.bin short-logs.bin: each C engine on every vector of both files, on the tables of base.bin with other buffers, among them
 * such as are too short, on tables made by hand and on rings of pairs. Each run is compared in the five numbers of the answer, the table,
 * and every word of log and scratch; for one that differs a line says what differs first, what came and what was wanted. */
#include "c_engine.h"
#include "c_flags.h"

#include <stdio.h>
#include <stdlib.h>
#include <string.h>

enum { SPARE = 7, LOG_WORDS = FLY_LOG + SPARE, SCRATCH_WORDS = FLY_SCRATCH + SPARE };

typedef fly_answer engine(const uint8_t *table, size_t table_len, uint32_t budget, uint16_t *log, size_t log_len, uint16_t *scratch,
                          size_t scratch_len);

static struct {
    const char *name;
    engine *run;
} under; /* the engine under check */

/* A run and what it must give. The lines are those of the log, as many as the answer has. */
typedef struct {
    const uint8_t *table;
    size_t len;
    uint32_t budget;
    size_t log_len, scratch_len;
    fly_answer want;
    const uint16_t *lines;
} trial;

typedef struct {
    size_t all, same;
} tally;

/* ---- one run ---- */

#define NUMBER SIZE_MAX /* the place of what is no part of an array */

/* What differs first, and its place there; what is NULL if nothing does. */
typedef struct {
    const char *what;
    size_t place;
    uint32_t came, wanted;
} difference;

static void compare(difference *d, const char *what, size_t place, uint32_t came, uint32_t wanted)
{
    if (d->what == NULL && came != wanted)
        *d = (difference){what, place, came, wanted};
}

static void compare_numbers(difference *d, fly_answer came, fly_answer wanted)
{
    compare(d, "refused", NUMBER, came.refused, wanted.refused);
    compare(d, "finished", NUMBER, came.finished, wanted.finished);
    compare(d, "lines", NUMBER, came.lines, wanted.lines);
    compare(d, "worked", NUMBER, came.worked, wanted.worked);
    compare(d, "spent", NUMBER, came.spent, wanted.spent);
}

/* The noise goes on from run to run, so that a buffer never holds what it held before. */
static void noise(uint16_t *words, size_t n)
{
    static uint32_t seed = 1;
    for (size_t i = 0; i < n; i++) {
        seed = seed * 1664525u + 1013904223u;
        words[i] = (uint16_t)(seed >> 16);
    }
}

/* Runs the engine in buffers of just the trial's lengths, over noise, with the table at an odd address. */
static difference tried(const trial *t)
{
    static uint16_t log_before[LOG_WORDS], scratch_before[SCRATCH_WORDS];
    uint8_t *room = malloc(t->len + 1), *table = room + 1;
    uint16_t *log = malloc(2 * t->log_len + 1), *scratch = malloc(2 * t->scratch_len + 1);
    memcpy(table, t->table, t->len);
    noise(log_before, t->log_len);
    noise(scratch_before, t->scratch_len);
    memcpy(log, log_before, 2 * t->log_len);
    memcpy(scratch, scratch_before, 2 * t->scratch_len);
    difference d = {NULL, 0, 0, 0};
    compare_numbers(&d, under.run(table, t->len, t->budget, log, t->log_len, scratch, t->scratch_len), t->want);
    for (size_t i = 0; i < t->len; i++)
        compare(&d, "table byte", i, table[i], t->table[i]);
    for (size_t i = 0; i < t->log_len; i++)
        compare(&d, "log word", i, log[i], i < t->want.lines ? t->lines[i] : log_before[i]);
    size_t zeros = t->want.refused ? 0 : FLY_SCRATCH;
    for (size_t i = 0; i < t->scratch_len; i++)
        compare(&d, "scratch word", i, scratch[i], i < zeros ? 0 : scratch_before[i]);
    free(scratch);
    free(log);
    free(room);
    return d;
}

/* Whether the engine gives what it must. */
static int is_same(const char *name, const trial *t)
{
    difference d = tried(t);
    if (d.what == NULL)
        return 1;
    printf("%s: %s (budget %u, log %zu, scratch %zu): %s", under.name, name, (unsigned)t->budget, t->log_len, t->scratch_len, d.what);
    if (d.place != NUMBER)
        printf(" %zu", d.place);
    printf(" came %u wanted %u\n", (unsigned)d.came, (unsigned)d.wanted);
    return 0;
}

/* The same with buffers of these lengths. */
static int is_same_in(const char *name, trial t, size_t log_len, size_t scratch_len)
{
    t.log_len = log_len;
    t.scratch_len = scratch_len;
    return is_same(name, &t);
}

static void count(tally *of, int same)
{
    of->all++;
    of->same += same ? 1 : 0;
}

/* Prints a tally; whether all were the same, and there were some. */
static int all_same(const char *what, tally of)
{
    printf("%s: %s %zu same %zu\n", under.name, what, of.all, of.same);
    return of.all > 0 && of.all == of.same;
}

/* ---- the vectors ---- */

/* A file of records, read up to at. */
typedef struct {
    const char *name;
    const uint8_t *at, *end;
    size_t record;
} reader;

static void give_up(const reader *r, const char *why)
{
    fprintf(stderr, "c_check: %s: record %zu: %s\n", r->name, r->record, why);
    exit(2);
}

static const uint8_t *bytes(reader *r, size_t n)
{
    if ((size_t)(r->end - r->at) < n)
        give_up(r, "the file ends within it");
    r->at += n;
    return r->at - n;
}

static uint16_t u16(reader *r)
{
    const uint8_t *low = bytes(r, 2);
    return (uint16_t)(low[0] | low[1] << 8);
}

static uint32_t u32(reader *r)
{
    uint32_t low = u16(r);
    return low | (uint32_t)u16(r) << 16;
}

/* As many words as the answer has lines. */
static const uint16_t *lines_of(reader *r, fly_answer a)
{
    static uint16_t lines[FLY_LOG];
    if (a.lines > FLY_LOG)
        give_up(r, "more lines than a log has");
    for (size_t i = 0; i < a.lines; i++)
        lines[i] = u16(r);
    return lines;
}

/* Reads a record of base.bin, which has no lengths of buffers; 0 at the mark that ends the file. */
static int next(reader *r, trial *t)
{
    t->len = u16(r);
    if (t->len == 0xFFFF)
        return 0;
    t->table = bytes(r, t->len);
    t->budget = u32(r);
    uint32_t answer = u16(r);
    t->want.refused = answer == 255 ? 0 : answer;
    t->want.finished = answer == 0;
    t->want.lines = u16(r);
    t->want.worked = u16(r);
    t->want.spent = u32(r);
    t->lines = lines_of(r, t->want);
    return 1;
}

/* The words of log that are enough for every run of a table: four for each atom. */
static size_t full_log(const trial *t)
{
    size_t full = t->len < 2 ? 0 : 4 * (t->table[0] | (size_t)t->table[1] << 8);
    return full < FLY_LOG ? full : FLY_LOG;
}

static size_t less_one(size_t n) { return n ? n - 1 : 0; }

/* Refusals 8 and 9 come after 1 to 7, and in this order; 9 where the run writes more lines than the log has words. */
static void try_buffers(tally *all, const char *name, const trial *vector)
{
    fly_answer a = vector->want;
    size_t full = full_log(vector);
    const size_t lengths[] = {0, less_one(a.worked), a.worked, less_one(a.lines), a.lines, a.lines + 1, less_one(full)};
    trial t = *vector;
    t.want = (fly_answer){a.refused ? a.refused : 8, 0, 0, 0, 0};
    count(all, is_same_in(name, t, full, FLY_SCRATCH - 1));
    count(all, is_same_in(name, t, 0, 0));
    for (size_t i = 0; i < sizeof lengths / sizeof *lengths; i++) {
        t.want = a.lines > lengths[i] ? (fly_answer){9, 0, 0, 0, 0} : a;
        count(all, is_same_in(name, t, lengths[i], SCRATCH_WORDS));
    }
}

static int check_vectors(reader r)
{
    tally vectors = {0, 0}, buffers = {0, 0};
    for (trial t; next(&r, &t); r.record++) {
        char name[32];
        snprintf(name, sizeof name, "vector %zu", r.record);
        size_t full = full_log(&t);
        count(&vectors, is_same_in(name, t, full, FLY_SCRATCH) && is_same_in(name, t, full + SPARE, SCRATCH_WORDS));
        try_buffers(&buffers, name, &t);
    }
    if (r.at != r.end)
        give_up(&r, "the mark that ends the file, and bytes past it");
    int same = all_same("vectors", vectors);
    return all_same("other buffers", buffers) && same;
}

/* A number in a file of fields, each of which has its count of bytes before it. */
static uint32_t number(reader *r)
{
    if (u32(r) != 4)
        give_up(r, "a number of other than four bytes");
    return u32(r);
}

/* Reads a record of short-logs.bin. */
static trial next_short(reader *r)
{
    trial t = {.len = u32(r)};
    t.table = bytes(r, t.len);
    t.budget = number(r);
    t.log_len = number(r);
    t.scratch_len = number(r);
    t.want.refused = number(r);
    t.want.finished = number(r);
    t.want.lines = number(r);
    t.want.worked = number(r);
    t.want.spent = number(r);
    if (t.log_len > LOG_WORDS || t.scratch_len > SCRATCH_WORDS || u32(r) != 2 * t.want.lines)
        give_up(r, "longer buffers than there are, or a log of other than its lines");
    t.lines = lines_of(r, t.want);
    return t;
}

static int check_short_logs(reader r)
{
    tally all = {0, 0};
    for (; r.at != r.end; r.record++) {
        char name[32];
        snprintf(name, sizeof name, "short log %zu", r.record);
        trial t = next_short(&r);
        count(&all, is_same(name, &t));
    }
    return all_same("short logs", all);
}

/* ---- tables made by hand ---- */

/* The five sizes and n words after them, cut or lengthened to len bytes (0: as it is), and the refusal that it must meet. */
typedef struct {
    const char *name;
    size_t n, len;
    uint16_t words[16];
    uint32_t refused;
} made;

static const made refusals[] = {
    {"nine bytes, all 0", 0, 9, {0, 0, 0, 0, 0}, 1},
    {"nine bytes, all 1", 0, 9, {0x101, 0x101, 0x101, 0x101, 0x101}, 1},
    {"nine bytes, 513 atoms", 0, 9, {513, 0, 0, 0, 0}, 1},
    {"513 atoms", 0, 0, {513, 0, 0, 0, 0}, 2},
    {"1,025 facts", 0, 0, {0, 1025, 0, 0, 0}, 2},
    {"1,025 rules", 0, 0, {0, 0, 1025, 0, 0}, 2},
    {"4,097 entries", 0, 0, {0, 0, 0, 4097, 0}, 2},
    {"2,049 pairs", 0, 0, {0, 0, 0, 0, 2049}, 2},
    {"every size 65,535", 0, 0, {65535, 65535, 65535, 65535, 65535}, 2},
    {"a fact that is not there", 0, 0, {1, 1, 0, 0, 0}, 3},
    {"a byte past the sizes", 0, 11, {1, 0, 0, 0, 0}, 3},
    {"a fact without its right", 1, 0, {1, 1, 0, 0, 0, 0}, 3},
    {"a word past a fact", 3, 0, {1, 1, 0, 0, 0, 0, 0, 0}, 3},
    {"a fact with left 1", 2, 0, {1, 1, 0, 0, 0, 1, 0}, 4},
    {"a rule of kind 3", 2, 0, {1, 0, 1, 0, 0, 3, 0}, 4},
    {"a strange fact, and a rule of kind 3 after it", 4, 0, {1, 1, 1, 0, 0, 0, 3, 2, 0}, 4},
    {"a fact without an atom", 2, 0, {0, 1, 0, 0, 0, 0, 0}, 5},
    {"a fact without an atom, with left 1", 2, 0, {0, 1, 0, 0, 0, 1, 0}, 4},
    {"a strange fact", 2, 0, {1, 1, 0, 0, 0, 0, 2}, 5},
    {"a strange head", 2, 0, {1, 0, 1, 0, 0, 0, 2}, 5},
    {"an entry of rule 1 of 1", 4, 0, {1, 0, 1, 1, 0, 0, 1, 0, 0}, 5},
    {"a strange antecedent", 4, 0, {1, 0, 1, 1, 0, 0, 0, 0, 2}, 5},
    {"a strange stronger rule", 4, 0, {1, 0, 1, 0, 1, 0, 1, 0, 0}, 5},
    {"a strange weaker rule", 4, 0, {1, 0, 1, 0, 1, 0, 0, 0, 1}, 5},
    {"facts that fall, and a strange head after them", 6, 0, {1, 2, 1, 0, 0, 0, 0, 0, 1, 0, 2}, 5},
    {"facts that fall", 4, 0, {1, 2, 0, 0, 0, 0, 0, 1, 0}, 6},
    {"a fact twice", 4, 0, {1, 2, 0, 0, 0, 0, 0, 1, 1}, 6},
    {"an antecedent twice", 6, 0, {1, 0, 1, 2, 0, 0, 0, 0, 0, 1, 1}, 6},
    {"entries that fall by rule", 8, 0, {1, 0, 2, 2, 0, 0, 0, 1, 0, 0, 0, 0, 0}, 6},
    {"pairs that fall, in a circle", 8, 0, {1, 0, 2, 0, 2, 0, 0, 1, 0, 0, 0, 0, 1}, 6},
    {"a pair twice", 8, 0, {1, 0, 2, 0, 2, 0, 0, 0, 0, 0, 0, 1, 1}, 6},
    {"two rules each over the other", 8, 0, {1, 0, 2, 0, 2, 0, 0, 0, 1, 0, 0, 1, 0}, 7},
    {"a rule over itself", 4, 0, {1, 0, 1, 0, 1, 0, 0, 0, 0}, 7},
};

static void put(uint8_t *out, const uint16_t *words, size_t n)
{
    for (size_t i = 0; i < n; i++) {
        out[2 * i] = (uint8_t)words[i];
        out[2 * i + 1] = (uint8_t)(words[i] >> 8);
    }
}

static int check_made(void)
{
    tally all = {0, 0};
    for (size_t i = 0; i < sizeof refusals / sizeof *refusals; i++) {
        const made *m = &refusals[i];
        uint8_t table[sizeof m->words];
        put(table, m->words, sizeof m->words / sizeof *m->words);
        trial t = {table, m->len ? m->len : 10 + 2 * m->n, 1000, 0, 0, {m->refused, 0, 0, 0, 0}, NULL};
        int same = is_same_in(m->name, t, LOG_WORDS, SCRATCH_WORDS);
        t.budget = 0;
        count(&all, is_same_in(m->name, t, 0, 0) && same);
    }
    return all_same("made by hand", all);
}

/* ---- rings ---- */

enum { RING_RULES = 1024, RING_WORDS = 5 + 4 * RING_RULES };

/* A table of n rules, each over the one that is `step` after it, or all but the one before rule 0; returns its length. */
static size_t ring(uint8_t *out, unsigned n, unsigned step, int closed)
{
    uint16_t w[RING_WORDS] = {1, 0, (uint16_t)n, 0, (uint16_t)(closed ? n : n - 1)};
    size_t t = 2 * n - !closed, k = n;
    uint16_t *left = w + 5, *right = left + t;
    for (unsigned r = 0; r < n; r++) {
        unsigned weaker = (r + step) % n;
        left[r] = 1;
        right[r] = (uint16_t)(r % 2);
        if (!closed && weaker == 0)
            continue;
        left[k] = (uint16_t)r;
        right[k++] = (uint16_t)weaker;
    }
    put(out, w, 5 + 2 * t);
    return 10 + 4 * t;
}

/* A closed ring is a circle; an open one is accepted, and a budget of 0 stops it. */
static void try_ring(tally *all, unsigned n, unsigned step, int closed)
{
    static uint8_t table[2 * RING_WORDS];
    char name[64];
    snprintf(name, sizeof name, "%s ring of %u rules by steps of %u", closed ? "closed" : "open", n, step);
    trial t = {table, ring(table, n, step, closed), closed ? 9999 : 0, LOG_WORDS, SCRATCH_WORDS, {closed ? 7 : 0, 0, 0, 0, 0}, NULL};
    count(all, is_same(name, &t));
}

static int check_rings(void)
{
    tally all = {0, 0};
    for (unsigned n = 2; n <= RING_RULES; n = n < 8 ? n + 1 : 2 * n) {
        for (unsigned step = 1; step < 6; step += 2) {
            if (step > 1 && n % step == 0) /* several rings */
                continue;
            try_ring(&all, n, step, 1);
            try_ring(&all, n, step, 0);
        }
    }
    return all_same("rings", all);
}

/* Whether the engine gives what it must everywhere. */
static int check(const char *name, engine *run, reader base, reader short_logs)
{
    under.name = name;
    under.run = run;
    int vectors = check_vectors(base), logs = check_short_logs(short_logs), by_hand = check_made(), rings = check_rings();
    return vectors && logs && by_hand && rings;
}

/* The file in this room. */
static reader opened(const char *name, uint8_t *room, size_t most)
{
    FILE *in = fopen(name, "rb");
    if (in == NULL) {
        perror(name);
        exit(2);
    }
    reader r = {name, room, room + fread(room, 1, most, in), 0};
    fclose(in);
    return r;
}

int main(int argc, char **argv)
{
    static uint8_t room[2][1 << 20];
    if (argc != 3)
        return fputs("usage: c_check base.bin short-logs.bin\n", stderr), 2;
    reader base = opened(argv[1], room[0], sizeof room[0]), short_logs = opened(argv[2], room[1], sizeof room[1]);
    int ok = check("c_engine", c_run, base, short_logs);
    ok &= check("c_flags", flags_run, base, short_logs);
    return ok ? 0 : 1;
}
