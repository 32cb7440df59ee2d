/* The promises of include/flyrules.h, on case 1, on a rule from a literal to itself, on document 004's example, and on a table with every size
 * at its limit, in the old layout and in edition two, and of runs in both readings. The first that is not kept ends the program with status 1
 * and a line that says which call it was, what differs, what came and what was wanted. */
#define _DEFAULT_SOURCE
#include "flyrules.h"

#include <pthread.h>
#include <stdio.h>
#include <stdlib.h>
#include <string.h>
#include <sys/mman.h>

enum { MORE = 5 }; /* words past what a run needs, bytes past a new file */

/* A table, the lines that a run to its finish writes, and the sheet of these bytes. In the well-founded reading the lines go on where the plain
 * reading finishes: the log is of the former. */
typedef struct {
    const char *name;
    uint32_t edition;
    const uint8_t *bytes;
    size_t n;
    const uint16_t *lines;
    const char *sheet;
} table;

static const uint8_t BYTES_1[30] = {2, 0, 1, 0, 2, 0, 1, 0, 1, 0, 0, 0, 1, 0, 1, 0, 0, 0, 0, 0, 0, 0, 2, 0, 3, 0, 0, 0, 1, 0};
static const uint16_t LOG_1[8] = {0, 5, 9, 13, 2, 7, 10, 15};
static const uint8_t ITSELF_BYTES[18] = {1, 0, 0, 0, 1, 0, 1, 0, 0, 0, 1, 0, 0, 0, 0, 0, 0, 0};
static const uint16_t ITSELF_LOG[4] = {1, 5, 7, 3};
static const uint8_t CIRCLE_BYTES[18] = {1, 0, 0, 0, 1, 0, 0, 0, 1, 0, 1, 0, 0, 0, 0, 0, 0, 0};

/* document 004's example: b ⇒ a, ¬c ⇒ a, d ⇒ a, a ⇒ ¬c, ⇒ d and ⇒ ¬d, of the atoms a to d; in edition two with the origins house, tour and
 * console, and again */
static const uint8_t EXAMPLE_BYTES[51] = {2, 4, 0, 0, 0, 6, 0, 4, 0, 0, 0,
                                          1, 0, 1, 0, 1, 0, 1, 0, 1, 0, 1, 0, 0, 0, 1, 0, 2, 0, 3, 0,
                                          0, 0, 0, 0, 0, 0, 5, 0, 6, 0, 7, 0, 2, 0, 5, 0, 6, 0, 0, 0};
static const uint8_t EXAMPLE_ORIGINS_BYTES[51] = {2, 4, 0, 0, 0, 6, 0, 4, 0, 0, 0,
                                                  5, 0, 9, 0, 13, 0, 5, 0, 9, 0, 13, 0, 0, 0, 1, 0, 2, 0, 3, 0,
                                                  0, 0, 0, 0, 0, 0, 5, 0, 6, 0, 7, 0, 2, 0, 5, 0, 6, 0, 0, 0};
static const uint16_t EXAMPLE_LOG[16] = {1, 5, 9, 13, 17, 21, 25, 29, 7, 11, 15, 19, 27, 31, 3, 23};

/* case 1 in edition two: without origins, with the origins console and house, and with console and one that there is not */
static const uint8_t TWO_BYTES[31] = {2, 2, 0, 1, 0, 2, 0, 1, 0, 1, 0, 0, 0, 1, 0, 1, 0, 0, 0, 0, 0, 0, 0, 2, 0, 3, 0, 0, 0, 1, 0};
static const uint8_t ORIGIN_BYTES[31] = {2, 2, 0, 1, 0, 2, 0, 1, 0, 1, 0, 0, 0, 13, 0, 5, 0, 0, 0, 0, 0, 0, 0, 2, 0, 3, 0, 0, 0, 1, 0};
static const uint8_t ABOVE_BYTES[31] = {2, 2, 0, 1, 0, 2, 0, 1, 0, 1, 0, 0, 0, 13, 0, 17, 0, 0, 0, 0, 0, 0, 0, 2, 0, 3, 0, 0, 0, 1, 0};

/* case 1 joined with itself: in the old layout, and the one with origins with itself */
static const uint8_t TWICE_BYTES[54] = {2, 0, 1, 0, 4, 0, 2, 0, 4, 0,
                                        0, 0, 1, 0, 1, 0, 1, 0, 1, 0, 0, 0, 2, 0, 0, 0, 0, 0, 1, 0, 2, 0,
                                        0, 0, 2, 0, 3, 0, 2, 0, 3, 0, 0, 0, 0, 0, 1, 0, 3, 0, 2, 0, 3, 0};
static const uint8_t TWICE_ORIGINS_BYTES[55] = {2, 2, 0, 1, 0, 4, 0, 2, 0, 4, 0,
                                                0, 0, 13, 0, 5, 0, 13, 0, 5, 0, 0, 0, 2, 0, 0, 0, 0, 0, 1, 0, 2, 0,
                                                0, 0, 2, 0, 3, 0, 2, 0, 3, 0, 0, 0, 0, 0, 1, 0, 3, 0, 2, 0, 3, 0};

/* Three parts, atoms 0 and 1, 2 and 3, and 4, with pairs within and across, and the tables of the first and the last; in edition two with the
 * origins house, tour, console and none. */
static const uint8_t PARTS_BYTES[71] = {2, 5, 0, 5, 0, 4, 0, 2, 0, 4, 0,
                                        0, 0, 0, 0, 0, 0, 0, 0, 0, 0, 5, 0, 8, 0, 14, 0, 1, 0, 0, 0, 1, 0, 0, 0, 0, 0, 1, 0, 3, 0,
                                        0, 0, 3, 0, 5, 0, 6, 0, 8, 0, 2, 0, 7, 0, 3, 0, 6, 0, 0, 0, 4, 0, 1, 0, 2, 0, 3, 0, 2, 0};
static const uint8_t FIRST_PART_BYTES[35] = {2, 5, 0, 2, 0, 2, 0, 1, 0, 1, 0,
                                             0, 0, 0, 0, 5, 0, 14, 0, 0, 0, 0, 0,
                                             0, 0, 3, 0, 2, 0, 3, 0, 0, 0, 1, 0};
static const uint8_t LAST_PART_BYTES[15] = {2, 5, 0, 1, 0, 0, 0, 0, 0, 0, 0, 0, 0, 8, 0};
static const uint16_t PARTS_LIST[5] = {0, 0, 2, 2, 4}, ONE_PART[FLY_MAX_ATOMS];

/* as many atoms as case 1 has, and as many as there can be, and nothing else */
static const uint8_t TWO_ATOMS_BYTES[11] = {2, 2, 0, 0, 0, 0, 0, 0, 0, 0, 0}, MOST_ATOMS_BYTES[11] = {2, 0, 2, 0, 0, 0, 0, 0, 0, 0, 0};

static const table CASE_1 = {"case 1", FLY_OLD, BYTES_1, sizeof BYTES_1, LOG_1, "atoms 2\n0 go\n1 go\nspent 17 of 19\n"};
static const table ITSELF = {"a rule from a literal to itself", FLY_OLD, ITSELF_BYTES, sizeof ITSELF_BYTES, ITSELF_LOG,
                             "atoms 1\n0 open\nspent 6 of 9\n"};
static const table EXAMPLE = {"document 004's example", FLY_OLD, EXAMPLE_BYTES + 1, 50, EXAMPLE_LOG,
                              "atoms 4\n0 open\n1 idle\n2 open\n3 split\nspent 30 of 38\n"};
static const table EXAMPLE_ORIGINS = {"document 004's example with origins", FLY_TWO, EXAMPLE_ORIGINS_BYTES, 51, EXAMPLE_LOG, NULL};
static const table NOTHING = {"no bytes", FLY_OLD, BYTES_1, 0, NULL, "refused 1\n"};
static const table STUB = {"nine bytes of case 1", FLY_OLD, BYTES_1, 9, NULL, "refused 1\n"};
static const table SHORT = {"case 1 but for a byte", FLY_OLD, BYTES_1, 29, NULL, "refused 3\n"};
static const table CIRCLE = {"a circle", FLY_OLD, CIRCLE_BYTES, sizeof CIRCLE_BYTES, NULL, "refused 7\n"};

static const table TWO = {"case 1 in edition two", FLY_TWO, TWO_BYTES, sizeof TWO_BYTES, LOG_1, "refused 2\n"};
static const table ORIGINS = {"case 1 with origins", FLY_TWO, ORIGIN_BYTES, sizeof ORIGIN_BYTES, LOG_1, "refused 2\n"};
static const table OLD_ORIGINS = {"case 1 with origins in the old layout", FLY_OLD, ORIGIN_BYTES + 1, 30, NULL, "refused 4\n"};
static const table NO_BYTE = {"no byte in edition two", FLY_TWO, TWO_BYTES, 0, NULL, "refused 1\n"};
static const table FIRST_BYTE = {"the first byte alone", FLY_TWO, TWO_BYTES, 1, NULL, "refused 1\n"};
static const table STUB_TWO = {"the first byte and nine more", FLY_TWO, TWO_BYTES, 10, NULL, "refused 2\n"};
static const table SHORT_TWO = {"case 1 in edition two but for a byte", FLY_TWO, TWO_BYTES, 30, NULL, "refused 2\n"};
static const table OLD_AS_TWO = {"the circle as edition two", FLY_TWO, CIRCLE_BYTES, sizeof CIRCLE_BYTES, NULL, "refused 7\n"};
static const table ABOVE_3 = {"a rule of origin 4", FLY_TWO, ABOVE_BYTES, sizeof ABOVE_BYTES, NULL, "refused 2\n"};

static const table TWICE = {"case 1 twice", FLY_OLD, TWICE_BYTES, sizeof TWICE_BYTES, NULL, NULL};
static const table TWICE_ORIGINS = {"case 1 with origins twice", FLY_TWO, TWICE_ORIGINS_BYTES, sizeof TWICE_ORIGINS_BYTES, NULL, NULL};
static const table TWO_ATOMS = {"two atoms", FLY_OLD, TWO_ATOMS_BYTES + 1, 10, NULL, NULL};
static const table TWO_ATOMS_TWO = {"two atoms in edition two", FLY_TWO, TWO_ATOMS_BYTES, 11, NULL, NULL};
static const table MOST_ATOMS = {"512 atoms", FLY_OLD, MOST_ATOMS_BYTES + 1, 10, NULL, NULL};
static const table MOST_ATOMS_TWO = {"512 atoms in edition two", FLY_TWO, MOST_ATOMS_BYTES, 11, NULL, NULL};

static const table PARTS = {"three parts", FLY_TWO, PARTS_BYTES, sizeof PARTS_BYTES, NULL, NULL};
static const table FIRST_PART = {"the first part", FLY_TWO, FIRST_PART_BYTES, sizeof FIRST_PART_BYTES, NULL, NULL};
static const table LAST_PART = {"the last part", FLY_TWO, LAST_PART_BYTES, sizeof LAST_PART_BYTES, NULL, NULL};

/* ---- the table at its limits, which tests/cases/write.py has too ---- */

enum {
    ATOMS = FLY_MAX_ATOMS,
    FACTS = FLY_MAX_FACTS,
    RULES = FLY_MAX_RULES,
    ENTRIES = FLY_MAX_ENTRIES,
    PAIRS = FLY_MAX_PAIRS,
    PLACES = FACTS + RULES + ENTRIES + PAIRS
};

static uint8_t limits_bytes[FLY_MAX_BYTES];
static uint16_t limits_log[FLY_LOG];
static char limits_sheet[FLY_SHEET + 1];
static const table LIMITS = {"every size at its limit", FLY_OLD, limits_bytes, sizeof limits_bytes, limits_log, limits_sheet};

/* in edition two: without origins, and with all of them */
static uint8_t limits_two[FLY_MAX_TWO], limits_origins[FLY_MAX_TWO];
static const table LIMITS_TWO = {"every size at its limit in edition two", FLY_TWO, limits_two, sizeof limits_two, limits_log,
                                 "refused 3\n"};
static const table LIMITS_ORIGINS = {"every size at its limit, with origins", FLY_TWO, limits_origins, sizeof limits_origins, limits_log,
                                     "refused 3\n"};

static void put_word(size_t i, size_t word) {
    limits_bytes[2 * i] = (uint8_t)word;
    limits_bytes[2 * i + 1] = (uint8_t)(word >> 8);
}

static void put_place(size_t i, size_t left, size_t right) {
    put_word(5 + i, left);
    put_word(5 + PLACES + i, right);
}

static void make_bytes(void) {
    static const size_t SIZES[5] = {ATOMS, FACTS, RULES, ENTRIES, PAIRS};
    size_t i = 0;
    for (size_t k = 0; k < 5; k++) put_word(k, SIZES[k]);
    for (size_t k = 0; k < FACTS; k++) put_place(i++, 0, k);
    for (size_t k = 0; k < RULES; k++) put_place(i++, k % 3, k % 8);
    for (size_t k = 0; k < ENTRIES; k++) put_place(i++, k / 8, k % 8);
    for (size_t k = 0; k < PAIRS; k++) put_place(i++, k / 4, k / 4 + 1 + k % 4);
}

static void make_editions(void) {
    limits_two[0] = 2;
    memcpy(limits_two + 1, limits_bytes, FLY_MAX_BYTES);
    memcpy(limits_origins, limits_two, sizeof limits_two);
    for (size_t k = 0; k < RULES; k++) limits_origins[1 + 2 * (5 + FACTS + k)] |= (uint8_t)(4 * (k / 3 % 4));
}

/* Rules for a literal of one atom in a house, rules against it in two tours; and the join with the first, which adds as many pairs as there
 * can be. */
enum { HOUSE_RULES = 32, TOUR_RULES = 64, JOINED_RULES = HOUSE_RULES + TOUR_RULES, ADDED = HOUSE_RULES * TOUR_RULES };
static uint8_t house_bytes[10 + 4 * HOUSE_RULES], tour_bytes[10 + 4 * TOUR_RULES], larger_bytes[10 + 4 * (TOUR_RULES + 1)];
static uint8_t joined_bytes[10 + 4 * (JOINED_RULES + ADDED)];
static const table HOUSE = {"32 rules", FLY_OLD, house_bytes, sizeof house_bytes, NULL, NULL};
static const table TOUR = {"64 rules against them", FLY_OLD, tour_bytes, sizeof tour_bytes, NULL, NULL};
static const table LARGER = {"65 rules against them", FLY_OLD, larger_bytes, sizeof larger_bytes, NULL, NULL};
static const table JOINED = {"32 rules over 64", FLY_OLD, joined_bytes, sizeof joined_bytes, NULL, NULL};

static void make_sizes(uint8_t *bytes, size_t rules, size_t pairs) {
    bytes[0] = 1;
    bytes[4] = (uint8_t)rules;
    bytes[8] = (uint8_t)pairs;
    bytes[9] = (uint8_t)(pairs >> 8);
}

/* Defeasible rules with this head, in a table that has `places` of all kinds, from this place on. */
static void make_rules(uint8_t *bytes, size_t places, size_t from, size_t rules, uint8_t head) {
    for (size_t i = from; i < from + rules; i++) {
        bytes[10 + 2 * i] = 1;
        bytes[10 + 2 * (places + i)] = head;
    }
}

static void make_couple(void) {
    make_sizes(house_bytes, HOUSE_RULES, 0);
    make_rules(house_bytes, HOUSE_RULES, 0, HOUSE_RULES, 0);
    make_sizes(tour_bytes, TOUR_RULES, 0);
    make_rules(tour_bytes, TOUR_RULES, 0, TOUR_RULES, 1);
    make_sizes(larger_bytes, TOUR_RULES + 1, 0);
    make_rules(larger_bytes, TOUR_RULES + 1, 0, TOUR_RULES + 1, 1);
    make_sizes(joined_bytes, JOINED_RULES, ADDED);
    make_rules(joined_bytes, JOINED_RULES + ADDED, 0, HOUSE_RULES, 0);
    make_rules(joined_bytes, JOINED_RULES + ADDED, HOUSE_RULES, TOUR_RULES, 1);
    for (size_t k = 0; k < ADDED; k++) {
        joined_bytes[10 + 2 * (JOINED_RULES + k)] = (uint8_t)(k / TOUR_RULES);
        joined_bytes[10 + 2 * (2 * JOINED_RULES + ADDED + k)] = (uint8_t)(HOUSE_RULES + k % TOUR_RULES);
    }
}

/* A rule from each atom to the next, or to the one before; then rule k also rests on the complement of its atom. And in the table at its limits,
 * whose rules name atoms 0 to 3, each atom's part; the part of the last atom, which has two facts. */
enum { STEPS = ATOMS - 1, CHAIN_PLACES = 3 * STEPS };
static uint8_t up_bytes[10 + 4 * CHAIN_PLACES], down_bytes[10 + 4 * CHAIN_PLACES];
static uint16_t limits_list[ATOMS];
static const table UP = {"a chain upwards", FLY_OLD, up_bytes, sizeof up_bytes, NULL, NULL};
static const table DOWN = {"a chain downwards", FLY_OLD, down_bytes, sizeof down_bytes, NULL, NULL};
static const uint8_t ALONE_BYTES[19] = {2, 0, 2, 2, 0, 0, 0, 0, 0, 0, 0, 0, 0, 0, 0, 0xfe, 3, 0xff, 3};
static const table ALONE = {"the last atom's part", FLY_OLD, ALONE_BYTES + 1, 18, NULL, NULL};
static const table ALONE_TWO = {"the last atom's part in edition two", FLY_TWO, ALONE_BYTES, 19, NULL, NULL};

static void put_in(uint8_t *bytes, size_t i, size_t word) {
    bytes[2 * i] = (uint8_t)word;
    bytes[2 * i + 1] = (uint8_t)(word >> 8);
}

static void make_chain(uint8_t *bytes, int down) {
    const size_t sizes[5] = {ATOMS, 0, STEPS, 2 * STEPS, 0};
    for (size_t k = 0; k < 5; k++) put_in(bytes, k, sizes[k]);
    for (size_t k = 0; k < STEPS; k++) {
        size_t from = down ? STEPS - k : k, to = down ? from - 1 : from + 1;
        put_in(bytes, 5 + k, 1);
        put_in(bytes, 5 + CHAIN_PLACES + k, 2 * to);
        for (size_t i = 0; i < 2; i++) {
            put_in(bytes, 5 + STEPS + 2 * k + i, k);
            put_in(bytes, 5 + CHAIN_PLACES + STEPS + 2 * k + i, 2 * from + i);
        }
    }
}

static void make_parts(void) {
    make_chain(up_bytes, 0);
    make_chain(down_bytes, 1);
    for (size_t a = 4; a < ATOMS; a++) limits_list[a] = (uint16_t)a;
}

/* Every literal is a fact: the opening writes +Δ of each, and working that line writes +∂. */
static void make_log_and_sheet(void) {
    char *end = limits_sheet;
    for (size_t q = 0; q < FACTS; q++) {
        limits_log[q] = (uint16_t)(4 * q);
        limits_log[FACTS + q] = (uint16_t)(4 * q + 2);
    }
    end += sprintf(end, "atoms %d\n", ATOMS);
    for (int a = 0; a < ATOMS; a++) end += sprintf(end, "%d clash\n", a);
    sprintf(end, "spent 20302 of 23040\n");
}

/* What the run spends to write those with +Δ, and to write all lines but one: working +Δ of a literal costs 1, and of literals 0 to 7
 * another 171, for the strict rules that rest on it. */
enum { OPENING = ATOMS + PLACES, ALL_BUT_ONE = OPENING + FACTS - 1 + 8 * 171 };

/* ---- one call ---- */

#define CHECK(what)                                                                                                                  \
    do {                                                                                                                             \
        if (!(what)) {                                                                                                               \
            fprintf(stderr, "promises.c:%d: %s\n", __LINE__, #what);                                                                 \
            exit(1);                                                                                                                 \
        }                                                                                                                            \
    } while (0)

#define NUMBER SIZE_MAX /* the place of what is no part of an array */

static void same(const char *call, const char *what, size_t place, size_t came, size_t wanted) {
    if (came == wanted) return;
    fprintf(stderr, "promises: %s: %s", call, what);
    if (place != NUMBER) fprintf(stderr, " %zu", place);
    fprintf(stderr, " came %zu wanted %zu\n", came, wanted);
    exit(1);
}

static uint16_t noise(size_t i) { return (uint16_t)(i * 28111u + 40503u); }

enum { PAGE = 4096 };

static size_t whole_pages(size_t bytes) { return (bytes + PAGE - 1) / PAGE * PAGE; }

/* Bytes that end where a page begins that nobody may touch: a step past their end stops the program. */
static void *guarded(size_t bytes) {
    size_t n = whole_pages(bytes);
    uint8_t *at = mmap(NULL, n + PAGE, PROT_READ | PROT_WRITE, MAP_PRIVATE | MAP_ANONYMOUS, -1, 0);
    CHECK(at != MAP_FAILED && mprotect(at + n, PAGE, PROT_NONE) == 0);
    return at + n - bytes;
}

static void give_back(void *at, size_t bytes) {
    size_t n = whole_pages(bytes);
    CHECK(munmap((uint8_t *)at + bytes - n, n + PAGE) == 0);
}

typedef struct {
    size_t log_len, scratch_len;
    uint16_t *log, *scratch;
} buffers;

static buffers lend(size_t log_len, size_t scratch_len) {
    buffers b = {log_len, scratch_len, guarded(2 * log_len), guarded(2 * scratch_len)};
    for (size_t i = 0; i < log_len; i++) b.log[i] = noise(i);
    for (size_t i = 0; i < scratch_len; i++) b.scratch[i] = noise(i + 7);
    return b;
}

/* The log's first words are these and the rest the noise; the scratch's first `zeros` words are 0 and the rest the noise. */
static void left(const char *call, buffers b, const uint16_t *lines, size_t n, size_t zeros) {
    for (size_t i = 0; i < b.log_len; i++) same(call, "log word", i, b.log[i], i < n ? lines[i] : noise(i));
    for (size_t i = 0; i < b.scratch_len; i++) same(call, "scratch word", i, b.scratch[i], i < zeros ? 0 : noise(i + 7));
    give_back(b.log, 2 * b.log_len);
    give_back(b.scratch, 2 * b.scratch_len);
}

/* The table in a buffer of its own. */
static uint8_t *lend_table(const table *t) {
    uint8_t *bytes = guarded(t->n);
    memcpy(bytes, t->bytes, t->n);
    return bytes;
}

static void table_left(const char *call, uint8_t *bytes, const table *t) {
    for (size_t i = 0; i < t->n; i++) same(call, "table byte", i, bytes[i], t->bytes[i]);
    give_back(bytes, t->n);
}

static void runs_in(const table *t, uint32_t reading, uint32_t budget, size_t log_len, size_t scratch_len, fly_answer want) {
    char call[160];
    snprintf(call, sizeof call, "%s (reading %u, budget %u, log %zu, scratch %zu)", t->name, (unsigned)reading, (unsigned)budget, log_len,
             scratch_len);
    uint8_t *bytes = lend_table(t);
    buffers b = lend(log_len, scratch_len);
    fly_answer a = fly_run(bytes, t->n, t->edition, reading, budget, b.log, log_len, b.scratch, scratch_len);
    same(call, "refused", NUMBER, a.refused, want.refused);
    same(call, "finished", NUMBER, a.finished, want.finished);
    same(call, "lines", NUMBER, a.lines, want.lines);
    same(call, "worked", NUMBER, a.worked, want.worked);
    same(call, "spent", NUMBER, a.spent, want.spent);
    left(call, b, t->lines, want.lines, want.refused ? 0 : FLY_SCRATCH);
    table_left(call, bytes, t);
}

static void runs(const table *t, uint32_t budget, size_t log_len, size_t scratch_len, fly_answer want) {
    runs_in(t, FLY_PLAIN, budget, log_len, scratch_len, want);
}

static void searches(const table *t, uint32_t budget, size_t log_len, size_t scratch_len, fly_answer want) {
    runs_in(t, FLY_WELL_FOUNDED, budget, log_len, scratch_len, want);
}

/* How a rule stands by these words, which are in a buffer of their own. */
static void stands(const table *t, uint32_t rule, const uint16_t *words, size_t n, fly_standing want) {
    char call[128];
    snprintf(call, sizeof call, "%s (rule %u, log %zu)", t->name, (unsigned)rule, n);
    uint8_t *bytes = lend_table(t);
    uint16_t *log = guarded(2 * n);
    memcpy(log, words, 2 * n);
    fly_standing s = fly_stands(bytes, t->n, t->edition, rule, log, n);
    same(call, "refused", NUMBER, s.refused, want.refused);
    same(call, "standing", NUMBER, s.standing, want.standing);
    for (size_t i = 0; i < n; i++) same(call, "log word", i, log[i], words[i]);
    give_back(log, 2 * n);
    table_left(call, bytes, t);
}

/* The output's first bytes are the file, none with a refusal, and the rest the noise. */
static void converts(const table *t, size_t out_len, uint32_t refused, const table *file) {
    char call[128];
    snprintf(call, sizeof call, "%s (output %zu)", t->name, out_len);
    uint8_t *bytes = lend_table(t), *out = guarded(out_len);
    size_t n = refused ? 0 : file->n;
    for (size_t i = 0; i < out_len; i++) out[i] = (uint8_t)noise(i);
    fly_written w = fly_convert(bytes, t->n, t->edition, out, out_len);
    same(call, "refused", NUMBER, w.refused, refused);
    same(call, "bytes", NUMBER, w.bytes, n);
    for (size_t i = 0; i < out_len; i++) same(call, "output byte", i, out[i], i < n ? file->bytes[i] : (uint8_t)noise(i));
    give_back(out, out_len);
    table_left(call, bytes, t);
}

/* Likewise; the edition is the house's. */
static void joins(const table *house, const table *tour, size_t out_len, uint32_t refused, const table *file) {
    char call[192];
    snprintf(call, sizeof call, "%s and %s (output %zu)", house->name, tour->name, out_len);
    uint8_t *house_lent = lend_table(house), *tour_lent = lend_table(tour), *out = guarded(out_len);
    size_t n = refused ? 0 : file->n;
    for (size_t i = 0; i < out_len; i++) out[i] = (uint8_t)noise(i);
    fly_written w = fly_join(house_lent, house->n, tour_lent, tour->n, house->edition, out, out_len);
    same(call, "refused", NUMBER, w.refused, refused);
    same(call, "bytes", NUMBER, w.bytes, n);
    for (size_t i = 0; i < out_len; i++) same(call, "output byte", i, out[i], i < n ? file->bytes[i] : (uint8_t)noise(i));
    give_back(out, out_len);
    table_left(call, house_lent, house);
    table_left(call, tour_lent, tour);
}

/* The list's first words are these, none with a refusal, and the rest the noise. */
static void lists(const table *t, size_t list_len, uint32_t refused, const uint16_t *words, size_t atoms) {
    char call[128];
    snprintf(call, sizeof call, "the parts of %s (list %zu)", t->name, list_len);
    uint8_t *bytes = lend_table(t);
    uint16_t *list = guarded(2 * list_len);
    size_t n = refused ? 0 : atoms;
    for (size_t i = 0; i < list_len; i++) list[i] = noise(i);
    same(call, "refused", NUMBER, fly_parts(bytes, t->n, t->edition, list, list_len), refused);
    for (size_t i = 0; i < list_len; i++) same(call, "list word", i, list[i], i < n ? words[i] : noise(i));
    give_back(list, 2 * list_len);
    table_left(call, bytes, t);
}

/* The output's first bytes are the part's file, likewise. */
static void parts(const table *t, uint32_t atom, size_t out_len, uint32_t refused, const table *file) {
    char call[128];
    snprintf(call, sizeof call, "the part of atom %u of %s (output %zu)", (unsigned)atom, t->name, out_len);
    uint8_t *bytes = lend_table(t), *out = guarded(out_len);
    size_t n = refused ? 0 : file->n;
    for (size_t i = 0; i < out_len; i++) out[i] = (uint8_t)noise(i);
    fly_written w = fly_part(bytes, t->n, t->edition, atom, out, out_len);
    same(call, "refused", NUMBER, w.refused, refused);
    same(call, "bytes", NUMBER, w.bytes, n);
    for (size_t i = 0; i < out_len; i++) same(call, "output byte", i, out[i], i < n ? file->bytes[i] : (uint8_t)noise(i));
    give_back(out, out_len);
    table_left(call, bytes, t);
}

/* A reading that there is not is refused like an edition that there is not, whatever the table and whatever is lent. */
static void no_reading(const table *t) {
    static const uint32_t NUMBERS[8] = {2, 3, 255, 256, 257, 65536, 65537, UINT32_MAX};
    for (size_t i = 0; i < 8; i++) {
        runs_in(t, NUMBERS[i], UINT32_MAX, FLY_LOG, FLY_SCRATCH + MORE, (fly_answer){FLY_TRUNCATED, 0, 0, 0, 0});
        runs_in(t, NUMBERS[i], 0, 0, 0, (fly_answer){FLY_TRUNCATED, 0, 0, 0, 0});
    }
}

/* The table's refusal comes before that of a rule number, of an atom, and of what is lent. */
static void refuses(const table *t, uint32_t number) {
    static const uint32_t NUMBERS[4] = {0, 1, 65536, UINT32_MAX};
    runs(t, 19, FLY_LOG, FLY_SCRATCH + MORE, (fly_answer){number, 0, 0, 0, 0});
    runs(t, 19, 0, 0, (fly_answer){number, 0, 0, 0, 0});
    searches(t, UINT32_MAX, FLY_LOG, FLY_SCRATCH + MORE, (fly_answer){number, 0, 0, 0, 0});
    searches(t, 19, 0, 0, (fly_answer){number, 0, 0, 0, 0});
    no_reading(t);
    for (size_t i = 0; i < 4; i++) stands(t, NUMBERS[i], LOG_1, 8, (fly_standing){number, 0});
    converts(t, 0, number, NULL);
    converts(t, FLY_MAX_TWO, number, NULL);
    joins(t, t, 0, number, NULL);
    joins(t, t, FLY_MAX_TWO, number, NULL);
    lists(t, 0, number, NULL, 0);
    lists(t, FLY_MAX_ATOMS + MORE, number, NULL, 0);
    for (size_t i = 0; i < 4; i++) {
        parts(t, NUMBERS[i], 0, number, NULL);
        parts(t, NUMBERS[i], FLY_MAX_TWO, number, NULL);
    }
}

static void prints(const table *t) {
    char call[128];
    snprintf(call, sizeof call, "the sheet of %s", t->name);
    uint8_t *bytes = lend_table(t), *out = guarded(FLY_SHEET);
    size_t length = strlen(t->sheet);
    memset(out, 0xA5, FLY_SHEET);
    uint32_t came = fly_sheet(bytes, t->n, out);
    for (size_t i = 0; i < FLY_SHEET; i++) same(call, "byte", i, out[i], i < length ? (uint8_t)t->sheet[i] : 0);
    same(call, "length", NUMBER, came, length);
    give_back(out, FLY_SHEET);
    table_left(call, bytes, t);
}

/* ---- logs below 4A words ---- */

/* The log holds the lines that the run writes under its budget, or is refused. */
static void short_logs(void) {
    const fly_answer nine = {FLY_SHORT_LOG, 0, 0, 0, 0};
    runs(&CASE_1, 19, 7, FLY_SCRATCH, nine);
    runs(&CASE_1, 19, 0, FLY_SCRATCH, nine);
    runs(&CASE_1, 16, 7, FLY_SCRATCH, nine); /* 8 lines, 7 of them worked */
    runs(&CASE_1, 13, 7, FLY_SCRATCH, (fly_answer){0, 0, 6, 4, 11});
    runs(&CASE_1, 13, 6, FLY_SCRATCH + MORE, (fly_answer){0, 0, 6, 4, 11});
    runs(&CASE_1, 13, 5, FLY_SCRATCH + MORE, nine);
    runs(&CASE_1, 13, 5, FLY_SCRATCH - 1, (fly_answer){FLY_SHORT_SCRATCH, 0, 0, 0, 0});
    runs(&CASE_1, 6, 0, FLY_SCRATCH, (fly_answer){0, 0, 0, 0, 0});
    runs(&ITSELF, UINT32_MAX, 3, FLY_SCRATCH, (fly_answer){0, 1, 3, 3, 6});
    runs(&ITSELF, UINT32_MAX, 2, FLY_SCRATCH, nine);
    runs(&ITSELF, 3, 2, FLY_SCRATCH, (fly_answer){0, 0, 2, 0, 3});
    runs(&ITSELF, 2, 0, FLY_SCRATCH, (fly_answer){0, 0, 0, 0, 0});
    runs(&LIMITS, OPENING - 1, 0, FLY_SCRATCH, (fly_answer){0, 0, 0, 0, 0});
    runs(&LIMITS, OPENING, 1024, FLY_SCRATCH, (fly_answer){0, 0, 1024, 0, OPENING});
    runs(&LIMITS, OPENING, 1023, FLY_SCRATCH, nine);
    runs(&LIMITS, ALL_BUT_ONE, FLY_LOG - 1, FLY_SCRATCH, (fly_answer){0, 0, 2047, 1023, ALL_BUT_ONE});
    runs(&LIMITS, ALL_BUT_ONE + 1, FLY_LOG - 1, FLY_SCRATCH, nine);
    runs(&LIMITS, FLY_MAX_SPENT, FLY_LOG - 1, FLY_SCRATCH, nine);
}

/* ---- how a rule stands ---- */

static const fly_standing FIRING = {0, FLY_FIRING}, OUT = {0, FLY_OUT}, WAITING = {0, FLY_WAITING}, STRANGE = {FLY_OUT_OF_RANGE, 0};

static void standings(void) {
    static const uint16_t BOTH[2] = {3, 2};                          /* −∂ and +∂ of literal 0 */
    static const uint16_t NO_LINES[4] = {8, 4098, 4099, UINT16_MAX}; /* of a table of one atom */
    static const uint16_t REPEATED[6] = {1, 5, 7, 1, 65535, 2};      /* and more than 4A words */
    stands(&CASE_1, 0, LOG_1, 8, FIRING);
    stands(&CASE_1, 1, LOG_1, 8, FIRING);
    stands(&CASE_1, 0, LOG_1, 4, WAITING);
    stands(&CASE_1, 0, LOG_1, 0, WAITING);
    stands(&CASE_1, 1, LOG_1, 0, FIRING); /* it has no antecedents */
    stands(&CASE_1, 2, LOG_1, 8, STRANGE);
    stands(&CASE_1, 65536, LOG_1, 8, STRANGE);
    stands(&CASE_1, UINT32_MAX, LOG_1, 0, STRANGE);
    stands(&ITSELF, 0, ITSELF_LOG, 3, WAITING);
    stands(&ITSELF, 0, NO_LINES, 4, WAITING);
    stands(&ITSELF, 0, BOTH, 1, OUT);
    stands(&ITSELF, 0, BOTH, 2, FIRING);
    stands(&ITSELF, 0, REPEATED, 5, WAITING);
    stands(&ITSELF, 0, REPEATED, 6, FIRING);
    stands(&LIMITS, 511, limits_log, FACTS + 7, WAITING); /* +∂ of its last antecedent, literal 7, is the next line */
    stands(&LIMITS, 511, limits_log, FACTS + 8, FIRING);
    stands(&LIMITS, RULES - 1, limits_log, FLY_LOG, FIRING);
    stands(&LIMITS, RULES, limits_log, FLY_LOG, STRANGE);
}

/* ---- edition two ---- */

static const fly_answer ALL_1 = {0, 1, 8, 8, 17}, ALL_LIMITS = {0, 1, 2048, 2048, 20302};

/* Edition two runs and stands like the old layout, with origins and without. */
static void edition_two(void) {
    static const table *const CASES[2] = {&TWO, &ORIGINS}, *const LARGEST[2] = {&LIMITS_TWO, &LIMITS_ORIGINS};
    for (size_t i = 0; i < 2; i++) {
        runs(CASES[i], 17, 8, FLY_SCRATCH + MORE, ALL_1);
        runs(CASES[i], 13, 6, FLY_SCRATCH, (fly_answer){0, 0, 6, 4, 11});
        runs(CASES[i], 13, 5, FLY_SCRATCH, (fly_answer){FLY_SHORT_LOG, 0, 0, 0, 0});
        runs(CASES[i], 19, 8, FLY_SCRATCH - 1, (fly_answer){FLY_SHORT_SCRATCH, 0, 0, 0, 0});
        stands(CASES[i], 0, LOG_1, 8, FIRING);
        stands(CASES[i], 0, LOG_1, 4, WAITING);
        stands(CASES[i], 2, LOG_1, 8, STRANGE);
        prints(CASES[i]);
        runs(LARGEST[i], FLY_MAX_SPENT, FLY_LOG, FLY_SCRATCH, ALL_LIMITS);
        runs(LARGEST[i], ALL_BUT_ONE, FLY_LOG - 1, FLY_SCRATCH, (fly_answer){0, 0, 2047, 1023, ALL_BUT_ONE});
        stands(LARGEST[i], 511, limits_log, FACTS + 7, WAITING);
        stands(LARGEST[i], 511, limits_log, FACTS + 8, FIRING);
        stands(LARGEST[i], RULES, limits_log, FLY_LOG, STRANGE);
        prints(LARGEST[i]);
    }
    refuses(&NO_BYTE, FLY_TRUNCATED);
    refuses(&FIRST_BYTE, FLY_TRUNCATED);
    refuses(&STUB_TWO, FLY_TRUNCATED);
    refuses(&OLD_AS_TWO, FLY_TRUNCATED);
    refuses(&SHORT_TWO, FLY_WRONG_LENGTH);
    refuses(&ABOVE_3, FLY_BAD_KIND);
    refuses(&OLD_ORIGINS, FLY_BAD_KIND);
}

/* ---- the well-founded reading ---- */

/* Size, and the budget that finishes document 004's example in this reading whatever it says: 5A+F+N+3B+3P, and Size 6A + 2 times. */
enum { EXAMPLE_SIZE = 14, EXAMPLE_BOUND = 38 + 26 * EXAMPLE_SIZE };

/* The plain reading leaves a and ¬c open; two searches, of which the second gives them −∂, and two that add nothing cost Size each. Between
 * them the run stops with every line worked. */
static void example_searched(const table *t) {
    const fly_answer all = {0, 1, 16, 16, 90}, nine = {FLY_SHORT_LOG, 0, 0, 0, 0};
    runs(t, EXAMPLE_BOUND, 16, FLY_SCRATCH, (fly_answer){0, 1, 14, 14, 30});
    searches(t, UINT32_MAX, FLY_LOG, FLY_SCRATCH + MORE, all);
    searches(t, EXAMPLE_BOUND, 16, FLY_SCRATCH, all);
    searches(t, 90, 16, FLY_SCRATCH + MORE, all);
    searches(t, 89, 16, FLY_SCRATCH, (fly_answer){0, 0, 16, 16, 76});
    searches(t, 5 * EXAMPLE_SIZE, 16, FLY_SCRATCH, (fly_answer){0, 0, 16, 16, 62});
    searches(t, 58, 16 + MORE, FLY_SCRATCH, (fly_answer){0, 0, 16, 14, 58});
    for (uint32_t budget = 44; budget < 58; budget++) searches(t, budget, 16, FLY_SCRATCH, (fly_answer){0, 0, 14, 14, 44});
    searches(t, 43, 16, FLY_SCRATCH, (fly_answer){0, 0, 14, 14, 30});
    searches(t, 29, 16, FLY_SCRATCH, (fly_answer){0, 0, 14, 13, 29});
    searches(t, EXAMPLE_SIZE, 16, FLY_SCRATCH, (fly_answer){0, 0, 8, 0, EXAMPLE_SIZE});
    searches(t, EXAMPLE_SIZE - 1, 0, FLY_SCRATCH, (fly_answer){0, 0, 0, 0, 0});
    searches(t, 57, 14, FLY_SCRATCH, (fly_answer){0, 0, 14, 14, 44});
    searches(t, 57, 13, FLY_SCRATCH, nine);
    searches(t, 58, 15, FLY_SCRATCH + MORE, nine);
    searches(t, UINT32_MAX, 15, FLY_SCRATCH, nine);
    searches(t, UINT32_MAX, 15, FLY_SCRATCH - 1, (fly_answer){FLY_SHORT_SCRATCH, 0, 0, 0, 0});
}

/* A table in which every literal is a fact has two searches that add nothing. */
static void well_founded(void) {
    enum { LINES = 2048, SPENT = 20302 };
    example_searched(&EXAMPLE);
    example_searched(&EXAMPLE_ORIGINS);
    searches(&CASE_1, UINT32_MAX, 8, FLY_SCRATCH, (fly_answer){0, 1, 8, 8, 31});
    searches(&ORIGINS, 30, 8, FLY_SCRATCH, (fly_answer){0, 0, 8, 8, 24});
    searches(&ITSELF, UINT32_MAX, 4, FLY_SCRATCH, (fly_answer){0, 1, 4, 4, 20});
    searches(&ITSELF, 11, 3, FLY_SCRATCH, (fly_answer){0, 0, 3, 3, 9});
    searches(&ITSELF, 12, 3, FLY_SCRATCH, (fly_answer){FLY_SHORT_LOG, 0, 0, 0, 0});
    searches(&LIMITS, UINT32_MAX, FLY_LOG, FLY_SCRATCH, (fly_answer){0, 1, LINES, LINES, SPENT + 2 * OPENING});
    searches(&LIMITS, SPENT + 2 * OPENING - 1, FLY_LOG, FLY_SCRATCH, (fly_answer){0, 0, LINES, LINES, SPENT + OPENING});
    searches(&LIMITS_ORIGINS, SPENT + OPENING - 1, FLY_LOG, FLY_SCRATCH, (fly_answer){0, 0, LINES, LINES, SPENT});
    searches(&LIMITS, ALL_BUT_ONE, FLY_LOG - 1, FLY_SCRATCH, (fly_answer){0, 0, 2047, 1023, ALL_BUT_ONE});
    prints(&EXAMPLE); /* a sheet is of the plain reading */
    no_reading(&CASE_1);
    no_reading(&ORIGINS);
    no_reading(&EXAMPLE);
    no_reading(&LIMITS);
}

/* A table of an edition that there is not. */
static void no_edition(const table *t) {
    static const uint32_t NUMBERS[7] = {0, 3, 257, 258, 65537, 65538, UINT32_MAX};
    for (size_t i = 0; i < 7; i++) {
        char name[64];
        snprintf(name, sizeof name, "%s as edition %u", t->name, (unsigned)NUMBERS[i]);
        refuses(&(table){name, NUMBERS[i], t->bytes, t->n, NULL, NULL}, FLY_TRUNCATED);
    }
}

/* There, back, and back with origins; a byte of output less, as much as the file, and more. */
static void converts_both_ways(const table *old, const table *two, const table *origins) {
    converts(old, old->n, FLY_SHORT_LOG, NULL);
    converts(old, old->n + 1, 0, two);
    converts(old, old->n + 1 + MORE, 0, two);
    converts(two, old->n - 1, FLY_SHORT_LOG, NULL);
    converts(two, old->n, 0, old);
    converts(two, old->n + MORE, 0, old);
    converts(origins, old->n - 1, FLY_SHORT_LOG, NULL);
    converts(origins, old->n, FLY_HAS_ORIGIN, NULL);
    converts(origins, old->n + MORE, FLY_HAS_ORIGIN, NULL);
}

/* ---- a house and a tour ---- */

/* A byte of output less than the joined file, as much, and more. */
static void joins_by_lengths(const table *house, const table *tour, const table *joined) {
    joins(house, tour, 0, FLY_SHORT_OUTPUT, NULL);
    joins(house, tour, joined->n - 1, FLY_SHORT_OUTPUT, NULL);
    joins(house, tour, joined->n, 0, joined);
    joins(house, tour, joined->n + MORE, 0, joined);
}

/* The house's refusal comes first, then the tour's, other atoms, joined sizes and a short output. */
static void joins_in_order(void) {
    joins(&CIRCLE, &STUB, 0, FLY_CYCLIC, NULL);
    joins(&STUB, &CIRCLE, 0, FLY_TRUNCATED, NULL);
    joins(&CASE_1, &CIRCLE, 0, FLY_CYCLIC, NULL);
    joins(&CIRCLE, &CASE_1, FLY_MAX_TWO, FLY_CYCLIC, NULL);
    joins(&CASE_1, &SHORT, FLY_MAX_TWO, FLY_WRONG_LENGTH, NULL);
    joins(&CASE_1, &ORIGINS, FLY_MAX_TWO, FLY_TOO_LARGE, NULL); /* read in the old layout, as the house */
    joins(&ORIGINS, &CASE_1, FLY_MAX_TWO, FLY_WRONG_LENGTH, NULL);
    joins(&CASE_1, &OLD_ORIGINS, FLY_MAX_TWO, FLY_BAD_KIND, NULL);
    joins(&CASE_1, &ITSELF, 0, FLY_ATOMS_DIFFER, NULL);
    joins(&LIMITS, &ITSELF, 0, FLY_ATOMS_DIFFER, NULL); /* and 1,025 rules */
    joins(&LIMITS, &LIMITS, 0, FLY_TOO_LARGE, NULL);
    joins(&LIMITS_ORIGINS, &LIMITS_TWO, FLY_MAX_TWO, FLY_TOO_LARGE, NULL);
    joins(&HOUSE, &LARGER, 0, FLY_TOO_LARGE, NULL);
    joins(&HOUSE, &LARGER, FLY_MAX_TWO, FLY_TOO_LARGE, NULL);
}

static void couples(void) {
    joins_by_lengths(&CASE_1, &CASE_1, &TWICE);
    joins_by_lengths(&ORIGINS, &ORIGINS, &TWICE_ORIGINS);
    joins_by_lengths(&CASE_1, &TWO_ATOMS, &CASE_1);
    joins_by_lengths(&TWO_ATOMS, &CASE_1, &CASE_1);
    joins_by_lengths(&ORIGINS, &TWO_ATOMS_TWO, &ORIGINS);
    joins_by_lengths(&TWO_ATOMS_TWO, &TWO, &TWO);
    joins_by_lengths(&LIMITS, &MOST_ATOMS, &LIMITS);
    joins_by_lengths(&MOST_ATOMS, &LIMITS, &LIMITS);
    joins_by_lengths(&LIMITS_ORIGINS, &MOST_ATOMS_TWO, &LIMITS_ORIGINS);
    joins_by_lengths(&HOUSE, &TOUR, &JOINED);
    joins_in_order();
}

/* ---- parts ---- */

/* A word of list less than A, as many, and more. */
static void lists_by_lengths(const table *t, const uint16_t *words, size_t atoms) {
    lists(t, 0, FLY_SHORT_LOG, NULL, 0);
    lists(t, atoms - 1, FLY_SHORT_LOG, NULL, 0);
    lists(t, atoms, 0, words, atoms);
    lists(t, atoms + MORE, 0, words, atoms);
}

/* A byte of output less than the part's file, as much, and more. */
static void parts_by_lengths(const table *t, uint32_t atom, const table *part) {
    parts(t, atom, 0, FLY_SHORT_OUTPUT, NULL);
    parts(t, atom, part->n - 1, FLY_SHORT_OUTPUT, NULL);
    parts(t, atom, part->n, 0, part);
    parts(t, atom, part->n + MORE, 0, part);
}

/* An atom that is not below A comes before a short output. */
static void no_part(const table *t, uint32_t atoms) {
    const uint32_t numbers[4] = {atoms, atoms + 1, 65536, UINT32_MAX};
    for (size_t i = 0; i < 4; i++) {
        parts(t, numbers[i], 0, FLY_OUT_OF_RANGE, NULL);
        parts(t, numbers[i], FLY_MAX_TWO, FLY_OUT_OF_RANGE, NULL);
    }
}

static void bar_by_bar(void) {
    lists_by_lengths(&CASE_1, ONE_PART, 2);
    lists_by_lengths(&ORIGINS, ONE_PART, 2);
    lists_by_lengths(&PARTS, PARTS_LIST, 5);
    lists_by_lengths(&UP, ONE_PART, ATOMS);
    lists_by_lengths(&DOWN, ONE_PART, ATOMS);
    lists_by_lengths(&LIMITS, limits_list, ATOMS);
    lists_by_lengths(&LIMITS_ORIGINS, limits_list, ATOMS);
    parts_by_lengths(&CASE_1, 1, &CASE_1);
    parts_by_lengths(&ORIGINS, 0, &ORIGINS);
    parts_by_lengths(&PARTS, 0, &FIRST_PART);
    parts_by_lengths(&PARTS, 1, &FIRST_PART);
    parts_by_lengths(&PARTS, 4, &LAST_PART);
    parts_by_lengths(&UP, ATOMS - 1, &UP);
    parts_by_lengths(&DOWN, ATOMS - 1, &DOWN);
    parts_by_lengths(&LIMITS, ATOMS - 1, &ALONE);
    parts_by_lengths(&LIMITS_ORIGINS, ATOMS - 1, &ALONE_TWO);
    no_part(&CASE_1, 2);
    no_part(&PARTS, 5);
    no_part(&LIMITS, ATOMS);
}

/* ---- threads ---- */

static void *again(void *unused) {
    for (int i = 0; i < 200; i++) {
        runs(&CASE_1, 19, 8, FLY_SCRATCH, ALL_1);
        runs(&ORIGINS, 19, 8, FLY_SCRATCH, ALL_1);
        runs(&CASE_1, 13, 9, FLY_SCRATCH + MORE, (fly_answer){0, 0, 6, 4, 11});
        runs(&CASE_1, 13, 7, FLY_SCRATCH, (fly_answer){0, 0, 6, 4, 11});
        runs(&CASE_1, 19, 7, FLY_SCRATCH, (fly_answer){FLY_SHORT_LOG, 0, 0, 0, 0});
        searches(&EXAMPLE, UINT32_MAX, 16, FLY_SCRATCH, (fly_answer){0, 1, 16, 16, 90});
        searches(&EXAMPLE_ORIGINS, 57, 14, FLY_SCRATCH, (fly_answer){0, 0, 14, 14, 44});
        prints(&CASE_1);
        stands(&CASE_1, 0, LOG_1, 8, FIRING);
        stands(&ORIGINS, 0, LOG_1, 4, WAITING);
        converts(&CASE_1, 31, 0, &TWO);
        converts(&TWO, 30, 0, &CASE_1);
        converts(&ORIGINS, 30, FLY_HAS_ORIGIN, NULL);
        joins(&CASE_1, &CASE_1, 54, 0, &TWICE);
        joins(&ORIGINS, &ORIGINS, 55 + MORE, 0, &TWICE_ORIGINS);
        joins(&CASE_1, &ITSELF, 54, FLY_ATOMS_DIFFER, NULL);
        lists(&PARTS, 5, 0, PARTS_LIST, 5);
        lists(&CASE_1, 1, FLY_SHORT_LOG, NULL, 0);
        parts(&PARTS, 1, 35, 0, &FIRST_PART);
        parts(&PARTS, 5, 35, FLY_OUT_OF_RANGE, NULL);
    }
    return unused;
}

/* Reentrant: four threads at once, each with its own buffers. */
static void together(void) {
    pthread_t threads[4];
    for (int i = 0; i < 4; i++) CHECK(pthread_create(&threads[i], NULL, again, NULL) == 0);
    for (int i = 0; i < 4; i++) CHECK(pthread_join(threads[i], NULL) == 0);
}

/* ---- the stack ---- */

#ifndef __SANITIZE_ADDRESS__
enum { STACK = 1 << 20 };

static void *no_call(void *of) { return of; }

/* A call, by its table; also the budget of a run, the rule that stands, the place in TOURS of what is joined or the atom of a part, the words of
 * log or list or bytes of output, and the refusal that comes of them. */
typedef struct {
    const table *of;
    uint32_t number;
    size_t length;
    uint32_t refused;
} one_call;

/* The scratch is longer than it need be: a part of it is lent on. */
static inline void run_once(const one_call *c, uint32_t reading) {
    static uint16_t log[FLY_LOG], scratch[FLY_SCRATCH + MORE];
    const table *t = c->of;
    CHECK(fly_run(t->bytes, t->n, t->edition, reading, c->number, log, c->length, scratch, FLY_SCRATCH + MORE).refused == c->refused);
}

static void *run_call(void *call) {
    run_once(call, FLY_PLAIN);
    return call;
}

static void *search_call(void *call) {
    run_once(call, FLY_WELL_FOUNDED);
    return call;
}

static void *sheet_call(void *call) {
    static uint8_t out[FLY_SHEET];
    const one_call *c = call;
    fly_sheet(c->of->bytes, c->of->n, out);
    return call;
}

static void *stands_call(void *call) {
    const one_call *c = call;
    const table *t = c->of;
    CHECK(fly_stands(t->bytes, t->n, t->edition, c->number, t->lines, c->length).refused == c->refused);
    return call;
}

static void *convert_call(void *call) {
    static uint8_t out[FLY_MAX_TWO];
    const one_call *c = call;
    CHECK(fly_convert(c->of->bytes, c->of->n, c->of->edition, out, c->length).refused == c->refused);
    return call;
}

static const table *const TOURS[] = {&CASE_1, &ORIGINS, &TOUR, &LARGER, &MOST_ATOMS, &LIMITS, &LIMITS_ORIGINS};

static void *join_call(void *call) {
    static uint8_t out[FLY_MAX_TWO];
    const one_call *c = call;
    const table *tour = TOURS[c->number];
    CHECK(fly_join(c->of->bytes, c->of->n, tour->bytes, tour->n, c->of->edition, out, c->length).refused == c->refused);
    return call;
}

static void *parts_call(void *call) {
    static uint16_t list[ATOMS];
    const one_call *c = call;
    CHECK(fly_parts(c->of->bytes, c->of->n, c->of->edition, list, c->length) == c->refused);
    return call;
}

static void *part_call(void *call) {
    static uint8_t out[FLY_MAX_TWO];
    const one_call *c = call;
    CHECK(fly_part(c->of->bytes, c->of->n, c->of->edition, c->number, out, c->length).refused == c->refused);
    return call;
}

/* The bytes of a painted stack that a thread changed which makes this call. */
static size_t painted(void *make(void *), one_call call) {
    uint8_t *stack;
    pthread_attr_t attributes;
    pthread_t thread;
    size_t i = 0;
    CHECK(posix_memalign((void **)&stack, 4096, STACK) == 0);
    memset(stack, 0xA5, STACK);
    CHECK(pthread_attr_init(&attributes) == 0 && pthread_attr_setstack(&attributes, stack, STACK) == 0);
    CHECK(pthread_create(&thread, &attributes, make, &call) == 0 && pthread_join(thread, NULL) == 0);
    while (i < STACK && stack[i] == 0xA5) i++;
    free(stack);
    return STACK - i;
}

/* What the largest of n calls takes; none may take more than was promised. */
static size_t stack_of(const char *what, void *make(void *), const one_call *calls, size_t n, size_t promised) {
    size_t most = 0;
    for (size_t i = 0; i < n; i++) {
        size_t bytes = painted(make, calls[i]) - painted(no_call, calls[i]);
        if (bytes > promised) {
            fprintf(stderr, "promises: %s of %s: %zu bytes of stack, promised %zu\n", what, calls[i].of->name, bytes, promised);
            exit(1);
        }
        if (bytes > most) most = bytes;
    }
    return most;
}

static void stack_use(void) {
    static const one_call FULL[] = {{&CASE_1, UINT32_MAX, FLY_LOG, 0},
                                    {&LIMITS, UINT32_MAX, FLY_LOG, 0},
                                    {&ORIGINS, UINT32_MAX, FLY_LOG, 0},
                                    {&LIMITS_ORIGINS, UINT32_MAX, FLY_LOG, 0}};
    static const one_call SHORT_LOGS[] = {{&CASE_1, 13, 7, 0},
                                          {&CASE_1, UINT32_MAX, 7, FLY_SHORT_LOG},
                                          {&ITSELF, UINT32_MAX, 3, 0},
                                          {&LIMITS, ALL_BUT_ONE, FLY_LOG - 1, 0},
                                          {&LIMITS, UINT32_MAX, FLY_LOG - 1, FLY_SHORT_LOG},
                                          {&ORIGINS, 13, 7, 0},
                                          {&LIMITS_ORIGINS, ALL_BUT_ONE, FLY_LOG - 1, 0}};
    static const one_call SEARCHES[] = {{&CASE_1, UINT32_MAX, FLY_LOG, 0},
                                        {&ITSELF, UINT32_MAX, FLY_LOG, 0},
                                        {&EXAMPLE, UINT32_MAX, FLY_LOG, 0},
                                        {&EXAMPLE_ORIGINS, UINT32_MAX, FLY_LOG, 0},
                                        {&UP, UINT32_MAX, FLY_LOG, 0},
                                        {&LIMITS, UINT32_MAX, FLY_LOG, 0},
                                        {&LIMITS_ORIGINS, UINT32_MAX, FLY_LOG, 0}};
    static const one_call SHORT_SEARCHES[] = {{&ITSELF, 11, 3, 0},
                                              {&EXAMPLE, 57, 14, 0},
                                              {&EXAMPLE_ORIGINS, UINT32_MAX, 15, FLY_SHORT_LOG},
                                              {&LIMITS, ALL_BUT_ONE, FLY_LOG - 1, 0},
                                              {&LIMITS, UINT32_MAX, FLY_LOG - 1, FLY_SHORT_LOG}};
    static const one_call STANDINGS[] = {{&CASE_1, 0, 8, 0},
                                         {&LIMITS, 511, FLY_LOG, 0},
                                         {&LIMITS, 511, FACTS, 0},
                                         {&LIMITS, RULES, FLY_LOG, FLY_OUT_OF_RANGE},
                                         {&LIMITS_ORIGINS, 511, FLY_LOG, 0}};
    static const one_call CONVERSIONS[] = {{&CASE_1, 0, 31, 0},
                                           {&LIMITS, 0, FLY_MAX_TWO, 0},
                                           {&LIMITS, 0, FLY_MAX_BYTES, FLY_SHORT_LOG},
                                           {&LIMITS_TWO, 0, FLY_MAX_BYTES, 0},
                                           {&LIMITS_ORIGINS, 0, FLY_MAX_BYTES, FLY_HAS_ORIGIN}};
    static const one_call JOINS[] = {{&CASE_1, 0, 54, 0},
                                     {&ORIGINS, 1, 55, 0},
                                     {&HOUSE, 2, FLY_MAX_TWO, 0},
                                     {&HOUSE, 3, FLY_MAX_TWO, FLY_TOO_LARGE},
                                     {&LIMITS, 4, FLY_MAX_BYTES, 0},
                                     {&LIMITS, 4, FLY_MAX_BYTES - 1, FLY_SHORT_OUTPUT},
                                     {&LIMITS, 5, FLY_MAX_BYTES, FLY_TOO_LARGE},
                                     {&MOST_ATOMS, 5, FLY_MAX_TWO, 0},
                                     {&MOST_ATOMS_TWO, 6, FLY_MAX_TWO, 0}};
    static const one_call LISTS[] = {{&CASE_1, 0, 2, 0},
                                     {&PARTS, 0, ATOMS, 0},
                                     {&UP, 0, ATOMS, 0},
                                     {&DOWN, 0, ATOMS, 0},
                                     {&LIMITS, 0, ATOMS, 0},
                                     {&LIMITS, 0, ATOMS - 1, FLY_SHORT_LOG},
                                     {&LIMITS_ORIGINS, 0, ATOMS, 0}};
    static const one_call PARTED[] = {{&CASE_1, 0, 30, 0},
                                      {&PARTS, 1, 35, 0},
                                      {&UP, 0, FLY_MAX_TWO, 0},
                                      {&DOWN, ATOMS - 1, FLY_MAX_TWO, 0},
                                      {&LIMITS, 0, FLY_MAX_TWO, 0},
                                      {&LIMITS, 0, 10, FLY_SHORT_OUTPUT},
                                      {&LIMITS, ATOMS, FLY_MAX_TWO, FLY_OUT_OF_RANGE},
                                      {&LIMITS_ORIGINS, 3, FLY_MAX_TWO, 0}};
    size_t run = stack_of("the run", run_call, FULL, 4, FLY_RUN_STACK);
    size_t short_log = stack_of("the short-log run", run_call, SHORT_LOGS, 7, FLY_SHORT_LOG_STACK);
    size_t search = stack_of("the run in the well-founded reading", search_call, SEARCHES, 7, FLY_RUN_STACK);
    size_t short_search = stack_of("the short-log run in the well-founded reading", search_call, SHORT_SEARCHES, 5, FLY_SHORT_LOG_STACK);
    size_t sheet = stack_of("the sheet", sheet_call, FULL, 2, FLY_SHEET_STACK);
    size_t standing = stack_of("the standing", stands_call, STANDINGS, 5, FLY_STANDS_STACK);
    size_t conversion = stack_of("the conversion", convert_call, CONVERSIONS, 5, FLY_CONVERT_STACK);
    size_t join = stack_of("the join", join_call, JOINS, 9, FLY_JOIN_STACK);
    size_t list = stack_of("the list of parts", parts_call, LISTS, 7, FLY_PARTS_STACK);
    size_t part = stack_of("the part", part_call, PARTED, 8, FLY_PART_STACK);
    printf("stack: run %zu bytes, with a short log %zu bytes, in the well-founded reading %zu and %zu bytes, sheet %zu bytes, "
           "standing %zu bytes, conversion %zu bytes, join %zu bytes, list of parts %zu bytes, part %zu bytes\n",
           run, short_log, search, short_search, sheet, standing, conversion, join, list, part);
}
#else
static void stack_use(void) {}
#endif

int main(void) {
    make_bytes();
    make_editions();
    make_log_and_sheet();
    make_couple();
    make_parts();
    runs(&CASE_1, 19, FLY_LOG, FLY_SCRATCH + MORE, ALL_1);
    runs(&CASE_1, 17, 8, FLY_SCRATCH, ALL_1);
    runs(&CASE_1, 16, 8, FLY_SCRATCH, (fly_answer){0, 0, 8, 7, 16});
    runs(&CASE_1, 13, 8, FLY_SCRATCH, (fly_answer){0, 0, 6, 4, 11});
    runs(&CASE_1, 6, 8, FLY_SCRATCH, (fly_answer){0, 0, 0, 0, 0});
    runs(&CASE_1, UINT32_MAX, 8, FLY_SCRATCH, ALL_1);
    runs(&CASE_1, 19, 8, FLY_SCRATCH - 1, (fly_answer){FLY_SHORT_SCRATCH, 0, 0, 0, 0});
    runs(&CASE_1, 19, 0, 0, (fly_answer){FLY_SHORT_SCRATCH, 0, 0, 0, 0});
    runs(&LIMITS, FLY_MAX_SPENT, FLY_LOG, FLY_SCRATCH, ALL_LIMITS);
    short_logs();
    well_founded();
    standings();
    refuses(&NOTHING, FLY_TRUNCATED);
    refuses(&STUB, FLY_TRUNCATED);
    refuses(&SHORT, FLY_WRONG_LENGTH);
    refuses(&CIRCLE, FLY_CYCLIC);
    prints(&CASE_1);
    prints(&ITSELF);
    prints(&NOTHING);
    prints(&CIRCLE);
    prints(&LIMITS);
    prints(&OLD_ORIGINS);
    edition_two();
    no_edition(&CASE_1);
    no_edition(&ORIGINS);
    no_edition(&CIRCLE);
    converts_both_ways(&CASE_1, &TWO, &ORIGINS);
    converts_both_ways(&LIMITS, &LIMITS_TWO, &LIMITS_ORIGINS);
    couples();
    bar_by_bar();
    together();
    stack_use();
    puts("promises kept");
    return 0;
}
