/* A console that shows what is concluded while the budget grows, and in the end how each rule stands. Usage: loop TABLE [EDITION]
 *
 * The edition of the table is 1, the old layout, unless it is given. In edition two it is shown whose rule each is; a sheet is printed of the
 * old layout alone.
 *
 * What is shown stays true: a larger budget writes the same lines, and more after them. But each call judges the table and works from
 * the start, so the calls cost the sum of what they spend. Hence the first budget is Size = A+F+N+B+P, below which nothing is
 * written, and each is twice the one before: five times Size finishes, so there are at most four calls, and they spend at most 12
 * times Size in all. With a step that is 1/k of what the finished run spends, k calls would spend (k+1)/2 times as much as it. */
#include "flyrules.h"

#include <stdio.h>
#include <stdlib.h>
#include <string.h>

static const char *const TAGS[4] = {"+Δ", "−Δ", "+∂", "−∂"};          /* by enum fly_tag */
static const char *const STANDINGS[3] = {"fires", "is out", "waits"}; /* by enum fly_stand */
static const char *const ORIGINS[4] = {"", " (house)", " (tour)", " (console)"}; /* by enum fly_origin */

static uint8_t table[FLY_MAX_TWO + 1]; /* a byte more, so that a file that is too long is refused */
static uint32_t edition = FLY_OLD;
static uint16_t lines[FLY_LOG], earlier[FLY_LOG], scratch[FLY_SCRATCH];
static uint8_t sheet[FLY_SHEET];

static size_t load(const char *name) {
    FILE *file = fopen(name, "rb");
    if (file == NULL) {
        perror(name);
        exit(1);
    }
    size_t n = fread(table, 1, sizeof table, file);
    fclose(file);
    return n;
}

/* The i-th word of the layout, which in edition two begins after the first byte. */
static uint32_t word(uint32_t i) {
    const uint8_t *layout = table + (edition == FLY_TWO);
    return (uint32_t)(layout[2 * i] + 256 * layout[2 * i + 1]);
}

/* A+F+N+B+P, the first five words; 1 at least, so that doubling it leads somewhere. */
static uint32_t size_of_table(void) {
    uint32_t size = 0;
    for (uint32_t i = 0; i < 5; i++) size += word(i);
    return size > 0 ? size : 1;
}

/* Shows the lines that are new in this call. Those shown before must be the same. */
static void show(uint32_t from, uint32_t to) {
    if (memcmp(lines, earlier, from * sizeof *lines) != 0) abort();
    memcpy(earlier, lines, to * sizeof *lines);
    for (uint32_t i = from; i < to; i++)
        printf("  %s %s%u\n", TAGS[FLY_TAG(lines[i])], FLY_OPPOSITE(lines[i]) ? "not " : "", FLY_ATOM(lines[i]));
}

/* Shows how each rule stands by the lines shown, up to the first number that is refused: no rule has it, or the table is refused. Each
 * call judges the table anew, so the calls cost N times table and log. */
static void show_rules(size_t n, uint32_t shown) {
    fly_standing s = fly_stands(table, n, edition, 0, lines, shown);
    for (uint32_t rule = 0; !s.refused; s = fly_stands(table, n, edition, ++rule, lines, shown)) {
        uint32_t left = word(5 + word(1) + rule); /* past the five sizes and the facts */
        printf("rule %u%s %s\n", rule, ORIGINS[left / 4], STANDINGS[s.standing]);
    }
}

int main(int count, char **words) {
    if (count != 2 && count != 3) {
        fprintf(stderr, "usage: loop TABLE [EDITION]\n");
        return 2;
    }
    size_t n = load(words[1]);
    if (count == 3) edition = (uint32_t)strtoul(words[2], NULL, 10);
    uint32_t shown = 0;
    fly_answer a = {0, 0, 0, 0, 0};
    for (uint32_t budget = size_of_table(); !a.refused && !a.finished; budget *= 2) {
        a = fly_run(table, n, edition, FLY_PLAIN, budget, lines, FLY_LOG, scratch, FLY_SCRATCH);
        if (a.refused) break;
        printf("budget %u: %u lines, %u worked, %u spent%s\n", budget, a.lines, a.worked, a.spent, a.finished ? ", finished" : "");
        show(shown, a.lines);
        shown = a.lines;
    }
    show_rules(n, shown);
    if (edition == FLY_OLD) fwrite(sheet, 1, fly_sheet(table, n, sheet), stdout);
    if (a.refused) fprintf(stderr, "refused %u\n", a.refused);
    return a.refused ? 1 : 0;
}
