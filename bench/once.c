/* once FUNCTION [WHAT [WORDS [READING]]]: one call on the table on standard input, for count.sh to count. fly_sheet prints the sheet;
 * fly_convert prints the table in the other edition; fly_join takes the tour's file as WHAT, and prints the joined table; fly_parts prints the
 * list, a word on each line, and fly_part, which takes an atom as WHAT, the part's table; an engine (fly_run, c_run, flags_run) takes a budget
 * as WHAT, and its answer and log are printed, a number on each line. WORDS of log are lent, or enough for every table. fly_run is told READING,
 * or the plain one, which is that of the other engines. WHAT may be `judge`: then no scratch is lent, and an accepted table is refused by 8 once
 * it is judged, and none is cleared. Any other refusal is an error. fly_stands takes a rule number as WHAT, and its answer is printed. Its log
 * is made before the call: the lines of a run to its finish, or WORDS words, these lines over and over; none, if the run writes none.
 * With WITHOUT_READING it is built for an archive of before S-9, whose fly_run is told no reading. */
#ifdef WITHOUT_READING
#define fly_run fly_run_in_a_reading /* what the header declares, and this archive lacks */
#endif
#include "c_engine.h"
#include "c_flags.h"

#include <stdio.h>
#include <stdlib.h>
#include <string.h>

/* The edition of a table, by its length: the old layout has an even number of bytes, and edition two one more. */
static uint32_t edition_of(size_t len)
{
    return len % 2 == 0 ? FLY_OLD : FLY_TWO;
}

#ifdef WITHOUT_READING
#undef fly_run
fly_answer fly_run(const uint8_t *table, size_t table_len, uint32_t edition, uint32_t budget, uint16_t *log, size_t log_len,
                   uint16_t *scratch, size_t scratch_len);
#define TOLD(edition, reading) edition
#else
#define TOLD(edition, reading) edition, reading
#endif

static uint32_t reading = FLY_PLAIN;

static fly_answer run_table(const uint8_t *table, size_t table_len, uint32_t budget, uint16_t *log, size_t log_len, uint16_t *scratch,
                            size_t scratch_len)
{
    return fly_run(table, table_len, TOLD(edition_of(table_len), reading), budget, log, log_len, scratch, scratch_len);
}

typedef fly_answer engine(const uint8_t *table, size_t table_len, uint32_t budget, uint16_t *log, size_t log_len, uint16_t *scratch,
                          size_t scratch_len);

static engine *named(const char *name)
{
    return strcmp(name, "fly_run") == 0 ? run_table : strcmp(name, "c_run") == 0 ? c_run : strcmp(name, "flags_run") == 0 ? flags_run : NULL;
}

/* A log of so many words: these lines over and over. */
static uint16_t *repeated(const uint16_t *lines, size_t n, size_t words)
{
    uint16_t *log = calloc(words == 0 ? 1 : words, sizeof *log); /* no words are at an address too */
    for (size_t i = 0; log != NULL && i < words; i++)
        log[i] = lines[i % n];
    return log;
}

static int join(const uint8_t *house, size_t len, const char *name)
{
    static uint8_t tour[FLY_MAX_TWO + 1], out[FLY_MAX_TWO];
    FILE *file = fopen(name, "rb");
    if (file == NULL)
        return fprintf(stderr, "once: no file %s\n", name), 1;
    size_t tour_len = fread(tour, 1, sizeof tour, file);
    fclose(file);
    fly_written got = fly_join(house, len, tour, tour_len, edition_of(len), out, sizeof out);
    fwrite(out, 1, got.bytes, stdout);
    return got.refused != 0;
}

static int list_parts(const uint8_t *table, size_t len)
{
    static uint16_t list[FLY_MAX_ATOMS];
    if (fly_parts(table, len, edition_of(len), list, FLY_MAX_ATOMS) != 0)
        return 1;
    const uint8_t *sizes = table + (edition_of(len) == FLY_TWO);
    for (int a = 0; a < sizes[0] + 256 * sizes[1]; a++)
        printf("%u\n", (unsigned)list[a]);
    return 0;
}

int main(int argc, char **argv)
{
    /* Aligned, so that the call's place on the stack does not hang on the environment's length: memset's count does on its address. */
    _Alignas(4096) uint8_t sheet[FLY_SHEET];
    static uint8_t table[FLY_MAX_TWO + 1], out[FLY_MAX_TWO];
    static uint16_t log[FLY_LOG], scratch[FLY_SCRATCH];
    size_t len = fread(table, 1, sizeof table, stdin);
    if (argc == 2 && strcmp(argv[1], "fly_sheet") == 0) {
        fwrite(sheet, 1, fly_sheet(table, len, sheet), stdout);
        return 0;
    }
    if (argc == 2 && strcmp(argv[1], "fly_convert") == 0) {
        fly_written got = fly_convert(table, len, edition_of(len), out, sizeof out);
        fwrite(out, 1, got.bytes, stdout);
        return got.refused != 0;
    }
    if (argc == 3 && strcmp(argv[1], "fly_join") == 0)
        return join(table, len, argv[2]);
    if (argc == 2 && strcmp(argv[1], "fly_parts") == 0)
        return list_parts(table, len);
    if (argc == 3 && strcmp(argv[1], "fly_part") == 0) {
        fly_written got = fly_part(table, len, edition_of(len), (uint32_t)strtoul(argv[2], NULL, 10), out, sizeof out);
        fwrite(out, 1, got.bytes, stdout);
        return got.refused != 0;
    }
    if ((argc == 3 || argc == 4) && strcmp(argv[1], "fly_stands") == 0) {
        size_t lines = run_table(table, len, FLY_MAX_SPENT, log, FLY_LOG, scratch, FLY_SCRATCH).lines;
        size_t words = argc == 4 && lines != 0 ? strtoul(argv[3], NULL, 10) : lines;
        uint16_t *lent = repeated(log, lines, words);
        if (lent == NULL)
            return fprintf(stderr, "once: no memory for %zu words\n", words), 1;
        fly_standing got = fly_stands(table, len, edition_of(len), (uint32_t)strtoul(argv[2], NULL, 10), lent, words);
        printf("refused %u standing %u\n", (unsigned)got.refused, (unsigned)got.standing);
        free(lent);
        return 0;
    }
    engine *run = 3 <= argc && argc <= 5 ? named(argv[1]) : NULL;
    size_t words = argc > 3 ? strtoul(argv[3], NULL, 10) : FLY_LOG;
    if (argc == 5)
        reading = (uint32_t)strtoul(argv[4], NULL, 10);
    if (run == NULL || words > FLY_LOG || (run != run_table && reading != FLY_PLAIN))
        return fprintf(stderr, "usage: once fly_sheet | once fly_convert | once fly_join TOUR | once fly_parts | once fly_part ATOM | "
                               "once fly_stands RULE [WORDS] | "
                               "once fly_run BUDGET|judge [WORDS, at most %d [READING]] | "
                               "once c_run|flags_run BUDGET|judge [WORDS]\n", FLY_LOG), 2;
    int judging = strcmp(argv[2], "judge") == 0;
    fly_answer got = run(table, len, (uint32_t)strtoul(argv[2], NULL, 10), log, words, scratch, judging ? 0 : FLY_SCRATCH);
    if (got.refused != (judging ? 8 : 0))
        return fprintf(stderr, "once: %s %s: refused by %u\n", argv[1], argv[2], (unsigned)got.refused), 1;
    printf("finished %u lines %u worked %u spent %u\n", (unsigned)got.finished, (unsigned)got.lines, (unsigned)got.worked,
           (unsigned)got.spent);
    for (uint32_t i = 0; i < got.lines; i++)
        printf("%u\n", (unsigned)log[i]);
    return 0;
}
