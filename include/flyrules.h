/* The rule engine in a console written in C. This header is its manual; words in capitals are defined below.
 *
 * To build: `./build-archive` proves the engine and writes the archive. A program that calls it is built by, for example,
 *
 *     gcc -std=c11 -O2 -Iinclude examples/console/loop.c target/staticlib/libconsole.a -o target/loop
 *
 * The table. A file in one of two editions (docs/FORMAT.md). The old layout, FLY_OLD, has at most FLY_MAX_BYTES bytes: five 16-bit
 * little-endian sizes, A atoms, F facts, N rules, B antecedent entries and P pairs, and two arrays of F+N+B+P words. The first word,
 * table[0] + 256 * table[1], is A. Edition two, FLY_TWO, has an added byte 2 in front, so that every place is one byte further and the
 * longest file has FLY_MAX_TWO bytes; and a rule's left word is its kind and 4 times its origin (fly_origin). A caller that reads a file
 * into a buffer gives it FLY_MAX_TWO + 1 bytes, so that a file that is too long is refused and not cut.
 *
 * The edition. Every call but fly_sheet, which reads the old layout, is told the edition of its tables by a number, one of fly_edition. Any
 * other number is refused with FLY_TRUNCATED, whatever the tables are. What is concluded and what it costs do not depend on the edition, nor
 * on the origins. fly_convert writes a table in the other edition; fly_join reads two tables of one edition, and writes a third in it; fly_part
 * writes a table in the edition of the one that it reads.
 *
 * The reading. fly_run is told it by a number, one of fly_reading. Any other number is refused with FLY_TRUNCATED, whatever the table is.
 * FLY_PLAIN gives what follows from the table line by line. A literal that only a loop of rules could prove is neither proved nor refuted there.
 * FLY_WELL_FOUNDED gives these lines and refutes such literals: where no line is left to work, it searches the literals that nothing but each
 * other could prove, first for −Δ and, if no line comes of it, for −∂; the new lines are worked, and it goes on until both searches, one after
 * the other, add nothing. If it finishes, every line of a plain run is among its lines. In either reading no literal has a tag and its opposite,
 * and the line of a tag is the same number. fly_sheet is of the plain reading; fly_stands takes the lines of both.
 *
 * A line. The number 4q + tag: tag FLY_TAG(line) of literal FLY_LITERAL(line). Literal 2a says that atom a holds, literal 2a + 1 that it
 * does not: FLY_ATOM(line) is a, and FLY_OPPOSITE(line) is 1 where the line is about "it does not hold". The tags are in fly_tag.
 *
 * Buffers. Each may hold anything before a call. The scratch has FLY_SCRATCH words, for every table. The log has FLY_LOG words, for
 * every table, or 4A, for a table of A atoms. The list of fly_parts has FLY_MAX_ATOMS words, for every table, or A. A sheet's buffer has
 * FLY_SHEET bytes, the output of fly_convert, fly_join and fly_part FLY_MAX_TWO, for every table, or as many as the new file. Longer ones serve
 * as well; words and bytes past what is used are left alone. A length is a count of elements: of words for log, scratch and list, of bytes for a
 * table and an output.
 *
 * A short log, of fewer than 4A words, serves too if it has a word for each line that the run writes in its reading under its budget; else the
 * call is refused with FLY_SHORT_LOG. That is known at the end of the run alone, so the run is made in memory on the stack, and its lines are
 * copied if they fit; if they do not, the caller's buffers stay as they were. A log that serves a budget serves every smaller one in the same
 * reading, and perhaps no larger one. Under a budget below A+F+N+B+P no line is written, and a log of no words serves.
 *
 * How a rule stands. fly_stands says of one rule whether it fires, is out, or waits, by the words of a log, which is only read: the first
 * `lines` words that a run wrote, or its first `worked` ones, or any others, of any length, 0 too. A word that is no line of the table says
 * nothing. Over the lines of a run no rule has +∂ for all its antecedents and −∂ for one; over words that give it both, firing comes
 * first. A call takes time in proportion to table and log.
 *
 * Parts. Two atoms belong to one part if one rule names both, as the atom of its head or of an antecedent, and so on through chains of rules. An
 * atom that no rule names is a part of its own; facts and pairs tie no atoms together. fly_parts says for each atom to which part it belongs;
 * fly_part writes the table of one part, which can be run alone: if both runs, in one reading, finish, the part's atoms get the tags that the
 * whole table gives them.
 *
 * What a caller owes. Pointers are not NULL, even where a length is 0; each buffer has the length that is passed; buffers overlap neither
 * each other nor a table. Nothing else: what is wrong with a table or with a length is answered by a number (fly_refusal).
 *
 * Threads and stack. The functions keep no state between calls, allocate nothing, and call nothing of the C library but memcpy and memset.
 * Any number of threads may call them, each with its own buffers; a table, and the log of fly_stands, is only read and may be shared. A run,
 * in either reading, takes at most FLY_RUN_STACK bytes of stack, one with a short log FLY_SHORT_LOG_STACK, a sheet FLY_SHEET_STACK,
 * fly_stands FLY_STANDS_STACK, fly_convert FLY_CONVERT_STACK, fly_join FLY_JOIN_STACK, fly_parts FLY_PARTS_STACK, and fly_part
 * FLY_PART_STACK.
 *
 * The budget. A run spends at most its budget, and takes time in proportion to what it spends (docs/PERFORMANCE.md), after judging the table,
 * which takes time in proportion to the table. With a budget below A+F+N+B+P, which is Size, nothing is written. In the plain reading
 * 5A+F+N+3B+3P finishes, hence five times Size, and FLY_MAX_SPENT for every table. In the well-founded reading each search costs Size, and is
 * made only if that is left of the budget; else the run stops, also where every line is worked. There five times Size may not finish;
 * 5A+F+N+3B+3P + (6A+2) * Size does, and FLY_MAX_SEARCH_SPENT for every table. No run spends more than that of its reading. Two runs of a table
 * in one reading under different budgets: the lines of the smaller one are the first lines of the larger one, in the same order. But a run does
 * not go on where an earlier one stopped: each call judges the table and works from the start, so a run under a growing budget costs the sum of
 * its calls. Raise the budget by doubling it (examples/console/loop.c), not by a small step; and where one call has time for b units, no number
 * of calls gets past b. */
#ifndef FLYRULES_H
#define FLYRULES_H

#include <stddef.h>
#include <stdint.h>

#ifdef __cplusplus
extern "C" {
#endif

/* the limits of a table: sizes, and bytes, 10 + 4(F+N+B+P), and one more in edition two */
#define FLY_MAX_ATOMS 512
#define FLY_MAX_FACTS 1024
#define FLY_MAX_RULES 1024
#define FLY_MAX_ENTRIES 4096
#define FLY_MAX_PAIRS 2048
#define FLY_MAX_BYTES 32778
#define FLY_MAX_TWO 32779

#define FLY_SCRATCH 32768             /* words of scratch */
#define FLY_LOG 2048                  /* words of log, 4 for each of FLY_MAX_ATOMS */
#define FLY_SHEET 5041                /* bytes of the longest sheet */
#define FLY_MAX_SPENT 23040           /* the most that a plain run of any table can spend */
#define FLY_MAX_SEARCH_SPENT 26779136 /* no run of any table in the well-founded reading can spend more */

/* bytes of stack, measured and rounded up (tests/console/promises.c) */
#define FLY_RUN_STACK 8192
#define FLY_SHORT_LOG_STACK 81920
#define FLY_SHEET_STACK 98304
#define FLY_STANDS_STACK 12288
#define FLY_CONVERT_STACK 8192
#define FLY_JOIN_STACK 24576
#define FLY_PARTS_STACK 8192
#define FLY_PART_STACK 16384

/* a line, taken apart */
#define FLY_LITERAL(line) ((line) / 4u)
#define FLY_TAG(line) ((line) % 4u)
#define FLY_ATOM(line) ((line) / 8u)
#define FLY_OPPOSITE(line) ((line) / 4u % 2u)

/* the editions of a table */
enum fly_edition {
    FLY_OLD = 1, /* the old layout */
    FLY_TWO = 2  /* a byte 2, and then the old layout, in which a rule's left word is kind + 4 * origin */
};

/* the readings of a table by a run */
enum fly_reading {
    FLY_PLAIN = 0,       /* what follows from the table line by line */
    FLY_WELL_FOUNDED = 1 /* and −Δ and −∂ of what rests on nothing but loops of rules, with what follows from them */
};

/* whose rule it is, in edition two: a left word divided by 4 */
enum fly_origin {
    FLY_NONE = 0,
    FLY_HOUSE = 1,
    FLY_TOUR = 2,
    FLY_CONSOLE = 3
};

enum fly_tag {
    FLY_DEFINITELY = 0,     /* +Δ: it is a fact, or follows by strict rules alone */
    FLY_NOT_DEFINITELY = 1, /* −Δ: shown not to be so */
    FLY_DEFEASIBLY = 2,     /* +∂: it holds, as the rules stand */
    FLY_NOT_DEFEASIBLY = 3  /* −∂: shown to have no such proof */
};

/* How a rule stands: the first that fits. */
enum fly_stand {
    FLY_FIRING = 0, /* every antecedent has +∂; a rule without antecedents fires */
    FLY_OUT = 1,    /* an antecedent has −∂ */
    FLY_WAITING = 2 /* neither */
};

/* Why a call is refused. The lowest number that applies is given; fly_stands gives a table's before that of a rule number, fly_part a table's
 * before that of an atom, and fly_join has an order of its own, which stands there. What is said of bytes is of those after the first in edition
 * two. */
enum fly_refusal {
    FLY_TRUNCATED = 1,     /* the table has fewer than 10 bytes; edition two: no first byte, or another than 2; a number of no edition, or of
                            * no reading */
    FLY_TOO_LARGE = 2,     /* one of its five sizes is above its limit; fly_join: one of the joined table's is */
    FLY_WRONG_LENGTH = 3,  /* it does not have 10 + 4(F+N+B+P) bytes */
    FLY_BAD_KIND = 4,      /* a fact's left word is not 0, or a rule's is above 2; edition two: its kind is above 2, or its origin above 3 */
    FLY_OUT_OF_RANGE = 5,  /* a literal is not below 2A, or a rule number not below N; fly_part: the atom is not below A */
    FLY_UNSORTED = 6,      /* facts, entries or pairs do not rise strictly */
    FLY_CYCLIC = 7,        /* the pairs lead from some rule back to itself */
    FLY_SHORT_SCRATCH = 8, /* the scratch has fewer than FLY_SCRATCH words */
    FLY_SHORT_LOG = 9,     /* the run writes more lines than the log has words; fly_convert: the new file has more bytes than the output;
                            * fly_parts: the list has fewer than A words */
    FLY_HAS_ORIGIN = 10,   /* fly_convert: a rule has an origin, for which the old layout has no place */
    FLY_ATOMS_DIFFER = 11, /* fly_join: house and tour do not have the same number of atoms */
    FLY_SHORT_OUTPUT = 12  /* fly_join, fly_part: the new table has more bytes than the output */
};

/* refused: 0, or the number of the refusal; then the other four are 0, and log and scratch are as they were. Else finished is 1 if
 * every line was worked and, in the well-founded reading, both searches were then made and added nothing; 0 if the budget stopped the run. Where
 * it stopped before a search, every line was worked, so that worked = lines does not say that it finished. lines were written to the log, worked
 * of them were worked, and spent is what that and the searches cost. */
typedef struct {
    uint32_t refused, finished, lines, worked, spent;
} fly_answer;

/* Runs a table in a reading, one of fly_reading, under a budget. A number of no edition, or of no reading, is refused with FLY_TRUNCATED before
 * the table is looked at. After an accepted call the log's first `lines` words are the lines, the words past them are as they were, the
 * scratch's first FLY_SCRATCH words are 0 and the words past them are as they were. */
fly_answer fly_run(const uint8_t *table, size_t table_len, uint32_t edition, uint32_t reading, uint32_t budget, uint16_t *log,
                   size_t log_len, uint16_t *scratch, size_t scratch_len);

/* Prints the sheet of a table in the old layout, as README says: returns its number of bytes; the rest of out is 0. A table that is refused has a sheet
 * too: the line `refused` and its number. Log and scratch of its run are on the stack. */
uint32_t fly_sheet(const uint8_t *table, size_t table_len, uint8_t out[FLY_SHEET]);

/* refused: 0, or the number of the refusal, 1 to 7; then standing is 0, and says nothing. Else standing is one of fly_stand. */
typedef struct {
    uint32_t refused, standing;
} fly_standing;

/* Says how rule number `rule` of a table stands by the words of a log. A table that is refused is refused as by a run, and then a rule
 * number not below N with FLY_OUT_OF_RANGE. Nothing is written. */
fly_standing fly_stands(const uint8_t *table, size_t table_len, uint32_t edition, uint32_t rule, const uint16_t *log, size_t log_len);

/* refused: 0, or the number of the refusal; then bytes is 0, and the output is as it was. Else bytes is the byte count of the new file. */
typedef struct {
    uint32_t refused, bytes;
} fly_written;

/* Writes a table in the other edition: one in the old layout in edition two, with origin 0, one byte longer; one in edition two in the old
 * layout, one byte shorter. The new file says the same, and is the only one of its edition that does. A table that is refused is refused as by
 * a run; then an output that is shorter than the new file with FLY_SHORT_LOG; then, on the way back, a rule with an origin with
 * FLY_HAS_ORIGIN. Bytes of the output past the new file are as they were. */
fly_written fly_convert(const uint8_t *table, size_t table_len, uint32_t edition, uint8_t *out, size_t out_len);

/* Writes a house's table and a tour's in one, over the same atoms. The edition is that of both, and of the new table. That has the facts of
 * both, each once; the house's rules under their own numbers and the tour's after them, so that rule r of the tour is rule N + r where the
 * house has N; antecedents, kinds and origins as they are; the pairs of both; and one pair more, house rule over tour rule, for each such two
 * with complementary heads, whatever their kinds. The new table is never refused by 1 to 7 in its edition: its pairs, too, do not lead from a
 * rule back to itself. In a plain run of it that finishes, a strict or defeasible rule of the house whose antecedents all have +∂ gives its head
 * +∂, if no rule of the house, defeaters included, has the head's complement as head, and that complement has −Δ.
 * Of these the first that applies is given, and not the lowest number: what the house's table is refused by, as by a run; what the tour's is
 * refused by; FLY_ATOMS_DIFFER; FLY_TOO_LARGE for the joined table; FLY_SHORT_OUTPUT. Bytes of the output past the new table are as they were.
 * A call takes time in proportion to both tables and the new one. */
fly_written fly_join(const uint8_t *house, size_t house_len, const uint8_t *tour, size_t tour_len, uint32_t edition, uint8_t *out,
                     size_t out_len);

/* Lists the parts of a table: word a of the list becomes the smallest atom of the part of atom a, so that two atoms belong to one part exactly if
 * their words are equal. Returns 0, or the number of the refusal; then the list is as it was. A table that is refused is refused as by a run, and
 * then a list of fewer than A words with FLY_SHORT_LOG. Words of the list past the first A are as they were. A call takes time nearly in
 * proportion to the table, however the atoms are numbered (docs/PERFORMANCE.md). */
uint32_t fly_parts(const uint8_t *table, size_t table_len, uint32_t edition, uint16_t *list, size_t list_len);

/* Writes the table of the part to which an atom belongs, in the same edition; each atom of a part gives the same table. It has the same A, and
 * atoms keep their numbers; the facts of the part's atoms; the rules whose heads are of the part, in their order and numbered anew from 0, with
 * their antecedents, kinds and origins; and the pairs of two such rules. It is never longer than the whole table, and never refused by 1 to 7 in
 * its edition. In a run of it that finishes, each literal of the part's atoms has just the tags that it has in a run of the whole table, in the
 * same reading, that finishes; nothing is said of the order of the lines, nor of what is spent. The other atoms have neither facts nor rules
 * there, so that such a run gives both their literals −Δ and −∂, which says nothing of the whole table.
 * A table that is refused is refused as by a run; then an atom that is not below A with FLY_OUT_OF_RANGE; then an output that is shorter than the
 * new table with FLY_SHORT_OUTPUT. Bytes of the output past the new table are as they were. A call takes time nearly in proportion to the whole
 * table, however small the part. */
fly_written fly_part(const uint8_t *table, size_t table_len, uint32_t edition, uint32_t atom, uint8_t *out, size_t out_len);

#ifdef __cplusplus
}
#endif

#endif
