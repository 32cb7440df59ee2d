#!/usr/bin/env python3
"""Writes the cases made by hand into crates/cases/data: made.bin, told.bin, readings.bin, bodies.bin, readers.bin, longest.bin, conversions.bin,
lists.bin and parted.bin. With --check it writes nothing, and fails unless the files are what it would write.

A table is written as words, where | parts the sizes A F N B P, the left array and the right array. Each array has the facts,
then the rules, the entries and the pairs. A number with ; after it is a byte, as the 2 before a table of edition two.
"""
import os
import struct
import sys

DATA = os.path.join(os.path.dirname(os.path.abspath(__file__)), '..', '..', 'crates', 'cases', 'data')

# Buffers that are longer than any run, list of parts, conversion or part's table needs.
LOG, SCRATCH, OUTPUT = 2051, 32773, 50000
LIST = 600

# The editions, and what stands before the layout in each.
OLD, TWO = 1, 2
MARK = '2; '
BEFORE = {OLD: '', TWO: MARK}

# The readings.
PLAIN, WELL_FOUNDED = 0, 1

CASE_1 = '2 1 2 1 1 | 0 1 1 0 0 | 0 2 3 0 1'
EMPTY = '0 0 0 0 0'
ATOMS_512 = '512 0 0 0 0'
CIRCLE = '1 0 1 0 1 | 1 0 | 0 0'
LOOP = '1 0 1 1 0 | 1 0 | 0 0'

# The arrays of large tables. Facts 0, 1, 2, ..; rules of every kind with heads below 8, and the same of every origin; entries, 8 for each
# of the first rules; pairs, in which each of the first rules is over the 4 rules after it.
FACTS = [(0, k) for k in range(1024)]
RULES = [(k % 3, k % 8) for k in range(1024)]
ORIGINS = [(k % 3 + 4 * (k % 4), k % 8) for k in range(1024)]
ENTRIES = [(k // 8, k % 8) for k in range(4096)]
PAIRS = [(k // 4, k // 4 + 1 + k % 4) for k in range(2048)]


def large(sizes, places):
    """A table of these sizes, with these places of the left array and the right array."""
    return ' '.join(map(str, [sizes, *(left for left, _ in places), *(right for _, right in places)]))


AT_LIMITS = large('512 1024 1024 4096 2048', FACTS + RULES + ENTRIES + PAIRS)
AT_LIMITS_ORIGINS = MARK + large('512 1024 1024 4096 2048', FACTS + ORIGINS + ENTRIES + PAIRS)


# What a run gives: refused, finished, lines, worked, spent, log.
def refused(number):
    return number, 0, 0, 0, 0, ''


STOPPED = 0, 0, 0, 0, 0, ''
FINISHED = 0, 1, 0, 0, 0, ''
CASE_1_FINISHED = 0, 1, 8, 8, 17, '0 5 9 13 2 7 10 15'
CASE_1_STOPPED = 0, 0, 6, 4, 11, '0 5 9 13 2 7'
LOOP_FINISHED = 0, 1, 3, 3, 6, '1 5 7'
LOOP_OPENED = 0, 0, 2, 0, 3, '1 5'
ATOMS_512_OPENED = 0, 0, 1024, 0, 512, ' '.join(str(4 * q + 1) for q in range(1024))

# What it is, the table, and what a run gives with budget 0 and buffers that are long enough. A fourth word says how many bytes of the
# table there are, where it is not all of them (a byte past its words is 0).
JUDGED = [
    # 1 and 3: the number of bytes.
    ('no bytes', '', refused(1)),
    ('a byte short of the five sizes', EMPTY, refused(1), 9),
    ('the five sizes, all 0', EMPTY, FINISHED),
    ('a byte past them', EMPTY, refused(3), 11),
    ('case 1, a byte short', CASE_1, refused(3), 29),
    ('case 1', CASE_1, STOPPED),
    ('case 1, and a byte past it', CASE_1, refused(3), 31),
    # 2: each size at its limit, and one above it, where the five sizes are enough.
    ('512 atoms', ATOMS_512, STOPPED),
    ('513 atoms', '513 0 0 0 0', refused(2)),
    ('1,024 facts', large('512 1024 0 0 0', FACTS), STOPPED),
    ('1,025 facts', '512 1025 0 0 0', refused(2)),
    ('1,024 rules', large('4 0 1024 0 0', RULES), STOPPED),
    ('1,025 rules', '4 0 1025 0 0', refused(2)),
    ('4,097 entries', '4 0 1024 4097 0', refused(2)),
    ('2,049 pairs', '4 0 1024 0 2049', refused(2)),
    ('every size at its limit', AT_LIMITS, STOPPED),
    # 2 comes before 3: the five sizes with no arrays.
    ('1,024 facts, not there', '1 1024 0 0 0', refused(3)),
    ('1,025 facts, not there', '1 1025 0 0 0', refused(2)),
    ('1,025 rules, not there', '1 0 1025 0 0', refused(2)),
    ('4,097 entries, not there', '1 0 0 4097 0', refused(2)),
    ('2,049 pairs, not there', '1 0 0 0 2049', refused(2)),
    # 4: kinds.
    ('the last rule of kind 2', '1 1 2 0 0 | 0 0 2 | 0 0 1', STOPPED),
    ('the last rule of kind 3', '1 1 2 0 0 | 0 0 3 | 0 0 1', refused(4)),
    ('and fact 0 is a stranger', '1 1 2 0 0 | 0 0 3 | 2 0 1', refused(4)),
    ('a fact with left 1', '1 1 2 0 0 | 1 0 2 | 0 0 1', refused(4)),
    ('and there is no atom', '0 1 0 0 0 | 1 | 0', refused(4)),
    # 5: strangers.
    ('a fact below 2A', '1 1 0 0 0 | 0 | 1', STOPPED),
    ('a fact at 2A', '1 1 0 0 0 | 0 | 2', refused(5)),
    ('a head at 2A', '1 0 1 0 0 | 1 | 2', refused(5)),
    ('an antecedent below 2A', '1 0 1 1 0 | 1 0 | 0 1', STOPPED),
    ('an antecedent at 2A', '1 0 1 1 0 | 1 0 | 0 2', refused(5)),
    ('an entry of rule N', '1 0 1 1 0 | 1 1 | 0 0', refused(5)),
    ('a pair of rules below N', '1 0 2 0 1 | 1 1 0 | 0 1 1', STOPPED),
    ('a pair whose stronger rule is N', '1 0 2 0 1 | 1 1 2 | 0 1 1', refused(5)),
    ('a pair whose weaker rule is N', '1 0 2 0 1 | 1 1 0 | 0 1 2', refused(5)),
    ('facts that fall as well', '1 2 0 0 0 | 0 0 | 2 0', refused(5)),
    ('a fact without an atom', '0 1 0 0 0 | 0 | 0', refused(5)),
    # 6: disorder.
    ('facts that rise', '2 2 0 0 0 | 0 0 | 1 3', STOPPED),
    ('facts that are equal', '2 2 0 0 0 | 0 0 | 3 3', refused(6)),
    ('facts that fall', '2 2 0 0 0 | 0 0 | 3 1', refused(6)),
    ('entries that rise by left', '1 0 2 2 0 | 1 1 0 1 | 0 1 1 0', STOPPED),
    ('entries that fall by left', '1 0 2 2 0 | 1 1 1 0 | 0 1 0 1', refused(6)),
    ('entries that are equal', '1 0 2 2 0 | 1 1 0 0 | 0 1 1 1', refused(6)),
    ('entries that fall by right', '1 0 2 2 0 | 1 1 0 0 | 0 1 1 0', refused(6)),
    ('pairs that are equal', '1 0 2 0 2 | 1 1 0 0 | 0 1 1 1', refused(6)),
    ('pairs that fall and are a circle', '1 0 2 0 2 | 1 1 1 0 | 0 1 0 1', refused(6)),
    # 7: circles.
    ('a circle of one rule', CIRCLE, refused(7)),
    ('a circle of two', '1 0 2 0 2 | 1 1 0 1 | 0 1 1 0', refused(7)),
    ('a circle of three', '1 0 3 0 3 | 1 1 1 0 1 2 | 0 0 0 1 2 0', refused(7)),
    ('two ways from one rule to another', '1 0 4 0 4 | 1 1 1 1 0 0 1 2 | 0 0 0 0 1 2 3 3', STOPPED),
]

# What it is, the table, the budget, how many words of log and of scratch are lent, and what the run gives.
RUNS = [
    # 8: the scratch below 32,768 words.
    ('no scratch', CASE_1, 19, LOG, 0, refused(8)),
    ('one word of scratch', CASE_1, 19, LOG, 1, refused(8)),
    ('a word of scratch too few', CASE_1, 19, LOG, 32767, refused(8)),
    ('the scratch at its limit', CASE_1, 19, LOG, 32768, CASE_1_FINISHED),
    ('a word of scratch more', CASE_1, 19, LOG, 32769, CASE_1_FINISHED),
    ('a word too few for no atoms', EMPTY, 0, LOG, 32767, refused(8)),
    # 9: more lines come than the log has words. Under budget 19 case 1 writes 8 lines, which is 4A; under 13 it writes 6, and works 4.
    ('no log', CASE_1, 19, 0, SCRATCH, refused(9)),
    ('4A-1 words for 4A lines', CASE_1, 19, 7, SCRATCH, refused(9)),
    ('4A words for 4A lines', CASE_1, 19, 8, SCRATCH, CASE_1_FINISHED),
    ('a word more', CASE_1, 19, 9, SCRATCH, CASE_1_FINISHED),
    ('both at their limits', CASE_1, 19, 8, 32768, CASE_1_FINISHED),
    ('4A-1 words for 6 lines', CASE_1, 13, 7, SCRATCH, CASE_1_STOPPED),
    ('6 words for 6 lines', CASE_1, 13, 6, SCRATCH, CASE_1_STOPPED),
    ('5 words for 6 lines', CASE_1, 13, 5, SCRATCH, refused(9)),
    ('as many words as lines are worked', CASE_1, 13, 4, SCRATCH, refused(9)),
    ('3 words for 3 lines', LOOP, 9, 3, SCRATCH, LOOP_FINISHED),
    ('2 words for 3 lines', LOOP, 9, 2, SCRATCH, refused(9)),
    ('2 words for 2 lines', LOOP, 3, 2, SCRATCH, LOOP_OPENED),
    ('1 word for 2 lines', LOOP, 3, 1, SCRATCH, refused(9)),
    ('no log for no line', LOOP, 2, 0, SCRATCH, STOPPED),
    ('a word of log too few for 512 atoms', ATOMS_512, 2560, 2047, SCRATCH, refused(9)),
    ('1,024 words for 1,024 lines', ATOMS_512, 512, 1024, SCRATCH, ATOMS_512_OPENED),
    ('1,023 words for 1,024 lines', ATOMS_512, 512, 1023, SCRATCH, refused(9)),
    ('512 atoms, and a budget below the size', ATOMS_512, 511, 0, SCRATCH, STOPPED),
    # The lowest number is given, and a budget below the size comes after 8; under it no log is too short.
    ('both too short', CASE_1, 19, 7, 32767, refused(8)),
    ('a circle, and the scratch too short', CIRCLE, 19, LOG, 32767, refused(7)),
    ('a circle, and the log too short', CIRCLE, 19, 3, SCRATCH, refused(7)),
    ('nothing at all', '', 19, 0, 0, refused(1)),
    ('the scratch and the budget too small', CASE_1, 6, LOG, 32767, refused(8)),
    ('no log, and the budget too small', CASE_1, 6, 0, SCRATCH, STOPPED),
    # Accepted, with nothing to write: the scratch is cleared all the same.
    ('no atoms, and no log', EMPTY, 0, 0, SCRATCH, FINISHED),
    ('and the scratch at its limit', EMPTY, 0, 0, 32768, FINISHED),
    ('a budget below the size', CASE_1, 6, LOG, SCRATCH, STOPPED),
]

# A rule's left word, the kind and the origin that it is read as, and the refusal, or 0, in the old layout and in edition two.
LEFTS = [
    (0, 0, 0, 0, 0), (1, 1, 0, 0, 0), (2, 2, 0, 0, 0), (3, 2, 0, 4, 4),
    (4, 0, 1, 4, 0), (5, 1, 1, 4, 0), (6, 2, 1, 4, 0), (7, 2, 1, 4, 4),
    (8, 0, 2, 4, 0), (9, 1, 2, 4, 0), (10, 2, 2, 4, 0), (11, 2, 2, 4, 4),
    (12, 0, 3, 4, 0), (13, 1, 3, 4, 0), (14, 2, 3, 4, 0), (15, 2, 3, 4, 4),
    (16, 0, 3, 4, 4), (17, 1, 3, 4, 4), (18, 2, 3, 4, 4), (65535, 2, 3, 4, 4),
]

# What case 1 gives where rule 0 is of each kind.
CASE_1_BY_KIND = [
    (0, 1, 8, 8, 18, '0 5 13 2 8 7 10 15'),
    CASE_1_FINISHED,
    (0, 1, 8, 8, 17, '0 5 9 13 2 7 11 15'),
]

# Case 1, with rules of the house and of the tour.
CASE_1_ORIGINS = MARK + '2 1 2 1 1 | 0 5 9 0 0 | 0 2 3 0 1'

# Rules 3 and 4 have entries and pairs, and no rule has an origin.
RULE_4 = '1 0 5 2 2 | 1 1 1 1 1 3 4 3 4 | 0 1 0 1 0 0 1 0 1'
RULE_4_FINISHED = 0, 1, 4, 4, 18, '1 5 7 3'

# What it is, the table, the edition that the call is told, and what a run gives with budget 100. A fifth word says how many bytes of the
# table there are.
TOLD = [
    ('case 1 with origins', CASE_1_ORIGINS, TWO, CASE_1_FINISHED),
    ('and both of the console', MARK + '2 1 2 1 1 | 0 13 13 0 0 | 0 2 3 0 1', TWO, CASE_1_FINISHED),
    ('every size at its limit, with origins', AT_LIMITS_ORIGINS, TWO, STOPPED),
    # 1: the first byte.
    ('no bytes', '', TWO, refused(1)),
    ('a first byte 0', '0; ' + CASE_1, TWO, refused(1)),
    ('a first byte 1', '1; ' + CASE_1, TWO, refused(1)),
    ('a first byte 3', '3; ' + CASE_1, TWO, refused(1)),
    ('a first byte 255', '255; ' + CASE_1, TWO, refused(1)),
    ('a first byte 3, and no sizes', '3;', TWO, refused(1)),
    # One edition, told as the other.
    ('the five sizes, all 0, told as edition two', EMPTY, TWO, refused(1)),
    ('a loop, told as edition two', LOOP, TWO, refused(1)),
    ('case 1, which has a 2 in the first place, told as edition two', CASE_1, TWO, refused(3)),
    ('two atoms in the old layout', '2 0 0 0 0', OLD, (0, 1, 8, 8, 10, '1 5 9 13 3 7 11 15')),
    ('and told as edition two', '2 0 0 0 0', TWO, refused(1)),
    ('no atoms in edition two, told as the old layout', MARK + EMPTY, OLD, refused(3)),
    ('a loop in edition two, told as the old layout', MARK + LOOP, OLD, refused(3)),
    ('case 1 in edition two, told as the old layout', MARK + CASE_1, OLD, refused(2)),
    ('and with origins', CASE_1_ORIGINS, OLD, refused(2)),
    ('a second 2 before it', MARK + MARK + CASE_1, TWO, refused(2)),
    # 4: the left words of facts, entries and pairs have no origin.
    ('a fact with left 1', MARK + '1 1 0 0 0 | 1 | 0', TWO, refused(4)),
    ('a fact with left 4', MARK + '1 1 0 0 0 | 4 | 0', TWO, refused(4)),
    ('a fact with left 65,535', MARK + '1 1 0 0 0 | 65535 | 0', TWO, refused(4)),
    ('a fact with left 4 in the old layout', '1 1 0 0 0 | 4 | 0', OLD, refused(4)),
    ('entries and pairs of rules 3 and 4', MARK + RULE_4, TWO, RULE_4_FINISHED),
    ('and in the old layout', RULE_4, OLD, RULE_4_FINISHED),
    # The lowest number is given.
    ('a first byte 3, and 513 atoms', '3; 513 0 0 0 0', TWO, refused(1)),
    ('513 atoms, and a byte past the sizes', MARK + '513 0 0 0 0', TWO, refused(2), 12),
    ('an origin above 3, and a byte short', MARK + '1 0 1 0 0 | 16 | 0', TWO, refused(3), 14),
    ('an origin above 3, and a byte past it', MARK + '1 0 1 0 0 | 16 | 0', TWO, refused(3), 16),
    ('an origin above 3, and a stranger', MARK + '1 1 1 0 0 | 0 16 | 2 0', TWO, refused(4)),
    ('an origin above 3, and facts that fall', MARK + '1 2 1 0 0 | 0 0 16 | 1 0 0', TWO, refused(4)),
    ('an origin above 3, and a circle', MARK + '1 0 1 0 1 | 16 0 | 0 0', TWO, refused(4)),
    ('an origin, and a stranger', MARK + '1 1 1 0 0 | 0 13 | 2 0', TWO, refused(5)),
    ('an origin, a stranger, and facts that fall', MARK + '1 2 1 0 0 | 0 0 13 | 2 1 0', TWO, refused(5)),
    ('an origin, and facts that fall', MARK + '1 2 1 0 0 | 0 0 13 | 1 0 0', TWO, refused(6)),
    ('an origin, facts that fall, and a circle', MARK + '1 2 1 0 1 | 0 0 13 0 | 1 0 0 0', TWO, refused(6)),
    ('an origin, and a circle', MARK + '1 0 1 0 1 | 13 0 | 0 0', TWO, refused(7)),
]

# Document 004's example of the well-founded reading, with a, b, c, d as the atoms 0 to 3. Its size is 14. Of the lines at the end 3 is −∂ of a,
# and 23 is −∂ of ¬c.
LOOP_OF_TWO = '4 0 6 4 0 | 1 1 1 1 1 1  0 1 2 3 | 0 0 0 5 6 7  2 5 6 0'
LOOP_OF_TWO_INITIAL = '1 5 9 13 17 21 25 29'
LOOP_OF_TWO_PLAIN = LOOP_OF_TWO_INITIAL + ' 7 11 15 19 27 31'
LOOP_OF_TWO_LOG = LOOP_OF_TWO_PLAIN + ' 3 23'
LOOP_OF_TWO_SEARCHED = 0, 0, 14, 14, 44, LOOP_OF_TWO_PLAIN
LOOP_OF_TWO_FOUND = 0, 0, 16, 14, 58, LOOP_OF_TWO_LOG
LOOP_OF_TWO_FINISHED = 0, 1, 16, 16, 90, LOOP_OF_TWO_LOG

STRICT_LOOP = '1 0 1 1 0 | 0 0 | 0 0'
ATOMS_512_LOG = ' '.join(str(4 * q + tag) for tag in (1, 3) for q in range(1024))

# What it is, the table, the reading, the budgets, how many words of log are lent, and what the run gives with each of the budgets in both
# editions. A seventh word says how many words of scratch are lent.
READINGS = [
    ('document 004, plain: −∂ neither of a nor of ¬c', LOOP_OF_TWO, PLAIN, [30, 44, 70, 90], LOG, (0, 1, 14, 14, 30, LOOP_OF_TWO_PLAIN)),
    ('a budget below the size', LOOP_OF_TWO, WELL_FOUNDED, [0, 13], LOG, STOPPED),
    ('the opening alone', LOOP_OF_TWO, WELL_FOUNDED, [14], LOG, (0, 0, 8, 0, 14, LOOP_OF_TWO_INITIAL)),
    ('a line is left', LOOP_OF_TWO, WELL_FOUNDED, [29], LOG, (0, 0, 14, 13, 29, LOOP_OF_TWO_PLAIN)),
    ('all worked, and no search begun', LOOP_OF_TWO, WELL_FOUNDED, range(30, 44), LOG, (0, 0, 14, 14, 30, LOOP_OF_TWO_PLAIN)),
    ('all worked, and the first search adds nothing', LOOP_OF_TWO, WELL_FOUNDED, range(44, 58), LOG, LOOP_OF_TWO_SEARCHED),
    ('the second adds both lines', LOOP_OF_TWO, WELL_FOUNDED, [58, 59], LOG, LOOP_OF_TWO_FOUND),
    ('one of them worked', LOOP_OF_TWO, WELL_FOUNDED, [60, 61], LOG, (0, 0, 16, 15, 60, LOOP_OF_TWO_LOG)),
    ('both worked: at 70, five times the size, it stops', LOOP_OF_TWO, WELL_FOUNDED, range(62, 76), LOG, (0, 0, 16, 16, 62, LOOP_OF_TWO_LOG)),
    ('the first search adds nothing again', LOOP_OF_TWO, WELL_FOUNDED, range(76, 90), LOG, (0, 0, 16, 16, 76, LOOP_OF_TWO_LOG)),
    ('and neither does the second', LOOP_OF_TWO, WELL_FOUNDED, [90, 91, 402, 2 ** 32 - 1], LOG, LOOP_OF_TWO_FINISHED),
    # Where the size is 0, a search costs nothing.
    ('no atoms', EMPTY, WELL_FOUNDED, [0, 1], LOG, FINISHED),
    ('no atoms, and no log', EMPTY, WELL_FOUNDED, [0], 0, FINISHED),
    # Nothing is found where every literal is decided.
    ('case 1: one search', CASE_1, WELL_FOUNDED, [24, 30], LOG, (0, 0, 8, 8, 24, '0 5 9 13 2 7 10 15')),
    ('case 1: both', CASE_1, WELL_FOUNDED, [31, 117], LOG, (0, 1, 8, 8, 31, '0 5 9 13 2 7 10 15')),
    ('512 atoms: no search', ATOMS_512, WELL_FOUNDED, [2560, 3071], LOG, (0, 0, 2048, 2048, 2560, ATOMS_512_LOG)),
    ('512 atoms: one', ATOMS_512, WELL_FOUNDED, [3072, 3583], LOG, (0, 0, 2048, 2048, 3072, ATOMS_512_LOG)),
    ('512 atoms: both', ATOMS_512, WELL_FOUNDED, [3584], LOG, (0, 1, 2048, 2048, 3584, ATOMS_512_LOG)),
    # A literal that rests on itself has −Δ by the first search where its rule is strict, and then −∂ by the second.
    ('a strict loop, plain', STRICT_LOOP, PLAIN, [5, 24], LOG, (0, 1, 2, 2, 5, '5 7')),
    ('a strict loop: no search', STRICT_LOOP, WELL_FOUNDED, [5, 7], LOG, (0, 0, 2, 2, 5, '5 7')),
    ('a strict loop: −Δ found', STRICT_LOOP, WELL_FOUNDED, [8, 9], LOG, (0, 0, 3, 2, 8, '5 7 1')),
    ('a strict loop: −Δ worked', STRICT_LOOP, WELL_FOUNDED, [10, 12], LOG, (0, 0, 3, 3, 10, '5 7 1')),
    ('a strict loop: no second −Δ', STRICT_LOOP, WELL_FOUNDED, [13, 15], LOG, (0, 0, 3, 3, 13, '5 7 1')),
    ('a strict loop: −∂ found', STRICT_LOOP, WELL_FOUNDED, [16, 17], LOG, (0, 0, 4, 3, 16, '5 7 1 3')),
    ('a strict loop: −∂ worked', STRICT_LOOP, WELL_FOUNDED, [18, 20], LOG, (0, 0, 4, 4, 18, '5 7 1 3')),
    ('a strict loop: a search too few', STRICT_LOOP, WELL_FOUNDED, [21, 23], LOG, (0, 0, 4, 4, 21, '5 7 1 3')),
    ('a strict loop: both made', STRICT_LOOP, WELL_FOUNDED, [24, 36], LOG, (0, 1, 4, 4, 24, '5 7 1 3')),
    # 9: more lines come in the reading than the log has words.
    ('14 words for 14 lines', LOOP_OF_TWO, WELL_FOUNDED, [44, 57], 14, LOOP_OF_TWO_SEARCHED),
    ('13 words for 14 lines', LOOP_OF_TWO, WELL_FOUNDED, [44, 57], 13, refused(9)),
    ('15 words for 16 lines, of which 14 are worked', LOOP_OF_TWO, WELL_FOUNDED, [58], 15, refused(9)),
    ('14 words for them', LOOP_OF_TWO, WELL_FOUNDED, [58], 14, refused(9)),
    ('16 words for them', LOOP_OF_TWO, WELL_FOUNDED, [58], 16, LOOP_OF_TWO_FOUND),
    ('15 words for 16 lines', LOOP_OF_TWO, WELL_FOUNDED, [62, 90], 15, refused(9)),
    ('16 words for 16 lines', LOOP_OF_TWO, WELL_FOUNDED, [90], 16, LOOP_OF_TWO_FINISHED),
    ('14 words for the 14 lines of the plain reading', LOOP_OF_TWO, PLAIN, [90], 14, (0, 1, 14, 14, 30, LOOP_OF_TWO_PLAIN)),
    ('no log for no line', LOOP_OF_TWO, WELL_FOUNDED, [13], 0, STOPPED),
    ('no log', LOOP_OF_TWO, WELL_FOUNDED, [14, 90], 0, refused(9)),
    ('a loop: 3 words for 3 lines', LOOP, WELL_FOUNDED, [9, 11], 3, (0, 0, 3, 3, 9, '1 5 7')),
    ('a loop: 3 words for 4 lines', LOOP, WELL_FOUNDED, [12, 20], 3, refused(9)),
    ('a loop: 4 words for 4 lines', LOOP, WELL_FOUNDED, [20], 4, (0, 1, 4, 4, 20, '1 5 7 3')),
    ('a strict loop: 2 words for 2 lines', STRICT_LOOP, WELL_FOUNDED, [7], 2, (0, 0, 2, 2, 5, '5 7')),
    ('a strict loop: 2 words for 3 lines', STRICT_LOOP, WELL_FOUNDED, [8], 2, refused(9)),
    ('a strict loop: 3 words for 3 lines', STRICT_LOOP, WELL_FOUNDED, [8, 9], 3, (0, 0, 3, 2, 8, '5 7 1')),
    # The lowest number is given.
    ('a word of scratch too few', LOOP_OF_TWO, WELL_FOUNDED, [90], LOG, refused(8), 32767),
    ('and the log too short', LOOP_OF_TWO, WELL_FOUNDED, [90], 15, refused(8), 32767),
    ('a circle, and both too short', CIRCLE, WELL_FOUNDED, [90], 0, refused(7), 32767),
]

MIDDLE = '200 0 3 2 0 | 1 1 1 1 1 | 0 0 0 5 300'

# What it is, the table, the rule and its body, which is the same in edition two.
BODIES = [
    ('rule 0 of case 1', CASE_1, 0, '0'),
    ('rule 1 of case 1', CASE_1, 1, ''),
    ('rule 2 of case 1, which has two', CASE_1, 2, ''),
    ('a rule of a table that is refused', '1 0 1 1 1 | 1 0 0 | 0 0 0', 0, ''),
    ('the first of three', MIDDLE, 0, ''),
    ('the one in the middle, which alone has a body', MIDDLE, 1, '5 300'),
    ('the last of three', MIDDLE, 2, ''),
]

# What it is, the table, the edition that the call is told, the rule and its body.
TOLD_BODIES = [
    ('rule 0 of case 1 with origins', CASE_1_ORIGINS, TWO, 0, '0'),
    ('rule 1, which has none', CASE_1_ORIGINS, TWO, 1, ''),
    ('a rule with an origin, between two others', MARK + '200 0 3 2 0 | 0 14 9 1 1 | 0 0 0 5 300', TWO, 1, '5 300'),
    ('the last rule that has entries, at the limits', AT_LIMITS_ORIGINS, TWO, 511, '0 1 2 3 4 5 6 7'),
    ('a first byte 1', '1; ' + CASE_1, TWO, 0, ''),
    ('a 2 alone', MARK, TWO, 0, ''),
    ('no bytes', '', TWO, 0, ''),
    ('an origin above 3', MARK + '1 0 1 1 0 | 16 0 | 0 0', TWO, 0, ''),
    ('a kind of 3', MARK + '1 0 1 1 0 | 7 0 | 0 0', TWO, 0, ''),
    ('an origin in the old layout', '1 0 1 1 0 | 4 0 | 0 0', OLD, 0, ''),
    ('case 1, told as edition two', CASE_1, TWO, 0, ''),
    ('case 1 in edition two, told as the old layout', MARK + CASE_1, OLD, 0, ''),
]

# A rule with each left word, and the head 100 + k for rule k. The table is refused.
EVERY_LEFT = large('100 0 20 0 0', [(left, 100 + k) for k, (left, *_) in enumerate(LEFTS)])

# Two facts, three rules, two entries and two pairs.
PLACES = '3 2 3 2 2 | 0 0 5 10 12 0 2 1 2 | 1 3 2 5 4 3 1 0 1'
NOTHING = '0 | 0 0 0 | 0 0 | 0 0'

# What it is, the table, the edition that the call is told, an index, and what is read there: the fact, the kind, the origin and the head
# of the rule, the entry, and the pair. A sixth word says how many bytes of the table there are.
READERS = [
    ('the first of each section', MARK + PLACES, TWO, 0, '1 | 1 1 2 | 0 3 | 1 0'),
    ('the second', MARK + PLACES, TWO, 1, '3 | 2 2 5 | 2 1 | 2 1'),
    ('the third, of rules alone', MARK + PLACES, TWO, 2, '0 | 0 3 4 | 0 0 | 0 0'),
    ('past the last rule', MARK + PLACES, TWO, 3, NOTHING),
    ('far past it', MARK + PLACES, TWO, 4294967295, NOTHING),
    ('the first of each section in the old layout', PLACES, OLD, 0, '1 | 1 1 2 | 0 3 | 1 0'),
    ('the third, of rules alone', PLACES, OLD, 2, '0 | 0 3 4 | 0 0 | 0 0'),
    ('past the last rule', PLACES, OLD, 3, NOTHING),
    ('the last rule at the limits, with an origin', AT_LIMITS_ORIGINS, TWO, 1023, '1023 | 0 3 7 | 127 7 | 255 259'),
    # A table that is refused is read all the same.
    ('a first byte 3', '3; ' + PLACES, TWO, 1, '3 | 2 2 5 | 2 1 | 2 1'),
    ('a byte past the table', MARK + PLACES, TWO, 1, '3 | 2 2 5 | 2 1 | 2 1', 48),
    ('a byte short', MARK + PLACES, TWO, 1, '3 | 2 2 5 | 2 1 | 2 0', 46),
    ('the left array alone', MARK + PLACES, TWO, 1, '0 | 2 2 0 | 2 0 | 2 0', 29),
    ('the sizes alone', MARK + PLACES, TWO, 0, NOTHING, 11),
    ('a 2 alone', MARK, TWO, 0, NOTHING),
    ('no bytes', '', TWO, 0, NOTHING),
    ('no bytes in the old layout', '', OLD, 0, NOTHING),
]

# The longest sheet: every literal is a fact, and 1,024 defeasible rules rest on four literals each.
LONGEST = large('512 1024 1024 4096 0', FACTS + [(1, k) for k in range(1024)] + [(k // 4, k % 4) for k in range(4096)])
LONGEST_SHEET = ['atoms 512', *(f'{atom} clash' for atom in range(512)), 'spent 12800 of 16896']

# What it is, the table, its edition, and how many bytes the new file has. Each is converted into outputs that are shorter and longer.
FITTED = [
    ('case 1', CASE_1, OLD, 31),
    ('case 1, back', MARK + CASE_1, TWO, 30),
    ('the five sizes, all 0', EMPTY, OLD, 11),
    ('the five sizes, all 0, back', MARK + EMPTY, TWO, 10),
    ('every size at its limit', AT_LIMITS, OLD, 32779),
    ('every size at its limit, back', MARK + AT_LIMITS, TWO, 32778),
]

# What it is, the table, the edition that the call is told, how many bytes of output are lent, and the refusal, or 0.
CONVERSIONS = [
    ('a rule of each kind', '1 0 3 0 0 | 0 1 2 | 0 1 0', OLD, OUTPUT, 0),
    ('a rule of each kind, back', MARK + '1 0 3 0 0 | 0 1 2 | 0 1 0', TWO, OUTPUT, 0),
    ('entries and pairs of rules 3 and 4', RULE_4, OLD, OUTPUT, 0),
    ('entries and pairs of rules 3 and 4, back', MARK + RULE_4, TWO, OUTPUT, 0),
    # 1: the first byte.
    ('no bytes', '', TWO, OUTPUT, 1),
    ('a first byte 0', '0; ' + CASE_1, TWO, OUTPUT, 1),
    ('a first byte 1', '1; ' + CASE_1, TWO, OUTPUT, 1),
    ('a first byte 3', '3; ' + CASE_1, TWO, OUTPUT, 1),
    ('a first byte 255', '255; ' + CASE_1, TWO, OUTPUT, 1),
    ('a first byte 1, and no output', '1; ' + CASE_1, TWO, 0, 1),
    # One edition, told as the other.
    ('case 1, told as edition two', CASE_1, TWO, OUTPUT, 3),
    ('case 1 in edition two, told as the old layout', MARK + CASE_1, OLD, OUTPUT, 2),
    ('two atoms', '2 0 0 0 0', OLD, OUTPUT, 0),
    ('two atoms, told as edition two', '2 0 0 0 0', TWO, OUTPUT, 1),
    # 10: an origin on the way back, in any rule.
    ('of the first of three', MARK + '1 0 3 0 0 | 4 1 2 | 0 1 0', TWO, OUTPUT, 10),
    ('of the second', MARK + '1 0 3 0 0 | 0 9 2 | 0 1 0', TWO, OUTPUT, 10),
    ('of the third', MARK + '1 0 3 0 0 | 0 1 14 | 0 1 0', TWO, OUTPUT, 10),
    ('of the last of 1,024', MARK + large('4 0 1024 0 0', RULES[:-1] + [(12, 0)]), TWO, OUTPUT, 10),
    ('of three rules in four, at the limits', AT_LIMITS_ORIGINS, TWO, OUTPUT, 10),
    ('of both rules of case 1', CASE_1_ORIGINS, TWO, OUTPUT, 10),
    ('and the output as long as the new file', CASE_1_ORIGINS, TWO, 30, 10),
    ('and a byte short: 9 comes before 10', CASE_1_ORIGINS, TWO, 29, 9),
    ('and no output', CASE_1_ORIGINS, TWO, 0, 9),
    # 4 to 7 come before 9 and 10.
    ('an origin above 3', MARK + '1 0 2 0 0 | 13 16 | 0 0', TWO, OUTPUT, 4),
    ('an origin, and a stranger', MARK + '1 1 1 0 0 | 0 13 | 2 0', TWO, OUTPUT, 5),
    ('an origin, and facts that fall', MARK + '1 2 1 0 0 | 0 0 13 | 1 0 0', TWO, OUTPUT, 6),
    ('an origin, and a circle', MARK + '1 0 1 0 1 | 13 0 | 0 0', TWO, OUTPUT, 7),
    ('and no output', MARK + '1 0 1 0 1 | 13 0 | 0 0', TWO, 0, 7),
]


# Atoms 0 and 1 are one part, 2 and 3 another, and 4 is one alone. Rules 0 and 2 are the first one's, rules 1 and 3 the second's; two pairs go
# across.
THREE_PARTS = '5 5 4 2 4 | 0 0 0 0 0  1 0 2 1  0 1  0 0 1 3 | 0 3 5 6 8  2 7 3 6  0 4  1 2 3 2'


def chain(order, missing=None):
    """A rule from each atom of an order to the next, over 512 atoms; perhaps but for one of them."""
    steps = [step for i, step in enumerate(zip(order, order[1:])) if i != missing]
    rules, entries = [(1, 2 * to) for _, to in steps], [(r, 2 * of) for r, (of, _) in enumerate(steps)]
    return large(f'512 0 {len(rules)} {len(entries)} 0', rules + entries)


UP, DOWN = range(512), range(511, -1, -1)

# What it is, the table, and the list of its parts.
LISTS = [
    ('no atoms', EMPTY, []),
    ('case 1', CASE_1, [0, 0]),
    ('a rule from a literal to itself', LOOP, [0]),
    ('three parts', THREE_PARTS, [0, 0, 2, 2, 4]),
    ('facts of two atoms', '2 2 0 0 0 | 0 0 | 0 2', [0, 1]),
    ('a pair of rules about two atoms', '2 0 2 0 1 | 1 1 0 | 0 2 1', [0, 1]),
    ('a defeater about complements', '3 0 1 1 0 | 2 0 | 5 3', [0, 1, 1]),
    ('a rule with three antecedents', '6 0 1 3 0 | 1 0 0 0 | 2 6 8 11', [0, 1, 2, 1, 1, 1]),
    ('two rules with one head', '4 0 2 2 0 | 1 1 0 1 | 6 7 2 4', [0, 1, 1, 1]),
    ('512 atoms', ATOMS_512, list(range(512))),
    ('a chain upwards', chain(UP), [0] * 512),
    ('a chain downwards', chain(DOWN), [0] * 512),
    ('a chain upwards but for the rule after atom 255', chain(UP, 255), [0] * 256 + [256] * 256),
    ('a chain downwards but for the rule after atom 256', chain(DOWN, 255), [0] * 256 + [256] * 256),
]

# What it is, the table, an atom, and the part's table.
PARTED = [
    ('case 1', CASE_1, 0, CASE_1),
    ('case 1, by the other atom', CASE_1, 1, CASE_1),
    ('the first of three parts', THREE_PARTS, 1, '5 2 2 1 1 | 0 0 1 2 0 0 | 0 3 2 3 0 1'),
    ('the second of three parts', THREE_PARTS, 3, '5 2 2 1 1 | 0 0 0 1 0 0 | 5 6 7 6 4 1'),
    ('an atom that no rule names', THREE_PARTS, 4, '5 1 0 0 0 | 0 | 8'),
    ('512 atoms', ATOMS_512, 511, ATOMS_512),
    ('a chain upwards', chain(UP), 511, chain(UP)),
    ('a chain downwards', chain(DOWN), 511, chain(DOWN)),
]

# Origins of the four rules, and then of rules 0 and 2 alone.
OWNED = MARK + '5 5 4 2 4 | 0 0 0 0 0  5 8 14 1  0 1  0 0 1 3 | 0 3 5 6 8  2 7 3 6  0 4  1 2 3 2'
OWNED_PART = MARK + '5 2 2 1 1 | 0 0 5 14 0 0 | 0 3 2 3 0 1'

# A table for each of the refusals 1 to 7. Of those from 4 on each has the faults of the next ones, and A is 1.
REFUSED = ['1 0 0 0', '513 0 0 0 0', '1 0 1 0 0 | 1', '1 2 1 0 1 | 0 0 3 0 | 2 0 0 0', '1 2 1 0 1 | 0 0 1 0 | 2 0 0 0',
           '1 2 1 0 1 | 0 0 1 0 | 1 0 0 0', CIRCLE]


def words(text):
    """The bytes of a text: two for each word, one for a number with ; after it."""
    parts = text.replace('|', ' ').split()
    return b''.join(bytes([int(part[:-1])]) if part.endswith(';') else struct.pack('<H', int(part)) for part in parts)


def cut(table, length=None):
    """The bytes of a table, all of them or so many, where a byte past its words is 0."""
    table = words(table)
    return table if length is None else table.ljust(length, b'\0')[:length]


def field(content):
    return struct.pack('<I', len(content)) + content


def numbers(*values):
    return b''.join(field(struct.pack('<I', n)) for n in values)


def run(budget, log, scratch, gives):
    """The fields of a run, after the table and the edition."""
    *counts, lines = gives
    return numbers(budget, log, scratch, *counts) + field(words(lines))


def old_runs():
    """The rows of JUDGED and RUNS: the bytes of the table, and the fields of the run."""
    for _, table, gives, *length in JUDGED:
        yield cut(table, *length), run(0, LOG, SCRATCH, gives)
    for _, table, *row in RUNS:
        yield words(table), run(*row)


def told_runs():
    """The same in edition two, then each left word of rule 0 of case 1 in both editions, then the rows of TOLD."""
    for table, fields in old_runs():
        yield words(MARK) + table, TWO, fields
    for left, kind, _, *refusals in LEFTS:
        for edition, refusal in zip((OLD, TWO), refusals):
            gives = refused(refusal) if refusal else CASE_1_BY_KIND[kind]
            yield words(BEFORE[edition] + f'2 1 2 1 1 | 0 {left} 1 0 0 | 0 2 3 0 1'), edition, run(100, LOG, SCRATCH, gives)
    for _, table, edition, gives, *length in TOLD:
        yield cut(table, *length), edition, run(100, LOG, SCRATCH, gives)


def made():
    return b''.join(field(table) + fields for table, fields in old_runs())


def told():
    return b''.join(field(table) + numbers(edition) + fields for table, edition, fields in told_runs())


def readings():
    rows = [(edition, BEFORE[edition] + table, reading, budget, log, gives, *scratch)
            for edition in (OLD, TWO) for _, table, reading, budgets, log, gives, *scratch in READINGS for budget in budgets]
    return b''.join(
        field(words(table)) + numbers(reading, edition) + run(budget, log, *(scratch or [SCRATCH]), gives)
        for edition, table, reading, budget, log, gives, *scratch in rows
    )


def bodies():
    rows = [(BEFORE[edition] + table, edition, rule, body) for edition in (OLD, TWO) for _, table, rule, body in BODIES]
    rows += [row for _, *row in TOLD_BODIES]
    return b''.join(field(words(table)) + numbers(edition, rule) + field(words(body)) for table, edition, rule, body in rows)


def readers():
    rows = [
        (BEFORE[edition] + EVERY_LEFT, edition, k, f'0 | {kind} {origin} {100 + k} | 0 0 | 0 0')
        for edition in (OLD, TWO)
        for k, (_, kind, origin, *_) in enumerate(LEFTS)
    ]
    rows += [row for _, *row in READERS]
    return b''.join(
        field(cut(table, *length)) + numbers(edition, index, *map(int, read.replace('|', ' ').split()))
        for table, edition, index, read, *length in rows
    )


def longest():
    """One record in the layout of sheets-S6.bin."""
    return field(words(LONGEST)) + field(''.join(line + '\n' for line in LONGEST_SHEET).encode())


def conversion(table, edition, output, refusal):
    """A record in the layout of editions.bin."""
    other = table[1:] if edition == TWO else words(MARK) + table
    return field(table) + numbers(edition, output, refusal) + field(b'' if refusal else other)


def conversion_rows():
    """The rows of FITTED, what JUDGED refuses, each left word of a rule, and the rows of CONVERSIONS: table, edition, output, refusal."""
    for _, table, edition, new in FITTED:
        for output in 0, 1, new - 2, new - 1, new, new + 1, OUTPUT:
            yield words(table), edition, output, 9 if output < new else 0
    for _, table, (refusal, *_), *length in JUDGED:
        if refusal:
            for edition in OLD, TWO:
                for output in 0, OUTPUT:
                    yield words(BEFORE[edition]) + cut(table, *length), edition, output, refusal
    for left, _, origin, *refusals in LEFTS:
        for edition, refusal in zip((OLD, TWO), refusals):
            table = words(BEFORE[edition] + f'1 0 1 0 0 | {left} | 0')
            yield table, edition, 0, refusal or 9
            yield table, edition, OUTPUT, refusal or (10 if origin else 0)
    for _, table, *row in CONVERSIONS:
        yield words(table), *row


def conversions():
    return b''.join(conversion(*row) for row in conversion_rows())


def list_record(table, edition, length, refusal, parts):
    """A record in the layout of parts.bin."""
    return field(table) + numbers(edition, length, refusal) + field(b'' if refusal else struct.pack(f'<{len(parts)}H', *parts))


def lists():
    """The rows of LISTS by lists around A words, and those of REFUSED whatever list there is."""
    rows = [(table, n, 9 if n < len(parts) else 0, parts)
            for _, table, parts in LISTS for n in sorted({max(0, len(parts) - 1), len(parts), len(parts) + 1, LIST})]
    rows += [(table, n, refusal, []) for refusal, table in enumerate(REFUSED, 1) for n in (0, LIST)]
    return b''.join(list_record(words(BEFORE[edition] + table), edition, *row) for edition in (OLD, TWO) for table, *row in rows)


def part_record(table, edition, atom, output, refusal, part):
    """A record in the layout of part-tables.bin."""
    return field(table) + numbers(edition, atom, output, refusal) + field(b'' if refusal else part)


def parted_rows():
    """The rows of PARTED and OWNED by outputs around the part's byte count, atoms that there are not, and those of REFUSED by any atom."""
    rows = [(edition, atom, *(BEFORE[edition] + text for text in (table, part)))
            for edition in (OLD, TWO) for _, table, atom, part in PARTED]
    for edition, atom, table, part in rows + [(TWO, 0, OWNED, OWNED_PART)]:
        n = len(words(part))
        for output in 0, n - 1, n, n + 1, OUTPUT:
            yield table, edition, atom, output, 12 if output < n else 0, part
    for edition in OLD, TWO:
        for table, a in (EMPTY, 0), (CASE_1, 2), (THREE_PARTS, 5), (ATOMS_512, 512):
            for atom in a, a + 1, 65535, 65536, 2 ** 32 - 1:
                for output in 0, OUTPUT:
                    yield BEFORE[edition] + table, edition, atom, output, 5, EMPTY
        for refusal, table in enumerate(REFUSED, 1):
            for atom in 0, 1, 65536:
                for output in 0, OUTPUT:
                    yield BEFORE[edition] + table, edition, atom, output, refusal, EMPTY


def parted():
    return b''.join(part_record(words(table), *row, words(part)) for table, *row, part in parted_rows())


# What writes each file.
FILES = {
    'made.bin': made,
    'told.bin': told,
    'readings.bin': readings,
    'bodies.bin': bodies,
    'readers.bin': readers,
    'longest.bin': longest,
    'conversions.bin': conversions,
    'lists.bin': lists,
    'parted.bin': parted,
}


def main():
    check = sys.argv[1:] == ['--check']
    if sys.argv[1:] and not check:
        sys.exit(__doc__)
    for name, write in FILES.items():
        content = write()
        path = os.path.join(DATA, name)
        if not check:
            with open(path, 'wb') as file:
                file.write(content)
            continue
        with open(path, 'rb') as file:
            if file.read() != content:
                sys.exit(f'{name} is not what write.py writes')


if __name__ == '__main__':
    main()
