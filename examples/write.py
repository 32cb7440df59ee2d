#!/usr/bin/env python3
"""Writes each example: NAME.table, the file that `./sheet-of` takes, and NAME.txt, what its atoms and rules mean. One is written in edition two
as well, with the origins of its rules: NAME.two. One is the join of two others, and one a part of another, made of them here.
With --check it writes nothing, and fails unless these files are what it would write: for each other one a line says what differs first
(a byte of a table, a line of a text, counted from 0), what came and what was wanted.

A literal is written as an atom's number, or its complement as ~n: 3 says that atom 3 holds, ~3 that it does not.
A rule is (kind, body, head). A pair (t, s) says that rule t is over rule s. NAME.sheet is what ./sheet-of prints.
"""
import itertools
import os
import sys

HERE = os.path.dirname(os.path.abspath(__file__))

STRICT, DEFEASIBLE, DEFEATER = range(3)
KINDS = ["strict", "defeasible", "defeater"]
NONE, HOUSE, TOUR, CONSOLE = range(4)

GET_IN = [
    "the deck is clear",
    "the house's crew is at lunch",
    "the tour's truck is at the dock",
    "bar 1 may travel",
    "bar 2 may travel",
    "bar 3 may travel",
    "the dock door may open",
]

EXAMPLES = {
    "case-1": (
        "The deck and bar 12 (document 01, case 1)",
        ["the deck is clear", "bar 12 may travel"],
        [0],
        [(DEFEASIBLE, [0], 1), (DEFEASIBLE, [], ~1)],
        [(0, 1)],
        "By default bar 12 may not travel. A clear deck lets it, and that rule is over the other: go.",
    ),
    "platypus": (
        "The platypus: two rules beat two as a team (document 000)",
        ["it is a monotreme", "it has fur", "it lays eggs", "it has a bill", "it is a mammal"],
        [0, 1, 2, 3],
        [(DEFEASIBLE, [0], 4), (DEFEASIBLE, [1], 4), (DEFEASIBLE, [2], ~4), (DEFEASIBLE, [3], ~4)],
        [(0, 2), (1, 3)],
        "No rule beats both of the rules against atom 4, but each of these is beaten by one rule for it: go.",
    ),
    "defeater": (
        "A defeater: haze stops a rule and proves nothing",
        ["there is haze over the deck", "bar 3 may travel"],
        [0],
        [(DEFEASIBLE, [], 1), (DEFEATER, [0], ~1)],
        [],
        "Bar 3 may travel by default. The defeater says that haze is a reason against it, but it can't prove that the bar may not\n"
        "travel. Neither has a proof, and both are refuted: split.",
    ),
    "house-and-tour": (
        "The house against the tour",
        [
            "an actor stands under bar 7",
            "the stage manager gave the cue",
            "bar 7 may travel",
            "bar 8 may travel",
            "the follow spot is manned",
            "bar 9 may travel",
        ],
        [0, 1],
        [
            (DEFEASIBLE, [1], 2),
            (DEFEASIBLE, [0], ~2),
            (DEFEASIBLE, [1], 3),
            (DEFEASIBLE, [0], ~3),
            (DEFEASIBLE, [4], 5),
            (DEFEASIBLE, [5], 4),
        ],
        [(1, 0)],
        "Rules 0, 2, 4 and 5 are the tour's, rules 1 and 3 the house's. On bar 7 the house's rule is over the tour's: hold. On bar 8\n"
        "nobody said whose rule is stronger: split. Bar 9 rests on the follow spot and the follow spot on bar 9; nothing proves\n"
        "either, and nothing refutes either: open.",
    ),
    "limit-switch": (
        "A limit switch typed as up and as not up (document 02, S-1)",
        ["the limit switch of bar 4 is up", "bar 4 may travel"],
        [0, ~0],
        [(DEFEASIBLE, [~0], 1), (DEFEASIBLE, [0], ~1)],
        [],
        "The table says both that the switch is up and that it is not: clash. So both rules are met, and neither is over the other:\n"
        "split. Bar 4 is hold once the second fact is taken out, and go once the first is.",
    ),
    "split-or-idle": (
        "A dispute and a silence (document 02, S-6)",
        [
            "the winch of bar 6 is in service",
            "bar 6 may travel",
            "the cue for bar 11 was given",
            "a ladder stands under bar 11",
            "bar 11 may travel",
        ],
        [2, 3],
        [(DEFEASIBLE, [0], 1), (DEFEASIBLE, [2], 4), (DEFEASIBLE, [3], ~4)],
        [],
        "Nothing says whether the winch of bar 6 is in service: idle. So the only rule about bar 6 is out, and nothing that is met speaks\n"
        "for bar 6 or against it: idle. On bar 11 a rule for it and a rule against it are both met, and neither is over the other: split.\n"
        "Neither bar may travel: at bar 6 something is missing, at bar 11 somebody has to say which rule is stronger.",
    ),
    "get-in-house": (
        "The get-in: the house's table",
        GET_IN,
        [0, 1],
        [
            (DEFEASIBLE, [0], 3),
            (DEFEASIBLE, [1], ~4),
            (DEFEASIBLE, [0], 4),
            (DEFEATER, [1], ~5),
            (DEFEASIBLE, [1], ~6),
        ],
        [(1, 2)],
        "A clear deck lets bars 1 and 2 travel. While the crew is at lunch bar 2 stays and the dock door stays shut; lunch is a reason\n"
        "against bar 3 too, but for bar 3 there is no rule here: idle. Of the truck this table says nothing: idle.",
    ),
    "get-in-tour": (
        "The get-in: the tour's table",
        GET_IN,
        [0, 2],
        [
            (DEFEASIBLE, [2], 6),
            (DEFEASIBLE, [2], 4),
            (DEFEASIBLE, [0], 5),
            (STRICT, [2], ~3),
        ],
        [],
        "The same atoms, and the deck is clear here too. While the truck is at the dock the door may open and bar 2 may travel; bar 1, which\n"
        "hangs above the dock, may not, and that rule is strict. A clear deck lets bar 3 travel. Of the crew this table says nothing: idle.",
    ),
    "circle": (
        "Priorities that go round",
        ["bar 5 may travel"],
        [],
        [(DEFEASIBLE, [], 0), (DEFEASIBLE, [], ~0)],
        [(0, 1), (1, 0)],
        "Each rule is said to be stronger than the other. The table is refused by number 7, and nothing is concluded from it.",
    ),
}


def join(house, tour):
    """Atoms, facts, rules and pairs of a house and a tour in one table (document 02, S-7). The tour's rules are numbered after the house's, and
    each rule of the house is over each of the tour's whose head is the complement of its own."""
    (_, atoms, facts, rules, pairs, _), (_, _, others, guests, between, _) = house, tour
    n = len(rules)
    added = [(h, n + t) for h, (_, _, head) in enumerate(rules) for t, (_, _, other) in enumerate(guests) if head == ~other]
    moved = [(n + t, n + s) for t, s in between]
    return atoms, facts + [f for f in others if f not in facts], rules + guests, sorted(pairs + moved + added)


EXAMPLES["get-in-joined"] = (
    "The get-in: house and tour in one table (document 02, S-7)",
    *join(EXAMPLES["get-in-house"], EXAMPLES["get-in-tour"]),
    "Rules 0 to 4 are the house's, rules 5 to 8 the tour's. Rule 1 over rule 2 is the house's own priority; the others came with the join.\n"
    "They keep bar 2 where it is and the dock door shut, for the tour's rules are beaten there: hold. On bar 3 the house has a defeater,\n"
    "which the tour's rule does not beat and which proves nothing: split. Bar 1 stays too, though the house's rule is over the tour's:\n"
    "the tour's is strict and rests on a fact, and no priority helps against that: hold.",
)


def part(table, atom):
    """Atoms, facts, rules and pairs of the part of an atom (document 02, S-8). Rules belong together that name one atom, and so on; they are
    numbered anew."""
    _, atoms, facts, rules, pairs, _ = table
    of = lambda n: max(n, ~n)
    named = [{of(n) for n in [*body, head]} for _, body, head in rules]
    known = {atom}
    while more := set().union(*(names for names in named if names & known)) - known:
        known |= more
    kept = [r for r, names in enumerate(named) if names & known]
    inside = [(kept.index(t), kept.index(s)) for t, s in pairs if t in kept and s in kept]
    return atoms, [f for f in facts if of(f) in known], [rules[r] for r in kept], inside


EXAMPLES["bar-9"] = (
    "Bar 9 alone: a part of the house against the tour (document 02, S-8)",
    *part(EXAMPLES["house-and-tour"], 5),
    "Of examples/house-and-tour.txt the part of atom 5: atoms 4 and 5, and rules 4 and 5 under the numbers 0 and 1. No rule there names one of\n"
    "these atoms and one of the others, so bar 9 and the follow spot are open here as there. Of the other atoms this table says nothing: idle.",
)

# Whose the rules are, of the example that is written in edition two too.
ORIGINS = {"house-and-tour": [TOUR, HOUSE, TOUR, HOUSE, TOUR, TOUR]}


def literal(n):
    return 2 * n if n >= 0 else 2 * ~n + 1


def words(atoms, facts, rules, pairs, origins=None):
    entries = [(r, q) for r, (_, body, _) in enumerate(rules) for q in sorted(map(literal, body))]
    kinds = [k + 4 * origin for (k, _, _), origin in zip(rules, origins or [NONE] * len(rules))]
    left = [0 for _ in facts] + kinds + [r for r, _ in entries] + [t for t, _ in sorted(pairs)]
    right = sorted(map(literal, facts)) + [literal(h) for _, _, h in rules] + [q for _, q in entries] + [s for _, s in sorted(pairs)]
    return [len(atoms), len(facts), len(rules), len(entries), len(pairs)] + left + right


def said(atoms, n):
    return atoms[n] if n >= 0 else "not: " + atoms[~n]


def text(title, atoms, facts, rules, pairs, why):
    lines = [title, "", "Atoms"] + ["  %d  %s" % a for a in enumerate(atoms)]
    if facts:
        lines += ["Facts"] + ["  " + said(atoms, f) for f in facts]
    lines += ["Rules"]
    for r, (kind, body, head) in enumerate(rules):
        lines.append("  %d  %s: %s => %s" % (r, KINDS[kind], " and ".join(said(atoms, b) for b in body) or "(always)", said(atoms, head)))
    if pairs:
        lines += ["Priorities"] + ["  rule %d over rule %d" % p for p in pairs]
    return "\n".join(lines + ["", why, ""])


def files():
    """The name and the content of each file."""
    for name, (title, atoms, facts, rules, pairs, why) in EXAMPLES.items():
        yield name + ".table", b"".join(w.to_bytes(2, "little") for w in words(atoms, facts, rules, pairs))
        if name in ORIGINS:
            two = words(atoms, facts, rules, pairs, ORIGINS[name])
            yield name + ".two", b"\2" + b"".join(w.to_bytes(2, "little") for w in two)
        beside = "\n%s.two is the same table in edition two, which says whose each rule is.\n" % name if name in ORIGINS else ""
        yield name + ".txt", (text(title, atoms, facts, rules, pairs, why) + beside).encode()


def write(name, content):
    with open(os.path.join(HERE, name), "wb") as f:
        f.write(content)


def difference(name, came, wanted):
    """What differs first: a byte of a table, a line of a text."""
    unit = "byte"
    if name.endswith(".txt"):
        unit, came, wanted = "line", came.splitlines(True), wanted.splitlines(True)
    for i, (one, other) in enumerate(itertools.zip_longest(came, wanted)):
        if one != other:
            return "%s %d came %s wanted %s" % (unit, i, one, other)
    return None


def is_written(name, content):
    """Whether the file is there with this content."""
    path = os.path.join(HERE, name)
    if not os.path.exists(path):
        print("examples/%s is not there" % name)
        return False
    with open(path, "rb") as f:
        what = difference(name, f.read(), content)
    if what:
        print("examples/%s is not what write.py writes: %s" % (name, what))
    return what is None


def main():
    if sys.argv[1:] == ["--check"]:
        sys.exit(not all([is_written(*file) for file in files()]))
    if sys.argv[1:]:
        sys.exit(__doc__)
    for file in files():
        write(*file)


if __name__ == "__main__":
    main()
