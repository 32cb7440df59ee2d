#!/usr/bin/env python3
"""tables.py SHAPE K: a legal table of a shape at 1/K of the limits, on standard output.
chain: each literal rests on the one before; star: all rules on one atom, pairs among them; teams: for each atom two rules beat two;
random: seeded; full: every size at 1/K of its limit, rules of every kind, 4 antecedents to each, each of the first rules over the 4 after
it; house and tour: half of that each, with facts of both and two rules of the tour against two of the house on each of the first atoms; joined:
the two in one table, with every size at 1/K of its limit and half of the pairs added; up and down: rules from each atom to the next, or to the
one before, round and round, with 4 antecedents each; ring: each literal rests strictly on the one before, the first on the last; rounds: steps
of which each waits for a search of the well-founded reading to decide the one before; even: the literals that say that an atom holds, as
facts; tied: all literals, and one rule that names 160 atoms, for any K; empty: nothing, for any K. A SHAPE of five numbers, as 512,20,20,40,0,
is a random table of these sizes, A, F, N, B and P, seeded by K."""
import random, struct, sys
shape, k = sys.argv[1], int(sys.argv[2])
def table(a, facts, rules, pairs):
    rules = list(rules)
    entries = [(i, q) for i, (_, _, body) in enumerate(rules) for q in sorted(set(body))]
    rows = [(0, f) for f in sorted(set(facts))] + [(kind, head) for kind, head, _ in rules] + entries + sorted(set(pairs))
    sizes = [a, len(set(facts)), len(rules), len(entries), len(set(pairs))]
    words = sizes + [l for l, r in rows] + [r for l, r in rows]
    sys.stdout.buffer.write(struct.pack('<%dH' % len(words), *words))
if shape == 'empty':
    table(0, [], [], [])
elif shape == 'full':
    a, f, n, p = 512 // k, 1024 // k, 1024 // k, 2048 // k
    table(a, range(f), [(i % 3, i % (2 * a), range(4)) for i in range(n)], [(i // 4, i // 4 + 1 + i % 4) for i in range(p)])
elif shape in ('house', 'tour', 'joined'):
    a, f, n = 512 // k, 1024 // k, 512 // k
    of = lambda side: [(i % 3, 2 * (i % (n // 2)) + side, range(4)) for i in range(n)]
    own = [(i // 2, i // 2 + 1 + i % 2) for i in range(n)]
    added = [(h, n + t) for h in range(n) for t in range(n) if h % (n // 2) == t % (n // 2)]
    if shape == 'house':
        table(a, range(3 * f // 4), of(0), own)
    elif shape == 'tour':
        table(a, range(f // 4, f), of(1), own)
    else:
        table(a, range(f), of(0) + of(1), own + [(n + t, n + s) for t, s in own] + added)
elif shape == 'chain':
    a, n = 512 // k, 1024 // k
    table(a, [0], [(1, 2 * (1 + i % (a - 1)), [2 * (i % (a - 1))]) for i in range(n)], [])
elif shape in ('up', 'down'):
    a, n = 512 // k, 1024 // k
    atom = lambda i: i if shape == 'up' else a - 1 - i
    steps = [(atom(i % (a - 1)), atom(i % (a - 1) + 1)) for i in range(n)]
    table(a, [], [(i % 3, 2 * to, [2 * of, 2 * of + 1, 2 * to, 2 * to + 1]) for i, (of, to) in enumerate(steps)], [])
elif shape == 'ring':
    a = 512 // k
    table(a, [], [(0, 2 * (i % a), [2 * ((i - 1) % a)]) for i in range(1024 // k)], [])
elif shape == 'rounds':
    # x => x, => y (a), x => not y (b), => not y (c), and x rests on not y of the step before; a over c, b over a
    steps = (1024 // k + 1) // 5
    rules, pairs = [], []
    for i in range(steps):
        x, y, a = 4 * i, 4 * i + 2, len(rules)
        rules += [(1, y, []), (1, y + 1, [x]), (1, y + 1, []), (1, x, [x])] + ([(1, x, [y - 3])] if i > 0 else [])
        pairs += [(a, a + 2), (a + 1, a)]
    table(2 * steps, [], rules, pairs)
elif shape == 'star':
    n, p = 1024 // k, 2048 // k
    table(1, [], [(1, i % 2, []) for i in range(n)], [(i // 4, i // 4 + 1 + 2 * (i % 4)) for i in range(p)])
elif shape == 'teams':
    a = 1024 // (4 * k)
    rules = [(1, 2 * (i // 4) + (i % 4) // 2, [2 * (a + (i * 7) % a)] ) for i in range(4 * a)]
    pairs = [(4 * j, 4 * j + 2) for j in range(a)] + [(4 * j + 1, 4 * j + 3) for j in range(a)]
    table(2 * a, [2 * (a + j) for j in range(a)], rules, pairs)
elif shape == 'even':
    table(512 // k, range(0, 1024 // k, 2), [], [])
elif shape == 'tied':
    table(512, range(1024), [(1, 0, range(2, 320, 2))], [])
elif shape == 'random' or ',' in shape:
    rnd = random.Random(k)
    a, f, n, b, p = map(int, shape.split(',')) if ',' in shape else (512 // k, 64 // k, 1024 // k, 4096 // k, 2048 // k)
    rules = [[rnd.choice([0, 1, 1, 2]), rnd.randrange(2 * a), set()] for _ in range(n)]
    while sum(len(r[2]) for r in rules) < b:
        rnd.choice(rules)[2].add(rnd.randrange(2 * a))
    pairs = set()
    while len(pairs) < p:
        t, s = sorted(rnd.sample(range(n), 2)); pairs.add((t, s))
    table(a, rnd.sample(range(2 * a), f), rules, pairs)
