#!/usr/bin/env python3
"""Draws an example of examples/write.py, with the words of its sheet, as SVG.

    docs/picture.py            write docs/house-and-tour.svg
    docs/picture.py --check    write nothing, and fail unless that file is what would be written
    docs/picture.py NAME       print the picture of the example NAME

A statement stands to the right of those that it rests on. In a loop, the one of lower number stands left.
A literal is n or ~n, a rule (kind, body, head), a pair (stronger, weaker), as in write.py.
"""
import os
import sys
import textwrap
from xml.sax.saxutils import escape

DOCS = os.path.dirname(os.path.abspath(__file__))
EXAMPLES_DIR = os.path.join(DOCS, '..', 'examples')
sys.path.insert(0, EXAMPLES_DIR)
sys.dont_write_bytecode = True  # no __pycache__ among the examples
from write import DEFEASIBLE, DEFEATER, EXAMPLES, STRICT

KEPT = 'house-and-tour'

MARGIN, TOP = 24, 62
BOX, BETWEEN = 260, 332  # the width of a box, and of the room for rules between two columns of boxes
LABEL, ARROW = 58, 100  # the width of a rule's label, and the length of the arrow from there to a box
SLOT = 60  # the room that a rule takes on the side of a box
LINE, STRIP, GAP = 18, 32, 26  # in a box, a line and the strip with the verdict; the least room between boxes
ROW = 24  # of the legend
LEFT, RIGHT = -1, 1

INK, GREY, FOR, AGAINST = '#222', '#555', '#00795a', '#c0392b'
HOW_TO_READ = 'Each box is a statement, with its line of the sheet: number and word. The word says whether the statement holds.'
VERDICTS = {
    'clash': ('#a85400', 'the table says both that it holds and that it does not'),
    'go': (FOR, 'the rules say that it holds'),
    'hold': (AGAINST, 'the rules say that it does not hold'),
    'idle': ('#6d6d6d', 'nothing that is met speaks for or against it'),
    'split': ('#8e44ad', 'reasons stand against each other'),
    'open': ('#1b6ca8', 'the rules settle neither; they go round'),
}
KINDS = {
    STRICT: (dict(stroke_width=5), 'strict rule: what it draws from facts is settled'),
    DEFEASIBLE: (dict(stroke_width=2), 'defeasible rule: a reason that can be beaten'),
    DEFEATER: (dict(stroke_width=2.5, stroke_dasharray='2 4'), 'defeater: a reason that stops, and proves nothing'),
}
PRIORITY = dict(stroke=INK, stroke_width=1.5, stroke_dasharray='6 3')


def atom(literal):
    return literal if literal >= 0 else ~literal


def verdicts(name, count):
    with open(os.path.join(EXAMPLES_DIR, name + '.sheet')) as file:
        first, *lines = file.read().splitlines()
    if first != f'atoms {count}':
        sys.exit(f'{name} has {count} atoms, and its sheet begins with "{first}"')
    return [line.split()[1] for line in lines[:count]]


# Where things stand.

def closure(pairs, count):
    """Each (a, c) such that a chain of pairs leads from a to c."""
    found = set(pairs)
    for middle in range(count):
        found |= {(a, c) for a, b in found if b == middle for d, c in found if d == middle}
    return found


def columns(count, rules):
    """The column of each atom, right of those that it rests on; in a loop, of those of lower number."""
    rests = {(atom(head), atom(q)) for _, body, head in rules for q in body}
    chains = closure(rests, count)
    forward = [(a, b) for a, b in rests if b < a or (b, a) not in chains]
    # a rule that rests on nothing needs room left of its head too
    column = [int(any(atom(head) == a and not body for _, body, head in rules)) for a in range(count)]
    for _ in range(count):
        for a, b in forward:
            column[a] = max(column[a], column[b] + 1)
    return column


def groups(count, rules):
    """The atoms in lists, such that no rule leads from one list to another."""
    joined = {(a, a) for a in range(count)}
    for _, body, head in rules:
        joined |= {pair for q in body for pair in ((atom(head), atom(q)), (atom(q), atom(head)))}
    joined = closure(joined, count)
    return [[b for b in range(count) if (a, b) in joined] for a in range(count) if not any((a, b) in joined for b in range(a))]


def stacked(those, rules, pairs):
    """These rules in the order of what they rest on, but each directly below one that is over it."""
    def with_weaker(r):
        return [r] + [w for s in those if (r, s) in pairs for w in with_weaker(s)]
    tops = [r for r in those if not any((t, r) in pairs for t in those)]
    tops.sort(key=lambda r: min(map(atom, rules[r][1]), default=-1))
    return list(dict.fromkeys(w for r in tops for w in with_weaker(r)))


class Layout:
    """Where an example's boxes stand, the rules beside them, and the points at which lines leave a box."""

    def __init__(self, atoms, rules, pairs):
        every = range(len(atoms))
        self.rules = rules
        self.column = columns(len(atoms), rules)
        self.width = 2 * MARGIN + BOX + max(1, *self.column) * (BOX + BETWEEN)  # two columns at least, for the legend
        self.lines = [textwrap.wrap(statement, 30) for statement in atoms]
        # what meets a side of a box, from above: ('rule', number) arrives, ('literal', q) leaves
        self.meets = {(a, side): self.meeting(a, side, pairs) for a in every for side in (LEFT, RIGHT)}
        self.height = [max(20 + LINE * len(self.lines[a]) + STRIP, SLOT * len(self.meets[a, LEFT]), SLOT * len(self.meets[a, RIGHT]))
                       for a in every]
        self.middle = [0] * len(atoms)
        self.bottom = TOP
        for group in groups(len(atoms), rules):
            self.place(group)
        self.refuse_misfits(pairs)

    def meeting(self, a, side, pairs):
        here = [r for r, (_, _, head) in enumerate(self.rules) if atom(head) == a and self.side_of(r) == side]
        arriving = [('rule', r) for r in stacked(here, self.rules, pairs)]
        leaving = [('literal', q) for q in (a, ~a)
                   if any(q in body and self.side_of(r) == -side for r, (_, body, _) in enumerate(self.rules))]
        return arriving + leaving if side == LEFT else leaving + arriving

    def place(self, group):
        """Puts a group below what is placed. In each column the boxes have equal shares of the group's height."""
        stacks = [[a for a in group if self.column[a] == c] for c in {self.column[a] for a in group}]
        height = max(len(stack) * (max(self.height[a] for a in stack) + GAP) for stack in stacks)
        for stack in stacks:
            for i, a in enumerate(stack):
                self.middle[a] = self.bottom + height * (i + 0.5) / len(stack)
        self.bottom += height

    def side_of(self, r):
        """The side of its head that a rule stands on: the left, unless it comes back in a loop."""
        _, body, head = self.rules[r]
        return RIGHT if any(self.column[atom(q)] > self.column[atom(head)] for q in body) else LEFT

    def edge(self, a, side):
        return MARGIN + self.column[a] * (BOX + BETWEEN) + (BOX if side == RIGHT else 0)

    def point(self, a, side, what):
        """Where something meets a side of a box."""
        meets = self.meets[a, side]
        return self.edge(a, side), self.middle[a] + (meets.index(what) - (len(meets) - 1) / 2) * SLOT

    def label(self, r):
        """The middle of a rule's label."""
        side = self.side_of(r)
        x, y = self.point(atom(self.rules[r][2]), side, ('rule', r))
        return x + side * (ARROW + LABEL / 2), y

    def refuse_misfits(self, pairs):
        """Lines go to the next column and priorities to the next rule; drawn farther, they would run through others."""
        for r, (_, body, head) in enumerate(self.rules):
            if {self.column[atom(q)] - self.column[atom(head)] for q in body} not in (set(), {-1}, {1}):
                sys.exit(f'this layout has no way for rule {r}')
        for over, under in pairs:
            (x1, y1), (x2, y2) = self.label(over), self.label(under)
            if (x1, abs(y1 - y2)) != (x2, SLOT):
                sys.exit(f'this layout has no way for rule {over} over rule {under}')


# What is drawn there.

def tag(name, content='', **attributes):
    said = ''.join(f' {k.replace("_", "-")}="{round(v, 1) if isinstance(v, float) else v}"' for k, v in attributes.items())
    return f'<{name}{said}>{content}</{name}>' if content else f'<{name}{said}/>'


def text(x, y, words, **more):
    return tag('text', escape(words), x=x, y=y, **more)


def rect(x, y, width, height, **more):
    return tag('rect', x=x, y=y, width=width, height=height, **more)


def path(steps, **more):
    return tag('path', d=' '.join(str(round(s, 1)) if isinstance(s, float) else str(s) for s in steps), fill='none', **more)


def polygon(corners, fill):
    return tag('polygon', points=' '.join(f'{x:.1f},{y:.1f}' for x, y in corners), fill=fill)


def ring(x, y, colour):
    return tag('circle', cx=x, cy=y, r=6, fill='#fff', stroke=colour, stroke_width=2.5)


def arrowhead(x, y, dx, dy, colour):
    """A head with its tip at (x, y) that points along (dx, dy), of length 1."""
    return polygon([(x, y), (x - 12 * dx + 6 * dy, y - 12 * dy - 6 * dx), (x - 12 * dx - 6 * dy, y - 12 * dy + 6 * dx)], colour)


def colour_of(head):
    return FOR if head >= 0 else AGAINST


def arrow(x1, x2, y, way, kind, head):
    """A level arrow to a statement: it ends in a head where the rule is for it, and at a bar where it is against it."""
    end = arrowhead(x2 - way * 2, y, way, 0, FOR) if head >= 0 else rect(x2 - way * 5 - 2.5, y - 10, 5, 20, fill=AGAINST)
    return [path(['M', x1, y, 'H', x2 - way * 7], stroke=colour_of(head), **KINDS[kind][0]), end]


def shape(x, y, verdict):
    """The shape that goes with a verdict, so that it needs no colour."""
    colour = VERDICTS[verdict][0]
    if verdict == 'clash':
        return [path(['M', x - 7, y - s * 7, 'L', x + 7, y + s * 7], stroke=colour, stroke_width=4) for s in (-1, 1)]
    if verdict == 'go':
        return [polygon([(x - 7, y - 8), (x + 8, y), (x - 7, y + 8)], colour)]
    if verdict == 'hold':
        return [rect(x - 7, y - 7, 14, 14, fill=colour)]
    if verdict == 'idle':
        return [rect(x - 8, y - 2.5, 16, 5, fill=colour)]
    if verdict == 'split':
        return [polygon([(x + s * 2, y - 8), (x + s * 2, y + 8), (x + s * 9, y)], colour) for s in (-1, 1)]
    return [ring(x, y, colour)]


def fact_words(a, facts):
    return ' and '.join(words for q, words in ((a, 'fact'), (~a, 'fact: not so')) if q in facts)


def box(layout, a, verdict, fact):
    x, height, colour = layout.edge(a, LEFT), layout.height[a], VERDICTS[verdict][0]
    y = layout.middle[a] - height / 2
    strip = y + height - STRIP
    first = (y + strip) / 2 + 5 - LINE * (len(layout.lines[a]) - 1) / 2
    out = [
        rect(x, strip, BOX, STRIP, fill=colour, fill_opacity=0.1),
        rect(x, y, BOX, height, fill='none', stroke=INK, stroke_width=1.3),
        *(text(x + 14, first + LINE * i, line, font_size=14) for i, line in enumerate(layout.lines[a])),
        *shape(x + 22, strip + STRIP / 2, verdict),
        text(x + 40, strip + 21, f'{a} {verdict}', font_size=15, font_weight='bold', fill=colour),
    ]
    if fact:
        out += [rect(x - 4, y - 4, BOX + 8, height + 8, fill='none', stroke=INK),
                text(x + BOX - 14, strip + 21, fact, font_weight='bold', text_anchor='end')]
    return out


def rule_lines(layout, r):
    """The lines from what a rule rests on to its label, and the arrow from there to the statement."""
    kind, body, head = layout.rules[r]
    side, (x, y), colour = layout.side_of(r), layout.label(r), colour_of(head)
    line = dict(stroke=colour, **KINDS[kind][0])
    begin, end, tip = x + side * LABEL / 2, x - side * LABEL / 2, layout.edge(atom(head), side)
    out = [text((end + tip) / 2, y - 7, 'for' if head >= 0 else 'against', font_size=12, text_anchor='middle', fill=colour)]
    for q in body:
        x1, y1 = layout.point(atom(q), -side, ('literal', q))
        out.append(path(['M', x1, y1, 'C', x1 - side * 70, y1, begin + side * 70, y, begin, y], **line))
        if q < 0:
            out.append(ring(x1 - side * 12, y1, colour))
    if not body:
        out += [text(begin - 24, y + 4.5, 'always', text_anchor='end'), path(['M', begin - 18, y, 'H', begin], **line)]
    return out + arrow(end, tip, y, -side, kind, head)


def rule_label(layout, r):
    x, y = layout.label(r)
    return [rect(x - LABEL / 2, y - 12, LABEL, 24, rx=12, fill='#fff', stroke=colour_of(layout.rules[r][2]), stroke_width=2),
            text(x, y + 4.5, f'rule {r}', text_anchor='middle')]


def priority(layout, over, under):
    """A dashed arrow from the stronger rule's label to the weaker's."""
    (x, y1), (_, y2), side = layout.label(over), layout.label(under), layout.side_of(under)
    way = 1 if y2 > y1 else -1
    return [
        path(['M', x, y1 + way * 12, 'V', y2 - way * 21], **PRIORITY),
        arrowhead(x, y2 - way * 13, 0, way, INK),
        text(x - side * 11, (y1 + y2) / 2 + 3, f'rule {over} over rule {under}', font_size=12,
             text_anchor='start' if side == LEFT else 'end'),
    ]


def verdict_signs(used):
    return [(shape(9, 0, verdict) + [text(28, 4.5, verdict, font_weight='bold', fill=colour)], meaning)
            for verdict, (colour, meaning) in VERDICTS.items() if verdict in used]


def line_signs(facts, rules, pairs):
    heads, kinds = [head for _, _, head in rules], [kind for kind, _, _ in rules]
    signs = [
        (any(h >= 0 for h in heads), arrow(0, 50, 0, 1, DEFEASIBLE, 0), 'a rule for the statement'),
        (any(h < 0 for h in heads), arrow(0, 50, 0, 1, DEFEASIBLE, ~0), 'a rule against it'),
        *((kind in kinds, [path(['M', 0, 0, 'H', 50], stroke=INK, **line)], meaning) for kind, (line, meaning) in KINDS.items()),
        (any(q < 0 for _, body, _ in rules for q in body), [path(['M', 0, 0, 'H', 50], stroke=INK), ring(6, 0, INK)],
         'rests on the opposite of the statement'),
        (pairs, [path(['M', 0, 0, 'H', 42], **PRIORITY), arrowhead(50, 0, 1, 0, INK)], 'priority: a stronger rule over a weaker one'),
        (facts, [rect(8, -9, 34, 18, fill='none', stroke=INK), rect(11, -6, 28, 12, fill='none', stroke=INK)],
         'fact: given, and not weighed'),
    ]
    return [(sign, meaning) for occurs, sign, meaning in signs if occurs]


def legend(x, y, indent, signs):
    """Signs with what they mean, one below the other."""
    return [part for i, (sign, meaning) in enumerate(signs) for part in (
        tag('g', ''.join(sign), transform=f'translate({x} {y + ROW * i:.1f})'), text(x + indent, y + ROW * i + 4.5, meaning))]


def picture(name):
    title, atoms, facts, rules, pairs, why = EXAMPLES[name]
    found = verdicts(name, len(atoms))
    layout = Layout(atoms, rules, pairs)
    reasons = textwrap.wrap(why, 118)
    words, lines = verdict_signs(found), line_signs(facts, rules, pairs)
    reasons_top = layout.bottom + 24
    legend_top = reasons_top + 20 * len(reasons) + 20
    height = round(legend_top + ROW * max(len(words), len(lines)))
    inside = [
        rect(0, 0, layout.width, height, fill='#fff'),
        text(MARGIN, 26, title, font_size=17, font_weight='bold'),
        text(MARGIN, 46, HOW_TO_READ, fill=GREY),
        *(part for a, verdict in enumerate(found) for part in box(layout, a, verdict, fact_words(a, facts))),
        *(part for r in range(len(rules)) for part in rule_lines(layout, r)),
        *(part for r in range(len(rules)) for part in rule_label(layout, r)),
        *(part for pair in pairs for part in priority(layout, *pair)),
        *(text(MARGIN, reasons_top + 20 * i, line) for i, line in enumerate(reasons)),
        path(['M', MARGIN, legend_top - 24, 'H', layout.width - MARGIN], stroke='#bbb'),
        *legend(MARGIN, legend_top, 76, words),
        *legend(460, legend_top, 64, lines),
    ]
    return tag('svg', '\n'.join(['', *inside, '']), xmlns='http://www.w3.org/2000/svg', viewBox=f'0 0 {layout.width} {height}',
               width=layout.width, height=height, font_family='DejaVu Sans, Helvetica, Arial, sans-serif', font_size=13, fill=INK) + '\n'


def main():
    kept = os.path.join(DOCS, KEPT + '.svg')
    if not sys.argv[1:]:
        with open(kept, 'w') as file:
            file.write(picture(KEPT))
    elif sys.argv[1:] == ['--check']:
        with open(kept) as file:
            if file.read() != picture(KEPT):
                sys.exit(f'{KEPT}.svg is not what picture.py writes')
    elif len(sys.argv) == 2 and sys.argv[1] in EXAMPLES:
        print(picture(sys.argv[1]), end='')
    else:
        sys.exit(__doc__)


main()
