#!/usr/bin/env python3
"""plot.py: lines `SHAPE SPENT OURS C FLAGS` on standard input; instructions against what is spent, as SVG on standard output.
Both axes are logarithmic, so that a cost proportional to what is spent is a line along the grey diagonals."""
import math, sys

W, H = 900, 560
LEFT, RIGHT, TOP, BOTTOM = 104, 216, 56, 66
COLOURS = {'chain': '#1b6ca8', 'star': '#c0392b', 'teams': '#2e8b57', 'random': '#8e44ad'}

points = {}
for row in sys.stdin:
    shape, *numbers = row.split()
    points.setdefault(shape, []).append(tuple(map(int, numbers)))
for shape in points:
    points[shape].sort()

def steps(low, high):
    """1, 2, 5, 10, .. from just below low to just above high"""
    all_steps = [m * 10 ** e for e in range(0, 10) for m in (1, 2, 5)]
    return [s for i, s in enumerate(all_steps) if all_steps[min(i + 1, len(all_steps) - 1)] > low and (i == 0 or all_steps[i - 1] < high)]

xs = steps(min(p[0] for ps in points.values() for p in ps), max(p[0] for ps in points.values() for p in ps))
ys = steps(min(min(p[1:]) for ps in points.values() for p in ps), max(max(p[1:]) for ps in points.values() for p in ps))

def x_of(v):
    return LEFT + (W - LEFT - RIGHT) * math.log(v / xs[0]) / math.log(xs[-1] / xs[0])

def y_of(v):
    return H - BOTTOM - (H - TOP - BOTTOM) * math.log(v / ys[0]) / math.log(ys[-1] / ys[0])

out = []
def text(x, y, s, **more):
    attributes = ''.join(f' {k.replace("_", "-")}="{v}"' for k, v in more.items())
    out.append(f'<text x="{x:.1f}" y="{y:.1f}"{attributes}>{s}</text>')

def line(x1, y1, x2, y2, stroke, **more):
    attributes = ''.join(f' {k.replace("_", "-")}="{v}"' for k, v in more.items())
    out.append(f'<line x1="{x1:.1f}" y1="{y1:.1f}" x2="{x2:.1f}" y2="{y2:.1f}" stroke="{stroke}"{attributes}/>')

out.append(f'<svg xmlns="http://www.w3.org/2000/svg" viewBox="0 0 {W} {H}" width="{W}" height="{H}" '
           'font-family="DejaVu Sans, Helvetica, Arial, sans-serif" font-size="13" fill="#222">')
out.append(f'<rect width="{W}" height="{H}" fill="#fff"/>')
text(LEFT, 24, 'Instructions of a run against what it spends', font_size=17, font_weight='bold')
text(LEFT, 43, 'judging and clearing included; tables of four shapes at 1/8, 1/4, 1/2 and the limits', fill='#555')
for v in xs:
    line(x_of(v), TOP, x_of(v), H - BOTTOM, '#eee')
    line(x_of(v), H - BOTTOM, x_of(v), H - BOTTOM + 5, '#222')
    text(x_of(v), H - BOTTOM + 20, f'{v:,}', text_anchor='middle')
for v in ys:
    line(LEFT, y_of(v), W - RIGHT, y_of(v), '#eee')
    line(LEFT - 5, y_of(v), LEFT, y_of(v), '#222')
    text(LEFT - 9, y_of(v) + 4.5, f'{v:,}', text_anchor='end')
for unit in (1, 10, 100, 1000):  # instructions for each unit
    x1, x2 = max(xs[0], ys[0] / unit), min(xs[-1], ys[-1] / unit)
    if x1 < x2:
        line(x_of(x1), y_of(unit * x1), x_of(x2), y_of(unit * x2), '#bbb')
        # the label runs along the diagonal, below it, near its upper end
        slope = math.degrees(math.atan2(y_of(unit * x2) - y_of(unit * x1), x_of(x2) - x_of(x1)))
        x, y = x_of(x2), y_of(unit * x2)
        out.append(f'<text transform="translate({x:.1f} {y:.1f}) rotate({slope:.2f})" x="-8" y="14" text-anchor="end" font-size="11" '
                   f'fill="#777">{unit:,} for each unit</text>')
line(LEFT, H - BOTTOM, W - RIGHT, H - BOTTOM, '#222')
line(LEFT, TOP, LEFT, H - BOTTOM, '#222')
text((LEFT + W - RIGHT) / 2, H - 18, 'spent (logarithmic)', text_anchor='middle', font_size=14)
out.append(f'<text transform="translate(22 {(TOP + H - BOTTOM) / 2:.1f}) rotate(-90)" text-anchor="middle" font-size="14">instructions (logarithmic)</text>')
legend = TOP + 12
for shape, ps in points.items():
    colour = COLOURS.get(shape, '#222')
    for which, name, dash in ((1, 'ours', ''), (2, 'C', ' stroke-dasharray="6 4"'), (3, 'C (flags)', ' stroke-dasharray="1.5 3.5"')):
        path = ' '.join(f'{x_of(p[0]):.1f},{y_of(p[which]):.1f}' for p in ps)
        out.append(f'<polyline points="{path}" fill="none" stroke="{colour}" stroke-width="2"{dash}/>')
        for p in ps:
            out.append(f'<circle cx="{x_of(p[0]):.1f}" cy="{y_of(p[which]):.1f}" r="3.2" stroke="{colour}" stroke-width="1.5" '
                       f'fill="{colour if which == 1 else "#fff"}"/>')
        x = W - RIGHT + 18
        out.append(f'<line x1="{x}" y1="{legend}" x2="{x + 38}" y2="{legend}" stroke="{colour}" stroke-width="2"{dash}/>')
        out.append(f'<circle cx="{x + 19}" cy="{legend}" r="3.2" stroke="{colour}" stroke-width="1.5" '
                   f'fill="{colour if which == 1 else "#fff"}"/>')
        text(x + 46, legend + 4.5, f'{shape}, {name}')
        legend += 22
    legend += 8
out.append('</svg>')
print('\n'.join(out))
