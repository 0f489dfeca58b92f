#!/usr/bin/env python3
"""Draws a run from what program `shape` printed: the work, grey and change of each round, and the densities as a picture.

    tools/draw.py JOB < PRINTED > RUN.svg

JOB is the job's text (tools/job.py) or its strip. The picture looks along the axis in which the elements' middles spread least; where elements lie
behind one another it shows the mean of their densities, by volume. Solid is dark. An upright with a number is where the steepness moves on.
"""
import math
import struct
import sys

import job as jobs

WIDTH, PLOT, GAP, LEFT = 900, 130, 46, 70


def fail(why):
    sys.exit("draw: " + why)


def value(digits):
    return struct.unpack("<d", struct.pack("<Q", int(digits, 16)))[0]


def read(lines):
    """What `shape` printed: the solid part's work, the rounds as lists of numbers, the stop, the densities."""
    solid, rounds, stop, density = None, [], None, []
    for words in map(str.split, lines):
        if words[0] == "refused":
            fail(f"the job was refused, {words[1]}: there is nothing to draw")
        elif words[0] == "solid":
            solid = value(words[1])
        elif words[0] == "round":
            rounds.append([value(w) for w in words[2:7]])
        elif words[0] == "stop":
            stop = words[1]
        else:
            density.append(value(words[1]))
    if stop is None:
        fail("standard input is not what shape prints")
    return solid, rounds, stop, density


def middles(name):
    data = open(name, "rb").read()
    job = jobs.unpack(data) if data[3:4] == b"\x10" else jobs.parse(data.decode())
    return [[value(f"{n:x}") for n in numbers[:4]] for numbers, _ in job["elements"]]


# ---- SVG

def text(x, y, words, more=""):
    return f'<text x="{x:.1f}" y="{y:.1f}" {more}>{words}</text>'


def ticks(low, high):
    step = 10.0 ** math.floor(math.log10((high - low) / 2))
    step = next(step * k for k in (1, 2, 5, 10) if (high - low) / (step * k) <= 4)
    return [k * step for k in range(math.ceil(low / step - 1e-9), math.floor(high / step + 1e-9) + 1)]


def plot(top, title, values, steep):
    """One line over the rounds, a faint upright where the steepness moves on. A value that is not finite leaves a gap."""
    finite = [v for v in values if math.isfinite(v)] or [0.0]
    low, high = min(0.0, *finite), max(*finite, 1e-9)
    across, down = (WIDTH - LEFT - 20) / max(len(values) - 1, 1), PLOT / (high - low)
    at = [(LEFT + k * across, top + PLOT - (v - low) * down, math.isfinite(v)) for k, v in enumerate(values)]
    out = [text(LEFT, top - 8, title, 'font-weight="bold"')]
    for mark in ticks(low, high):
        y = top + PLOT - (mark - low) * down
        out += [f'<path d="M{LEFT} {y:.1f}H{WIDTH - 20}" stroke="#ddd"/>', text(LEFT - 8, y + 4, f"{mark:g}", 'text-anchor="end"')]
    for k in range(1, len(steep)):
        if steep[k] != steep[k - 1]:
            out += [f'<path d="M{at[k][0]:.1f} {top}v{PLOT}" stroke="#aaa" stroke-dasharray="3 3"/>', text(at[k][0] + 3, top + 11, f"{steep[k]:g}", 'fill="#888"')]
    path = "".join(f"{'L' if k and at[k - 1][2] else 'M'}{x:.1f} {y:.1f}" for k, (x, y, there) in enumerate(at) if there)
    out.append(f'<path d="{path}" fill="none" stroke="#1f5fa8" stroke-width="1.5"/>')
    return out + [f'<circle cx="{x:.1f}" cy="{y:.1f}" r="2" fill="#1f5fa8"/>' for x, y, there in at if there]


def picture(top, elements, density):
    """The densities as squares; the height that they take is told too."""
    points = [e[1:] for e in elements]
    spread = [max(p[a] for p in points) - min(p[a] for p in points) for a in range(3)]
    across, up = sorted(sorted(range(3), key=lambda a: -spread[a])[:2])
    cells = {}
    for (volume, *p), d in zip(elements, density):
        have = cells.setdefault((p[across], p[up]), [0.0, 0.0, 0.0])
        have[0] += volume * (0.0 if math.isnan(d) else d)
        have[1] += volume
        have[2] = max(have[2], volume ** (1 / 3))
    side = max(c[2] for c in cells.values())
    low = [min(p[a] for p in cells) - side / 2 for a in range(2)]
    size = [max(p[a] for p in cells) + side / 2 - low[a] for a in range(2)]
    scale = min((WIDTH - LEFT - 20) / size[0], 420 / size[1])
    out = []
    for (u, v), (kept, volume, s) in cells.items():
        tone = round(255 - 225 * kept / volume)
        x, y = LEFT + (u - low[0] - s / 2) * scale, top + (low[1] + size[1] - v - s / 2) * scale
        out.append(f'<rect x="{x:.2f}" y="{y:.2f}" width="{s * scale:.2f}" height="{s * scale:.2f}" fill="rgb({tone},{tone},{tone})" stroke="#ccc" stroke-width="0.4"/>')
    return out, size[1] * scale


def main():
    if len(sys.argv) != 2:
        sys.exit(__doc__)
    solid, rounds, stop, density = read(sys.stdin)
    elements = middles(sys.argv[1])
    if len(elements) != len(density):
        fail(f"the job has {len(elements)} elements, and {len(density)} were printed")
    steep = [r[3] for r in rounds]
    lines = [("work of the loads, as a multiple of the solid part's", [r[0] / solid for r in rounds]), ("grey", [r[4] for r in rounds]), ("largest change of a density", [r[2] for r in rounds])]
    out, top = [], 60
    for title, values in lines:
        out += plot(top, title, values, steep)
        top += PLOT + GAP
    out.append(text(LEFT, top - 8, f"densities of round {len(rounds)}", 'font-weight="bold"'))
    squares, height = picture(top + 4, elements, density)
    name = sys.argv[1].replace("&", "&amp;").replace("<", "&lt;")
    head = text(LEFT, 26, f"{name}: elements {len(density)}, rounds {len(rounds)}, {stop}", 'font-size="16"')
    print(f'<svg xmlns="http://www.w3.org/2000/svg" width="{WIDTH}" height="{top + height + 24:.0f}" font-family="sans-serif" font-size="12">')
    print('<rect width="100%" height="100%" fill="white"/>', head, *out, *squares, "</svg>", sep="\n")


main()
