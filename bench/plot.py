#!/usr/bin/env python3
"""plot.py RESULTS   draws RESULTS/results.csv: check.svg, ns for each order against the number of orders, and enter.svg, µs for an enter."""
import csv
import math
import sys

WIDTH, HEIGHT, LEFT, RIGHT, TOP, BOTTOM = 900, 460, 74, 310, 58, 58
LIGHT = ["#0b57d0", "#b3541e", "#8a6d00", "#1a7f37", "#8250df", "#c2255c"]
DARK = ["#79b8ff", "#f0a067", "#e3c341", "#56d364", "#c297ff", "#ff8fb1"]


def colours(paper, ink, faint, grid, lines):
    rules = [f".paper {{ fill: {paper}; }} text {{ fill: {ink}; }} .faint {{ fill: {faint}; }} .grid {{ stroke: {grid}; }} .frame {{ stroke: {faint}; }}"]
    rules += [f".s{i} {{ stroke: {c}; }} .f{i} {{ fill: {c}; }}" for i, c in enumerate(lines)]
    return "\n".join(rules)


STYLE = f"""
svg {{ font: 13px system-ui, sans-serif; }} .title {{ font-weight: 600; font-size: 15px; }}
path, .grid, .frame {{ fill: none; }} path {{ stroke-width: 2; }} path.first {{ stroke-width: 3.5; }} path.lead {{ stroke-width: 1; }}
{colours("#ffffff", "#1f2328", "#59636e", "#d9dee3", LIGHT)}
@media (prefers-color-scheme: dark) {{
{colours("#14181d", "#e6edf3", "#9aa5b1", "#2d343c", DARK)}
}}
"""
PLOTS = [
    ("check.svg", "check", "Check of a whole table, γ = B = 16, load 0.80", "ns for each order held",
     [("balluchaw", "balluchaw"), ("check_plain", "C, plain"), ("check_tuned", "C, tuned"), ("check_fast", "C, fast"), ("reference", "Rust reference"),
      ("SQLite integrity_check", "SQLite integrity_check")]),
    ("enter.svg", "enter", "One enter that leaves canonical bytes, γ = B = 16, load 0.80", "µs",
     [("balluchaw", "balluchaw, with its check"), ("BTreeMap + all its bytes", "BTreeMap + all its bytes"), ("reference", "Rust reference"),
      ("SQLite + VACUUM INTO", "SQLite + VACUUM INTO"), ("SQLite integrity_check + VACUUM INTO", "SQLite integrity_check + VACUUM"),
      ("LMDB + sorted copy", "LMDB + sorted copy")]),
]


def points(rows, operation, who):
    found = [r for r in rows if r["operation"] == operation and r["who"] == who and r["configuration"] == "load 0.80"]
    return sorted((int(r["orders"]), float(r["median"])) for r in found)


def ticks(low, high):
    """1, 2 and 5 times the powers of ten, or the powers alone where that would be many."""
    powers = range(math.floor(math.log10(low)), math.ceil(math.log10(high)) + 1)
    steps = (1, 2, 5) if math.log10(high / low) < 2.5 else (1,)
    return [step * 10**power for power in powers for step in steps if low <= step * 10**power <= high]


def scale(low, high, start, end):
    return lambda value: start + (end - start) * math.log(value / low) / math.log(high / low)


def spread(places, gap):
    """The places, pushed apart so that labels do not overlap; their order stays."""
    order = sorted(range(len(places)), key=lambda i: places[i])
    result = list(places)
    for before, after in zip(order, order[1:]):
        result[after] = max(result[after], result[before] + gap)
    shift = max(0, (max(result) - (HEIGHT - BOTTOM)) / 2)
    return [place - shift for place in result]


def number(value):
    return f"{value:,.0f}" if value >= 1 else f"{value:g}"


def axes(x, y, x_ticks, y_ticks, title, unit):
    right, bottom = WIDTH - RIGHT, HEIGHT - BOTTOM
    parts = [f'<text class="title" x="{LEFT}" y="26">{title}</text>', f'<text class="faint" x="{LEFT}" y="46">{unit}, median; less is better</text>']
    for tick in y_ticks:
        parts.append(f'<line class="grid" x1="{LEFT}" x2="{right}" y1="{y(tick):.1f}" y2="{y(tick):.1f}"/>')
        parts.append(f'<text class="faint" x="{LEFT - 8}" y="{y(tick) + 4:.1f}" text-anchor="end">{number(tick)}</text>')
    for tick in x_ticks:
        parts.append(f'<line class="frame" x1="{x(tick):.1f}" x2="{x(tick):.1f}" y1="{bottom}" y2="{bottom + 5}"/>')
        parts.append(f'<text class="faint" x="{x(tick):.1f}" y="{bottom + 20}" text-anchor="middle">{number(tick)}</text>')
    parts.append(f'<line class="frame" x1="{LEFT}" x2="{right}" y1="{bottom}" y2="{bottom}"/>')
    parts.append(f'<text x="{(LEFT + right) / 2}" y="{bottom + 42}" text-anchor="middle">orders held</text>')
    return parts


def line(index, curve, x, y):
    path = " L".join(f"{x(n):.1f} {y(value):.1f}" for n, value in curve)
    dots = "".join(f'<circle class="f{index}" cx="{x(n):.1f}" cy="{y(value):.1f}" r="{4 if index == 0 else 3}"/>' for n, value in curve)
    return f'<path class="s{index}{" first" if index == 0 else ""}" d="M{path}"/>{dots}'


def label(index, name, curve, x, y, place):
    (n, value), weight = curve[-1], ' font-weight="600"' if index == 0 else ""
    lead = f'<path class="s{index} lead" d="M{x(n) + 6:.1f} {y(value):.1f} L{x(n) + 16:.1f} {place:.1f}"/>'
    return f'{lead}<text class="f{index}" x="{x(n) + 20:.1f}" y="{place + 4:.1f}"{weight}>{name}, {value:,.{0 if value >= 100 else 1}f}</text>'


def draw(rows, operation, title, unit, lines):
    curves = [(name, points(rows, operation, who)) for who, name in lines]
    curves = [(name, curve) for name, curve in curves if curve]
    orders = [n for _, curve in curves for n, _ in curve]
    values = [value for _, curve in curves for _, value in curve]
    low, high = min(values) / 1.25, max(values) * 1.25
    x = scale(min(orders) / 1.1, max(orders) * 1.05, LEFT, WIDTH - RIGHT)
    y = scale(low, high, HEIGHT - BOTTOM, TOP)
    x_ticks = [n for n in sorted(set(orders)) if str(n)[0] in "16"]
    parts = axes(x, y, x_ticks, ticks(low, high), title, unit)
    places = spread([y(curve[-1][1]) for _, curve in curves], 18)
    for index, (name, curve) in enumerate(curves):
        parts += [line(index, curve, x, y), label(index, name, curve, x, y, places[index])]
    head = f'<svg xmlns="http://www.w3.org/2000/svg" viewBox="0 0 {WIDTH} {HEIGHT}" width="{WIDTH}" height="{HEIGHT}" role="img" aria-label="{title}">'
    return "\n".join([head, f"<style>{STYLE}</style>", f'<rect class="paper" width="{WIDTH}" height="{HEIGHT}"/>', *parts, "</svg>", ""])


def main():
    directory = sys.argv[1]
    with open(f"{directory}/results.csv", encoding="utf-8") as source:
        rows = list(csv.DictReader(source))
    for name, *rest in PLOTS:
        with open(f"{directory}/{name}", "w", encoding="utf-8") as target:
            target.write(draw(rows, *rest))


main()
