#!/usr/bin/env python3
"""table.py RESULTS                prints README's two tables, from RESULTS/results.csv and RESULTS/worst.txt
table.py RESULTS README         fails unless README has both, line by line
table.py RESULTS README write   puts them in place of those that README has"""
import csv
import sys

ORDERS = [1000, 10000, 60000]
# What a row is called, and where its figure stands: operation, who, and the column if it is not the median of the whole call. Rows without figures stay out.
ROWS = [
    ("**check**", "check", "balluchaw"),
    ("`check_fast`, the same in C, written for speed", "check", "check_fast"),
    ("SQLite, integrity_check", "check", "SQLite integrity_check"),
    ("SQLite, integrity_check of a table WITHOUT ROWID", "check", "SQLite WITHOUT ROWID integrity_check"),
    ("**lookup**", "lookup", "balluchaw"),
    ("of that beyond its check", "lookup", "balluchaw", "us_beyond_check"),
    ("SQLite, lookup", "lookup", "SQLite"),
    ("LMDB, lookup", "lookup", "LMDB"),
    ("**descent**, key held", "descent, key held", "balluchaw"),
    ("the same, in version 2", "descent, key held", "balluchaw version 2"),
    ("`descent_fast`, the same in C, written for speed", "descent, key held", "descent_fast"),
    ("SQLite, SELECT by primary key", "descent, key held", "SQLite"),
    ("LMDB, get in an open transaction", "descent, key held", "LMDB get"),
    ("Rust's BTreeMap, get", "descent, key held", "BTreeMap"),
    ("**descent**, key not held", "descent, key not held", "balluchaw"),
    ("the same, in version 2", "descent, key not held", "balluchaw version 2"),
    ("`descent_fast`", "descent, key not held", "descent_fast"),
    ("SQLite, SELECT by primary key", "descent, key not held", "SQLite"),
    ("LMDB, get in an open transaction", "descent, key not held", "LMDB get"),
    ("Rust's BTreeMap, get", "descent, key not held", "BTreeMap"),
    ("**enter**", "enter", "balluchaw"),
    ("of that beyond its check", "enter", "balluchaw", "us_beyond_check"),
    ("SQLite, insert", "enter", "SQLite alone"),
    ("LMDB, insert", "enter", "LMDB alone"),
    ("SQLite, insert and VACUUM INTO", "enter", "SQLite + VACUUM INTO"),
    ("SQLite, integrity_check, insert and VACUUM INTO", "enter", "SQLite integrity_check + VACUUM INTO"),
    ("LMDB, insert and a sorted copy", "enter", "LMDB + sorted copy"),
    ("**amend**", "amend", "balluchaw"),
    ("of that beyond its check", "amend", "balluchaw", "us_beyond_check"),
    ("**span of all orders**", "span of all", "balluchaw"),
    ("SQLite, all orders", "span of all", "SQLite"),
    ("LMDB, all orders", "span of all", "LMDB"),
]


def short(value):
    return f"{value:.2f}" if value < 10 else f"{value:.1f}" if value < 100 else f"{value:,.0f}"


def figure(row, column):
    """In µs, and of how many rounds it is the median; None if the results do not have both. A difference has the error to expect beside it; one that drowns in
    it is told as in the results, by what it is less than."""
    if not row.get(column) or not row.get("beyond_rounds" if column == "us_beyond_check" else "rounds"):
        return None
    if column == "us_beyond_check":
        beyond, noise = float(row[column]), float(row["noise_us"])
        return f"{short(beyond)} ± {short(noise)}" if beyond >= 2 * noise else f"< {short(2 * noise + max(beyond, 0))}", int(row["beyond_rounds"])
    if row["unit"] == "ns":
        return f"{float(row[column]) / 1000:.3f}", int(row["rounds"])
    scale = int(row["orders"]) / 1000 if row["unit"] == "ns/order" else 1
    return short(float(row[column]) * scale), int(row["rounds"])


def speed(directory):
    with open(f"{directory}/results.csv", encoding="utf-8") as source:
        found = {(r["operation"], r["who"], int(r["orders"])): r for r in csv.DictReader(source) if r["configuration"] == "load 0.80"}
    yield "| µs for one call | " + " | ".join(f"{n:,} orders" for n in ORDERS) + " | rounds |"
    yield "|---" * (len(ORDERS) + 2) + "|"
    for name, operation, who, *column in ROWS:
        figures = [figure(found.get((operation, who, n), {}), column[0] if column else "median") for n in ORDERS]
        if all(figures):
            yield f"| {name} | " + " | ".join(text for text, _ in figures) + " | " + ", ".join(str(rounds) for _, rounds in figures) + " |"


def worst(directory):
    """The lines of the larger tables."""
    with open(f"{directory}/worst.txt", encoding="utf-8") as source:
        lines = [(line[:46].strip(), line[46:].split()) for line in source.read().splitlines()[2:]]
    yield "| seconds for one call | M | bytes | looks of a check, over M² | check | lookup | enter | span of all | descent |"
    yield "|---" * 9 + "|"
    for name, (blocks, _, _, length, _, looks, _, *seconds) in lines:
        if int(blocks) > 32000:
            yield f"| {name} | {int(blocks):,} | {int(length):,} | {looks} | " + " | ".join(seconds) + " |"


def with_tables(text, tables):
    """The text with each table in place of the one that starts with the same line."""
    for table in tables:
        start = text.index("\n" + table.split("\n", 1)[0]) + 1
        text = text[:start] + table + text[text.index("\n\n", start) + 1:]
    return text


def main():
    results, readme, write = (sys.argv[1:] + ["", ""])[:3]
    tables = ["\n".join(lines(results)) + "\n" for lines in (speed, worst)]
    if not readme:
        print("\n".join(tables), end="")
        return
    with open(readme, encoding="utf-8") as source:
        text = source.read()
    new = with_tables(text, tables)
    if write:
        with open(readme, "w", encoding="utf-8") as target:
            target.write(new)
    elif new != text:
        sys.exit(f"{readme}: the tables of speed are not those that bench/table.py prints from {results}")
    print(f"{readme}: both tables of speed are those of {results}")


main()
