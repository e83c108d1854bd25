#!/usr/bin/env python3
"""count.py DIRECTORY   adds up the dumps of count.c there: for each configuration the check's instructions for each order, and the median of
the instructions that each other call takes beyond a check of the table that it was made with, or in all if it makes none. On tables of version 2
there are no calls in C."""
import glob
import re
import statistics
import sys

CALLS = ["lookup", "seek", "seek far", "seek short", "span of all", "cancel", "enter", "amend"]
UNCHECKED = ["descent", "descent in C", "descent, not held", "the same in C"]


def dumps(directory):
    for name in sorted(glob.glob(f"{directory}/out.*"), key=lambda name: int(name.rsplit(".", 1)[1])):
        with open(name, encoding="utf-8") as source:
            text = source.read()
        call = re.search(r"^desc: Trigger: Client Request: (\d)\|(.*)\|(\d+)\|(.*)$", text, re.M)
        if call:
            yield (int(call[1]), call[2], int(call[3])), call[4], int(re.search(r"^(?:totals|summary): (\d+)", text, re.M)[1])


def main():
    counts, scenes = {}, {}
    for scene, call, instructions in dumps(sys.argv[1]):
        counts.setdefault((scene, call), []).append(instructions)
        scenes[scene] = None
    columns = " ".join(f"{call:>17}" for call in CALLS + UNCHECKED)
    print(f"{'instructions':<32} {'check':>10}   {'beyond the check, median':<{18 * len(CALLS) - 2}} in all, median\n{'':<24} version {'an order':>10} {columns}")
    for scene in scenes:
        version, title, held = scene
        check = counts[scene, "check"][0]
        more = [statistics.median(counts[scene, call]) - check for call in CALLS]
        whole = [statistics.median(counts[scene, call]) if (scene, call) in counts else None for call in UNCHECKED]
        figures = " ".join(f"{'':>17}" if value is None else f"{value:>17,.0f}" for value in more + whole)
        print(f"{title:<16} {held:>7} {version:>7} {check / held:>10.1f} {figures}".rstrip())


main()
