#!/usr/bin/env python3
"""A Markdown table of what measure.py wrote: for each design and measure what nextpnr-ice40 with timing gives, the middle of its seeds, and the ratios of the other tools to it;
last the geometric means of the ratios.

usage: table.py RESULTS [BEFORE]; with BEFORE, the results of an earlier program of ours, which gets columns of its own

A ratio is that of the geometric means over the seeds that a tool built, of which it says how many where not all were. A design counts in a mean where both tools built it from some seed; how many
those are stands in brackets.
"""
import csv
import os
import statistics
import sys

sys.dont_write_bytecode = True
sys.path.insert(0, os.path.join(os.path.dirname(os.path.abspath(__file__)), ".."))
from netlists import designs
from turns import geometric_mean

BASE = "nextpnr"
NAMES = {"nextpnr": "nextpnr", "ours": "this", "before": "before", "untimed": "no timing", "arachne": "arachne"}
MEASURES = {"length": "wire length", "path": "critical path, ns", "processor": "processor, s"}


def read(path, rename=None):
    """The builds of each design and tool."""
    builds = {}
    with open(path, encoding="utf-8", newline="") as file:
        for row in csv.DictReader(file):
            tool = rename if rename and row["tool"] == "ours" else row["tool"]
            if not rename or tool == rename:
                builds.setdefault((row["design"], tool), []).append(row)
    return builds


def numbers(builds, measure):
    """What a measure is in the builds that were built."""
    return [float(row[measure]) for row in builds if row["answer"] == "built" and row[measure]]


def count_of(builds):
    """How many seeds were built, where not all were."""
    built = sum(row["answer"] == "built" for row in builds)
    return "" if built == len(builds) else f" ({built} of {len(builds)})"


def absolute(builds, measure):
    """The middle of the seeds."""
    found = numbers(builds, measure)
    if not found:
        return "-"
    middle = statistics.median(found)
    return (f"{middle:,.0f}" if measure == "length" else f"{middle:.1f}" if measure == "path" else f"{middle:.2f}") + count_of(builds)


def ratio(ours, base, measure):
    over, under = numbers(ours, measure), numbers(base, measure)
    if over and under and min(under) > 0 and min(over) > 0:
        return geometric_mean(over) / geometric_mean(under)
    return None


def cell(builds, design, tool, measure):
    """The middle of the base, or the ratio of another tool to it."""
    found = builds.get((design, tool), [])
    if tool == BASE:
        return absolute(found, measure)
    over = ratio(found, builds.get((design, BASE), []), measure)
    return f"{over:.2f}{count_of(found)}" if over else "-"


def mean(builds, names, tool, measure):
    """The geometric mean of the ratios, and of how many designs."""
    ratios = [ratio(builds.get((name, tool), []), builds.get((name, BASE), []), measure) for name in names]
    ratios = [number for number in ratios if number]
    return f"{geometric_mean(ratios):.2f} ({len(ratios)})" if ratios else "-"


def rounds(builds):
    return " ".join(row["rounds"] if row["answer"] == "built" else "-" for row in builds)


def main():
    results, *before = sys.argv[1:]
    builds = read(results)
    for path in before:
        builds |= read(path, "before")
    listed = [design for design in designs() if any(design.name == name for name, _ in builds)]
    tools = [tool for tool in NAMES if any(tool == found for _, found in builds)]
    columns = [(measure, tool) for measure in MEASURES for tool in tools]
    heads = [f"{MEASURES[measure]}: {NAMES[tool]}" for measure, tool in columns]
    print("| design | cells, pins | " + " | ".join(heads) + " | rounds by seeds |")
    print("|---" * (len(columns) + 3) + "|")
    for design in listed:
        ours = builds.get((design.name, "ours"), [])
        cells = next((row["cells"] for row in ours if row["cells"]), "-")
        measured = [cell(builds, design.name, tool, measure) for measure, tool in columns]
        print(f"| {design.name} | {cells}, {'fixed' if design.fixed else 'free'} | " + " | ".join(measured) + f" | {rounds(ours)} |")
    groups = {"all designs": listed, "fixed pins": [it for it in listed if it.fixed], "free pins": [it for it in listed if not it.fixed]}
    for group, members in groups.items():
        means = ["" if tool == BASE else mean(builds, [it.name for it in members], tool, measure) for measure, tool in columns]
        print(f"| mean of {len(members)}, {group} | | " + " | ".join(means) + " | |")
    for tool in tools:
        failed = [f"{row['design']} from seed {row['seed']}" for (_, found), rows in builds.items() if found == tool for row in rows if row["answer"] != "built"]
        print(f"\nNot built by {'this program' if tool == 'ours' else tool}: {', '.join(failed) or 'none'}.")


main()
