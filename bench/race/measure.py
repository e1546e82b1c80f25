#!/usr/bin/env python3
"""Builds netlists by each tool in turn, and writes what each took to RESULTS, a line for each netlist and tool: the least of its turns.

usage: measure.py PROGRAM CHIP PACKAGE FOLDER RESULTS NAME..; FOLDER has the netlists that make.py makes

The variable TURNS says how many turns (3). Processor time is that of the process, of user and system; on a machine with other work it still grows by what others take of caches and memory, and by
what two threads of one core take from each other. Instructions are counted by valgrind, once, of the netlists that the variable COUNT names ('all': of all). A tool that didn't build has its answer in
the place of times.
"""
import csv
import os
import re
import sys

sys.dont_write_bytecode = True
HERE = os.path.dirname(os.path.abspath(__file__))
sys.path.insert(0, os.path.join(HERE, ".."))
from builders import words_of
from turns import Turn

COLUMNS = ["netlist", "tool", "cells", "answer", "user", "system", "memory", "instructions"]
RACED = ("ours", "nextpnr", "arachne")
SEED = 1


def instructions(words, scratch):
    """How many instructions a command takes, by valgrind; or nothing where that says no number."""
    words = ["valgrind", "--tool=cachegrind", "--cache-sim=no", "--branch-sim=no", f"--cachegrind-out-file={scratch}", *words]
    found = re.search(r"I\s+refs:\s+([0-9,]+)", Turn(words, 3600).said)
    return found[1].replace(",", "") if found else ""


def cells_in(report):
    """The cells of a design, by the head of a report on routes."""
    if not os.path.exists(report):
        return ""
    with open(report, encoding="ascii") as lines:
        return lines.readline().split()[1]


def race(program, chip, package, path, turns, counts):
    """The lines of a netlist: the tools run one after another, turn by turn."""
    words = {tool: words_of(tool, program, chip, package, path, SEED, f"{path}.{tool}") for tool in RACED}
    runs = {tool: [] for tool in RACED}
    for _ in range(turns):
        for tool in RACED:
            runs[tool].append(Turn(words[tool]))
    # (the cells are counted by a run with a report, which is not timed)
    Turn(words_of("ours", program, chip, package, path, SEED, f"{path}.ours", report=True))
    cells = cells_in(f"{path}.ours.report")
    for tool in RACED:
        least = min(runs[tool], key=lambda turn: turn.processor)
        built = all(turn.status == 0 for turn in runs[tool])
        yield {
            "netlist": os.path.basename(path),
            "tool": tool,
            "cells": cells,
            "answer": "built" if built else least.last_line()[:80] or f"ended by {least.status}",
            "user": f"{least.user:.3f}",
            "system": f"{least.system:.3f}",
            "memory": max(turn.memory for turn in runs[tool]),
            "instructions": instructions(words[tool], f"{path}.counts") if counts and built else "",
        }


def main():
    program, chip, package, folder, results, *names = sys.argv[1:]
    turns, counted = int(os.environ.get("TURNS", "3")), os.environ.get("COUNT", "").split()
    with open(results, "w", encoding="utf-8", newline="") as file:
        out = csv.DictWriter(file, COLUMNS)
        out.writeheader()
        for name in names:
            for row in race(program, chip, package, os.path.join(folder, name), turns, "all" in counted or name in counted):
                out.writerow(row)
            file.flush()


main()
