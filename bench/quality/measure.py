#!/usr/bin/env python3
"""Builds designs by each tool from each seed, and writes a line for each build to RESULTS.

usage: measure.py PROGRAM CHIP PACKAGE FOLDER RESULTS [DESIGN..]; FOLDER has the netlists that netlists.py makes

The variables TOOLS, SEEDS and JOBS say which tools, which seeds, and how many builds at once (ours, nextpnr, untimed, arachne; 1, 2, 3; 2). A build that takes
more than five minutes of the processor is ended, and counts as one that failed. KEPT names the results of an earlier run, of which the lines of the other tools are
taken as they are, so that only this program builds.

The wire length is one measure for all tools: the sum of the half perimeters, in tiles, of the nets of cells and pads, by the rows that are on in the bits; the critical path
is that of icetime. What stands in the bits is the design as the tool packed it, so a tool whose cells are others has other nets.
"""
import csv
import multiprocessing
import os
import re
import sys

sys.dont_write_bytecode = True
HERE = os.path.dirname(os.path.abspath(__file__))
sys.path[:0] = [os.path.join(HERE, "..", "..", "tools"), os.path.join(HERE, "..")]
from netlists import designs
from reports import Chip, Routes, length_of, trees_on
from builders import TOOLS, words_of
from turns import Turn

COLUMNS = ["design", "tool", "seed", "answer", "processor", "cells", "rounds", "length", "path"]
LIMIT = 300


def path_of(asc, package):
    """The critical path of a text of bits, in nanoseconds."""
    turn = Turn(["icetime", "-d", "hx1k", "-P", package, "-t", asc], LIMIT)
    found = re.search(r"Total path delay: ([0-9.]+) ns", turn.said)
    return found[1] if found else ""


class Bench:
    """What all builds share."""

    def __init__(self, program, chip, package, folder):
        self.program, self.chip_name, self.package, self.folder = program, chip, package, folder
        self.chip = Chip(chip)

    def row(self, design, tool, seed):
        path = os.path.join(self.folder, design)
        out = f"{path}.{tool}.{seed}"
        for old in f"{out}.asc", f"{out}.report":
            if os.path.exists(old):
                os.remove(old)
        turn = Turn(words_of(tool, self.program, self.chip_name, self.package, path, seed, out, report=True), LIMIT)
        row = {"design": design, "tool": tool, "seed": seed, "processor": f"{turn.processor:.3f}"}
        built = turn.status == 0 and os.path.exists(f"{out}.asc")
        row["answer"] = "built" if built else turn.last_line()[:80] or f"ended by {turn.status}"
        if built:
            row["length"] = length_of(self.chip, trees_on(self.chip, f"{out}.asc"))
            row["path"] = path_of(f"{out}.asc", self.package)
        if os.path.exists(f"{out}.report"):
            routes = Routes(f"{out}.report")
            row["cells"], row["rounds"] = routes.cells, len(routes.rounds)
            if built and length_of(self.chip, routes.trees.values()) != row["length"]:
                sys.exit(f"{out}: the bits have another wire length than the report")
        return row


BENCH = None


def row_of(task):
    return BENCH.row(*task)


def kept(path, names):
    """The lines of other tools in earlier results, of the designs of these names."""
    with open(path, encoding="utf-8", newline="") as file:
        return [row for row in csv.DictReader(file) if row["tool"] != "ours" and row["design"] in names]


def main():
    global BENCH
    program, chip, package, folder, results, *names = sys.argv[1:]
    earlier = os.environ.get("KEPT")
    tools = ["ours"] if earlier else os.environ.get("TOOLS", " ".join(TOOLS)).split()
    seeds = os.environ.get("SEEDS", "1 2 3").split()
    BENCH = Bench(program, chip, package, folder)
    chosen = [design.name for design in designs(names)]
    # (seed by seed, so that a run that is cut off has whole seeds)
    tasks = [(name, tool, seed) for seed in seeds for name in chosen for tool in tools]
    rows = kept(earlier, chosen) if earlier else []
    # (the workers are forks of this process, so that each has the chip)
    with multiprocessing.get_context("fork").Pool(int(os.environ.get("JOBS", "2"))) as pool, open(results, "w", encoding="utf-8", newline="") as file:
        out = csv.DictWriter(file, COLUMNS)
        out.writeheader()
        out.writerows(rows)
        for row in pool.imap(row_of, tasks):
            out.writerow(row)
            file.flush()


main()
