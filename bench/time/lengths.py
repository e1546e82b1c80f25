"""Lengths of longest paths, for the script beside this file.
usage: lengths.py line NAME PATH ICETIME COST   one line: the name, both lengths in picoseconds, their ratio, and what `time` took
       lengths.py pairs LENGTHS                 how many pairs of such lines are ranked alike"""
import itertools
import re
import sys


def line(name, path, icetime, cost):
    """The line of one netlist."""
    ours = int(open(path, encoding="utf-8").readline().split()[1])
    said = re.search(r"Total path delay: ([0-9.]+) ns", open(icetime, encoding="utf-8").read())
    theirs = round(1000 * float(said.group(1)))
    print(f"{name} {ours} {theirs} {ours / theirs:.2f} {open(cost, encoding='utf-8').read().strip()}")


def pairs(lengths):
    """Of pairs whose lengths by icetime are more than a tenth apart, how many both rank alike."""
    rows = [list(map(int, row.split()[1:3])) for row in open(lengths, encoding="utf-8")]
    apart = [(a, b) for a, b in itertools.combinations(rows, 2) if max(a[1], b[1]) > 1.1 * min(a[1], b[1])]
    alike = sum((a[0] < b[0]) == (a[1] < b[1]) for a, b in apart)
    print(f"{alike} of {len(apart)} pairs more than a tenth apart are ranked alike")


{"line": line, "pairs": pairs}[sys.argv[1]](*sys.argv[2:])
