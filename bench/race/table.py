#!/usr/bin/env python3
"""Markdown tables of what measure.py wrote: first the geometric means of the ratios of processor times, by size, and the worst of each; then each netlist.

usage: table.py RESULTS

Sizes are in logic cells, as this program packs them. A netlist counts where both tools built it.
"""
import csv
import os
import sys

sys.dont_write_bytecode = True
sys.path.insert(0, os.path.join(os.path.dirname(os.path.abspath(__file__)), ".."))
from turns import geometric_mean

PEERS = {"nextpnr": "nextpnr-ice40", "arachne": "arachne-pnr"}
SIZES = (("below 20 cells", 0, 20), ("20 to 59", 20, 60), ("60 to 399", 60, 400), ("from 400 on", 400, 10**9), ("all", 0, 10**9))


class Netlist:
    """What each tool took for one netlist."""

    def __init__(self, name, cells):
        self.name, self.cells, self.rows = name, cells, {}

    def took(self, tool, counted):
        """Processor time in seconds, or instructions; None where the tool didn't build, or where nothing was counted."""
        row = self.rows.get(tool)
        if not row or row["answer"] != "built":
            return None
        if counted:
            return int(row["instructions"]) if row["instructions"] else None
        return float(row["user"]) + float(row["system"])

    def ratio(self, peer, counted=False):
        ours, theirs = self.took("ours", counted), self.took(peer, counted)
        return ours / theirs if ours and theirs else None


def read(path):
    netlists = {}
    with open(path, encoding="utf-8", newline="") as file:
        for row in csv.DictReader(file):
            name = row["netlist"]
            netlists.setdefault(name, Netlist(name, int(row["cells"] or -1))).rows[row["tool"]] = row
    return list(netlists.values())


def ratios_of(netlists, peer, counted):
    """The geometric mean of the ratios to a peer, how many they are, and the worst with its netlist."""
    found = [(ratio, it.name) for it in netlists if (ratio := it.ratio(peer, counted))]
    if not found:
        return "-"
    mean = geometric_mean(ratio for ratio, _ in found)
    return f"{mean:.2f} ({len(found)}), worst {max(found)[0]:.2f} {max(found)[1]}"


def memory(netlists, tool):
    most = max((int(it.rows[tool]["memory"]) for it in netlists if tool in it.rows), default=None)
    return "-" if most is None else f"{most / 2**20:.0f} MB"


def summary(netlists):
    print("| cells | " + " | ".join(f"{what} to {name}" for what in ("time", "instructions") for name in PEERS.values()) + " | most memory: this program, nextpnr-ice40, arachne-pnr |")
    print("|---" * 6 + "|")
    for what, least, most in SIZES:
        within = [it for it in netlists if least <= it.cells < most]
        means = [ratios_of(within, peer, counted) for counted in (False, True) for peer in PEERS]
        print(f"| {what} | " + " | ".join(means) + " | " + ", ".join(memory(within, tool) for tool in ("ours", *PEERS)) + " |")


def each(netlists):
    print("| netlist | cells | this program | nextpnr-ice40 | arachne-pnr | time to nextpnr-ice40 | to arachne-pnr | million instructions | to nextpnr-ice40 | to arachne-pnr |")
    print("|---" * 10 + "|")
    for it in sorted(netlists, key=lambda it: it.cells):
        times = [f"{time:.2f} s" if (time := it.took(tool, False)) else it.rows[tool]["answer"] for tool in ("ours", *PEERS)]
        ratios = [[f"{ratio:.2f}" if (ratio := it.ratio(peer, counted)) else "-" for peer in PEERS] for counted in (False, True)]
        count = it.took("ours", True)
        print(f"| {it.name} | {it.cells} | " + " | ".join(times + ratios[0] + [f"{count / 1e6:,.0f}" if count else "-"] + ratios[1]) + " |")


def main():
    netlists = read(sys.argv[1])
    summary(netlists)
    print()
    each(netlists)


main()
