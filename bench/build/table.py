"""table.py CHIP NAME..: for each name a row of what each program's turns took, least processor time and peak memory, and how well it placed and routed.

The rounds are those of this program's route report. The wire length is the sum of the half perimeters, in tiles, of the nets of cells and pads; for this program by
its route report, which must agree with its bits, and for the others by the rows that are on in their bits.
"""
import os
import sys

sys.dont_write_bytecode = True
sys.path.insert(0, os.path.join(os.path.dirname(os.path.abspath(__file__)), "..", "..", "tools"))
from reports import Chip, Routes, length_of, trees_on


def least(file):
    lines = open(file, encoding="utf-8").read().splitlines()
    refused = [line for line in lines if line.startswith("refused")]
    if refused:
        return refused[0]
    turns = [line.split() for line in lines if line[:1].isdigit()]
    seconds = min(float(user) + float(system) for _, user, system, _ in turns)
    clock = min(float(clock) for clock, _, _, _ in turns)
    memory = max(int(kilobytes) for _, _, _, kilobytes in turns)
    return f"{seconds:.2f} s ({clock:.2f} s by the clock), {memory / 1024:.0f} MB"


def length_in(chip, name):
    return length_of(chip, trees_on(chip, name)) if os.path.exists(name) else None


def cell(chip, name, what):
    length = length_in(chip, f"{name}.{what}.asc")
    return f"{least(f'{name}.{what}.times')}, length {length}"


def ours(chip, name):
    report = f"{name}.ours.report"
    if not os.path.exists(report):
        return least(f"{name}.ours.times")
    routes = Routes(report)
    length, rounds = length_of(chip, routes.trees.values()), len(routes.rounds)
    if not routes.routed:
        return f"{least(f'{name}.ours.times')}; {rounds} rounds without routes"
    if length_in(chip, f"{name}.ours.asc") != length:
        sys.exit(f"{name}: the bits have another wire length than the report")
    return f"{least(f'{name}.ours.times')}, {rounds} rounds, length {length}"


def main():
    chip = Chip(sys.argv[1])
    print("| netlist | this program | nextpnr-ice40 | arachne-pnr |\n|---|---|---|---|")
    for name in sys.argv[2:]:
        cells = [line.split()[1] for line in open(f"{name}.blif", encoding="ascii") if line.startswith(".gate ")]
        tables, flops = cells.count("SB_LUT4"), sum(kind.startswith("SB_DFF") for kind in cells)
        print(f"| {name}: {tables} tables, {flops} flip-flops | {ours(chip, name)} | {cell(chip, name, 'nextpnr')} | {cell(chip, name, 'arachne')} |", flush=True)


main()
