#!/usr/bin/env python3
"""Writes a netlist of 1,280 cells and the levels of many steps, and the same netlist as arrays for the plain loop in C.

usage: make.py STEPS NETLIST LEVELS ARRAYS

640 look-up tables, 320 carries and 320 flip-flops over 32 inputs and 32 outputs. Each look-up table and carry reads signals that were
made before it, so there is no loop but through flip-flops."""
import random
import sys

LUTS, CARRIES, FLOPS, INPUTS, OUTPUTS = 640, 320, 320, 31, 32


def main() -> None:
    steps, netlist, levels, arrays = int(sys.argv[1]), *sys.argv[2:5]
    choose = random.Random(1)
    names = ["c"] + [f"i{k}" for k in range(INPUTS)] + [f"q{k}" for k in range(FLOPS)]
    order = ["lut", "lut", "carry"] * CARRIES
    cells = []
    for k, kind in enumerate(order):
        reads = [choose.randrange(1, len(names)) for _ in range(4 if kind == "lut" else 3)]
        table = choose.randrange(1 << 16) if kind == "lut" else 0
        cells.append((kind, table, reads, len(names)))
        names.append(f"s{k}")
    data = [choose.randrange(len(names)) for _ in range(FLOPS)]
    shown = [choose.randrange(1 + INPUTS, len(names)) for _ in range(OUTPUTS)]
    with open(netlist, "w") as out:
        write_netlist(out, names, cells, data, shown)
    with open(levels, "w") as out:
        for step in range(steps):
            row = [step & 1] + [choose.randrange(2) for _ in range(INPUTS)] + [0] * OUTPUTS
            out.write("".join(map(str, row)) + "\n")
    with open(arrays, "w") as out:
        write_arrays(out, names, cells, data, shown)


def write_netlist(out, names, cells, data, shown) -> None:
    outputs = [f"y{k}" for k in range(OUTPUTS)]
    out.write(".model bench\n.inputs " + " ".join(names[: 1 + INPUTS]) + "\n.outputs " + " ".join(outputs) + "\n")
    for kind, table, reads, at in cells:
        read = [names[r] for r in reads]
        if kind == "lut":
            ins = " ".join(f"I{k}={n}" for k, n in enumerate(read))
            out.write(f".gate SB_LUT4 {ins} O={names[at]}\n.param LUT_INIT {table:016b}\n")
        else:
            out.write(f".gate SB_CARRY I0={read[0]} I1={read[1]} CI={read[2]} CO={names[at]}\n")
    for k, d in enumerate(data):
        out.write(f".gate SB_DFF C=c D={names[d]} Q=q{k}\n")
    for y, s in zip(outputs, shown):
        out.write(f".names {names[s]} {y}\n1 1\n")
    out.write(".end\n")


def write_arrays(out, names, cells, data, shown) -> None:
    out.write(f"{len(names)} {1 + INPUTS} {FLOPS} {len(cells)} {OUTPUTS}\n")
    for kind, table, reads, at in cells:
        reads = reads + [0] * (4 - len(reads))
        out.write(f"{int(kind == 'carry')} {table} {' '.join(map(str, reads))} {at}\n")
    out.write(" ".join(map(str, data)) + "\n" + " ".join(map(str, shown)) + "\n")


main()
