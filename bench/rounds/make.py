#!/usr/bin/env python3
"""Writes nets that are placed at random on a chip.

usage: make.py CHIP NETS SINKS RADIUS one|any NETS_FILE

Each net has an output of a logic cell or a pad as its root, and inputs of logic cells in tiles at most RADIUS columns and rows away
as its sinks. No wire is root or chosen as an input twice. With `one` the input that was chosen is the sink's only target, with `any` each
of the four inputs of its cell is one. A line of the file is a net: how many targets each sink has, the number of the root, and those of the
targets, sink by sink."""
import random
import sys


def pins_of(path: str) -> tuple:
    """The outputs of cells and pads, each a wire with its tile, the inputs of cells by tile, and those of each cell by any of them."""
    roots, inputs, cells, wire = [], {}, {}, None
    kinds = {}
    with open(path) as chip:
        for line in chip:
            words = line.split()
            if words and words[0] in (".io_tile", ".logic_tile"):
                kinds[int(words[1]), int(words[2])] = words[0]
            if words and words[0].startswith("."):
                wire = int(words[1]) if words[0] == ".net" else None
            elif words and wire is not None:
                tile, name = (int(words[0]), int(words[1])), words[2]
                cell = kinds.get(tile) == ".logic_tile" and name.startswith("lutff_")
                pad = kinds.get(tile) == ".io_tile" and name in ("io_0/D_IN_0", "io_1/D_IN_0")
                if pad or cell and name.endswith("/out"):
                    roots.append((wire, tile))
                elif cell and name[7:11] == "/in_":
                    inputs.setdefault(tile, []).append(wire)
                    cells.setdefault((tile, name[:7]), []).append(wire)
    return roots, inputs, {wire: cell for cell in cells.values() for wire in cell}


def write_nets(chip: str, nets: int, sinks: int, radius: int, free: bool, out) -> None:
    choose = random.Random(1)
    roots, inputs, cells = pins_of(chip)
    roots = choose.sample(roots, nets)
    chosen = [[] for _ in roots]
    for k in range(sinks):
        net = k if k < nets else choose.randrange(nets)
        x, y = roots[net][1]
        near = [t for t in inputs if abs(t[0] - x) <= radius and abs(t[1] - y) <= radius and inputs[t]]
        if near:
            tile = choose.choice(near)
            chosen[net].append(inputs[tile].pop(choose.randrange(len(inputs[tile]))))
    for (root, _), list_of in zip(roots, chosen):
        targets = [target for wire in list_of for target in (sorted(cells[wire]) if free else [wire])]
        out.write(" ".join(map(str, [4 if free else 1, root] + targets)) + "\n")


def main() -> None:
    with open(sys.argv[6], "w") as out:
        write_nets(sys.argv[1], *map(int, sys.argv[2:5]), sys.argv[5] == "any", out)


main()
