#!/usr/bin/env python3
"""Tiles that are all clocked by one global that is named in each.
usage: clocked.py SIDE FOLDER; writes chip.txt, bits.asc and levels for SIDE x SIDE logic tiles (SIDE at most 255) beside one IO tile."""
import os
import sys

side, folder = int(sys.argv[1]), sys.argv[2]
os.makedirs(folder, exist_ok=True)
tiles = [(x, y) for y in range(1, side + 1) for x in range(1, side + 1)]
with open(f"{folder}/chip.txt", "w") as out:
    out.write(f".device 1k {side + 1} {side + 1} {len(tiles) + 1}\n.pins tq144\n1 0 0 0\n.io_tile 0 0\n")
    out.writelines(f".logic_tile {x} {y}\n" for x, y in tiles)
    names = [f"IOB_{p}.PINTYPE_{k}" for p in range(2) for k in range(6)] + [f"IoCtrl.{kind}_{p}" for kind in ("IE", "REN") for p in range(2)]
    out.write(".io_tile_bits 18 16\n")
    out.writelines(f"{name} B{i // 18}[{i % 18}]\n" for i, name in enumerate(names))
    out.write(".logic_tile_bits 54 16\n")
    for cell in range(8):
        out.write(f"LC_{cell} " + " ".join(f"B{2 * cell + k // 10}[{k % 10}]" for k in range(20)) + "\n")
    out.write("NegClk B0[10]\nCarryInSet B1[10]\n")
    out.write(".net 0\n")
    out.writelines(f"{x} {y} glb_netwk_0\n" for x, y in tiles)
    for number, (x, y) in enumerate(tiles, 1):
        out.write(f".net {number}\n{x} {y} lutff_global/clk\n")
    for number, (x, y) in enumerate(tiles, 1):
        out.write(f".buffer {x} {y} {number} B0[11]\n1 0\n")
rows = "0" * 11 + "1" + "0" * 42 + "\n" + ("0" * 54 + "\n") * 15
with open(f"{folder}/bits.asc", "w") as out:
    out.write(".device 1k\n")
    out.writelines(f".logic_tile {x} {y}\n{rows}" for x, y in tiles)
with open(f"{folder}/levels", "w") as out:
    out.write("0\n" * 3)
