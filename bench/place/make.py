#!/usr/bin/env python3
"""Writes the text of a sample netlist, byte for byte as `ice_sample::sample_net` does: its words come from the generator of `rand_pcg` (`Lcg64Xsh32`), whose
seed is spread over its state as `rand_core` does it.

usage: make.py NUMBER CELLS BLIF
"""
import sys

MASK = 2**64 - 1
FACTOR = 6364136223846793005


def rotated(state):
    """32 bits of a state: its upper bits, mixed, rotated by its topmost five."""
    mixed = ((state >> 18 ^ state) >> 27) % 2**32
    by = state >> 59
    return (mixed >> by | mixed << (32 - by)) % 2**32


def words(number):
    """The words of the generator with that seed."""
    state, spread = number, []
    for _ in range(4):
        state = (state * FACTOR + 11634580027462260723) & MASK
        spread.append(rotated(state))
    first, increment = spread[0] | spread[1] << 32, spread[2] | spread[3] << 32 | 1
    state = ((first + increment) * FACTOR + increment) & MASK
    while True:
        # (a word is made of the state before the step)
        yield rotated(state)
        state = (state * FACTOR + increment) & MASK


def sample_net(number, cells):
    source = words(number)
    names = [f"i{k}" for k in range(8)]
    lines = [".model sample", ".inputs clk i0 i1 i2 i3 i4 i5 i6 i7", ".outputs o0 o1 o2 o3 o4 o5 o6 o7"]
    lines.append(".gate SB_GB USER_SIGNAL_TO_GLOBAL_BUFFER=clk GLOBAL_BUFFER_OUTPUT=clk_g")
    for k in range(cells):
        read = [names[len(names) - 1 - next(source) % min(len(names), 16)] for _ in range(4)]
        table = next(source) % 65536
        lines.append(f".gate SB_LUT4 I0={read[0]} I1={read[1]} I2={read[2]} I3={read[3]} O=n{k}")
        lines.append(f".param LUT_INIT {table:016b}")
        if k % 4 == 3:
            lines.append(f".gate SB_DFF C=clk_g D=n{k} Q=q{k}")
        names.append(f"q{k}" if k % 4 == 3 else f"n{k}")
    for j in range(8):
        lines += [f".names {names[len(names) - 8 + j]} o{j}", "1 1"]
    return "\n".join(lines + [".end"]) + "\n"


def main():
    number, cells, blif = sys.argv[1:]
    with open(blif, "w", encoding="ascii") as file:
        file.write(sample_net(int(number), int(cells)))


main()
