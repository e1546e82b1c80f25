#!/usr/bin/env python3
"""Writes the Verilog of thirty small designs, small_01.v to small_30.v in FOLDER, of some two to sixty cells; the same text each time.

usage: small.py FOLDER

A design has expressions of one to four signals, of which some are kept in registers, and every third one has a counter, for its carries. Each signal is read by a later one, or by an output.
"""
import os
import random
import sys

COUNT = 30
INPUTS = 6
OUTPUTS = 6
FORMS = ("{0} ^ {1}", "{0} & ~{1}", "({0} & {1}) | {2}", "{0} ? {1} : {2}", "{0} ^ ({1} | {2})", "({0} & {1}) ^ ({2} | ~{3})", "{0} ^ {1} ^ {2} ^ {3}", "({0} | {1}) & ({2} ^ {3})")


def design(number):
    choose = random.Random(number)
    cells = 2 * number
    bits = 4 + number // 3 if number % 3 == 0 else 0
    inputs = [f"x[{k}]" for k in range(INPUTS)]
    unread, made, lines = [f"count[{k}]" for k in range(bits)], list(inputs), []
    if bits:
        lines += [f"  reg [{bits - 1}:0] count;", f"  always @(posedge clk) if (x[0]) count <= 0; else count <= count + x[1];"]
    for k in range(cells - bits):
        # (two signals that nothing reads yet, where there are so many, so that little is left for the outputs)
        first = [unread.pop(choose.randrange(len(unread))) for _ in range(min(2, len(unread)) if len(unread) > OUTPUTS else min(1, len(unread)))]
        read = first + [choose.choice(made) for _ in range(4 - len(first))]
        text = choose.choice(FORMS).format(*read)
        if choose.random() < 0.5:
            lines += [f"  reg n{k};", f"  always @(posedge clk) n{k} <= {text};"]
        else:
            lines.append(f"  wire n{k} = {text};")
        made.append(f"n{k}")
        unread.append(f"n{k}")
    outputs = [" ^ ".join(unread[k::OUTPUTS]) or inputs[k % INPUTS] for k in range(min(OUTPUTS, max(1, len(unread))))]
    lines += [f"  assign y[{k}] = {text};" for k, text in enumerate(outputs)]
    head = f"// Small design {number}.\nmodule top(input clk, input [{INPUTS - 1}:0] x, output [{len(outputs) - 1}:0] y);"
    return "\n".join([head, *lines, "endmodule"]) + "\n"


def main():
    os.makedirs(sys.argv[1], exist_ok=True)
    for number in range(1, COUNT + 1):
        with open(os.path.join(sys.argv[1], f"small_{number:02}.v"), "w", encoding="ascii") as out:
            out.write(design(number))


main()
