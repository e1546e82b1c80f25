"""hide_clocks.py BLIF OUT: the netlist with clocks that the program does not promote to a global network.

Each signal that sixteen or more flip-flops read as their clock gets other names, each by a line of `.names` that passes it on, and at most fifteen flip-flops read one
of them. Such a name is no cell of the design: packing reads through it, so the design is that of the netlist but for the buffer that promotion
puts behind a clock, and the same program builds both.
"""
import re
import sys

MOST = 15
CLOCK = re.compile(r"(\.gate SB_DFF\S* C=)(\S+)(.*)")


def main():
    lines = open(sys.argv[1], encoding="ascii").read().splitlines()
    clocks = [found[2] for found in map(CLOCK.match, lines) if found]
    read, names, out = {}, {}, []
    for line in lines:
        found = CLOCK.match(line)
        if found and clocks.count(found[2]) > MOST:
            clock = found[2]
            number = read.get(clock, 0) // MOST
            read[clock] = read.get(clock, 0) + 1
            names[f"{clock}_hidden_{number}"] = clock
            line = f"{found[1]}{clock}_hidden_{number}{found[3]}"
        if line.strip() == ".end":
            out += [part for name, clock in names.items() for part in (f".names {clock} {name}", "1 1")]
        out.append(line)
    with open(sys.argv[2], "w", encoding="ascii") as file:
        file.write("\n".join(out) + "\n")


main()
