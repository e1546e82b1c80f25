"""Levels for a netlist and a bench for its source, and the comparison of what both show.

draw BLIF STEPS LEVELS BENCH       writes one step a line, with a level for each port, and a bench that gives the source these levels
compare SOURCE_DRIVES NET_DRIVES   ends with 0 where the netlist shows every level of the source that is known
"""
import random
import re
import sys

from peers import ports_of


def bits_of(ports):
    """The ports of the source, each with the places of its bits among the ports of the netlist, the greatest bit first."""
    buses = {}
    for place, port in enumerate(ports):
        name, bit = re.fullmatch(r"(\w+)(?:\[(\d+)\])?", port).groups()
        buses.setdefault(name, []).append((int(bit or 0), place))
    return {name: [place for _, place in sorted(bits, reverse=True)] for name, bits in buses.items()}


def draw(blif, steps, levels_out, bench_out):
    ports, inputs = ports_of(blif)
    buses = bits_of(ports)
    width = {name: f"[{len(places) - 1}:0]" for name, places in buses.items()}
    given = [name for name, places in buses.items() if ports[places[0]] in inputs]
    clocks = [name for name in given if name.endswith("clk")]
    # what is shown in a step is what was kept before it, so its clocks change last
    ordered = [name for name in given if name not in clocks] + ["show"] + clocks
    outputs = [port for port in ports if port not in inputs]
    show = "#1 $display(\"" + "".join("." if port in inputs else "%b" for port in ports) + "\", " + ", ".join(outputs) + ");"
    # (a reset is mostly 0, so that a counter gets far)
    chance = {"rst": 0.02}
    source = random.Random(7)
    with open(levels_out, "w", encoding="ascii") as levels, open(bench_out, "w", encoding="ascii") as bench:
        print("module bench;", file=bench)
        for name in buses:
            print(f"{f'reg {width[name]} {name} = 0;' if name in given else f'wire {width[name]} {name};'}", file=bench)
        print(f"top top({', '.join(f'.{name}({name})' for name in buses)});\ninitial begin", file=bench)
        for number in range(int(steps)):
            step = ["0"] * len(ports)
            for name in given:
                # (all clocks are 0 in the first step, which has no edge)
                for place in buses[name] if number or name not in clocks else []:
                    step[place] = str(int(source.random() < chance.get(name, 0.5)))
            print("".join(step), file=levels)
            sets = {name: f"{name} = {len(buses[name])}'b{''.join(step[place] for place in buses[name])};" for name in given}
            print(" ".join(sets.get(name, show) for name in ordered) + " #1;", file=bench)
        print("end\nendmodule", file=bench)


def compare(source_drives, net_drives):
    seen = other = 0
    with open(source_drives, encoding="ascii") as source, open(net_drives, encoding="ascii") as net:
        lines = list(zip(source, net, strict=True))
    for ours, theirs in ((net_line, line) for line, net_line in lines):
        known = [(a, b) for a, b in zip(ours, theirs, strict=True) if b in "01"]
        seen += len(known)
        other += sum(a != b for a, b in known)
    print(f"  {seen} known levels, {other} differ")
    sys.exit(bool(other) or not seen)


if __name__ == "__main__":
    {"draw": draw, "compare": compare}[sys.argv[1]](*sys.argv[2:])
