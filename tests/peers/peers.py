"""Levels for the two commands, and the comparison of what they say.

levels CHIP PACKAGE PCF BLIF STEPS NET_LEVELS BITS_LEVELS  writes one step a line, for the netlist's ports and for the package's pads
draw CHIP PACKAGE STEPS LEVELS  writes one step a line, with a level for each of the package's pads
compare CHIP PACKAGE PCF BLIF NET_DRIVES BITS_DRIVES       ends with 0 where the pads show what the ports show, and every other is Off;
                                                           an x of the ports stands for either level, and is rare
teller BLIF NET_LEVELS OUT  writes a bench that says what the ports of the netlist's Verilog show, step by step
bench BLIF STEPS CHIP_VERILOG OUT  writes a bench that runs the Verilog of bits, from which memories are taken out, beside the netlist's
"""
import random
import sys


def pads_of(chip, package):
    """The places of the pins of a package, and its different pads in order."""
    pins, pads, inside = {}, [], False
    with open(chip, encoding="ascii") as lines:
        for line in lines:
            words = line.split()
            if not words:
                continue
            if words[0].startswith("."):
                inside = words == [".pins", package]
            elif inside:
                pad = tuple(words[1:])
                pins.setdefault(words[0], pad)
                if pad not in pads:
                    pads.append(pad)
    return pins, pads


def ports_of(blif):
    """The ports of a netlist in order, and which of them are inputs."""
    text = open(blif, encoding="ascii").read().replace("\\\n", " ")
    ports, inputs = [], set()
    for line in text.splitlines():
        words = line.split()
        if words and words[0] in (".inputs", ".outputs"):
            for name in words[1:]:
                if name not in ports:
                    ports.append(name)
                if words[0] == ".inputs":
                    inputs.add(name)
    return ports, inputs


def places_of(chip, package, pcf, ports):
    """For each port the place of its pad in the package."""
    pins, pads = pads_of(chip, package)
    pin = {words[1]: words[2] for words in map(str.split, open(pcf, encoding="ascii")) if words}
    return [pads.index(pins[pin[port]]) for port in ports], len(pads)


def levels(chip, package, pcf, blif, steps, net_out, bits_out):
    ports, inputs = ports_of(blif)
    places, count = places_of(chip, package, pcf, ports)
    source = random.Random(7)
    # (a clock is 0 at first: to a model in Verilog a 1 would be an edge)
    clock = 1
    with open(net_out, "w", encoding="ascii") as net, open(bits_out, "w", encoding="ascii") as bits:
        for _ in range(int(steps)):
            clock = 1 - clock
            # (an enable is mostly 1, and a reset mostly 0, so that a counter gets far)
            chance = {"en": 0.95, "rst": 0.002}
            step = [0] * len(ports)
            for k, port in enumerate(ports):
                if port == "clk":
                    step[k] = clock
                elif port in inputs:
                    step[k] = int(source.random() < chance.get(port, 0.5))
            pads = [0] * count
            for k, place in enumerate(places):
                pads[place] = step[k]
            net.write("".join(map(str, step)) + "\n")
            bits.write("".join(map(str, pads)) + "\n")


def draw(chip, package, steps, out):
    _, pads = pads_of(chip, package)
    source = random.Random(7)
    with open(out, "w", encoding="ascii") as levels_file:
        for _ in range(int(steps)):
            levels_file.write("".join(str(int(source.random() < 0.5)) for _ in pads) + "\n")


def compare(chip, package, pcf, blif, net_said, bits_said):
    ports, _ = ports_of(blif)
    places, count = places_of(chip, package, pcf, ports)
    net = open(net_said, encoding="ascii").read().split()
    bits = open(bits_said, encoding="ascii").read().split()
    if len(net) != len(bits) or not net:
        sys.exit(f"{len(net)} steps of the netlist and {len(bits)} of the bits")
    unknown = 0
    for number, (ports_show, pads_show) in enumerate(zip(net, bits), 1):
        if len(pads_show) != count:
            sys.exit(f"step {number}: {len(pads_show)} pads, not {count}")
        for k, port in enumerate(ports):
            if ports_show[k] == "x" and pads_show[places[k]] in "01":
                unknown += 1
            elif ports_show[k] != pads_show[places[k]]:
                sys.exit(f"step {number}: port {port} shows {ports_show[k]} and its pad {pads_show[places[k]]}")
        others = [p for p in range(count) if p not in places and pads_show[p] != "."]
        if others:
            sys.exit(f"step {number}: pads {others} are driven")
    if unknown > len(net) * len(ports) // 50:
        sys.exit(f"{unknown} levels are unknown")
    print(f"    {len(net)} steps, {len(ports)} ports, {len(set(net))} different lines: the same")


def teller(blif, levels_file, out):
    ports, inputs = ports_of(blif)
    steps = len(open(levels_file, encoding="ascii").read().split())
    last = len(ports) - 1
    clocks = "".join("1" if port == "clk" else "0" for port in ports)
    lines = ["module bench;", f"  reg [{last}:0] level = 0, steps [1:{steps}];", f"  localparam clocks = {len(ports)}'b{clocks};", "  integer step;"]
    for k, port in enumerate(ports):
        lines += [f"  wire port{k};"] + ([f"  assign port{k} = level[{last - k}];"] if port in inputs else [])
    lines += ["  top the_top (" + ", ".join(f".\\{port} (port{k})" for k, port in enumerate(ports)) + ");", "  initial begin"]
    # (a clock has its level of a step when all else has, and what is kept at its edge is shown from the next step on)
    line = "".join("." if port in inputs else "%b" for port in ports)
    shown = ", ".join(f"port{k}" for k, port in enumerate(ports) if port not in inputs)
    lines += [f'    $readmemb("{levels_file}", steps);', f"    for (step = 1; step <= {steps}; step = step + 1) begin",
              "      level = level & clocks | steps[step] & ~clocks;", f'      #1 $display("{line}", {shown});', "      level = steps[step];", "      #1;",
              "    end", "  end", "endmodule"]
    open(out, "w", encoding="ascii").write("\n".join(lines) + "\n")


def without_memories(file):
    """Takes the memories out of the Verilog of bits: each tile of the device has one, and none is used."""
    kept, inside = [], False
    for line in open(file, encoding="ascii"):
        inside = inside or line.startswith("SB_RAM40_4K")
        if not inside:
            kept.append(line)
        elif line.startswith(");"):
            inside = False
    open(file, "w", encoding="ascii").writelines(kept)


def bench(blif, steps, verilog, out):
    ports, inputs = ports_of(blif)
    without_memories(verilog)
    source = random.Random(7)
    chance = {"en": 0.9, "rst": 0.02}
    lines = ["module bench;", f"  reg [{len(ports) - 1}:0] level = 0;", "  integer faults = 0, unknown = 0;"]
    for k, port in enumerate(ports):
        lines += [f"  wire n{k}, c{k};"]
        if port in inputs:
            # (what a module drives is stronger than this; a pad that is read and driven is an input too)
            lines += [f"  assign (pull1, pull0) n{k} = level[{k}];", f"  assign (pull1, pull0) c{k} = level[{k}];"]
    for module, name in (("top", "n"), ("chip", "c")):
        lines += [f"  {module} the_{module} (" + ", ".join(f".\\{port} ({name}{k})" for k, port in enumerate(ports)) + ");"]
    lines += ["  task check; begin"]
    # (what the netlist's model leaves unknown, as a flip-flop before its first edge, is counted and not compared)
    differs = ("if (n{0} === 1'bx || n{0} === 1'bz) unknown = unknown + 1; "
               "else if (n{0} !== c{0}) begin faults = faults + 1; $display(\"    {1} differs at %0d: %b and %b\", $time, n{0}, c{0}); end")
    lines += [f"    {differs.format(k, port)}" for k, port in enumerate(ports)]
    lines += ["  end endtask", "  initial begin"]
    clock = 0
    for step in range(int(steps)):
        clock = 1 - clock
        levels = [clock if port == "clk" else int(source.random() < chance.get(port, 0.5)) if step % 2 or port in ("rst",) else None for port in ports]
        lines += ["    " + " ".join(f"level[{k}] = {value};" for k, value in enumerate(levels) if value is not None) + " #1 check;"]
    lines += [f'    $display("    {steps} steps of %0d ports in Verilog: %0d differences, %0d levels unknown", {len(ports)}, faults, unknown);',
              f"    if (faults != 0 || unknown > {int(steps) * len(ports) // 50}) $fatal;", "    $finish;", "  end", "endmodule"]
    open(out, "w", encoding="ascii").write("\n".join(lines) + "\n")


if __name__ == "__main__":
    {"levels": levels, "draw": draw, "compare": compare, "teller": teller, "bench": bench}[sys.argv[1]](*sys.argv[2:])
