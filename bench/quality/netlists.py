#!/usr/bin/env python3
"""Makes the netlists of designs by Yosys: NAME.blif, NAME.json and NAME.pcf in FOLDER, those that are there already left as they are.

usage: netlists.py FOLDER CHIP PACKAGE [DESIGN..]; without a DESIGN, all of designs.txt

The constraints give a design's ports the pins of the package in their order, its clock the pin 21, from which a global network is near; those of a design with free pins are empty.
"""
import os
import subprocess
import sys

HERE = os.path.dirname(os.path.abspath(__file__))
CLOCK_PIN = "21"


class Design:
    """A line of the list of designs."""

    def __init__(self, line):
        self.name, source, pins, *self.parameters = line.split()
        self.source = os.path.join(HERE, "designs", f"{source}.v")
        self.fixed = pins == "fixed"


def designs(names=()):
    """The designs of these names, or all, in the order of the list."""
    with open(os.path.join(HERE, "designs.txt"), encoding="ascii") as lines:
        listed = [Design(line) for line in lines if line.strip() and not line.startswith("#")]
    missing = set(names) - {design.name for design in listed}
    if missing:
        sys.exit(f"no design: {' '.join(sorted(missing))}")
    return [design for design in listed if not names or design.name in names]


def pins_of(chip, package):
    """The pins of a package, in order."""
    with open(chip, encoding="ascii") as lines:
        section, pins = [], []
        for line in lines:
            words = line.split()
            if line.startswith("."):
                section = words
            elif words and section == [".pins", package]:
                pins.append(words[0])
    return sorted(pins, key=int)


def ports_of(blif):
    with open(blif, encoding="ascii") as lines:
        return [port for line in lines if line.startswith((".inputs", ".outputs")) for port in line.split()[1:]]


def synthesise(source, parameters, path):
    """Has Yosys write PATH.blif and PATH.json of a source, Verilog or BLIF."""
    read = "read_blif" if source.endswith(".blif") else "read_verilog"
    settings = "".join(f"chparam -set {name} {value} top; " for name, _, value in (word.partition("=") for word in parameters))
    steps = f"{read} {source}; {settings}synth_ice40 -nobram -top top -json {path}.json; splitnets -ports; opt_clean -purge; write_blif -gates -attr -param {path}.blif"
    subprocess.run(["yosys", "-qq", "-p", steps], check=True, stdout=subprocess.DEVNULL)


def constrain(path, pins):
    """Writes PATH.pcf for the ports of PATH.blif: each has a pin, or where there are no pins, none has one."""
    ports = ports_of(f"{path}.blif") if pins else []
    others = iter(pin for pin in pins if pin != CLOCK_PIN)
    with open(f"{path}.pcf", "w", encoding="ascii") as out:
        for port in ports:
            out.write(f"set_io {port} {CLOCK_PIN if port == 'clk' else next(others)}\n")


def main():
    folder, chip, package, *names = sys.argv[1:]
    os.makedirs(folder, exist_ok=True)
    pins = pins_of(chip, package)
    for design in designs(names):
        path = os.path.join(folder, design.name)
        if not os.path.exists(f"{path}.pcf"):
            synthesise(design.source, design.parameters, path)
            constrain(path, pins if design.fixed else [])


if __name__ == "__main__":
    main()
