#!/usr/bin/env python3
"""Makes the netlists that are raced: NAME.blif, NAME.json and NAME.pcf in FOLDER, those that are there already left as they are. It says their names.

usage: netlists.py FOLDER CHIP PACKAGE [NAME..]; without a NAME the small ones (small.py), those of others.txt, and the designs of bench/quality
"""
import os
import shutil
import subprocess
import sys

sys.dont_write_bytecode = True
HERE = os.path.dirname(os.path.abspath(__file__))
TOP = os.path.join(HERE, "..", "..")
# (the folder of this script stands first by itself, and has a netlists.py as well)
sys.path.insert(0, os.path.join(HERE, "..", "quality"))
from netlists import constrain, designs, pins_of, synthesise


def others():
    """The name, source and constraints of each line of the list."""
    with open(os.path.join(HERE, "others.txt"), encoding="ascii") as lines:
        for line in lines:
            if line.strip() and not line.startswith("#"):
                name, source, pcf = line.split()
                yield name, os.path.join(TOP, source), os.path.join(TOP, pcf)


def main():
    folder, chip, package, *names = sys.argv[1:]
    pins = pins_of(chip, package)
    sources = os.path.join(folder, "small")
    subprocess.run([sys.executable, os.path.join(HERE, "small.py"), sources], check=True)
    # of each netlist its source, its parameters, and its constraints: a text of them, or whether each port has a pin
    made = {}
    for place, file in enumerate(sorted(os.listdir(sources))):
        made[file[:-2]] = os.path.join(sources, file), [], place % 2 == 0
    for name, source, pcf in others():
        made[name] = source, [], pcf
    for design in designs():
        made[design.name] = design.source, design.parameters, design.fixed
    missing = set(names) - set(made)
    if missing:
        sys.exit(f"no netlist: {' '.join(sorted(missing))}")
    for name, (source, parameters, how) in made.items():
        if names and name not in names:
            continue
        path = os.path.join(folder, name)
        if not os.path.exists(f"{path}.pcf"):
            synthesise(source, parameters, path)
            if isinstance(how, str):
                shutil.copyfile(how, f"{path}.pcf")
            else:
                constrain(path, pins if how else [])
        print(name, flush=True)


main()
