"""clocks.py PROGRAM CHIP NAME..: builds NAME.blif and NAME_hidden.blif with the pins of NAME.pcf, and says a row for each NAME."""
import os
import resource
import subprocess
import sys
import time

sys.dont_write_bytecode = True
sys.path.insert(0, os.path.join(os.path.dirname(os.path.abspath(__file__)), "..", "..", "tools"))
from reports import Chip, Routes, length_of


def spent():
    used = resource.getrusage(resource.RUSAGE_CHILDREN)
    return used.ru_utime + used.ru_stime


def build(program, chip_name, chip, pcf, name):
    """A cell of the table."""
    report = f"{name}.report"
    if os.path.exists(report):
        os.remove(report)
    before, begun = spent(), time.monotonic()
    words = [program, "build", chip_name, "tq144", pcf, f"{name}.blif", f"{name}.asc", "--report", report]
    said = subprocess.run(words, stdout=subprocess.PIPE, text=True, check=False)
    took = f"{spent() - before:.2f} s ({time.monotonic() - begun:.2f} s by the clock)"
    if said.returncode not in (0, 10):
        return f"{said.stdout.strip()}, {took}"
    routes = Routes(report)
    length = length_of(chip, routes.trees.values())
    verdict = "routed" if routes.routed else "gave up"
    return f"{verdict}, {len(routes.rounds)} rounds, length {length}, {routes.nets} nets, {took}"


def main():
    program, chip_name, *names = sys.argv[1:]
    chip = Chip(chip_name)
    print("| netlist | with promotion | without |\n|---|---|---|")
    for name in names:
        kinds = [line.split()[1] for line in open(f"{name}.blif", encoding="ascii") if line.startswith(".gate ")]
        tables, flops = kinds.count("SB_LUT4"), sum(kind.startswith("SB_DFF") for kind in kinds)
        cells = [build(program, chip_name, chip, f"{name}.pcf", made) for made in (name, f"{name}_hidden")]
        print(f"| {name}: {tables} tables, {flops} flip-flops | {cells[0]} | {cells[1]} |", flush=True)


main()
