#!/usr/bin/env python3
"""Builds netlists from several seeds, and says a row for each: rounds and wire length by the route reports, and times of the whole process.

usage: measure.py PROGRAM FOLDER CHIP PACKAGE PCF SEEDS NAME..; each NAME has its NAME.blif in FOLDER. The routes go to FOLDER as NAME.SEED.report.
"""
import os
import resource
import subprocess
import sys
import time

sys.dont_write_bytecode = True
sys.path.insert(0, os.path.join(os.path.dirname(os.path.abspath(__file__)), "..", "..", "tools"))
from reports import Chip, Routes, length_of


def spent():
    used = resource.getrusage(resource.RUSAGE_CHILDREN)
    return used.ru_utime + used.ru_stime


class Build:
    """One build: its status, the processor time and the time by the clock of the process, and its report."""

    def __init__(self, program, words, report, rounds):
        if os.path.exists(report):
            os.remove(report)
        before, begun = spent(), time.monotonic()
        said = subprocess.run([program, *words, "--report", report, "--rounds", str(rounds)], stdout=subprocess.PIPE, text=True, check=False)
        self.processor, self.clock = spent() - before, time.monotonic() - begun
        if said.returncode not in (0, 10):
            sys.exit(f"{' '.join(words)}: {said.stdout.strip()}")
        self.routes = Routes(report)


def main():
    program, folder, chip_name, package, pcf, seeds, *names = sys.argv[1:]
    chip = Chip(chip_name)
    for name in names:
        files = [chip_name, package, pcf, f"{folder}/{name}.blif", f"{folder}/{name}.asc"]
        builds, first = [], 0.0
        for seed in range(1, int(seeds) + 1):
            words = ["build", *files, "--seed", str(seed)]
            first = max(first, Build(program, words, f"{folder}/{name}.first", 1).processor)
            builds.append(Build(program, words, f"{folder}/{name}.{seed}.report", 64))
        routes = builds[0].routes
        lengths = " ".join(str(length_of(chip, build.routes.trees.values())) for build in builds)
        rounds = " ".join(str(len(build.routes.rounds)) if build.routes.routed else "-" for build in builds)
        most = max(build.processor for build in builds), max(build.clock for build in builds)
        print(f"| {name} | {routes.cells}, {routes.tiles}, {routes.nets} | {lengths} | {rounds} | {first:.2f} s | {most[0]:.2f} s | {most[1]:.2f} s |", flush=True)


main()
