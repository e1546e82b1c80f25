#!/usr/bin/env python3
"""Says what part of a build goes into placing, by samples of the processor's clock: the processor time of the functions that place, and of the whole build of one round by one worker.

usage: share.py PROGRAM CHIP PACKAGE FOLDER NAME..; each NAME has its NAME.blif and NAME.pcf in FOLDER, as bench/quality leaves them. It needs `perf`, of Debian's package linux-perf.

A function counts by its crate, and `ice_flow_build::laying`, into which the compiler puts what it calls once, counts whole: first fit and the sites are a small part of it.
"""
import os
import re
import subprocess
import sys
import tempfile

PLACING = re.compile(r"ice_(anneal\w*|place_length)::|ice_flow_build::laying::")
SEEDS = ("1", "2", "3")
RATE = 4000


def shares(data):
    """The share of each function in percent, and the nanoseconds of all samples."""
    words = ["perf", "report", "-i", data, "--no-children", "--stdio", "--percent-limit", "0"]
    said = subprocess.run(words, stdout=subprocess.PIPE, stderr=subprocess.DEVNULL, text=True, check=True).stdout
    whole = int(re.search(r"Event count.*: (\d+)", said)[1])
    lines = (line.split(None, 4) for line in said.splitlines() if "%" in line and not line.startswith("#"))
    return [(float(words[0].rstrip("%")), words[4]) for words in lines if len(words) == 5], whole


def main():
    program, chip, package, folder, *names = sys.argv[1:]
    print("| netlist | placing, by seeds | the build of one round, by seeds |\n|---|---|---|")
    for name in names:
        placing, builds = [], []
        for seed in SEEDS:
            with tempfile.TemporaryDirectory() as scratch:
                data = os.path.join(scratch, "samples")
                path = os.path.join(folder, name)
                words = [program, "build", chip, package, f"{path}.pcf", f"{path}.blif", os.path.join(scratch, "asc"), "--seed", seed, "--rounds", "1", "--workers", "1"]
                record = ["perf", "record", "-e", "cpu-clock", "-F", str(RATE), "-o", data, *words]
                # (one round seldom routes, so that the status says nothing)
                subprocess.run(record, stdout=subprocess.DEVNULL, stderr=subprocess.DEVNULL, check=False)
                found, whole = shares(data)
            builds.append(f"{whole / 1e9:.2f}")
            placing.append(f"{sum(share for share, function in found if PLACING.search(function)) / 100 * whole / 1e9:.2f}")
        print(f"| {name} | {' '.join(placing)} s | {' '.join(builds)} s |", flush=True)


main()
