#!/usr/bin/env python3
"""Compares what is built today with what was built when the digests were written: byte for byte, for the same placement.

usage: same.py PROGRAM SHOW FOLDER [first | write]; SHOW is the built ice_tests_cases, and FOLDER has the netlists that make.py makes

The file digests has, for each of ten netlists, the SHA-256 of
- the netlist's text with its constraints, but for what says where its source lay, since another Yosys makes other netlists, of which nothing can be compared;
- the report on pins, the report on routes and the text of bits of `build --seed 1 --workers 2` on the database of the 1k device. They are the same as long as packing, clusters and the placer answer as
  they did, so they are for changes that leave those alone;
- what SHOW says of the netlist, without constraints, on the sample chip of 14 by 18 tiles, in two parts: up to the nets of the *first* placement (design, runs, clusters, pads, sites, nets), and from there
  on (each round's histories, moved nets and their trees, and the text of bits). First fit takes clusters in the order of the netlist, and no seed, no shake and no rewriting of the netlist comes
  before it, so this placement is held fixed while the placer changes: where the first part is the same, the second must be.
On the real database, nets that no placer made are routed by bench/rounds, beside a C++ program that must say the same checksum of logs and trees.

With `first` only that second kind is asked for; with `write` the file is written anew, for the netlists that it names. The status is 1 where anything differs.
"""
import hashlib
import os
import re
import subprocess
import sys
import tempfile

sys.dont_write_bytecode = True
HERE = os.path.dirname(os.path.abspath(__file__))
DIGESTS = os.path.join(HERE, "digests")
CHIP, PACKAGE = "/usr/share/fpga-icestorm/chipdb/chipdb-1k.txt", "tq144"
HEAD = "# netlist: the netlist, its report on pins, report on routes, bits; the first placement and its nets, its routes and bits (same.py says what each is)\n"


def digest(data):
    return hashlib.sha256(data).hexdigest()


def content(path):
    with open(path, "rb") as file:
        return file.read()


def blif_of(path):
    """The text of a netlist, without the folder of its source, which stands in the names of functions' results."""
    return re.sub(rb"\$func\$\S*/", b"$func$", content(f"{path}.blif"))


def built(program, path):
    """The digests of a build's three texts."""
    with tempfile.TemporaryDirectory() as folder:
        pins, report, asc = (os.path.join(folder, name) for name in ("pins", "report", "asc"))
        words = [program, "build", CHIP, PACKAGE, f"{path}.pcf", f"{path}.blif", asc, "--seed", "1", "--workers", "2", "--pins", pins, "--report", report]
        subprocess.run(words, check=False, stdout=subprocess.DEVNULL)
        return [digest(content(name)) if os.path.exists(name) else "none" for name in (pins, report, asc)]


def first(show, path):
    """The digests of what is shown of the first placement, up to its nets and from there on."""
    with tempfile.TemporaryDirectory() as folder:
        for kind in "blif", "pcf":
            with open(os.path.join(folder, f"it.{kind}"), "wb") as out:
                out.write(blif_of(path) if kind == "blif" else b"")
        said = subprocess.run([show, "it.blif", "it.pcf"], cwd=folder, check=True, stdin=subprocess.DEVNULL, stdout=subprocess.PIPE).stdout
    placed, mark, routed = said.partition(b"\nreport\n")
    return [digest(placed), digest(routed) if mark else "none"]


def netlist_of(path):
    """The text of a netlist with its constraints, without the lines that say where its source lay."""
    lines = (line for line in blif_of(path).splitlines(keepends=True) if not line.startswith(b".attr src "))
    return b"".join(lines) + content(f"{path}.pcf")


def digests(program, show, path, builds):
    netlist = digest(netlist_of(path))
    return [netlist, *(built(program, path) if builds else ["none"] * 3), *first(show, path)]


def verdict(was, now, builds):
    """What is said of a netlist, and whether all is the same that was asked for."""
    if was[0] != now[0]:
        return "another netlist: nothing is compared", False
    differs = []
    if builds:
        differs += [what for what, old, new in zip(("report on pins", "report on routes", "bits"), was[1:4], now[1:4]) if old != new]
    if was[4] != now[4]:
        differs.append("the first placement")
    elif was[5] != now[5]:
        differs.append("the routes or bits of the same first placement")
    return "same" if not differs else "other: " + ", ".join(differs), not differs


def main():
    program, show, folder, *how = sys.argv[1:]
    with open(DIGESTS, encoding="ascii") as file:
        stored = {name: words for name, *words in (line.replace(":", "").split() for line in file if not line.startswith("#"))}
    builds, same = how != ["first"], True
    lines = []
    for name, words in stored.items():
        now = digests(os.path.realpath(program), os.path.realpath(show), os.path.join(folder, name), builds)
        lines.append(f"{name}: {' '.join(now)}\n")
        if how != ["write"]:
            said, is_same = verdict(words, now, builds)
            same &= is_same
            print(f"{name}: {said}", flush=True)
    if how == ["write"]:
        with open(DIGESTS, "w", encoding="ascii") as out:
            out.writelines([HEAD, *lines])
    return 0 if same else 1


sys.exit(main())
