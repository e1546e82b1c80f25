#!/usr/bin/env python3
"""Routes the nets of a placement with free inputs and with one input for each signal, and says a row for each.

usage: measure.py FOLDER CHIP PACKAGE PCF NAME..; FOLDER has the programs time_place, route_nets and plain, and each NAME's NAME.blif

The plain program in C++ routes the same nets with free inputs; that it says the same checksum of trees and logs is looked at.
"""
import collections
import subprocess
import sys

TURNS = 3
# A turn that takes so many seconds is not taken again.
LONG = 5
ROUNDS = "64"


def nets_of(words):
    """The nets of a placement, each its root and the targets of its sinks."""
    said = subprocess.run(words, capture_output=True, text=True, check=True).stdout
    for line in said.splitlines():
        first, *rest = line.split()
        if first == "net":
            root, *numbers = map(int, rest)
            sinks = []
            while numbers:
                sinks.append(numbers[1 : numbers[0] + 1])
                numbers = numbers[numbers[0] + 1 :]
            yield root, sinks


def bound(nets):
    """The same nets, where the signals of a cell, in the order of the nets, have its inputs one after another."""
    taken = collections.Counter()
    for root, sinks in nets:
        chosen = []
        for targets in sinks:
            if len(targets) > 1:
                cell = tuple(targets)
                chosen.append([targets[taken[cell]]])
                taken[cell] += 1
            else:
                chosen.append(targets)
        yield root, chosen


def write(nets, path):
    with open(path, "w", encoding="ascii") as file:
        for root, sinks in nets:
            file.write(" ".join(map(str, [0, root] + [number for targets in sinks for number in [len(targets), *targets]])) + "\n")


def turn(words):
    """What routing says by its words, and its verdict."""
    said = subprocess.run(words, capture_output=True, text=True, check=True).stdout.splitlines()
    numbers = {word: rest for word, _, rest in (line.partition(" ") for line in said)}
    verdict = next(word for word in ("routed", "gaveup", "unreachable") if word in numbers)
    _, rounds, _, moves, *_ = numbers[verdict].split()
    answer = f"{verdict}, {rounds} rounds", moves, numbers["held"], numbers[verdict]
    return answer, int(numbers["rounds"]) / 1e6


def least_turn(words):
    """What routing says, and the least time of some turns."""
    answer, least = turn(words)
    for _ in range(TURNS - 1 if least < LONG else 0):
        least = min(least, turn(words)[1])
    return answer, least


def main():
    folder, chip, package, pcf, *names = sys.argv[1:]
    for name in names:
        nets = list(nets_of([f"{folder}/time_place", package, "1", chip, pcf, f"{folder}/{name}.blif"]))
        for what, chosen in ("free", nets), ("one each", list(bound(nets))):
            path = f"{folder}/{name}.nets"
            write(chosen, path)
            words = [chip, path, ROUNDS]
            (answer, moves, held, proved), least = least_turn([f"{folder}/route_nets", *words])
            beside = ""
            if chosen is nets:
                (_, _, _, plain), other = least_turn([f"{folder}/plain", *words])
                if plain != proved:
                    sys.exit(f"{name}: the plain program says {plain}, and not {proved}")
                beside = f"{other:.2f} s, {least / other:.2f}"
            print(f"| {name} | {what} | {answer} | {moves} | {held} | {least:.2f} s | {beside} |", flush=True)


main()
