#!/usr/bin/env python3
"""Says the times of rounds by 1, 2, 4 and 8 workers by the clock, beside the C++ program, after it has seen that all say the same otherwise, and then
those of an opening and the rounds behind it, after it has seen that they take as many rounds to the same trees.

usage: workers.py NAME FOLDER; the folder has what three turns of each wrote, as plain.1, workers.2.1 and opened.2.1."""
import sys

from ratio import turn_of

WORKERS = (1, 2, 4, 8)


def turns_of(folder: str, name: str) -> dict:
    """Three turns by each number of workers."""
    return {workers: [turn_of(f"{folder}/{name}.{workers}.{turn}") for turn in (1, 2, 3)] for workers in WORKERS}


def rounds_of(said: list) -> str:
    """The verdict and how many rounds there were."""
    return said[-1].split(" moves ")[0]


def say(what: str, turns: list, alone: float) -> None:
    """Says the least times of some turns beside that of the C++ program."""
    clock, processor = (min(numbers[time] for _, numbers in turns) / 1e6 for time in ("clock", "rounds"))
    print(f"    {what}: {clock:.3f} s by the clock, {clock / alone:.2f} of C++, {processor:.3f} s of processor time")


def main() -> None:
    name, folder = sys.argv[1:3]
    turns, opened = turns_of(folder, "workers"), turns_of(folder, "opened")
    plain = [turn_of(f"{folder}/plain.{turn}") for turn in (1, 2, 3)]
    for workers, of in turns.items():
        for said, _ in of:
            if said != plain[0][0]:
                sys.exit(f"{name}: {workers} workers say {said}, and not {plain[0][0]}")
    for workers, of in opened.items():
        for said, numbers in of:
            if rounds_of(said) != rounds_of(plain[0][0]) or numbers["trees"] != turns[1][0][1]["trees"]:
                sys.exit(f"{name}: from an opening {workers} workers say {said}, and not {plain[0][0]}")
    alone = min(numbers["rounds"] for _, numbers in plain) / 1e6
    print(f"  {name}, least of three turns: C++ {alone:.3f} s")
    for workers, of in turns.items():
        say(f"{workers} workers", of, alone)
    for workers, of in opened.items():
        kept = sorted({numbers["kept"] for _, numbers in of})
        say(f"{workers} workers, from an opening that kept {' '.join(map(str, kept))} nets", of, alone)


if __name__ == "__main__":
    main()
