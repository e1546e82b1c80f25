#!/usr/bin/env python3
"""Says the times of the programs by stage, their ratios and their memory, after it has seen that all say the same otherwise.

usage: ratio.py NAME FOLDER; the folder has what three turns of each program wrote, as plain.1 and proved.1, and old.1 where an earlier
program was measured with them, of which the rounds alone are compared."""
import os
import re
import sys

TIMED = ("read", "fabric", "rounds", "memory", "clock")
# What the C++ program does not say: how many nets an opening kept, and a checksum of the trees alone.
COUNTED = ("kept", "trees")


def turn_of(path: str) -> tuple:
    said, numbers = [], {}
    with open(path) as lines:
        for line in lines:
            word, _, rest = line.strip().partition(" ")
            if word in TIMED + COUNTED and word not in numbers:
                numbers[word] = int(rest)
            elif word == "settled":
                numbers[word] = float(rest)
            else:
                said.append(line.strip())
    return said, numbers


def main() -> None:
    name, folder = sys.argv[1:3]
    programs = ["plain", "proved"] + ["old"] * os.path.exists(f"{folder}/old.1")
    turns = {program: [turn_of(f"{folder}/{program}.{turn}") for turn in (1, 2, 3)] for program in programs}
    said = turns["plain"][0][0]
    for program, of in turns.items():
        for other, _ in of:
            if other[-1] != said[-1] or program != "old" and other != said:
                sys.exit(f"{name}: {program} says {other}, and not {said}")
    print(f"{name}: {'; '.join(said)}")
    print(f"  settled for a connection: {turns['plain'][0][1]['settled']} wires")
    for stage in TIMED[:3]:
        least = {program: min(numbers[stage] for _, numbers in of) / 1e6 for program, of in turns.items() if program != "old"}
        pairs = [p[1][stage] / q[1][stage] for p, q in zip(turns["proved"], turns["plain"])]
        ratios = ", ".join(f"{ratio:.2f}" for ratio in pairs)
        print(f"  {stage}: C++ {least['plain']:.3f} s, proved {least['proved']:.3f} s (least of three turns); ratios {ratios}")
    moves = int(re.search(r"moves (\d+)", said[-1])[1])
    for program, of in turns.items():
        rounds = min(numbers["rounds"] for _, numbers in of) / 1e6
        print(f"  {program}: {moves / rounds:.0f} moves a second, in {rounds:.3f} s")
    if "old" in turns:
        gains = ", ".join(f"{p[1]['rounds'] / q[1]['rounds']:.2f}" for p, q in zip(turns["old"], turns["proved"]))
        print(f"  as fast as the old program: {gains} times")
    memory = {program: max(numbers["memory"] for _, numbers in of) / 1024 for program, of in turns.items()}
    print("  peak memory: " + ", ".join(f"{program} {much:.0f} MB" for program, much in memory.items()))


if __name__ == "__main__":
    main()
