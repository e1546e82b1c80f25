"""measure.py PROGRAM CHIPDB: times, instructions and peak memory of reading the database whole and in pieces, turn by turn, and whether the answers agree."""
import pathlib
import re
import shutil
import subprocess
import sys

WAYS = ("whole", "file", "67108864", "4096", "64", "7", "1")
TURNS = 11


def turn(program, file, way):
    """The processor time in microseconds, what came of the text, and the peak memory in kilobytes."""
    ran = subprocess.run(["/usr/bin/time", "-f", "%M", program, file, way], capture_output=True, text=True, check=True)
    time, answer = ran.stdout.splitlines()
    return int(time.split()[1]), answer, int(ran.stderr)


def instructions(program, file, way):
    """The millions of instructions of the process, or nothing where there is no valgrind."""
    if not shutil.which("valgrind"):
        return ""
    words = ["valgrind", "--tool=callgrind", "--callgrind-out-file=/dev/null", program, file, way]
    ran = subprocess.run(words, capture_output=True, text=True, check=True)
    return f", {int(re.search(r'Collected : ([0-9]+)', ran.stderr)[1]) / 1e6:.0f} million instructions"


def main():
    program, file = sys.argv[1:]
    found = {way: [] for way in WAYS}
    for _ in range(TURNS):
        for way in WAYS:
            found[way].append(turn(program, file, way))
    print(f"{file}: {pathlib.Path(file).stat().st_size} bytes")
    for way, turns in found.items():
        times = sorted(time for time, _, _ in turns)
        memory = min(kilobytes for _, _, kilobytes in turns)
        print(f"  {way}: least {times[0] / 1000:.1f} ms, middle {times[TURNS // 2] / 1000:.1f} ms, {memory / 1024:.1f} MB{instructions(program, file, way)}")
    answers = {answer for turns in found.values() for _, answer, _ in turns}
    print("\n".join(sorted(answers)))
    sys.exit(len(answers) != 1)


if __name__ == "__main__":
    main()
