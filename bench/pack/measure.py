"""measure.py PROGRAM FOLDER: the least of three turns of each stage, ratios to reading the text, and peak memory."""
import pathlib
import subprocess
import sys

HERE = pathlib.Path(__file__).parent


def turn(program, file, stages):
    """What a run of the program says, by its words, and the peak memory of its process in kilobytes."""
    said = subprocess.run(["/usr/bin/time", "-f", "memory %M", program, file, str(stages)], capture_output=True, text=True, check=True)
    found = dict(line.split(" ", 1) for line in (said.stdout + said.stderr).splitlines())
    counts = found.pop("cells", "")
    return {word: int(number) for word, number in found.items()}, counts


def measure(program, folder, kind, signals):
    file = f"{folder}/{kind}.blif"
    subprocess.run([sys.executable, HERE / "make.py", kind, str(signals), file], check=True)
    whole, reading = [turn(program, file, 9) for _ in range(3)], [turn(program, file, 1) for _ in range(3)]
    least = {word: min(found[word] for found, _ in whole) for word in ("read", "check", "pack", "runs", "cluster", "memory")}
    packing = least["pack"] + least["runs"] + least["cluster"]
    before = min(found["memory"] for found, _ in reading)
    print(f"{kind} {signals} signals, {pathlib.Path(file).stat().st_size} bytes: cells {whole[0][1]}")
    print("  " + ", ".join(f"{word} {least[word] / 1000:.1f} ms" for word in ("read", "check", "pack", "runs", "cluster")))
    print(f"  packing to reading {packing / least['read']:.2f}; memory {least['memory'] / 1024:.0f} MB, after reading alone {before / 1024:.0f} MB")


if __name__ == "__main__":
    for kind in ("adders", "chain", "sets", "aliases", "backwards"):
        measure(sys.argv[1], sys.argv[2], kind, 65000)
    for signals in (8000, 16000, 32000):
        measure(sys.argv[1], sys.argv[2], "aliases", signals)
