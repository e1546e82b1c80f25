"""Refuses each request for memory of a build in turn, and says what was answered and what the files hold.

usage: memory.py PROGRAM REFUSE TOP WORK [WORD..]; REFUSE is the built refuse.c; with WORDs, only the builds whose names have one
"""
import os
import pathlib
import re
import shutil
import subprocess
import sys

SECONDS = 60
SECONDS_FOR_ALL = 3600
SMALL_CHIP, LARGE_CHIP = (5, 7), (14, 18)
STEP = 97  # of the requests for the large chip
BUFFERS = ".model top\n.inputs a b\n.outputs y z\n.names a y\n1 1\n.names b z\n1 1\n.end\n"
BUFFER_PINS = "set_io a 1\nset_io b 2\nset_io y 3\nset_io z 4\n"


def io_functions():
    names = [f"IOB_{p}.PINTYPE_{k}" for p in (0, 1) for k in range(6)] + [f"IoCtrl.{it}_{p}" for p in (0, 1) for it in ("IE", "REN")]
    return [f"{name} B{k}[17]" for k, name in enumerate(names)]


def short_wire_chip():
    """Two IO tiles; from tile to tile lead one short wire for both inputs, and a long way."""
    lines = [".device 1k 2 1 7", ".pins tiny", "1 0 0 0", "2 0 0 1", "3 1 0 0", "4 1 0 1", ".io_tile 0 0", ".io_tile 1 0", ".io_tile_bits 18 16"]
    lines += io_functions()
    wires = ["0 0 io_0/D_IN_0", "0 0 io_1/D_IN_0", "0 0 short|1 0 short", "0 0 long|1 0 long", "1 0 hop", "1 0 io_0/D_OUT_0", "1 0 io_1/D_OUT_0"]
    for number, names in enumerate(wires):
        lines += [f".net {number}", *names.split("|")]
    lines += [".buffer 0 0 2 B0[0] B1[0]", "10 0", "01 1", ".buffer 0 0 3 B2[0] B3[0]", "10 0", "01 1", ".routing 1 0 4 B0[0]", "1 3"]
    lines += [".buffer 1 0 5 B1[0] B2[0]", "10 2", "01 4", ".buffer 1 0 6 B3[0] B4[0]", "10 2", "01 4"]
    return "\n".join(lines) + "\n"


def adder():
    """An adder of nine bits with carries."""
    inputs = [f"{it}{k}" for it in "ab" for k in range(9)] + ["ci"]
    lines = [".model top", f".inputs {' '.join(inputs)}", f".outputs {' '.join(f's{k}' for k in range(9))} co"]
    carry = lambda k: "ci" if k == 0 else "co" if k == 9 else f"c{k}"
    for k in range(9):
        lines += [f".gate SB_LUT4 I1=a{k} I2=b{k} I3={carry(k)} O=s{k}", ".param LUT_INIT 0110100110010110"]
        lines.append(f".gate SB_CARRY I0=a{k} I1=b{k} CI={carry(k)} CO={carry(k + 1)}")
    return "\n".join(lines + [".end"]) + "\n"


def sample_chip(top, size):
    made = [sys.executable, f"{top}/tests/sample_chip.py", *map(str, size)]
    return subprocess.run(made, capture_output=True, text=True, check=True).stdout


def builds(top):
    """Each build: its name, the texts of its files, its package, the files that it writes, and of how many requests one is refused."""
    example = pathlib.Path(top) / "examples/buffer"
    first = {"chip": "chip.txt", "pins": "buffer.pcf", "blif": "buffer.blif"}
    adders = [
        (f"an adder of nine bits on the sample chip of {size[0]} by {size[1]}", {"chip": sample_chip(top, size), "pins": "", "blif": adder()}, "sample", files, step)
        for size, files, step in ((SMALL_CHIP, ["asc"], 1), (LARGE_CHIP, ["asc", "report"], STEP))
    ]
    return [
        ("the first example", {it: (example / name).read_text() for it, name in first.items()}, "tiny", ["asc"], 1),
        ("two nets over one short wire", {"chip": short_wire_chip(), "pins": BUFFER_PINS, "blif": BUFFERS}, "tiny", ["asc"], 1),
        *adders,
    ]


class Build:
    def __init__(self, program, refuse, folder, name, texts, package, files):
        self.program, self.refuse, self.folder, self.name, self.files = program, refuse, folder, name, files
        (folder / "refused").mkdir(parents=True)
        for it, text in texts.items():
            (folder / it).write_text(text)
            (folder / "refused" / it).symlink_to(f"../{it}")
        self.words = ["build", "chip", package, "pins", "blif", "asc", *(["--report", "report"] if "report" in files else [])]
        self.whole = None

    def run(self, which):
        """The status, what was said and what the files hold after a run in which requests are refused."""
        paths = [self.folder / it for it in self.files]
        for path in paths:
            path.unlink(missing_ok=True)
        env = {"REFUSE": str(which), "REFUSE_LOG": "log", "REFUSE_FILES": " ".join(self.files), "LD_PRELOAD": self.refuse}
        seconds = SECONDS_FOR_ALL if str(which).startswith("each") else SECONDS
        run = subprocess.run([self.program, *self.words], cwd=self.folder, env=env, capture_output=True, timeout=seconds)
        held = [path.read_bytes() if path.exists() else None for path in paths]
        return run.returncode, run.stdout.decode("latin-1") + run.stderr.decode("latin-1"), held

    def requests(self):
        return int(re.search(r"^requests (\d+)$", (self.folder / "log").read_text(), re.M).group(1))

    def states(self, held):
        return [state_of(it, whole) for it, whole in zip(held, self.whole)]

    def try_each(self, step):
        """Each request of so many refused in copies of one process without threads: the answers by number, up to the first with a file before it."""
        status, said, held = self.run(f"each:{step}")
        if (status, said, held) != (0, "", self.whole):
            sys.exit(f"memory: {self.name}: the process whose copies are refused answers {status} {said!r}")
        sums = [{"absent": "no file", f"{len(whole)}:{checksum(whole):016x}": "the whole file"} for whole in self.whole]
        answers = []
        for number, status, said, files in re.findall(r"^(\d+) (-?\d+) '(.*)' (\S+(?: \S+)*)$", (self.folder / "log").read_text(encoding="latin-1"), re.M):
            if said.startswith("error 12 write report"):
                break
            states = [sums[place].get(file, "another file") for place, file in enumerate(files.split())]
            answers.append((int(number), int(status), said.replace("|", "\n"), states))
        return answers, self.requests()

    def try_alone(self, numbers):
        """Each request refused in a process of its own, with its threads."""
        for number in numbers:
            status, said, held = self.run(number)
            yield number, status, said, self.states(held)


def state_of(held, whole):
    """What a file holds, beside what it is to hold."""
    if held is None:
        return "no file"
    if held == whole:
        return "the whole file"
    return "a front of the file" if whole.startswith(held) else "another file"


def checksum(held):
    total = 14695981039346656037
    for byte in held:
        total = (total ^ byte) * 1099511628211 % 2**64
    return total


def is_named(status, said, files, states):
    """Whether an answer is one of those that may come where memory lacks, with the files that it leaves."""
    if status == 0:
        return said == "" and all(state == "the whole file" for state in states)
    if status == 13:
        return said == "error 13 memory\n" and all(state == "no file" for state in states)
    if status == 11:
        return bool(re.fullmatch(r"error 11 read (chip|pcf|blif)\n", said)) and all(state == "no file" for state in states)
    wrote = re.fullmatch(r"error 12 write (\w+) put \d+\n", said)
    if status != 12 or not wrote or wrote[1] not in files:
        return False
    place = files.index(wrote[1])
    before, here, behind = states[:place], states[place], states[place + 1:]
    return all(it == "the whole file" for it in before) and here in ("no file", "a front of the file") and all(it == "no file" for it in behind)


def tell(build, how, step, answers):
    """Says the answers, those that follow one another and are alike in one line. Whether all are named."""
    name, good = build.name, True
    lines = []
    for number, status, said, states in answers:
        named = is_named(status, said, build.files, states)
        good = good and named
        what = f"status {status}, {said.strip() or 'nothing said'}, {', '.join(states)}" + ("" if named else "  <- NOT NAMED")
        if lines and lines[-1][2] == what and lines[-1][1] == number - step:
            lines[-1][1] = number
        else:
            lines.append([number, number, what])
    shown = lines if len(lines) <= 12 else lines[:6] + [None] + lines[-5:]
    for line in shown:
        if line is None:
            print(f"memory: {name}, {how}: .. {len(lines) - 11} lines more")
        else:
            print(f"memory: {name}, {how}: requests {line[0]} to {line[1]}: {line[2]}")
    return good


def main():
    program, refuse, top, work, *words = sys.argv[1:]
    good = True
    for number, (name, texts, package, files, step) in enumerate(builds(top)):
        if words and not any(word in name for word in words):
            continue
        folder = pathlib.Path(work) / str(number)
        shutil.rmtree(folder, ignore_errors=True)
        build = Build(program, refuse, folder, name, texts, package, files)
        status, said, build.whole = build.run(0)
        if status != 0 or None in build.whole:
            sys.exit(f"memory: {name}: with all memory the answer is {status} {said!r}")
        count = build.requests()
        answers, in_one = build.try_each(step)
        print(f"memory: {name}: {count} requests, {in_one} without threads")
        good = tell(build, "without threads" if step == 1 else f"each {step}th, without threads", step, answers) and good
        # A process that has made its file already can't be doubled with its files apart; and small builds are tried with threads.
        alone = range(1, count + 3) if count <= 5000 else range(count - 200, count + 3)
        good = tell(build, "each in a process of its own", 1, build.try_alone(alone)) and good
    print(f"memory: {'all answers are named ones, with the files that belong to them' if good else 'there are answers that are not named'}")
    return 0 if good else 1


if __name__ == "__main__":
    sys.exit(main())
