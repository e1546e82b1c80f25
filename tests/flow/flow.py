"""What tests/flow/run does beside the programs: cases to compare, netlists to play, and a plain reading of packed designs.

words FOLDER                   says the names of the texts of each case of a folder, in order
netlists COUNT FOLDER          makes netlists at random, each with its text of levels; the same count makes the same netlists
compare FOLDER SHOWN           compares what ice_tests_cases showed with the dumps and the texts of bits of a folder
play FOLDER SHOWN PROGRAM      plays the designs that ice_tests_cases showed, and the netlists by play-net of PROGRAM
"""
import pathlib
import random
import subprocess
import sys


def lines_of(file):
    """The lines of a file, with their ends."""
    return list(open(file, encoding="latin-1", newline="\n"))


def shown(file):
    """The lines that a program showed of each case, by the case's name."""
    cases, lines = {}, []
    for line in lines_of(file):
        if line.startswith("== "):
            lines = cases.setdefault(pathlib.Path(line[3:].rstrip()).stem, [])
        else:
            lines.append(line)
    return cases


def begins_routing(line):
    return line == "report\n" or line.startswith("error 9 ")


def begins_bits(line):
    return line == "bits\n"


def cut(lines, begins):
    """The lines before the first one that begins something, and the others."""
    place = next((k for k, line in enumerate(lines) if begins(line)), len(lines))
    return lines[:place], lines[place:]


def parts_of(dump, lines):
    """What is expected of a case and what was shown of it: in its dump, and in its text of bits where it has one."""
    before, routing = cut(lines_of(dump), begins_routing)
    passes, routes = cut(lines, begins_routing)
    routes, bits = cut(routes, begins_bits)
    parts = [(before, passes)]
    # A dump that was made by hand ends with the nets.
    if routing or not before[-1].startswith("net "):
        parts.append((routing, routes))
    text = dump.with_suffix(".asc")
    if text.exists():
        parts.append((lines_of(text), bits[1:]))
    return parts


def is_same(name, want, have):
    pairs = zip(want + [""] * len(have), have + [""] * len(want))
    differing = [pair for pair in pairs if pair[0] != pair[1]]
    if differing:
        print(f"flow: {name}: {len(differing)} lines differ; the first is\n  {differing[0][1]!r}, expected\n  {differing[0][0]!r}")
    return not differing


def compare(folder, file):
    cases, bad, lines = shown(file), 0, 0
    dumps = sorted(pathlib.Path(folder).glob("*.dump"))
    for dump in dumps:
        parts = parts_of(dump, cases.get(dump.stem, []))
        lines += sum(len(want) for want, _ in parts)
        bad += not all([is_same(dump.stem, *part) for part in parts])
    texts = sum(dump.with_suffix(".asc").exists() for dump in dumps)
    print(f"flow: {len(dumps) - bad} of {len(dumps)} cases as expected, {texts} of them with their texts of bits, {lines} lines")
    return bad == 0 and bool(dumps)


# A plain reading of a packed design: levels by walking back, with nothing kept but what flip-flops keep.


class Design:
    def __init__(self, lines):
        self.cells, self.into, self.pads, self.globals = [], {}, [], []
        for words in map(str.split, lines):
            if words[0] == "cell":
                self.cells.append(cell_of(words))
            elif words[0] == "run":
                numbers = list(map(int, words[5:]))
                for below, number in zip([None] + numbers, numbers):
                    self.into[number] = int(words[3]) if below is None else f"carry:{below}"
            elif words[0] == "pad":
                self.pads.append((words[3], words[7], words[9]))
            elif words[0] == "global" and words[2] == "reads":
                self.globals.append(words[3])
        self.kept, self.clocks = [0] * len(self.cells), [None] * len(self.cells)

    def level(self, root, missing=0):
        if root == "-":
            return missing
        if root in (0, 1):
            return root
        if root not in self.seen:
            self.seen[root] = self.made(*root.split(":"))
        return self.seen[root]

    def made(self, kind, number):
        number = int(number)
        if kind == "pad":
            return self.levels[number]
        if kind == "global":
            return self.level(self.globals[number])
        cell = self.cells[number]
        if kind == "carry":
            return int(self.level(cell["ins"][1]) + self.level(cell["ins"][2]) + self.level(self.into[number]) >= 2)
        return self.kept[number] if cell["flop"] else self.given(number)

    def given(self, number):
        """What the table of a cell gives."""
        cell = self.cells[number]
        ins = cell["ins"][:3] + [self.into[number] if cell["in3"] else cell["ins"][3]]
        return int(cell["table"][15 - sum(self.level(root) << k for k, root in enumerate(ins))])

    def step(self, levels):
        """What the pads drive, and then what the flip-flops take."""
        self.levels, self.seen = levels, {}
        drives = "".join(self.drive(*pad) for pad in self.pads)
        kept, clocks = list(self.kept), list(self.clocks)
        for number, cell in enumerate(self.cells):
            if cell["flop"]:
                kept[number], clocks[number] = self.fired(number, *cell["flop"])
        self.kept, self.clocks = kept, clocks
        return drives

    def drive(self, kind, drive, enable):
        if kind == "011001" or kind == "101001" and self.level(enable):
            return str(self.level(drive))
        return "."

    def fired(self, number, clock, edge, enable, reset, to_one, at_once):
        before, now = self.clocks[number], self.level(clock)
        active = before is not None and before != now and now == (edge == "rising")
        resets, kept = self.level(reset), self.kept[number]
        if resets and at_once:
            kept = to_one
        elif active and self.level(enable, 1):
            kept = to_one if resets else self.given(number)
        return kept, now


def cell_of(words):
    flop = None
    if "flop" in words:
        rest = words[words.index("flop") + 1 :]
        flop = (*rest[:4], int(rest[5]), int(rest[7]))
    return {"table": words[3], "ins": words[5:9], "in3": "in3" in words, "flop": flop}


def play(folder, file, program):
    sys.setrecursionlimit(100000)
    cases, bad, netlists = shown(file), 0, sorted(pathlib.Path(folder).glob("*.blif"))
    steps = 0
    for netlist in netlists:
        text = netlist.with_suffix(".levels")
        said = subprocess.run([program, "play-net", netlist, text], capture_output=True, text=True)
        design = Design(cases.get(netlist.stem, []))
        drives = [design.step(list(map(int, line))) for line in text.read_text().split()]
        steps += len(drives)
        if said.returncode or said.stdout.splitlines() != drives:
            bad += 1
            print(f"flow: {netlist.stem}: the design and the netlist drive different levels, or play-net failed: {said.stdout[:60]!r}")
    print(f"flow: {len(netlists) - bad} of {len(netlists)} netlists play as their designs do, {steps} steps")
    return bad == 0 and bool(netlists)


# Netlists at random, with all that packing looks at: constants and aliases of aliases, missing inputs, chains of carries that are
# read in each way, flip-flops of all kinds behind look-up tables and alone, pads that drive at times, and global buffers.

FLOPS = [n + e + r for n in ("", "N") for e in ("", "E") for r in ("", "R", "S", "SR", "SS")]


class Maker:
    def __init__(self, seed):
        self.random, self.lines, self.made, self.count = random.Random(seed), [], [], 0
        self.inputs = ["c", "d"] + [f"i{k}" for k in range(self.random.randrange(2, 6))]
        self.flops = [f"q{k}" for k in range(self.random.randrange(0, 16))]
        self.signals = self.inputs + self.flops

    def new(self):
        self.count += 1
        return f"s{self.count}"

    def any(self):
        return self.random.choice(self.signals)

    def cell(self, kind, ports, *parameters):
        ports = " ".join(f"{port}={signal}" for port, signal in ports if signal)
        self.lines += [f".gate {kind} {ports}", *(f".param {it}" for it in parameters)]

    def add(self, signal):
        self.signals.append(signal)
        self.made.append(signal)

    def cover(self):
        new, width = self.new(), self.random.choice([0, 0, 1, 1, 1, 2, 3, 4])
        self.lines.append(" ".join([".names"] + [self.any() for _ in range(width)] + [new]))
        level = self.random.choice("01")
        for _ in range(self.random.randrange(0, 4) if width != 1 else 1):
            self.lines.append(f"{''.join(self.random.choice('01-') for _ in range(width))} {level}".strip())
        self.add(new)

    def table(self):
        return "LUT_INIT " + "".join(self.random.choice("01") for _ in range(16))

    def lut(self):
        new = self.new()
        self.cell("SB_LUT4", [(f"I{k}", self.any() if self.random.random() < 0.7 else "") for k in range(4)] + [("O", new)], self.table())
        self.add(new)

    def chain(self):
        into, tidy = self.random.choice(["", self.any()]), self.random.random() < 0.5
        if self.random.random() < 0.3:
            into = self.new()
            self.lines += [f".names {into}", self.random.choice("01")]
        for _ in range(self.random.choice([1, 2, 3, 7, 8, 9, 15, 20])):
            first, second, out = self.any(), self.random.choice(["", self.any()]), self.new()
            for _ in range(1 if tidy else self.random.choice([0, 1, 1, 1, 2])):
                other, last = ("", into) if tidy else (self.random.choice(["", "", self.any(), into]), self.random.choice([into, into, self.any()]))
                new = self.new()
                self.cell("SB_LUT4", [("I0", other), ("I1", first), ("I2", second), ("I3", last), ("O", new)], self.table())
                self.add(new)
            self.cell("SB_CARRY", [("I0", first), ("I1", second), ("CI", into), ("CO", out)])
            into = out
            if not tidy and self.random.random() < 0.1:
                self.add(out)
        if self.random.random() < 0.5:
            self.add(into)

    def flop(self, out):
        kind = self.random.choice(FLOPS)
        ins = [("C", self.random.choice(["c", "c", "d", self.any(), ""])), ("D", self.random.choice(self.made + [self.any()]))]
        if "E" in kind:
            ins.append(("E", self.random.choice([self.any(), ""])))
        if kind[-1:] in ("R", "S"):
            ins.append((kind[-1:], self.any()))
        self.cell("SB_DFF" + kind, ins + [("Q", out)])

    def buffer(self):
        new = self.new()
        self.cell("SB_GB", [("USER_SIGNAL_TO_GLOBAL_BUFFER", self.any()), ("GLOBAL_BUFFER_OUTPUT", new)])
        self.add(new)

    def pad(self, port):
        """A pad of any type that is read, which may be registered and may feed a global."""
        new, kind = self.new(), self.random.choice(["000000", "000001", "010101", "011001", "101001", "101001"])
        pins = [("D_OUT_0", self.any()), ("OUTPUT_ENABLE", self.any())] if kind[:4] != "0000" else []
        pins += [(clock, self.random.choice(["c", "c", "d", ""])) for clock in ("INPUT_CLK", "OUTPUT_CLK")]
        pins += [("CLOCK_ENABLE", self.random.choice([self.any(), ""])), ("D_IN_0", new)]
        feeds = [self.new()] if self.random.random() < 0.3 else []
        pins += [("GLOBAL_BUFFER_OUTPUT", fed) for fed in feeds]
        self.cell("SB_GB_IO" if feeds else "SB_IO", [("PACKAGE_PIN", port), *pins], f"PIN_TYPE {kind}", f"PULLUP {self.random.choice('01')}")
        for signal in (new, *feeds):
            self.add(signal)

    def netlist(self):
        both = [f"b{k}" for k in range(self.random.randrange(0, 3))]
        for port in both:
            self.pad(port)
        for _ in range(self.random.randrange(4, 24)):
            self.random.choice([self.cover, self.cover, self.lut, self.lut, self.lut, self.chain, self.buffer])()
        self.lut()
        for out in self.flops:
            self.flop(out)
        outs = [it for it in dict.fromkeys(self.made + self.flops) if self.random.random() < 0.3] or self.made[-1:]
        head = [".model made", " ".join([".inputs"] + self.inputs + both), " ".join([".outputs"] + outs + both)]
        return "\n".join(head + self.lines + [".end", ""]), len(self.inputs) + len(both) + len(outs)


def netlists(count, folder):
    for seed in range(int(count)):
        maker = Maker(seed)
        text, ports = maker.netlist()
        file = pathlib.Path(folder, f"made{seed:03}")
        file.with_suffix(".blif").write_text(text)
        steps = ("".join(maker.random.choice("01") for _ in range(ports)) for _ in range(60))
        file.with_suffix(".levels").write_text("".join(step + "\n" for step in steps))


def words(folder):
    for blif in sorted(pathlib.Path(folder).glob("*.blif")):
        pcf = blif.with_suffix(".pcf")
        print(blif, pcf if pcf.exists() else "-")


if __name__ == "__main__":
    done = {"words": words, "netlists": netlists, "compare": compare, "play": play}[sys.argv[1]](*sys.argv[2:])
    sys.exit(done is False)
