"""Looks whether `time` says a longest path of bits: the arrivals are found anew, from the rules of docs/FORMATS.md alone.

usage: longest.py CHIP ASC DELAYS SAID [ICETIME]

SAID is what `time` said. The status is 0 where the length is the greatest over all ends, and each point's moment is its arrival there; then one
line tells the length, how many ways lead into ends, and how many of them into block RAMs. ICETIME is what icetime said of the same bits: it
knows the length of each wire and the delays of block RAMs, so both lengths are of one order, and no more is asked.
"""
import re
import sys

KINDS = {".io_tile": "io", ".logic_tile": "logic", ".ramb_tile": "ramb", ".ramt_tile": "ramt"}


class Chip:
    """Of a database: the tiles' kinds, wires by their names, groups of rows, bits of functions, and how globals are fed."""

    def __init__(self, path):
        self.kinds, self.wires, self.names, self.functions = {}, {}, {}, {}
        self.groups, self.feeds, self.pads, self.extras = [], {}, {}, {}
        section = ()
        with open(path, encoding="ascii") as lines:
            for words in filter(None, (line.split("#")[0].split() for line in lines)):
                if words[0].startswith("."):
                    section = words
                    self.open(words)
                else:
                    self.take(section, words)

    def open(self, words):
        if words[0] in KINDS:
            self.kinds[int(words[1]), int(words[2])] = KINDS[words[0]]
        elif words[0] in (".buffer", ".routing"):
            self.groups.append(((int(words[1]), int(words[2])), int(words[3]), list(map(bit, words[4:])), []))

    def take(self, section, words):
        if section[0] == ".net":
            tile, wire = (int(words[0]), int(words[1])), int(section[1])
            self.wires[tile, words[2]] = wire
            self.names.setdefault(wire, []).append((tile, words[2]))
        elif section[0] in (".buffer", ".routing"):
            self.groups[-1][3].append((words[0], int(words[1])))
        elif section[0].endswith("_tile_bits"):
            self.functions[section[0][1:-len("_tile_bits")], words[0]] = list(map(bit, words[1:]))
        elif section[0] == ".gbufin":
            self.feeds.setdefault(int(words[2]), (int(words[0]), int(words[1])))
        elif section[0] == ".gbufpin":
            self.pads.setdefault(int(words[3]), tuple(words[:3]))
        elif section[0] == ".extra_bits":
            self.extras[tuple(map(int, words[1:]))] = int(re.search(r"[0-9]+$", words[0])[0])


def bit(word):
    """The row and the column of a word as B3[17]."""
    return tuple(map(int, re.fullmatch(r"B([0-9]+)\[([0-9]+)\]", word).groups()))


class Bits:
    """A text of bits on a chip: its tiles' rows, the source of each wire that a row drives, and globals that have the level of a pad."""

    def __init__(self, chip, path):
        self.chip, self.rows, self.direct, self.sources = chip, {}, set(), {}
        tile = None
        with open(path, encoding="ascii") as lines:
            for words in filter(None, (line.split("#")[0].split() for line in lines)):
                if words[0] in KINDS:
                    tile = self.rows.setdefault((int(words[1]), int(words[2])), [])
                elif words[0] == ".extra_bit":
                    self.direct.add(chip.extras[tuple(map(int, words[1:]))])
                elif words[0].startswith("."):
                    tile = None
                elif tile is not None:
                    tile.append(words[0])
        for place, wire, bits, rows in chip.groups:
            here = "".join(self.at(place, one) for one in bits)
            self.sources.update((wire, source) for values, source in rows if values == here and "1" in here)

    def at(self, tile, place):
        """The bit of a tile at a place, as a digit."""
        return self.rows[tile][place[0]][place[1]] if tile in self.rows else "0"

    def is_set(self, tile, function, number=0):
        return self.at(tile, self.chip.functions[self.chip.kinds[tile], function][number]) == "1"

    def pad_type(self, tile, pio):
        return sum(self.is_set(tile, f"IOB_{pio}.PINTYPE_{k}") << k for k in range(6))


class Times:
    """The arrivals at the points of configured bits: a wire is a number, and the carry of a cell a pair of its tile and its number there."""

    def __init__(self, bits, delays):
        self.bits, self.wires, self.delays, self.known = bits, bits.chip.wires, delays, {}

    def inputs(self, tile, cell, numbers=range(4)):
        return [self.wires[tile, f"lutff_{cell}/in_{k}"] for k in numbers if (tile, f"lutff_{cell}/in_{k}") in self.wires]

    def before(self, point):
        """What a point depends on, when a signal is there if that is nothing, and else how long it takes to there."""
        delays, bits = self.delays, self.bits
        if isinstance(point, tuple):
            tile, cell = point
            if not bits.is_set(tile, f"LC_{cell}", 8):
                return [], 0, 0
            lower = [(tile, cell - 1)] if cell else [self.wires[key] for key in [(tile, "carry_in_mux")] if key in self.wires]
            return self.inputs(tile, cell, (1, 2)) + lower, 0, delays["carry"]
        if point in bits.sources:
            return [bits.sources[point]], 0, delays["switch"]
        for tile, name in bits.chip.names[point]:
            kind, word = bits.chip.kinds.get(tile), re.match(r"(lutff|io|glb_netwk)_([0-9]+)/?(\w*)$", name)
            if kind == "logic" and word and word[1] == "lutff" and word[3] in ("out", "lout", "cout"):
                place = tile, int(word[2])
                if word[3] == "cout":
                    return [place], 0, 0
                if word[3] == "out" and bits.is_set(tile, f"LC_{place[1]}", 9):
                    return [], delays["clock_to_q"], 0
                return self.inputs(*place), 0, delays["lut"]
            if kind == "io" and word and word[3] == "D_IN_0":
                return [], delays["pad_in" if bits.pad_type(tile, int(word[2])) % 4 else "clock_to_q"], 0
            if kind in ("ramb", "ramt") and name.startswith("ram/RDATA_"):
                return [], delays["clock_to_q"], 0
            if word and word[1] == "glb_netwk":
                number = int(word[2])
                if number in bits.direct:
                    return [], delays["pad_in"] if number in bits.chip.pads else 0, 0
                fed = (bits.chip.feeds.get(number), "fabout")
                return [self.wires[fed]] if fed in self.wires else [], 0, delays["switch"]
        return [], 0, 0

    def arrival(self, point):
        """When a signal is at a point."""
        if point not in self.known:
            depends, start, delay = self.before(point)
            self.known[point] = max(map(self.arrival, depends)) + delay if depends else start
        return self.known[point]

    def ends(self):
        """The kind of each end, a wire by which a path gets there, and what it adds."""
        bits, delays = self.bits, self.delays
        for (tile, name), wire in self.wires.items():
            kind = bits.chip.kinds.get(tile)
            if kind == "logic" and re.fullmatch(r"lutff_[0-7]/in_[0-3]", name) and bits.is_set(tile, f"LC_{name[6]}", 9):
                yield "flop", wire, delays["lut"] + delays["setup"]
            if kind == "logic" and name in ("lutff_global/cen", "lutff_global/s_r") and any(bits.is_set(tile, f"LC_{k}", 9) for k in range(8)):
                yield "flop", wire, delays["setup"]
            if kind == "io" and re.fullmatch(r"io_[01]/(D_OUT_0|OUT_ENB)", name):
                part = bits.pad_type(tile, int(name[3])) // 4
                if part == 5 and name.endswith("D_OUT_0"):
                    yield "pad", wire, delays["setup"]
                if part == 10 or part == 6 and name.endswith("D_OUT_0"):
                    yield "pad", wire, delays["pad_out"]
            if kind in ("ramb", "ramt") and name.startswith("ram/") and not re.match(r"ram/(RDATA_|RCLK$|WCLK$)", name):
                if not bits.is_set((tile[0], tile[1] - (kind == "ramt")), "RamConfig.PowerUp"):
                    yield "ram", wire, delays["setup"]


def beside(icetime, longest):
    """What icetime said of the same bits, beside the length in picoseconds."""
    with open(icetime, encoding="utf-8") as text:
        theirs = round(1000 * float(re.search(r"Total path delay: ([0-9.]+) ns", text.read())[1]))
    if not theirs / 2 < longest < 4 * theirs:
        sys.exit(f"time says {longest} and icetime {theirs} ps")
    return f", {theirs} ps by icetime"


def main(chip, asc, delays, said, icetime=None):
    sys.setrecursionlimit(100000)
    with open(delays, encoding="ascii") as lines:
        words = [line.split("#")[0].split() for line in lines]
    times = Times(Bits(Chip(chip), asc), {line[0]: int(line[1]) for line in words if line})
    ends = list(times.ends())
    longest = max((times.arrival(wire) + delay for _, wire, delay in ends), default=0)
    with open(said, encoding="ascii") as lines:
        first, *others = [line.split() for line in lines]
    if first != ["longest", str(longest)]:
        sys.exit(f"time says {' '.join(first)}, and the longest path found anew takes {longest}")
    for words in others[:-1]:
        point = int(words[1]) if words[0] == "wire" else ((int(words[1]), int(words[2])), int(words[3]))
        if int(words[-1]) != times.arrival(point):
            sys.exit(f"time says {' '.join(words)}, and the arrival found anew is {times.arrival(point)}")
    into_rams = sum(kind == "ram" for kind, _, _ in ends)
    print(f"    {longest} ps{beside(icetime, longest) if icetime else ''}; {len(ends)} ways into ends, {into_rams} of them into block RAMs")


main(*sys.argv[1:])
