"""Reads the texts of the flow, for the tools beside it: the chip database, the reports on pins and routes, the text of the pins, the text of bits,
levels and drives. It stands outside the proved part.

A route report names switch rows by number: the rows of all `.buffer` and `.routing` groups of the database, in the order of the text, from 0.
Where a text has another form than docs/FORMATS.md says, a reader raises `Refusal` with the file and the line. It doesn't look for every fault: that
is what the program does.
"""
import argparse
import os
import re
import shutil
import subprocess
import sys

# The names, in a tile, of the wires that a design's cells, pads and globals read or drive.
PIN = re.compile(r"lutff_[0-7]/in_[0-3]|lutff_global/(clk|cen|s_r)|io_[01]/(D_OUT_0|OUT_ENB)|fabout")
ROOT = re.compile(r"lutff_[0-7]/out|io_[01]/D_IN_0")
BIT = re.compile(r"B(\d+)\[(\d+)\]")
GLOBAL = re.compile(r"glb_netwk_[0-7]")
TILES = {".io_tile": "io", ".logic_tile": "logic", ".ramb_tile": "ram bottom", ".ramt_tile": "ram top"}
# Of a head of a table: a bit of a bus, a bus, a clock with its period.
INDEXED = re.compile(r"(.+)\[(\d+)\]")
BUS = re.compile(r"(.+)\[(\d+):(\d+)\]")
CLOCK = re.compile(r"(.+)/(\d+)")
# The sections of a chip database that say where pins are.
PACKAGES = (".device", ".pins")


class Refusal(Exception):
    """What is wrong with what a tool was given, for the person who gave it."""


def parser_of(doc, *names):
    """A parser of the words of a tool, which takes these names in order, and says the tool's own text where --help asks for it."""
    parser = argparse.ArgumentParser(description=doc, formatter_class=argparse.RawDescriptionHelpFormatter)
    for name in names:
        parser.add_argument(name, metavar=name.upper())
    return parser


def run(tool):
    """Runs a tool. Its answer is the status: 0, or 1 where what it looks for isn't so. A text that it refuses is told, with status 2."""
    try:
        sys.exit(tool())
    except (Refusal, OSError) as fault:
        print(f"{os.path.basename(sys.argv[0])}: {fault}", file=sys.stderr)
        sys.exit(2)


def program_of(name):
    """The program that is named, or else `tefitsundra` on the path, or else the one that the gate has left."""
    left = os.path.join(os.path.dirname(os.path.abspath(__file__)), "..", "crates", "ice_main", "out", "ice_main")
    found = shutil.which(name) if name else shutil.which("tefitsundra") or shutil.which(left)
    if not found:
        raise Refusal(f"there is no program {name or 'tefitsundra'}: name one by --program, or put it on the path by tools/install")
    return os.path.abspath(found)


def said_by(program, *words):
    """The lines that the program says; its refusal is handed on."""
    ran = subprocess.run([program, *words], stdout=subprocess.PIPE, encoding="ascii", errors="replace", check=False)
    if ran.returncode:
        raise Refusal(f"{words[0]} ends with status {ran.returncode}: {ran.stdout.strip()[:400]}")
    return ran.stdout.splitlines()


def read(path, what, take_all, encoding="utf-8"):
    """Hands the lines of a text to a reader; a line that it can't take is refused by its number."""
    number = 0

    def counted(lines):
        nonlocal number
        for number, line in enumerate(lines, 1):
            yield line

    try:
        with open(path, encoding=encoding, errors="replace") as lines:
            return take_all(counted(lines))
    except (ValueError, IndexError, KeyError, AttributeError, TypeError):
        raise Refusal(f"{path} line {number}: this is no line of {what}") from None


def words_in(line):
    """The words of a line of a text that has comments."""
    words = line.split()
    if "#" in line:
        words = words[: next((place for place, word in enumerate(words) if word.startswith("#")), None)]
    return words


class Chip:
    """What a chip database says of tiles, wires, switch rows and packages."""

    def __init__(self, path, only=()):
        """Reads a database; with `only`, the sections of these headings alone, which takes a tenth of the time."""
        self.path = path
        self.tiles = {}  # the kind of the tile at (x, y)
        self.names = {}  # of a wire: ((x, y), name) for each of its names
        self.rows = []  # ((x, y), wire, source) for each row
        self.switches = {}  # of a tile: (bits as (row, column), first row, the values of each row) for each group
        self.functions = {}  # of a kind of tile: the bits as (row, column) of each function
        self.globals = {}  # of a global: the tile whose fabout feeds it
        self.packages = {}  # of a package: the pad (x, y, pio) of each pin
        self.extra = []  # what the chip has beside its tiles, as "PLL"
        self.width = self.height = 0
        read(path, "a chip database", lambda lines: self.read(lines, only))
        if not self.width:
            raise Refusal(f"{path}: this is no chip database, since it has no .device")

    def read(self, lines, only):
        section, wire, group, values, package, functions, over = "", None, None, [], {}, {}, False
        for line in lines:
            if over and not line.startswith("."):
                continue
            words = words_in(line)
            if not words:
                continue
            if words[0].startswith("."):
                section = words[0]
                over = bool(only) and section not in only
                if over:
                    continue
                if section == ".device":
                    self.width, self.height = int(words[2]), int(words[3])
                elif section in TILES:
                    self.tiles[int(words[1]), int(words[2])] = TILES[section]
                elif section == ".net":
                    wire = self.names.setdefault(int(words[1]), [])
                elif section == ".pins":
                    # of two sections of one package the first counts
                    package = {} if words[1] in self.packages else self.packages.setdefault(words[1], {})
                elif section == ".extra_cell":
                    self.extra.append(words[3])
                elif section.endswith("_tile_bits"):
                    functions = self.functions.setdefault(TILES.get(section.removesuffix("_bits")), {})
                elif section in (".buffer", ".routing"):
                    group, values = ((int(words[1]), int(words[2])), int(words[3])), []
                    self.switches.setdefault(group[0], []).append((bits_in(words[4:]), len(self.rows), values))
            elif section == ".net":
                wire.append(((int(words[0]), int(words[1])), words[2]))
            elif section in (".buffer", ".routing"):
                self.rows.append((*group, int(words[1])))
                values.append(words[0])
            elif section == ".pins":
                package.setdefault(words[0], tuple(int(word) for word in words[1:4]))
            elif section == ".gbufin":
                self.globals.setdefault(int(words[2]), (int(words[0]), int(words[1])))
            elif section.endswith("_tile_bits"):
                functions[words[0]] = bits_in(words[1:])

    def pins(self, package):
        """The pad of each pin of a package."""
        if package not in self.packages:
            raise Refusal(f"{self.path} has no package {package}, only {', '.join(self.packages)}")
        return self.packages[package]

    def pads(self, package):
        """The different pads of a package, in the order in which play-bits takes their levels."""
        return list(dict.fromkeys(self.pins(package).values()))

    def name(self, wire, pattern):
        """The first name of a wire that matches the pattern whole, with its tile; or None."""
        return next((placed for placed in self.names.get(wire, ()) if pattern.fullmatch(placed[1])), None)


def bits_in(words):
    return [tuple(int(number) for number in BIT.fullmatch(word).groups()) for word in words]


class Port:
    """A line of a pin report: a port, its pin, the pad (x, y, pio) and the way."""

    def __init__(self, line):
        words = line.rstrip("\n").split(" ")
        self.name, self.pin, x, y, pio, self.way = words
        self.pad = int(x), int(y), int(pio)
        if self.way not in ("in", "out", "both"):
            raise ValueError


class Round:
    """A round of a route report: its number, histories, moved nets with the rows of their trees, and wires with more than one net. The opening
    has the number 0, and the nets that were kept with their trees."""

    def __init__(self, number):
        self.number, self.history, self.moved, self.over = number, {}, {}, {}


class Routes:
    """What a route report says."""

    def __init__(self, path):
        self.opening, self.rounds, self.routed = Round(0), [], None
        read(path, "a report on routes", lambda lines: [self.take(line.split()) for line in lines])
        if self.routed is None:
            raise Refusal(f"{path}: this is no whole report on routes, since it ends with neither routed nor gave up")
        # the last tree of each net
        self.trees = {net: rows for log in (self.opening, *self.rounds) for net, rows in log.moved.items()}

    def take(self, words):
        if words[0] == "cells":
            self.cells, self.tiles, self.nets = (int(word) for word in words[1::2])
        elif words == ["opening"]:
            self.last = self.opening
        elif words[0] == "round":
            self.last = Round(int(words[1]))
            self.rounds.append(self.last)
        elif words[0] == "history":
            self.last.history[int(words[1])] = int(words[2])
        elif words[0] == "net":
            self.last.moved[int(words[1])] = [int(word) for word in words[3:]]
        elif words[0] == "over":
            self.last.over[int(words[1])] = int(words[2])
        else:
            self.routed = {("routed",): True, ("gave", "up"): False}[tuple(words)]


def routes_on(chip, path):
    """What a route report of this chip says."""
    routes = Routes(path)
    if any(row >= len(chip.rows) for rows in routes.trees.values() for row in rows):
        raise Refusal(f"{path} numbers rows that the chip doesn't have: it is of another chip")
    return routes


def read_ports(path):
    """The ports of a pin report, in order."""
    return read(path, "a report on pins", lambda lines: [Port(line) for line in lines])


def read_constraints(path):
    """The pin of each port that a text of pins (PCF) names."""
    def take_all(lines):
        pins = {}
        for line in lines:
            words = words_in(line)
            if not words or words[0] == "set_frequency":
                continue
            if words.pop(0) != "set_io":
                raise ValueError
            while words[0].startswith("-"):
                # an option, of which -pullup has a value
                del words[: 2 if words[0] == "-pullup" else 1]
            pins[words[0]] = words[1]
        return pins
    return read(path, "a text of pins", take_all)


def read_steps(path, digits):
    """The words of a text of levels or drives, one a step, each of these digits."""
    def take_all(lines):
        steps = [words for words in map(words_in, lines) if words]
        if any(len(words) != 1 or set(words[0]) - set(digits) for words in steps):
            raise ValueError
        return [words[0] for words in steps]
    return read(path, "levels or drives", take_all)


def buses_of(names):
    """The signals of names such as `count[3]`: for each its name, its greatest and its least index, or None, and the places of its bits, the greatest first."""
    buses = {}
    for place, name in enumerate(names):
        parts = INDEXED.fullmatch(name)
        buses.setdefault(parts[1] if parts else name, []).append((int(parts[2]) if parts else None, place))
    signals = []
    for name, bits in buses.items():
        numbers = [number for number, _ in bits]
        if None in numbers or sorted(numbers) != list(range(min(numbers), max(numbers) + 1)):
            signals += [(names[place], None, None, [place]) for _, place in bits]
        else:
            signals.append((name, max(numbers), min(numbers), [place for _, place in sorted(bits, reverse=True)]))
    return signals


def root_of(chip, rows):
    """The wire from which the rows of a tree, in order of addition, lead; a tree without rows has none."""
    return chip.rows[rows[0]][2] if rows else None


def pins_in(chip, rows):
    """The pins that a tree enters, each as its tile and its name there."""
    entered = {chip.rows[row][1] for row in rows}
    return [placed for wire in entered for placed in chip.names.get(wire, ()) if PIN.fullmatch(placed[1])]


def half_perimeter(tiles):
    across, up = [x for x, _ in tiles], [y for _, y in tiles]
    return max(across) - min(across) + max(up) - min(up)


def length_of(chip, trees):
    """The wire length: the half perimeters, in tiles, of the nets of pads and cells; those of globals count nothing."""
    length = 0
    for rows in trees:
        root = chip.name(root_of(chip, rows), ROOT)
        if root:
            length += half_perimeter([root[0]] + [tile for tile, _ in pins_in(chip, rows)])
    return length


def wires_by_tile(chip, wires=None):
    """How many wires that a row leads into have a name in each tile; with `wires`, how many of these."""
    entered = {wire for _, wire, _ in chip.rows}
    counts = {}
    for wire in entered if wires is None else entered & wires:
        for tile in {tile for tile, _ in chip.names.get(wire, ())}:
            counts[tile] = counts.get(tile, 0) + 1
    return counts


def wires_held(chip, routes):
    """The wires that the last trees of a report enter."""
    return {chip.rows[row][1] for rows in routes.trees.values() for row in rows}


def used_of(chip, package_pads, ports, routes):
    """What a build uses and what there is, as (what, used, available)."""
    kinds = list(chip.tiles.values())
    logic = kinds.count("logic")
    held = wires_held(chip, routes)
    by_global = [rows for rows in routes.trees.values() if rows and chip.name(root_of(chip, rows), GLOBAL)]
    return [
        ("logic cells", routes.cells, 8 * logic),
        ("logic tiles", routes.tiles, logic),
        ("pads", len(ports), package_pads),
        ("globals", len(by_global), len(chip.globals)),
        ("memories", 0, kinds.count("ram bottom")),
        ("PLLs", 0, chip.extra.count("PLL")),
        ("wires", len(held), len({wire for _, wire, _ in chip.rows})),
    ]


def read_bits(path):
    """The sixteen rows of each tile of a text of bits."""
    def take_all(lines):
        tiles, tile = {}, None
        for line in lines:
            words = line.split()
            if words and words[0].startswith("."):
                tile = tiles.setdefault((int(words[1]), int(words[2])), []) if words[0] in TILES else None
            elif words and tile is not None:
                tile.append(words[0])
        return tiles
    tiles = read(path, "a text of bits", take_all)
    if not tiles or any(len(rows) != 16 for rows in tiles.values()):
        raise Refusal(f"{path}: this is no text of bits, since a tile has other than sixteen rows, or there is none")
    return tiles


def digits_of(rows, bits):
    """The digits of bits of a tile, in their order."""
    try:
        return "".join(rows[row][column] for row, column in bits)
    except IndexError:
        raise Refusal("a tile of the bits has fewer columns than the chip database says: they are of another chip") from None


def rows_on(chip, path):
    """The rows that are on in a text of bits."""
    on = []
    for at, rows in read_bits(path).items():
        for bits, first, values in chip.switches.get(at, ()):
            set_to = digits_of(rows, bits)
            on += [first + k for k, value in enumerate(values) if value == set_to]
    return on


def trees_on(chip, path):
    """The rows that are on in a text of bits, by the wire from which they lead."""
    driver = {chip.rows[row][1]: row for row in rows_on(chip, path)}
    trees = {}
    for wire, row in driver.items():
        source = chip.rows[row][2]
        while source in driver:
            source = chip.rows[driver[source]][2]
        trees.setdefault(source, []).append(row)
    # a row that leads from the root stands first
    return [sorted(rows, key=lambda row: chip.rows[row][2] != root) for root, rows in trees.items()]


class Table:
    """Levels by port, step by step: the first line of the table names its columns, and each further line is a step, or several.

    A column is a port; or a bus as `switch[3:0]`, whose value has a digit for each bit in this order. A word `clk/4` is no column but a clock, which is
    Low for the first half of each 4 steps and High for the rest. A value `-` is that of the line above, and `*8` behind the values makes eight steps.
    """

    def __init__(self, path):
        self.path, self.columns, self.clocks, self.steps = path, [], {}, []
        self.names = set()
        with open(path, encoding="utf-8") as lines:
            for number, line in enumerate(lines, 1):
                words = words_in(line)
                if words and not self.names:
                    self.head(number, words)
                elif words:
                    self.step(number, words)
        if not self.steps:
            raise Refusal(f"{path}: this table has no step")

    def refuse(self, number, why):
        raise Refusal(f"{self.path} line {number}: {why}")

    def head(self, number, words):
        for word in words:
            clock, bus = CLOCK.fullmatch(word), BUS.fullmatch(word)
            if clock and int(clock[2]) < 2:
                self.refuse(number, f"the clock {clock[1]} needs a period of two steps or more")
            if clock:
                names = [clock[1]]
                self.clocks[clock[1]] = int(clock[2])
            else:
                names = bits_of(bus[1], int(bus[2]), int(bus[3])) if bus else [word]
                self.columns.append(names)
            if self.names & set(names):
                self.refuse(number, f"{word} names a port for the second time")
            self.names |= set(names)

    def step(self, number, words):
        """Takes a line of values; each step keeps its line, for what is said of it."""
        count = words.pop()[1:] if words[-1].startswith("*") else "1"
        if not count.isdigit() or int(count) < 1:
            self.refuse(number, f"*{count} is no number of steps")
        if len(words) != len(self.columns):
            self.refuse(number, f"{len(words)} values for {len(self.columns)} columns")
        levels = dict(self.steps[-1][1]) if self.steps else {}
        for names, value in zip(self.columns, words):
            if value == "-" and self.steps:
                continue
            if len(value) != len(names) or set(value) - set("01"):
                self.refuse(number, f"{value} isn't {len(names)} of the digits 0 and 1, for {' '.join(names)}")
            levels.update(zip(names, map(int, value)))
        self.steps += [(number, levels)] * int(count)

    def levels(self, names):
        """For each step the level of each of these ports; one that the table doesn't name is Low."""
        for at, (_, levels) in enumerate(self.steps):
            yield [int(at % self.clocks[name] * 2 >= self.clocks[name]) if name in self.clocks else levels.get(name, 0) for name in names]


def bits_of(name, first, last):
    return [f"{name}[{number}]" for number in (range(first, last - 1, -1) if first >= last else range(first, last + 1))]


def places_of(ports, pads):
    """The place of the pad of each port among the pads of the package."""
    places = {pad: place for place, pad in enumerate(pads)}
    other = next((port.name for port in ports if port.pad not in places), None)
    if other is not None:
        raise Refusal(f"the package has no pad of the port {other}: the report on pins is of another package")
    return [places[port.pad] for port in ports]


def write_levels(table, ports, pads, net_path, bits_path):
    """Writes the levels of a table for the ports in order, and for the pads of the package, where those of no port are Low."""
    names = [port.name for port in ports]
    unknown = sorted(table.names - set(names))
    if unknown:
        raise Refusal(f"{table.path}: no port of the report on pins is named {', '.join(unknown)}")
    places = places_of(ports, pads)
    with open(net_path, "w", encoding="ascii") as net, open(bits_path, "w", encoding="ascii") as bits:
        for step in table.levels(names):
            of_pads = ["0"] * len(pads)
            for place, level in zip(places, step):
                of_pads[place] = str(level)
            net.write("".join(map(str, step)) + "\n")
            bits.write("".join(of_pads) + "\n")
