"""Says the text of the sample chip of a width and a height, by the rules of docs/FORMATS.md alone.

usage: sample_chip.py WIDTH HEIGHT
"""
import sys


def main():
    width, height = int(sys.argv[1]), int(sys.argv[2])
    print("\n".join(text(width, height)))


def text(width, height):
    inner = lambda x, w: 0 < x < w - 1
    tiles = [(x, y, inner(x, width) and inner(y, height)) for y in range(height) for x in range(width)]
    tiles = [(x, y, logic) for x, y, logic in tiles if logic or inner(x, width) or inner(y, height)]
    wires = names_of(tiles)
    edge = [(x, y) for x, y, logic in tiles if not logic]
    pads = [(x, y, p) for x, y in edge for p in (0, 1)]
    lines = [f".device 1k {width} {height} {8 + sum(len(wires[tile]) for tile in tiles)}", ".pins sample"]
    lines += [f"{pin} {x} {y} {p}" for pin, (x, y, p) in enumerate(pads, 1)]
    lines += [".gbufin", *(f"{x} {y} {number}" for number, (x, y) in enumerate(edge[:8]))]
    lines += [".ieren", *(f"{x} {y} {p} {x} {y} {p}" for x, y, p in pads)]
    lines += [".colbuf", *(f"{x} {y} {x} {y}" for x, y, logic in tiles if logic)]
    lines += [f".{'logic' if logic else 'io'}_tile {x} {y}" for x, y, logic in tiles]
    bits = {logic: functions(logic) for logic in (False, True)}
    for logic, heading in ((False, ".io_tile_bits 18 16"), (True, ".logic_tile_bits 54 16")):
        lines += [heading, *(f"{name} {places(first, count, logic)}" for name, first, count in bits[logic])]
    return lines + nets(tiles, wires) + groups(tiles, wires, bits)


def places(first, count, logic):
    """The names of bits of a tile from the first one on."""
    columns = 54 if logic else 18
    return " ".join(f"B{n // columns}[{n % columns}]" for n in range(first, first + count))


def functions(logic):
    """Each function of a kind of tile with the number of its first bit and how many it has."""
    names = [(f"IOB_{p}.PINTYPE_{k}", 1) for p in (0, 1) for k in range(6)] + [(f"IoCtrl.{it}_{p}", 1) for p in (0, 1) for it in ("IE", "REN")]
    if logic:
        names = [(f"LC_{i}", 20) for i in range(8)] + [("NegClk", 1), ("CarryInSet", 1)] + [(f"ColBufCtrl.glb_netwk_{k}", 1) for k in range(8)]
    found, at = [], 0
    for name, count in names:
        found.append((name, at, count))
        at += count
    return found


def names_of(tiles):
    """The names of the wires that each tile brings."""
    tracks = [f"trk_{k}" for k in range(64)]
    io = [f"io_{p}/{it}" for p in (0, 1) for it in ("D_IN_0", "D_OUT_0", "OUT_ENB")] + ["fabout"] + tracks
    cells = [f"lutff_{i}/{it}" for i in range(8) for it in ("in_0", "in_1", "in_2", "in_3", "out", "cout")]
    cells += [f"lutff_global/{it}" for it in ("clk", "cen", "s_r")] + ["carry_in_mux"] + tracks
    return {tile: cells if tile[2] else io for tile in tiles}


def nets(tiles, wires):
    lines, number = [], 8
    logic = {(x, y) for x, y, is_logic in tiles if is_logic}
    for k in range(8):
        lines += [f".net {k}", *(f"{x} {y} glb_netwk_{k}" for x, y, _ in tiles)]
    for tile in tiles:
        x, y, is_logic = tile
        for name in wires[tile]:
            lines += [f".net {number}", f"{x} {y} {name}"]
            if name == "lutff_7/cout" and (x, y + 1) in logic:
                lines.append(f"{x} {y + 1} carry_in")
            number += 1
    return lines


def groups(tiles, wires, bits):
    numbers, at = {}, 8
    for tile in tiles:
        for name in wires[tile]:
            numbers[tile[:2], name] = at
            at += 1
    lines = []
    for x, y, logic in tiles:
        used = sum(count for _, _, count in bits[logic])
        for name, width, sources in groups_of(x, y, logic, numbers):
            lines.append(f".buffer {x} {y} {numbers[(x, y), name]} {places(used, width, logic)}")
            lines += [f"{row + 1:0{width}b} {source}" for row, source in enumerate(sources)]
            used += width
    return lines


def groups_of(x, y, logic, numbers):
    """The groups of a tile: the wire, how many bits, and the sources."""
    wire = lambda name: numbers[(x, y), name]
    tracks = lambda p: [wire(f"trk_{(p + 9 * j) % 64}") for j in range(8)]
    outputs = [f"lutff_{i}/out" for i in range(8)] if logic else ["io_0/D_IN_0", "io_1/D_IN_0"]
    for k in range(64):
        near = [numbers.get(((x + dx, y + dy), f"trk_{k}")) for dx, dy in ((-1, 0), (1, 0), (0, -1), (0, 1))]
        yield f"trk_{k}", 4 if logic else 3, [wire(name) for name in outputs] + [it for it in near if it is not None]
    if not logic:
        for p, name in enumerate(("io_0/D_OUT_0", "io_0/OUT_ENB", "io_1/D_OUT_0", "io_1/OUT_ENB", "fabout")):
            yield name, 4, tracks(p)
        return
    for i in range(8):
        for k in range(4):
            last = [wire("carry_in_mux" if i == 0 else f"lutff_{i - 1}/cout")] if k == 3 else []
            yield f"lutff_{i}/in_{k}", 4, tracks(4 * i + k) + last
    for p, (name, globals_) in enumerate((("clk", range(8)), ("cen", (1, 3, 5, 7)), ("s_r", (0, 2, 4, 6))), 32):
        yield f"lutff_global/{name}", 5, [*globals_, *tracks(p)]
    below = numbers.get(((x, y - 1), "lutff_7/cout"))
    if below is not None:
        yield "carry_in_mux", 1, [below]


main()
