"""Measures inputs that are slow for a reader or a stage.

usage: slowest.py PROGRAM TOP WORK [WORD..]
"""
import os
import pathlib
import resource
import subprocess
import sys

# of the processor, for one run
SECONDS = 60
IO_FUNCTIONS = [f"IOB_{p}.PINTYPE_{k}" for p in (0, 1) for k in range(6)] + [f"IoCtrl.{it}_{p}" for p in (0, 1) for it in ("IE", "REN")]


def chip(wires=4, package=b"1 0 0 0\n2 1 0 0\n", names=b"", rows=b".buffer 0 0 1 B0[0]\n1 0\n.buffer 1 0 2 B0[0] B1[0]\n10 1\n", extra=b""):
    """Two IO tiles, with a way from the left pad to the right one."""
    text = b".device 1k 2 1 %d\n.pins tiny\n%s.io_tile 0 0\n.io_tile 1 0\n.io_tile_bits 18 16\n" % (wires, package)
    text += b"".join(b"%s B%d[17]\n" % (name.encode(), k) for k, name in enumerate(IO_FUNCTIONS))
    text += b".net 0\n0 0 io_0/D_IN_0\n.net 1\n0 0 span\n1 0 span\n.net 2\n1 0 io_0/D_OUT_0\n.net 3\n1 0 io_1/D_IN_0\n"
    return text + names + rows + extra


def many(count, line):
    """A line for each number, from a pattern with one %d, or many times the same."""
    return b"".join(line % k for k in range(count)) if b"%d" in line else line * count


def buffer():
    return b".model top\n.inputs a\n.outputs y\n.names a y\n1 1\n.end\n"


def pcf():
    return b"set_io a 1\nset_io y 2\n"


def netlist(inputs, body, outputs=b"y"):
    return b".model top\n.inputs %s\n.outputs %s\n%s.end\n" % (inputs, outputs, body)


def aliases(count, name, backwards=False):
    order = range(count - 1, -1, -1) if backwards else range(count)
    lines = [b".names %s %s\n1 1\n" % (b"a" if k == 0 else name(k - 1), b"y" if k == count - 1 else name(k)) for k in order]
    return netlist(b"a", b"".join(lines))


def tables(count, name):
    """A chain of tables of four inputs, each reading the four before it."""
    lines = []
    for k in range(count):
        ins = b" ".join(b"I%d=%s" % (i, name(k - i - 1) if k > i else b"a") for i in range(4))
        lines.append(b".gate SB_LUT4 %s O=%s\n.param LUT_INIT 0110100110010110\n" % (ins, b"y" if k == count - 1 else name(k)))
    return netlist(b"a", b"".join(lines))


plain = lambda k: b"signal_%08d" % k


def build(**texts):
    return ["build", "chip", "tiny", "pcf", "blif", "asc"], {"chip": chip(), "pcf": pcf(), "blif": buffer(), **texts}


def play_net(blif, levels=b""):
    return ["play-net", "blif", "levels"], {"blif": blif, "levels": levels}


def play_bits(asc, levels=b"", **texts):
    return ["play-bits", "chip", "tiny", "asc", "levels"], {"chip": chip(), "asc": asc, "levels": levels, **texts}


def asc(body=b""):
    rows = b"0" * 18 + b"\n"
    return b".comment\n\n.device 1k\n.io_tile 0 0\n" + rows * 16 + b".io_tile 1 0\n" + rows * 16 + body


# Each input: its name, the greatest size, and what makes its words and texts of a size.
INPUTS = [
    ("chip: rows of one group, all alike", 4_000_000, lambda n: build(chip=chip(rows=b".buffer 0 0 1 B0[0]\n" + b"1 0\n" * n))),
    ("chip: groups of one bit into one wire", 4_000, lambda n: build(chip=chip(rows=b".buffer 0 0 1 B0[0]\n1 0\n" * n))),
    ("chip: groups into one wire with lists of their own", 4_000, lambda n: build(chip=chip(rows=b"".join(b".buffer 0 0 1 B%d[%d] B%d[%d]\n11 0\n" % (k // 17 % 16, k % 17, k // 4335 % 16, k // 272 % 17) for k in range(n))))),
    ("chip: rows of one group, each with values of its own", 16_000, lambda n: build(chip=chip(rows=b".buffer 0 0 1 %s\n" % b" ".join(b"B%d[0]" % k for k in range(14)) + b"".join(b"%s 0\n" % f"{k % 16384:014b}".encode() for k in range(n))))),
    ("chip: a group of many bits", 16_000, lambda n: build(chip=chip(rows=b".buffer 0 0 1" + b" B0[0]" * n + b"\n" + b"1" * n + b" 0\n"))),
    ("chip: names of wires", 1_000_000, lambda n: build(chip=chip(wires=n + 4, names=b"".join(b".net %d\n0 0 name_%d\n" % (k + 4, k) for k in range(n))))),
    ("chip: names of one wire", 4_000_000, lambda n: build(chip=chip(names=b".net 4\n" + many(n, b"0 0 name_%d\n"), wires=5))),
    ("chip: pins of one package", 4_000_000, lambda n: build(chip=chip(package=b"1 0 0 0\n2 1 0 0\n" + many(n, b"pin_%d 0 0 1\n")))),
    ("chip: packages", 2_000_000, lambda n: build(chip=chip(extra=many(n, b".pins package_%d\n")))),
    ("chip: sections of one package", 2_000_000, lambda n: build(chip=chip(extra=b".pins tiny\n1 0 0 0\n" * n))),
    ("chip: input enables of one pad", 4_000_000, lambda n: build(chip=chip(extra=b".ieren\n" + b"0 0 0 0 0 0\n" * n))),
    ("chip: column buffers of one tile", 4_000_000, lambda n: build(chip=chip(extra=b".colbuf\n" + b"0 0 1 0\n" * n))),
    ("chip: bits of one function that is read over", 4_000_000, lambda n: build(chip=chip(extra=b".logic_tile_bits 54 16\nOther" + b" B0[0]" * n + b"\n"))),
    ("chip: sections that are read over", 4_000_000, lambda n: build(chip=chip(extra=b".other\nrow of words\n" * n))),
    ("chip: words of one line", 16_000_000, lambda n: build(chip=b".device 1k 2 1 4" + b" 1" * n)),
    ("blif: inputs in one line", 60_000, lambda n: play_net(netlist(b" ".join(plain(k) for k in range(n)), b".names y\n"))),
    ("blif: words of one line", 16_000_000, lambda n: play_net(b".model top\n.names" + b" a" * n + b"\n.end\n")),
    ("blif: covers", 1_000_000, lambda n: play_net(netlist(b"a", b".names a y\n1 1\n" * n))),
    ("blif: rows of one cover", 8_000_000, lambda n: play_net(netlist(b"a", b".names a y\n" + b"1 1\n" * n))),
    ("blif: names for names", 60_000, lambda n: play_net(aliases(n, plain))),
    ("blif: names for names, last first", 60_000, lambda n: play_net(aliases(n, plain, True))),
    ("blif: a chain of tables", 60_000, lambda n: play_net(tables(n, plain), b"00\n" * 100)),
    ("blif: lines that go on", 8_000_000, lambda n: play_net(b".model top \\\n" + b" \\\n" * n + b"\n.end\n")),
    ("blif: parameters of one cell", 4_000_000, lambda n: play_net(netlist(b"a", b".gate SB_LUT4 I0=a O=y\n" + b".param LUT_INIT 0000000000000010\n" * n))),
    ("pcf: lines for ports that lack", 4_000_000, lambda n: build(pcf=pcf() + many(n, b"set_io -nowarn port_%d 1\n"))),
    ("pcf: lines for one port", 4_000_000, lambda n: build(pcf=b"set_io a 1\n" * n)),
    ("pcf: options of one line", 16_000_000, lambda n: build(pcf=b"set_io" + b" -nowarn" * n + b" a 1\n")),
    ("asc: extra bits", 4_000_000, lambda n: play_bits(asc(many(n, b".extra_bit 1 2 %d\n")))),
    ("asc: lines that are read over", 8_000_000, lambda n: play_bits(asc(b".comment\n" + b"some words\n" * n))),
    ("levels: steps", 8_000_000, lambda n: play_net(buffer(), b"10\n" * n)),
    ("levels: one long line", 64_000_000, lambda n: play_net(buffer(), b"1" * n)),
    ("pins: ports without a pad", 60_000, lambda n: build(blif=netlist(b"a " + b" ".join(plain(k) for k in range(n)), b".names a y\n1 1\n"))),
    ("pins: ports and lines for ports that lack", 60_000, lambda n: build(blif=netlist(b"a " + b" ".join(plain(k) for k in range(n)), b".names a y\n1 1\n"), pcf=pcf() + many(16 * n, b"set_io -nowarn other_%d 1\n"))),
]


def one(program, *words):
    """Runs the program, and says its processor time, memory and status, or nothing where it was ended by a signal."""
    limit = lambda: resource.setrlimit(resource.RLIMIT_CPU, (SECONDS, SECONDS))
    with open("said", "wb") as out:
        run = subprocess.Popen([program, *words], stdout=out, preexec_fn=limit)
    _, status, usage = os.wait4(run.pid, 0)
    run.returncode = 0
    if os.WIFEXITED(status):
        print(usage.ru_utime + usage.ru_stime, usage.ru_maxrss / 1024, os.WEXITSTATUS(status))


def measured(program, work, words, texts):
    """Seconds, megabytes, status and line of a run. A small process starts it, since the memory of what starts it counts too."""
    for it, text in texts.items():
        (work / it).write_bytes(text)
    said = subprocess.run([sys.executable, __file__, "one", program, *words], cwd=work, capture_output=True, text=True, check=True).stdout
    if not said:
        return None
    seconds, memory, status = said.split()
    with open(work / "said", "rb") as file:
        line = file.read(60).split(b"\n")[0].decode("latin-1")
    return float(seconds), float(memory), int(status), line


def main():
    program, top, work, *words = sys.argv[1:]
    work = pathlib.Path(work)
    print("| input | size | text | processor time | memory | growth | answer |\n|---|---|---|---|---|---|---|", flush=True)
    for name, most, make in INPUTS:
        if words and not any(word in name for word in words):
            continue
        before = None
        for size in (most // 4, most // 2, most):
            made, texts = make(size)
            bytes_ = sum(map(len, texts.values()))
            got = measured(program, work, made, texts)
            if got is None:
                print(f"| {name} | {size:,} | {bytes_ / 1e6:.1f} MB | more than {SECONDS} s, or ended by a signal | | | |", flush=True)
                break
            seconds, memory, status, line = got
            growth = f"{seconds / before:.1f}" if before else ""
            before = max(seconds, 0.01)
            if size == most or size == most // 2:
                print(f"| {name} | {size:,} | {bytes_ / 1e6:.1f} MB | {seconds:.2f} s | {memory:.0f} MB | {growth} | {status} {line} |", flush=True)


if sys.argv[1] == "one":
    one(*sys.argv[2:])
else:
    main()
