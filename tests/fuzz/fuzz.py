"""Feeds changed texts to the program, and keeps each input to which the answer is not as documented.

usage: fuzz.py PROGRAM TOP SECONDS [SEED]
"""
import os
import random
import re
import shutil
import subprocess
import sys
import time

LINE = {
    2: r"error 2 usage",
    3: r"error 3 blif line \d+ (nomodel|secondmodel|unknowndirective|unknowncell|unknownport|porttwice|badparam|badcover|toowide|noend|toomany)",
    4: r"error 4 pcf line \d+ (unknownword|missing|extra)",
    5: r"error 5 chip line \d+ (nodevice|badnumber|badname|outofrange|twice|badbit|badvalues|sharedfunction|lacksfunction|sharedpin|toomany)",
    6: r"error 6 net (undriven .+|twice .+|loop .+|padshared .+|pintype line \d+ value \d+|pinnotport line \d+|inoutbare .+)",
    7: r"error 7 pin (nopackage|(unknownpin|unknownport) line \d+|(pintwice|porttwice) lines \d+ \d+|nopad .+|globals need \d+ have \d+|padlacks .+)",
    8: r"error 8 full (run \d+ tallest \d+|need \d+ have \d+|unplaced \d+ length \d+)",
    9: r"error 9 unreachable net \d+ sink \d+",
    10: r"error 10 gaveup rounds \d+",
    11: r"error 11 read (chip|pcf|blif|asc|levels)",
    12: r"error 12 write (asc|pins|report|blif|standard) put \d+",
    13: r"error 13 memory",
    14: r"error 14 asc line \d+ (nodevice|otherdevice|unknowntile|tiletwice|badrow|unknownword|truncated)",
    15: r"error 15 bits (contention wire \d+ rows \d+ \d+|source wire \d+|function \d+ \d+ line \d+|extra \d+ \d+ \d+|loop( \d+)+|pintype \d+ \d+ \d+ value \d+)",
    16: r"error 16 long (chip|pcf|blif|asc|levels) limit \d+",
    17: r"error 17 levels line \d+",
}
ODD_WORDS = [b"0", b"1", b"-1", b"255", b"256", b"65535", b"65536", b"1048576", b"1048577", b"4294967295", b"4294967296", b"99999999999999999999",
             b".device", b".io_tile", b".logic_tile", b".ramb_tile", b".net", b".buffer", b".routing", b".pins", b".ieren", b".colbuf", b".gbufin",
             b".gbufpin", b".extra_bit", b".model", b".inputs", b".outputs", b".names", b".gate", b".subckt", b".param", b".end", b"SB_LUT4",
             b"SB_CARRY", b"SB_DFF", b"SB_DFFNESS", b"SB_IO", b"SB_GB", b"SB_GB_IO", b"LUT_INIT", b"PIN_TYPE", b"set_io", b"-pullup", b"yes", b"no", b"#", b"\\",
             b"$undef", b"B0[0]", b"B15[53]", b"B16[17]", b"glb_netwk_0", b"lutff_0/out", b"io_0/D_IN_0", b"ram/RDATA_0", b"\xff\xfe", b"\x00", b"="]
SECONDS_A_RUN = 60
COMMANDS = {
    "build": ("chip", "=tiny", "pcf", "blif", "*asc"),
    "play-net": ("blif", "levels"),
    "play-bits": ("chip", "=tiny", "asc", "levels"),
    "back": ("chip", "=tiny", "asc", "*netlist"),
}


def texts_of(top):
    """Texts of each role that are right, to begin with."""
    example = f"{top}/examples/buffer"
    found = {
        "chip": [open(f"{example}/chip.txt", "rb").read()],
        "pcf": [open(f"{example}/buffer.pcf", "rb").read(), b"set_frequency clk 12\nset_io --warn-no-port spare 9\nset_io -pullup yes a 1\n"],
        "blif": [open(f"{example}/buffer.blif", "rb").read()],
        "asc": [open(f"{example}/expected.asc", "rb").read()],
        "levels": [b"00\n10\n11\n", b"# none\n\n01\n"],
    }
    for folder, _, files in sorted(os.walk(f"{top}/tests")):
        for file in sorted(files):
            role = file.rsplit(".", 1)[-1]
            if role in found:
                found[role].append(open(f"{folder}/{file}", "rb").read())
    return found


def changed(text, others, chance):
    """A text with one to four changes, of lines, words or bytes."""
    for _ in range(chance.randint(1, 4)):
        text = change(text, others, chance)
    return text


def change(text, others, chance):
    """A text with one change."""
    lines = text.split(b"\n")
    at = chance.randrange(len(lines))
    kind = chance.randrange(12)
    if kind == 0:
        del lines[at]
    elif kind == 1:
        lines.insert(at, lines[chance.randrange(len(lines))] if lines else b"")
    elif kind == 2 and len(lines) > 1:
        other = chance.randrange(len(lines))
        lines[at], lines[other] = lines[other], lines[at]
    elif kind == 3:
        return text[: chance.randrange(len(text) + 1)]
    elif kind == 4:
        lines[at:at] = chance.choice(others).split(b"\n")[: chance.randint(1, 40)]
    elif kind == 5:
        lines[at] = lines[at] + b" " * chance.choice([1, 300]) + chance.choice(ODD_WORDS) * chance.choice([1, 1, 1, 2000])
    elif kind == 6:
        return text.replace(b"\n", b"\r\n")
    elif kind == 7:
        return text + text
    elif kind == 8 and text:
        place = chance.randrange(len(text))
        return text[:place] + bytes([chance.randrange(256)]) + text[place + chance.randint(0, 1):]
    elif kind == 9:
        lines[at] = lines[at] + b" \\"
    else:
        words = lines[at].split(b" ")
        words[chance.randrange(len(words))] = chance.choice(ODD_WORDS)
        lines[at] = b" ".join(words)
    return b"\n".join(lines)


def complaint(run, written):
    """What is not as documented in this answer of a command, or None; written is the file that it writes, or None where it says drives."""
    said = run.stdout
    if run.returncode < 0:
        return f"ended by signal {-run.returncode}"
    if run.stderr:
        return "wrote to standard error"
    if run.returncode == 0:
        if written:
            return "said something" if said else None if os.path.exists(written) else "wrote no file"
        return None if re.fullmatch(rb"([.01]*\n)*", said) else "said no drives"
    if run.returncode not in LINE:
        return f"status {run.returncode} is none of the documented ones"
    if not re.fullmatch(LINE[run.returncode].encode() + rb"\n", said, re.S):
        return "the line doesn't agree with the status"
    return "wrote a file, and refused" if written and os.path.exists(written) else None


def ran(program, command, folder):
    """Runs the program over the files of the folder: the answer, with the text that it wrote, if any."""
    words = [word[1:] if word[0] == "=" else f"{folder}/{word.lstrip('*')}" for word in COMMANDS[command]]
    written = next((f"{folder}/{word[1:]}" for word in COMMANDS[command] if word[0] == "*"), None)
    run = subprocess.run([program, command, *words], capture_output=True, timeout=SECONDS_A_RUN)
    text = open(written, "rb").read() if written and os.path.exists(written) else None
    why = complaint(run, written)
    if text is not None:
        os.remove(written)
    return why, (run.returncode, run.stdout, text)


def tried(program, command, folder):
    """What is not as it must be of two runs over the same files, or None; and the status."""
    try:
        why, first = ran(program, command, folder)
        if not why and first != ran(program, command, folder)[1]:
            why = "answered otherwise the second time"
        return why, first[0]
    except subprocess.TimeoutExpired:
        return f"took more than {SECONDS_A_RUN} s", None


def fill(folder, command, texts, chance):
    """Writes the command's texts, of which one is changed."""
    shutil.rmtree(folder, ignore_errors=True)
    os.makedirs(folder)
    roles = [role for role in COMMANDS[command] if role in texts]
    turned = chance.choice(roles)
    for role in roles:
        text = texts[role][0] if role != turned and chance.random() < 0.8 else chance.choice(texts[role])
        if role == turned:
            text = changed(text, texts[role], chance)
        with open(f"{folder}/{role}", "wb") as file:
            file.write(text)


def main():
    program, top, seconds = sys.argv[1], sys.argv[2], float(sys.argv[3])
    seed = int(sys.argv[4]) if len(sys.argv) > 4 and sys.argv[4] else random.randrange(2**32)
    chance = random.Random(seed)
    texts, out = texts_of(top), f"{top}/out/fuzz"
    ends, runs, found, statuses = time.monotonic() + seconds, 0, 0, {}
    while time.monotonic() < ends:
        command = chance.choice(list(COMMANDS))
        fill(f"{out}/now", command, texts, chance)
        why, status = tried(program, command, f"{out}/now")
        runs += 1
        statuses[status] = statuses.get(status, 0) + 1
        if why:
            found += 1
            kept = f"{out}/found-{seed}-{runs}"
            shutil.rmtree(kept, ignore_errors=True)
            shutil.move(f"{out}/now", kept)
            print(f"fuzz: {command}: {why}: the files are in {kept}")
    counts = ", ".join(f"{status}: {statuses[status]}" for status in sorted(statuses, key=str))
    print(f"fuzz: seed {seed}, {runs} inputs, {found} findings; statuses {counts}")
    return 1 if found else 0


if __name__ == "__main__":
    sys.exit(main())
