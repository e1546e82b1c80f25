"""Netlists to pack: make.py adders|chain|aliases|backwards|sets SIGNALS FILE."""
import sys


def adders(count):
    """Counters of 60 bits with a look-up table, a carry and a flip-flop for each bit, four control sets, and a table over the bits."""
    yield ".model made\n.inputs c e r s\n"
    kinds = ["SB_DFF C=c", "SB_DFFE C=c E=e", "SB_DFFSR C=c R=r", "SB_DFFNS C=c S=s"]
    outs, made, group = [], 4, 0
    while made + 4 * 60 + 1 < count:
        for bit in range(60):
            name = f"{group}_{bit}"
            into = f"k{group}_{bit - 1}" if bit else "e"
            yield f".gate SB_LUT4 I1=q{name} I2=r I3={into} O=d{name}\n.param LUT_INIT 0110100110010110\n"
            yield f".gate SB_CARRY I0=q{name} I1=r CI={into} CO=k{name}\n"
            yield f".gate {kinds[group % 4]} D=d{name} Q=q{name}\n"
            yield f".gate SB_LUT4 I0=q{name} I1=q{group}_{(bit + 7) % 60} I2=s I3=e O=x{name}\n.param LUT_INIT 1000000000000110\n"
        made += 4 * 60
        outs.append(f"x{group}_0")
        group += 1
    yield f".outputs {' '.join(outs)}\n.end\n"


def aliases(count):
    """Names for names for names: each cover passes the one before on, and each hundredth is read by a look-up table."""
    yield ".model made\n.inputs a\n.outputs y\n.names a s0\n1 1\n"
    last = count - count // 100 - 4
    for k in range(1, last):
        yield f".names s{k - 1} s{k}\n1 1\n"
        if k % 100 == 0:
            yield f".gate SB_LUT4 I0=s{k} I1=s{k // 2} O=t{k}\n.param LUT_INIT 0110\n"
    yield f".names s{last - 1} y\n1 1\n.end\n"


def backwards(count):
    """The same names from the last to the first, so that each is named before what it is a name for."""
    head, *lines, tail = list(aliases(count))
    yield head[: head.index(".names")]
    yield from reversed(lines)
    yield ".names a s0\n1 1\n" + tail


def sets(count):
    """Flip-flops, each with an enable of its own, so that there are as many control sets as flip-flops."""
    yield ".model made\n.inputs c a\n.outputs q0\n"
    for k in range((count - 2) // 2):
        yield f".gate SB_LUT4 I0=q{k // 2} I1=a O=e{k}\n.param LUT_INIT 0110\n.gate SB_DFFE C=c E=e{k} D=a Q=q{k}\n"
    yield ".end\n"


def chain(count):
    """One chain of carries, each read by a look-up table."""
    yield ".model made\n.inputs a b\n.outputs y\n"
    last = (count - 3) // 2
    for k in range(last):
        into = f"k{k - 1}" if k else "a"
        yield f".gate SB_LUT4 I1=a I2=b I3={into} O=d{k}\n.param LUT_INIT 0110100110010110\n.gate SB_CARRY I0=a I1=b CI={into} CO=k{k}\n"
    yield f".names k{last - 1} y\n1 1\n.end\n"


if __name__ == "__main__":
    with open(sys.argv[3], "w", encoding="ascii") as out:
        out.writelines({"adders": adders, "chain": chain, "aliases": aliases, "backwards": backwards, "sets": sets}[sys.argv[1]](int(sys.argv[2])))
