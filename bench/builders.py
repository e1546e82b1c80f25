"""The commands by which this program and others build a netlist for the 1k device: for the scripts of quality and race."""
import os

# ours: this program; nextpnr: nextpnr-ice40 as it is called by itself, its placer driven by timing; untimed: the same without timing; arachne: arachne-pnr
TOOLS = ("ours", "nextpnr", "untimed", "arachne")


def words_of(tool, program, chip, package, path, seed, out, report=False):
    """The command by which a tool builds the netlist at PATH (PATH.blif, PATH.json, PATH.pcf) into OUT.asc; ours with OUT.report too, where that is asked for.

    Constraints without a line are passed to this program alone, since nextpnr-ice40 wants them for each port or not at all.
    """
    fixed = os.path.getsize(f"{path}.pcf") > 0
    if tool == "ours":
        reports = ["--report", f"{out}.report"] if report else []
        return [program, "build", chip, package, f"{path}.pcf", f"{path}.blif", f"{out}.asc", "--seed", str(seed), *reports]
    if tool == "arachne":
        pins = ["-p", f"{path}.pcf"] if fixed else []
        return ["arachne-pnr", "-q", "-d", "1k", "-P", package, *pins, "-s", str(seed), "-o", f"{out}.asc", f"{path}.blif"]
    pins = ["--pcf", f"{path}.pcf"] if fixed else []
    timing = ["--no-tmdriv"] if tool == "untimed" else []
    return ["nextpnr-ice40", "-q", "--hx1k", "--package", package, *pins, *timing, "--seed", str(seed), "--json", f"{path}.json", "--asc", f"{out}.asc"]
