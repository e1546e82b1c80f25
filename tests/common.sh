# What the scripts of tests/ and of bench/ share: a script of tests/ sets `me`, the word that its lines begin with, and then reads this file.
#     me=flow
#     . "$(dirname "${BASH_SOURCE[0]}")/../common.sh"
# Then `here` is the script's folder, `top` the repository's, and `chip` the database of the 1k device.
#
# One policy for what is missing: without an outside program (Debian's packages) a script is skipped, says so, and ends with 0; without the
# program under test it fails.
here="$(cd "$(dirname "${BASH_SOURCE[1]}")" && pwd)"
top="$(cd "$(dirname "${BASH_SOURCE[0]}")/.." && pwd)"
chip=/usr/share/fpga-icestorm/chipdb/chipdb-1k.txt

# Ends the script where one of these programs is missing: need TOOL..
need() {
    local tool
    for tool in "$@"; do
        command -v "$tool" >/dev/null || { echo "$me: skipped, since there is no $tool"; exit 0; }
    done
}

# Ends the script where the database of the 1k device, or one of these files beside it, is missing: need_database [FILE..]
need_database() {
    local file
    for file in "$chip" "$@"; do
        [ -r "$file" ] || { echo "$me: skipped, since there is no $file"; exit 0; }
    done
}

# Sets `program` to the program under test: the one that is named, or else the one that the gate has left: find_program [PROGRAM]
find_program() {
    program="$(realpath -m "${1:-$top/crates/ice_main/out/ice_main}")"
    [ -x "$program" ] || { echo "$me: there is no $program; run 'bash .ci/run' first, or name one"; exit 1; }
}

# Has Yosys write the netlist of a source with the top module `top`, as docs/ERRORS.md advises: write_netlist SOURCE BLIF [JSON [COMMANDS]];
# JSON is the file for nextpnr-ice40, or empty, and COMMANDS are further ones of Yosys. Memories become flip-flops, but block RAMs where `rams` is set.
write_netlist() {
    local memories=-nobram
    [ -z "${rams:-}" ] || memories=
    yosys -qq -p "read_verilog $1; synth_ice40 $memories -top top ${3:+-json $3}; splitnets -ports; opt_clean -purge; write_blif -gates -attr -param $2${4:+; $4}"
}
