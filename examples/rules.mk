# From Verilog to a file for the iCEstick, for the examples beside this file. The rule of %.asc is all that differs from a usual Makefile for
# Project IceStorm's tools. It needs Debian's packages yosys, fpga-icestorm and fpga-icestorm-chipdb, iverilog for `sim` and `postsim`, python3
# for the tools, and `tefitsundra` on the path (tools/install).
#
#   make           top.bin for the board, top.rpt with icetime's path, and top.path with a longest path by the seven delays of delays/, of
#                  which the length is said
#   make sim       runs the test bench over the source
#   make postsim   runs it over the circuit that is in the bits, as icebox_vlog reads them
#   make same      plays levels.table over netlist and bits, and says where they differ
#   make picture   top.svg, which a browser shows
#   make wave      top.vcd, which GTKWave shows
#   make stat      what is used of what the chip has
#   make time      top.path; that no path is longer is proved
#   make sweep     builds with eight seeds, and keeps the best
#   make prog      loads the board

TOOLS := $(dir $(lastword $(MAKEFILE_LIST)))../tools
CHIPDB = /usr/share/fpga-icestorm/chipdb/chipdb-1k.txt
PACKAGE = tq144
DEVICE = hx1k
DELAYS := $(dir $(lastword $(MAKEFILE_LIST)))delays/$(DEVICE).delays

all: top.rpt top.path top.bin

# (without splitnets and opt_clean Yosys writes buffers for aliases that nobody reads, some of which nothing drives)
%.blif: %.v
	yosys -q -p 'read_verilog $<; synth_ice40 -nobram -top top; splitnets -ports; opt_clean -purge; write_blif -gates -attr -param $@'

# (a port without a line in the text of pins would get any pad)
%.asc %.pins %.report: $(PIN_DEF) %.blif
	tefitsundra build $(CHIPDB) $(PACKAGE) $^ $*.asc --pins $*.pins --report $*.report
	$(TOOLS)/unpinned $< $*.pins

%.bin: %.asc
	icepack $< $@

%.rpt: %.asc
	icetime -d $(DEVICE) -mtr $@ $<

%.path: %.asc
	tefitsundra time $(CHIPDB) $(PACKAGE) $< $(DELAYS) >$@
	@head -n 1 $@

sim: test.v top.v
	iverilog -o sim.vvp -s test -D NO_ICE40_DEFAULT_ASSIGNMENTS $^ $(MODELS)
	vvp -n sim.vvp

# (the chip has memories that no design uses, and iverilog doesn't take them)
chip.v: top.asc
	icebox_vlog -s -d $(PACKAGE) -p $(PIN_DEF) -n chip $< >$@.whole
	sed '/^SB_RAM40_4K/,/^);/d' $@.whole >$@

postsim: test.v post.v chip.v
	iverilog -o postsim.vvp $^
	vvp -n postsim.vvp

same: levels.table top.asc
	$(TOOLS)/same $(CHIPDB) $(PACKAGE) top.blif top.asc top.pins levels.table

picture: top.svg
%.svg: %.pins %.report
	$(TOOLS)/draw $(CHIPDB) $^ $@

wave: top.vcd
top.vcd: levels.table top.pins top.blif
	$(TOOLS)/levels $(CHIPDB) $(PACKAGE) top.pins levels.table top.levels top.pad-levels
	tefitsundra play-net top.blif top.levels >top.drives
	$(TOOLS)/wave top.pins top.levels top.drives $@

stat: top.asc
	$(TOOLS)/stat $(CHIPDB) $(PACKAGE) top.pins top.report top.asc

time: top.path
	cat $<

sweep: $(PIN_DEF) top.blif
	$(TOOLS)/sweep $(CHIPDB) $(PACKAGE) $^ top.asc --pins top.pins --report top.report

prog: top.bin
	iceprog $<

clean:
	rm -f top.blif top.asc top.pins top.report top.bin top.rpt top.path top.svg top.vcd top.levels top.pad-levels top.drives chip.v chip.v.whole sim.vvp postsim.vvp

.DELETE_ON_ERROR:
.SECONDARY:
.PHONY: all sim postsim same picture wave stat time sweep prog clean
