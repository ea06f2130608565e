# make run       prove and link the printing program, and run it on the example, or on INPUT=file
# make test      prove every crate, try the must-fail edits, run every test; last line: N passed, 0 failed
# make edits     try the longer list of must-fail edits, which make test has no time for; or those of NAMES="crate .."
# make lib       target/staticlib/libzaguypo.a and libzaguypo.so, for C; include/zaguypo.h declares them
# make install   header, libraries, zaguypo.pc, zaguypo-replay and man pages below PREFIX, with DESTDIR before it
# make uninstall takes them out again
# make bench     ns and instructions a word, a step, an image, .. beside two Rust engines, and how they grow (target/bench/growth.svg)
# make fuzz      compare with the Rust engine until SECONDS=600 have passed
# make overtaking the largest count of passes in any table that two processes reach, and three, under each turn setting
# make spin      search a model of the paper and CANCEL with Spin, which must be installed, and compare with a walk through the compiled step
# make fmt       lay out every .rt and .antt file

INPUT ?=
SECONDS ?= 600
NAMES ?=
PREFIX ?= /usr/local
DESTDIR ?=

.PHONY: run test edits lib install uninstall bench fuzz overtaking spin fmt

run:
	@tools/run-example $(if $(INPUT),"$(INPUT)")

test:
	@tests/all

edits:
	@tools/edits $(NAMES)

lib:
	@tools/libraries
	@ls target/staticlib/libzaguypo.a target/staticlib/libzaguypo.so

install:
	@tools/install "$(PREFIX)" "$(DESTDIR)"

uninstall:
	@tools/uninstall "$(PREFIX)" "$(DESTDIR)"

bench:
	@tests/compare bench

fuzz:
	@tests/compare fuzz $(SECONDS)

overtaking:
	@tests/compare overtaking

spin:
	@tests/spin/check

fmt:
	@tools/need rt
	@for crate in $$(tools/crates); do (cd crates/$$crate && rt fmt) || exit 1; done
