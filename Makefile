.PHONY: run test conformance benchmark benchmark-figures fmt libraries install

PREFIX = /usr/local

LIBRARIES = gfp_bench gfp_site gfp_keyholder
ROUNDS = 1

# The main job on an embedded sample: the printing program reads a key and a file and prints the file's mark.
run:
	@echo 'Proving the printing program and what it stands on first: a line a crate, some minutes in all; nothing the next time.' >&2
	@tools/program
	@printf '2000000000000027\nGauge 7, offset -0.0125 m\n' | target/bin/mark

# Proves every crate, tries the must-fail edits, runs the programs and compares the C interface with a second implementation. Its
# last line is "N passed, 0 failed".
test:
	@tools/test

# The static libraries for C and Rust, one a level, made anew where a file of a crate is newer.
libraries: target/staticlib/made

target/staticlib/made: crates.txt tools/libraries $(shell find crates -mindepth 2 -path 'crates/*/out' -prune -o -print)
	@echo 'Proving the libraries and what they stand on first: a line a crate, some minutes in all; less the next time.' >&2
	@tools/libraries

# The libraries, the header, the Rust wrapper, the printing program and the document that the header names, where a C or Rust project finds
# them.
install: libraries
	@echo 'Proving the printing program: a line a crate.' >&2
	@tools/program
	@mkdir -p $(PREFIX)/lib/pkgconfig $(PREFIX)/include $(PREFIX)/bin $(PREFIX)/share/gfp $(PREFIX)/share/doc/gfp
	@cp $(LIBRARIES:%=target/staticlib/lib%.a) $(PREFIX)/lib/
	@cp include/gfp.h $(PREFIX)/include/
	@cp bindings/rust/gfp.rs $(PREFIX)/share/gfp/
	@cp docs/SECURITY.md $(PREFIX)/share/doc/gfp/
	@cp target/bin/mark $(PREFIX)/bin/
	@sed 's,@PREFIX@,$(PREFIX),' tools/gfp.pc.in > $(PREFIX)/lib/pkgconfig/gfp.pc
	@echo 'Installed in $(PREFIX): lib, include, bin, share.' >&2

# The C interface against a second implementation in Rust. More rounds compare more: make conformance ROUNDS=20
conformance: libraries
	@mkdir -p target/conformance
	@rustc --edition 2021 -O conformance/main.rs -o target/conformance/conformance -L target/staticlib $(LIBRARIES:%=-l static=%)
	@target/conformance/conformance $(ROUNDS)

# Ours beside the peers, in one run; the picture of feeding goes to target/benchmark/feeding.svg. The peers are Debian packages:
# libntl-dev libflint-dev libpari-dev golang-go golang-github-restic-chunker-dev zlib1g-dev liblzma-dev libssl-dev
# C's functions begin at multiples of 64: else the time of C's table depends on where the linker puts it.
BENCHMARK = target/benchmark
# The header, the libraries and the printing program that are measured: this tree's, or those of another one, down to GFP_INTERFACE 4
# (benchmark/calls.h): make benchmark HEADER=../before/include BUILT=../before/target/staticlib PROGRAM=../before/target/bin/mark
HEADER = include
BUILT = target/staticlib
PROGRAM =
benchmark: libraries
	@tools/archive gf2_measured
	@mkdir -p $(BENCHMARK)
	@cd benchmark && GO111MODULE=off GOPATH=/usr/share/gocode go build -buildmode=c-archive -o ../$(BENCHMARK)/librestic.a restic.go
	@gcc -O3 -falign-functions=64 -c benchmark/peers.c -o $(BENCHMARK)/peers.o
	@gcc -O3 -mpclmul -mavx -c benchmark/carryless.c -o $(BENCHMARK)/carryless.o
	@g++ -O3 -I$(BENCHMARK) -I$(HEADER) benchmark/*.cpp $(BENCHMARK)/peers.o $(BENCHMARK)/carryless.o \
		$(LIBRARIES:%=$(BUILT)/lib%.a) $(BUILT)/libgf2_measured.a $(BENCHMARK)/librestic.a \
		-lntl -lflint -lpari -lgmp -lz -llzma -lcrypto -lpthread -o $(BENCHMARK)/benchmark
	@$(BENCHMARK)/benchmark $(BENCHMARK)/feeding.svg
	@tools/benchmark-program $(PROGRAM)

# The picture of the latest run of the benchmark into the documents.
benchmark-figures:
	@cp $(BENCHMARK)/feeding.svg docs/feeding.svg

# Lays every .rt and .antt file out.
fmt:
	@for crate in crates/*/src; do (cd $$crate/.. && rt fmt) || exit; done
