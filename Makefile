# make help        these lines, as make alone
# make install     PREFIX=/usr/local DESTDIR=: the header, the archive, the shared library and isnemgul.pc
# make demo        a C program that links the archive
# make examples    the C++ program, and the Fortran one
# make rust        the tests of the Rust crate
# make compare     CASES=20000 SEED=1: the carried functions against the original Rust
# make second      CASES=20000 SEED=1: the additions against the second program
# make words       whether the refusals' words, the sizes and the version are the same wherever they stand
# make edits       whether docs/CONTRACTS.md and docs/COVERAGE.md name the must-fail edits that there are
# make installed   whether programs build and run with what make install writes
# make test        the gate: proves everything that no earlier run here has proved, and then makes demo to installed, and size
# make bench       BENCH=--instructions BEFORE=ARCHIVE: times beside the original's, or instructions; beside an earlier archive's
# make stack       the stack that each entry takes
# make size        the bytes that the archive loads, by section and by entry, and what a logger loads of it
# make programs    hexkids and hexvol, as target/bin/hexkids and target/bin/hexvol
# make sanitize    the C programs under sanitizers, and the Rust crate's tests under valgrind
# make clean       removes what was built
CASES ?= 20000
SEED ?= 1
PREFIX ?= /usr/local
ARCHIVE = target/staticlib/libisnemgul.a
STRICT = -Wall -Wextra -pedantic -O2
VERSION := $(shell sed -n 's/^.define ISN_VERSION "\(.*\)"$$/\1/p' include/isnemgul.h)
SONAME = libisnemgul.so.$(firstword $(subst ., ,$(VERSION)))
SHARED = target/shared/libisnemgul.so.$(VERSION)

# The archive is for x86-64. On another machine tools/x86-64 makes and runs what links it.
ifneq ($(shell uname -m),x86_64)
VIA = tools/x86-64
endif

.PHONY: help demo test compare second words edits install installed clean

help:
	@sed -n '/^#/!q; s/^# //p' Makefile

$(ARCHIVE): crates.txt $(shell find crates -name out -prune -o \( -name '*.rt' -o -name '*.antt' \) -print)
	@tools/archive

# It exports the functions of the C face and nothing else.
$(SHARED): $(ARCHIVE) tools/isnemgul.map include/isnemgul.h
	mkdir -p $(@D)
	$(VIA) cc -shared -Wl,--whole-archive $(ARCHIVE) -Wl,--no-whole-archive -Wl,-soname,$(SONAME) -Wl,-z,defs \
	    -Wl,--version-script,tools/isnemgul.map -o $@

target/demo/demo: demo/demo.c include/isnemgul.h $(ARCHIVE)
	mkdir -p $(@D)
	$(VIA) cc -std=c99 $(STRICT) -Iinclude demo/demo.c $(ARCHIVE) -o $@

demo: target/demo/demo
	$(VIA) target/demo/demo

# Packagers set DESTDIR: the files go below it, and are for PREFIX all the same.
TO = $(DESTDIR)$(PREFIX)

install: $(ARCHIVE) $(SHARED)
	@case '$(PREFIX)' in /*) ;; *) echo "make install: PREFIX=$(PREFIX) does not begin with /" >&2; exit 2 ;; esac
	install -d '$(TO)/include' '$(TO)/lib/pkgconfig'
	install -m 644 include/isnemgul.h '$(TO)/include'
	install -m 644 $(ARCHIVE) '$(TO)/lib'
	install -m 755 $(SHARED) '$(TO)/lib'
	ln -sf $(notdir $(SHARED)) '$(TO)/lib/$(SONAME)'
	ln -sf $(SONAME) '$(TO)/lib/libisnemgul.so'
	sed 's|@PREFIX@|$(PREFIX)|; s|@VERSION@|$(VERSION)|' tools/isnemgul.pc.in >target/shared/isnemgul.pc
	install -m 644 target/shared/isnemgul.pc '$(TO)/lib/pkgconfig'

installed: target/demo/demo $(SHARED)
	VIA='$(VIA)' tools/installed

test:
	.ci/run

words: $(ARCHIVE)
	mkdir -p target/words
	$(VIA) cc -std=c99 $(STRICT) -Iinclude tools/words.c $(ARCHIVE) -o target/words/words
	$(VIA) target/words/words | tools/words

edits:
	tools/edits

clean:
	rm -rf target crates/*/out bench/target bindings/rust/target oracle/target

# The carried functions against the original Rust, and the additions against an independent second program in Python: both write cases with their
# answers, and the driver calls the archive and compares.
DRIVE = target/oracle/drive

$(DRIVE): oracle/drive.c include/isnemgul.h $(ARCHIVE)
	mkdir -p target/oracle
	$(VIA) cc -std=c99 $(STRICT) -Iinclude oracle/drive.c $(ARCHIVE) -o $(DRIVE)

compare: $(DRIVE)
	cargo run --release --offline --quiet --manifest-path oracle/cases/Cargo.toml --bin stream -- --cases $(CASES) --seed $(SEED) | $(VIA) $(DRIVE)

second: $(DRIVE)
	python3 oracle/second/second.py --cases $(CASES) --seed $(SEED) | $(VIA) $(DRIVE)

PROGRAMS = hexkids hexvol

programs:
	@tools/programs $(PROGRAMS)

.PHONY: programs examples rust bench size stack sanitize native

native:
	@[ -z "$(VIA)" ] || { echo "make $(MAKECMDGOALS): on x86-64 only: in an emulator times mean nothing, and valgrind and the sanitizers do not run" >&2; exit 2; }

# The C++ program, and the Fortran one where there is a compiler for it.
examples: $(ARCHIVE)
	mkdir -p target/demo
	$(VIA) c++ -std=c++11 $(STRICT) -Iinclude demo/demo.cpp $(ARCHIVE) -o target/demo/demo-cpp
	$(VIA) target/demo/demo-cpp
	@if $(VIA) gfortran --version >/dev/null 2>&1; then set -ex; \
	    $(VIA) gfortran -std=f2008 $(STRICT) -J target/demo demo/demo.f90 $(ARCHIVE) -o target/demo/demo-f90; \
	    $(VIA) target/demo/demo-f90; \
	else echo "demo/demo.f90 is skipped: there is no gfortran for x86-64"; fi

# The crate's tests; where there is no Rust for x86-64, only whether they compile.
rust: $(ARCHIVE)
	@if $(VIA) cargo --version >/dev/null; then set -x; $(VIA) cargo test --offline --quiet --manifest-path bindings/rust/Cargo.toml; \
	else set -x; cargo check --tests --offline --quiet --manifest-path bindings/rust/Cargo.toml; fi

# BENCH=--instructions counts instructions by valgrind; BENCH="--only check --rounds 2001" times some rows longer. BEFORE=ARCHIVE has rows against
# an earlier archive too.
bench: native $(ARCHIVE)
	ISNEMGUL_BEFORE='$(abspath $(BEFORE))' cargo run --release --offline --quiet --manifest-path bench/Cargo.toml -- $(BENCH)

# It fails where the old table of masks stands in the archive.
size: $(ARCHIVE)
	bench/size --logger $(ARCHIVE)

# The stack that each entry and both programs take.
stack: $(ARCHIVE)
	mkdir -p target/bench
	$(VIA) cc -std=gnu99 $(STRICT) -Iinclude bench/stack.c $(ARCHIVE) -o target/bench/stack
	$(VIA) target/bench/stack
	@$(VIA) target/bench/stack --file >target/bench/full.hxm
	@set -e; for name in $(PROGRAMS); do \
	    if [ -n "$(VIA)" ]; then echo "$$name is skipped: the emulator has a stack of its own"; \
	    elif [ -x target/bin/$$name ]; then bench/least-stack target/bin/$$name target/bench/full.hxm; \
	    else echo "$$name is skipped: make programs builds it"; fi; \
	done

# The C programs under the address and undefined-behaviour sanitizers. These see the programs and what they lend, not inside the archive: there valgrind
# looks, with the Rust tests, whose lists are allocated to the element, and with both programs on a good, a full, a cut, an empty and a foreign file.
VALGRIND = valgrind --quiet --error-exitcode=99
SANITIZED = -g -O1 -Wall -Wextra -pedantic -fsanitize=address,undefined -fno-sanitize-recover=all -Iinclude

sanitize: native $(ARCHIVE)
	mkdir -p target/sanitize target/bench
	cc -std=c99 $(SANITIZED) oracle/drive.c $(ARCHIVE) -o target/sanitize/drive
	python3 oracle/second/second.py --cases $(CASES) --seed $(SEED) | target/sanitize/drive
	cargo run --release --offline --quiet --manifest-path oracle/cases/Cargo.toml --bin stream -- --cases $(CASES) --seed $(SEED) | target/sanitize/drive
	cc -std=c99 $(SANITIZED) demo/demo.c $(ARCHIVE) -o target/sanitize/demo
	target/sanitize/demo >/dev/null
	c++ -std=c++11 $(SANITIZED) demo/demo.cpp $(ARCHIVE) -o target/sanitize/demo-cpp
	target/sanitize/demo-cpp >/dev/null
	CARGO_TARGET_X86_64_UNKNOWN_LINUX_GNU_RUNNER="$(VALGRIND)" \
	    cargo test --offline --quiet --tests --manifest-path bindings/rust/Cargo.toml -- --test-threads 1
	cc -std=gnu99 $(STRICT) -Iinclude bench/stack.c $(ARCHIVE) -o target/bench/stack
	target/bench/stack --file >target/sanitize/full
	cd target/sanitize && head -c 20000 full >cut && cat full full >long && : >empty
	@set -e; for name in $(PROGRAMS); do \
	    if [ -x target/bin/$$name ]; then \
	        for file in crates/$$name/stdin $(addprefix target/sanitize/,full cut long empty drive); do \
	            (set -x; $(VALGRIND) target/bin/$$name <$$file >/dev/null); \
	        done; \
	    else echo "$$name is skipped: make programs builds it"; fi; \
	done
