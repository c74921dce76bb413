.PHONY: test run statements rules edits fmt clean lib install ctest soak fuzz bench

# The gate: everything that must hold.
test:
	@python3 tools/gate.py

# Shows what a script comes to, the white-reference fetch or another: make run SCRIPT=examples/settings.txt
SCRIPT = examples/white_reference.txt

run:
	@echo 'plan is not proved here; make test proves it.' >&2
	@cd crates/plan && rt try <$(abspath $(SCRIPT))

# Writes down what is stated, a line for each public call, promised theorem and definition: docs/STATEMENTS.txt.
statements:
	@python3 tools/statements.py --write

# The rules alone, and the tests of the tools.
rules:
	python3 -m unittest discover -s tools/tests
	python3 tools/rules.py

# The edits that must be refused, all or some: make edits ONLY=sitankulo, make edits ONLY='list/end_always list/stop_first'
ONLY =

edits:
	@python3 tools/edits.py $(ONLY)

# The library for C on the machine at hand.
LIBRARY = target/library/libsitankulo.a
LIBRARY_SOURCES = crates.txt include/sitankulo.h tools/library.py tools/library_clang $(shell find crates -name '*.rt' -o -name '*.antt')

lib: $(LIBRARY)

$(LIBRARY): $(LIBRARY_SOURCES)
	@echo 'Proving and building the library; where it is not proved yet, this takes some minutes.' >&2
	@python3 tools/library.py

# Installs library, header and pkg-config file: make install PREFIX=/opt/printer
PREFIX = /usr/local

install:
	@python3 tools/library.py install $(PREFIX)

# Tests of the C calls: plainly, with sanitizers, under valgrind; the header by itself; the example.
ctest: lib
	@$(MAKE) --no-print-directory -C host/c test

# The C calls against the Rust original, for at most so many seconds: make soak COUNT=300000 SEED=1
COUNT = 10000000
SECONDS = 1200
SEED =

soak: lib
	@$(MAKE) --no-print-directory -C host/c soak COUNT=$(COUNT) SECONDS=$(SECONDS) SEED=$(SEED)

# The C calls on inputs that libFuzzer makes up, against the Rust original: make fuzz SECONDS=600 SEED=1
fuzz: SECONDS = 60
fuzz: lib
	@python3 host/fuzz/fuzz.py $(SECONDS) $(SEED)

# Instructions of the C calls and of the Rust original, counted by callgrind.
bench: lib
	@$(MAKE) --no-print-directory -C host/bench

fmt:
	@for crate in crates/*; do (cd $$crate && rt fmt) || exit; done

clean:
	rm -rf target crates/*/out host/*/target tools/__pycache__
