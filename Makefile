# The two commands of the README are demo and test. Everything else serves them.
CARGO = cargo --quiet
HOST = $(CARGO) run --release --offline --manifest-path host/Cargo.toml --bin
BOARD = $(CARGO) run --release --offline --manifest-path host/Cargo.toml -p mullirim-board --bin
FILES = $(CARGO) run --release --offline --manifest-path host/Cargo.toml -p mullirim-files --bin
SOURCES := crates.txt $(shell find crates -name out -prune -o \( -name '*.rt' -o -name '*.antt' \) -print)

CHECKED = -std=c11 -g -O1 -Wall -Wextra -DCHECKED -fsanitize=address,undefined -fno-sanitize-recover=all -Iinclude

.PHONY: test quick demo tool soak bench inputs expected host layout library example differ suffixes bundles faults replay checked listed
.PHONY: said quoted stored names stock setup beside memory

# The gate: the second loader's own tests, the stored outputs against it, the calls for C and Rust, then every proof, every edit that
# must fail and every program. The last line is the prover's own count.
test: names host expected layout example memory differ suffixes bundles faults replay checked listed quoted stock
	tools/gate

# What a change needs while one is at it: the crates that changed since main was left (on main: since its last commit) with what they
# stand on, the host's tests, and the names. It isn't the gate: crates above those, edits and comparisons are left out.
quick:
	@base=$$(git merge-base HEAD main 2>/dev/null || git merge-base HEAD origin/main 2>/dev/null || git rev-parse HEAD) && \
	crates=$$({ git diff --name-only $$base -- crates && git ls-files --others --exclude-standard -- crates && \
	    git diff $$base -- crates.txt | sed -n 's,^+\([a-z0-9_]*\)[^:]*:.*,crates/\1/,p'; } | cut -d/ -f2 | sort -u) && \
	there=$$(for crate in $$crates; do if [ -d crates/$$crate ]; then echo $$crate; fi; done) && \
	for crate in $$there; do echo rt check of $$crate && (cd crates/$$crate && rt check) || exit 1; done && \
	if [ -z "$$there" ]; then echo "No crate has changed since $$(git rev-parse --short $$base)."; fi && \
	$(MAKE) --no-print-directory host names && \
	echo "Ran: rt check of" $${there:-no crate}", the host's tests, the names. Before a merge: make test."

host: build/libboard.a
	$(CARGO) test --quiet --release --offline --workspace --manifest-path host/Cargo.toml

# The inputs that the program which lists bundles is tried with. What it must write for each is stored in tests/listed.
inputs:
	rm -rf build/listed
	$(HOST) bundle_cases -- build/listed

# What the programs are held to was computed by the second implementations, and still is what they compute.
expected: inputs
	$(HOST) vectors | cmp - crates/vectors/stdout
	$(HOST) script -- session | cmp - crates/play/stdin
	$(HOST) play < crates/play/stdin | cmp - crates/play/stdout
	$(HOST) script -- desk | cmp - crates/desk/stdin
	$(HOST) play < crates/desk/stdin | cmp - crates/desk/stdout
	tools/listed $(HOST) bundle_list
	cmp build/listed/thirty_two.in crates/bundle_list/stdin
	cmp tests/listed/thirty_two.out crates/bundle_list/stdout

# The C headers' structs lie as those in Rust; compiling is the test.
layout:
	@mkdir -p build
	$(HOST) layout > build/layout.inc
	$(CC) -std=c11 -Wall -Wextra -Werror -Iinclude -Ibuild -fsyntax-only tests/layout.c examples/board.c

# The calls for C, proved and compiled: as they ship, and under the sanitizer's eyes. The tool makes the other archives of build/ beside the
# one that stands for them all here.
library: build/libboard.a

build/libboard.a: $(SOURCES) tools/library
	tools/library

# The board in forty lines, on the library as it ships. What it must print is what the second loader makes of the same transfers.
example: build/libboard.a
	tools/shipped board build/example examples/board.c
	build/example > build/example.out
	$(HOST) example | cmp - build/example.out

# The proved loader beside the second one, call by call, over every split of small flashes and many of large ones; stops by itself. `soak`
# goes on until it is stopped.
differ: build/libboard.a
	$(BOARD) differ > build/differ.said || { cat build/differ.said; false; }
	@cat build/differ.said

soak: build/libboard.a
	$(BOARD) differ -- --soak --seed $$(date +%s)

# The proved reader and writer of the suffix beside the second ones, file by file.
suffixes: build/libboard.a
	$(FILES) suffixes > build/suffixes.said || { cat build/suffixes.said; false; }
	@cat build/suffixes.said

# The same for bundles.
bundles: build/libboard.a
	$(FILES) bundles > build/bundles.said || { cat build/bundles.said; false; }
	@cat build/bundles.said

# The proved calls beside plain Rust and zlib, and the memory that they take. Figures are for docs/PERFORMANCE.md; times are tested nowhere.
bench: build/libboard.a
	@$(BOARD) bench
	@$(MAKE) --no-print-directory memory

# The bytes of a session, of the stack and of the code; fails where a call takes more stack than the header says, or a sum is wrong.
memory: build/libboard.a
	@tools/memory

# Today's loader beside that of an earlier commit, many times in one program: make beside COMMIT=... (ARGS=--all). The same holds for it.
beside: build/libboard.a
	@tools/beside $(COMMIT) $(ARGS)

# The comparisons find what they are there to find.
faults: build/libboard.a
	tools/faults > build/faults.said
	@cat build/faults.said

# The same kind of histories and files from C, on the libraries as they ship, each buffer beside pages that trap. So many histories go over
# every split of small flashes too.
replay: build/libboard.a
	tools/shipped board build/replay tests/replay.c
	$(HOST) record -- 20261116 2700 | build/replay > build/replay.said || { cat build/replay.said; false; }
	tools/shipped files build/replay_files tests/replay_files.c
	$(HOST) record_files -- 20261116 20000 | build/replay_files >> build/replay.said || { cat build/replay.said; false; }
	@cat build/replay.said

# And under AddressSanitizer and UndefinedBehaviorSanitizer, which must speak up where a board breaks its word.
checked: build/libboard.a
	$(CC) $(CHECKED) examples/board.c build/checked/libboard.a -o build/checked/example
	build/checked/example > build/checked/example.out
	$(HOST) example | cmp - build/checked/example.out
	$(CC) $(CHECKED) tests/replay.c build/checked/libboard.a -o build/checked/replay
	$(HOST) record -- 20261117 400 | build/checked/replay > build/checked.said || { cat build/checked.said; false; }
	$(CC) $(CHECKED) tests/replay_files.c build/checked/libfiles.a -o build/checked/replay_files
	$(HOST) record_files -- 20261117 20000 | build/checked/replay_files >> build/checked.said || { cat build/checked.said; false; }
	@cat build/checked.said
	$(CC) $(CHECKED) tests/liar.c build/checked/libboard.a -o build/checked/liar
	! build/checked/liar read 2> build/checked/liar.said
	grep -q '^READ of size' build/checked/liar.said
	! build/checked/liar write 2> build/checked/liar.said
	grep -q '^WRITE of size' build/checked/liar.said

# The proved program that lists bundles, on every input.
listed: inputs
	cd crates/bundle_list && rt run < stdin | cmp - stdout
	tools/listed crates/bundle_list/out/bundle_list

# Stock dfu-util on the proved calls, by a stand-in for libusb, and the tool beside dfu-suffix. The gate goes on without where it is not
# installed, and says so.
test: STOCK = --or-skip
stock: tool
	@tools/stock $(STOCK)

# Installs what the tests use and this machine lacks, where that can be done, and says what is missing still.
setup:
	@tools/setup

# Every file, name and clause that the documents lead to is there.
names:
	tools/names

# The technician's tool over the proved calls, at build/mullirim. It takes its name when it is whole, also where the old one runs.
tool: build/libboard.a
	@$(CARGO) build --release --offline --manifest-path host/Cargo.toml -p mullirim-tool --target-dir host/target
	@cp host/target/release/mullirim build/mullirim.new.$$$$ && mv -f build/mullirim.new.$$$$ build/mullirim

# A technician's visit on a simulated board. ARGS holds its flags: make demo ARGS=--help
demo: tool
	@build/mullirim visit $(ARGS)

# What the visit and the comparisons say.
said: tool differ suffixes bundles faults replay checked
	build/mullirim visit > build/visit.said
	grep . build/visit.said > build/demo.said
	cat build/differ.said build/suffixes.said build/bundles.said build/faults.said build/replay.said build/checked.said > build/test.said

# docs/TRANSCRIPTS.md quotes it as it is (but for empty lines).
quoted: said
	sed -n '/^`make demo` prints/,/^`make test` prints/s/^    //p' docs/TRANSCRIPTS.md | cmp - build/demo.said
	! grep -n '@[A-Z]*@' README.md docs/*.md docs/landings/*.md
	sed -n '/^`make test` prints/,/^## /s/^    //p' docs/TRANSCRIPTS.md | cmp - build/test.said

# Writes anew what `expected` and `quoted` compare with: the programs' inputs and outputs, by the second implementations, and the
# transcripts.
stored: said inputs
	$(HOST) vectors > build/stored && mv build/stored crates/vectors/stdout
	$(HOST) script -- session > build/stored && mv build/stored crates/play/stdin
	$(HOST) play < crates/play/stdin > build/stored && mv build/stored crates/play/stdout
	$(HOST) script -- desk > build/stored && mv build/stored crates/desk/stdin
	$(HOST) play < crates/desk/stdin > build/stored && mv build/stored crates/desk/stdout
	rm -f tests/listed/*.out
	for input in build/listed/*.in; do \
	    $(HOST) bundle_list < $$input > tests/listed/$$(basename $$input .in).out || exit 1; done
	cp build/listed/thirty_two.in crates/bundle_list/stdin
	cp tests/listed/thirty_two.out crates/bundle_list/stdout
	awk '/^`make (demo|test)` prints/ { print; print ""; file = /^`make demo/ ? "build/visit.said" : "build/test.said"; \
	        while ((getline line < file) > 0) print line == "" ? "" : "    " line; print ""; skip = 1; next } \
	    skip && /^(    |$$)/ { next } { skip = 0; print }' docs/TRANSCRIPTS.md > build/stored && mv build/stored docs/TRANSCRIPTS.md
	@git --no-pager diff --stat -- crates tests/listed docs/TRANSCRIPTS.md
