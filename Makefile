# Balluchaw: `make run` and `make test` do everything on a fresh machine with the Rattle kit; each installs what else it needs and says so.
PREFIX ?= /usr/local
CC ?= cc
CFLAGS ?= -O2 -Wall -Wextra -Werror
CARGO = CARGO_TARGET_DIR=build/reference cargo
REFERENCE = build/reference/release
ARCHIVE = target/staticlib/libballuchaw.a

PROGRAM = target/bin/console

.PHONY: all run test tests test-reference test-program test-vectors test-kit test-differential fuzz bench install install-program uninstall clean need reference archive program

all: archive program

NEED = cargo:cargo cc:gcc valgrind:valgrind pkg-config:pkg-config clang:clang \
	'/usr/lib/llvm-*/lib/clang/*/lib/linux/libclang_rt.fuzzer-x86_64.a:libclang-rt-dev'

need:
	@scripts/need $(NEED)

# A class needs no more than this and the program.
reference:
	@scripts/need cargo:cargo cc:gcc python3:python3
	@mkdir -p build
	@$(CARGO) build --quiet --release --offline --manifest-path reference/Cargo.toml

SOURCES := crates.txt $(shell find crates -name out -prune -o \( -name '*.rt' -o -name '*.antt' \) -print)

archive: $(ARCHIVE)

$(ARCHIVE): $(SOURCES)
	cd crates/balluchaw && rt lib
	@mkdir -p $(@D) && cp crates/balluchaw/out/libballuchaw.a $@

program: $(PROGRAM)

# One prover at a time: the archive comes first. rt builds a program to run it, here on no lines.
$(PROGRAM): $(SOURCES) | $(ARCHIVE)
	cd crates/console && rt run </dev/null
	@mkdir -p $(@D) && cp crates/console/out/console $@

# Document 01's full run, by the program; the first time it is proved before.
run: program
	@mkdir -p build
	@$(PROGRAM) < examples/full-run.txt | tee build/full-run.out
	@diff examples/full-run.out build/full-run.out && echo "as document 01 has it"

# What takes a second, then rt ci, the proofs and every wrong program, then every test, on what was proved. The last line is rt ci's own, and comes only if all passed.
test: bench-need
	@$(MAKE) --no-print-directory auditor
	@scripts/prove
	@$(MAKE) --no-print-directory tests
	@tail -n 1 build/ci.log

# Every test but the proofs, two at a time. Each says in a line what it did.
tests: bench-need reference archive program
	@$(MAKE) --no-print-directory --jobs=2 --output-sync=target test-differential fuzz test-reference test-program test-vectors test-kit auditor lesson bench-smoke

# The reference's own tests, and document 01's full run on its program.
test-reference: reference
	@$(CARGO) test --quiet --release --offline --manifest-path reference/Cargo.toml >build/test-reference.log 2>&1 || { cat build/test-reference.log; exit 1; }
	@$(REFERENCE)/console < examples/full-run.txt | diff examples/full-run.out -
	@echo "reference: $$(grep -c '^test result: ok' build/test-reference.log) files of tests passed; document 01's full run as it stands there"

# The program beside the reference program: stored runs, and scripts of valid, refused and malformed lines.
test-program: reference program
	@scripts/compare $(PROGRAM) $(REFERENCE) 60

# Answers and bytes that the reference recorded, from the archive; some of them again with valgrind watching.
test-vectors: need reference build/vectors
	@$(REFERENCE)/vectors 20000 | build/vectors
	@$(REFERENCE)/vectors 2100 | valgrind --quiet --error-exitcode=9 build/vectors heap

build/vectors: tests/c/vectors.c tests/c/zone.h include/balluchaw.h $(ARCHIVE)
	@mkdir -p build
	@$(CC) $(CFLAGS) -g -Iinclude tests/c/vectors.c $(ARCHIVE) -o $@

# The archive beside the reference on more than a million calls; then with faults planted, each of which must be found.
# SEED chooses other calls; TESTS=long does a hundred times as much.
test-differential: need build/vectors
	@CARGO_TARGET_DIR=build/differential cargo build --quiet --release --offline --manifest-path tests/differential/Cargo.toml
	@build/differential/release/differential
	@build/differential/release/differential faults

# The calls on inputs that a fuzzer makes up, for FUZZ seconds; faults planted before that must be found.
FUZZ ?= 30
fuzz: need $(ARCHIVE)
	@tests/fuzz/run.sh $(FUZZ)

# The example, then the kit as it is installed.
test-kit: need reference $(ARCHIVE)
	@mkdir -p build
	@$(CC) -std=c11 $(CFLAGS) -Iinclude examples/gateway.c $(ARCHIVE) -o build/gateway
	@build/gateway build/orders.table | diff examples/gateway.out -
	@echo "gateway: printed what examples/gateway.out has"
	@CC='$(CC)' tests/install.sh

# The benchmark, see bench/README.md: the archive's calls beside other programs, in one process; then the stack of each call and what the archive takes from
# elsewhere. Figures go to bench/results. The databases' files stand in a directory of their own in SCRATCH, which should be in memory.
SCRATCH ?= $(if $(wildcard /dev/shm/.),/dev/shm,build)
IN_SCRATCH = scratch=$$(mktemp -d $(SCRATCH)/balluchaw-XXXXXX) && trap 'rm -rf "$$scratch"' EXIT
PEER_CC := $(or $(shell command -v clang),$(CC))
PEER_FLAGS = -O3 -march=native
PEERS = build/peers/release/libpeers.a
BENCH_C = $(addprefix bench/,bench.c timing.c scene.c report.c archive.c paths.c plain.c sqlite.c lmdb.c)
PEERS_O = build/check.o build/tuned.o build/descent.o
BENCH_H = $(wildcard bench/*.h bench/peers/*.h bench/rust/*.h) include/balluchaw.h
.PHONY: bench-need bench-build bench-smoke bench-count bench-worst bench-turns bench-versions

# With what the other tests need, so that whatever is missing is said at once.
bench-need:
	@scripts/need $(NEED) sqlite3.h:libsqlite3-dev lmdb.h:liblmdb-dev python3:python3 nm:binutils

bench-build: bench-need archive
	@mkdir -p build bench/results
	@CARGO_TARGET_DIR=build/peers cargo build --quiet --release --offline --manifest-path bench/rust/Cargo.toml
	@$(MAKE) --no-print-directory build/bench build/stack build/worst

build/check.o: bench/peers/check.c $(BENCH_H)
	$(PEER_CC) $(PEER_FLAGS) -c $< -o $@

build/tuned.o: bench/peers/check.c $(BENCH_H)
	$(PEER_CC) $(PEER_FLAGS) -DTUNED -Dcheck_plain=check_tuned -c $< -o $@

build/descent.o: bench/peers/descent.c $(BENCH_H)
	$(PEER_CC) $(PEER_FLAGS) -c $< -o $@

build/bench: $(BENCH_C) $(BENCH_H) $(PEERS_O) $(ARCHIVE) $(PEERS)
	$(CC) $(CFLAGS) -Iinclude -Ibench -DPEERS_BY='"$(shell $(PEER_CC) --version | head -n 1), $(PEER_FLAGS)"' $(BENCH_C) $(PEERS_O) \
		$(ARCHIVE) $(PEERS) -lsqlite3 -llmdb -lpthread -ldl -lm -o $@

build/stack: bench/stack.c $(BENCH_H) $(ARCHIVE) $(PEERS)
	$(CC) $(CFLAGS) -Iinclude -Ibench bench/stack.c $(ARCHIVE) $(PEERS) -lpthread -ldl -lm -o $@

bench: bench-build
	@$(IN_SCRATCH) && build/bench $$scratch bench/results
	@(build/stack && bench/undefined $(ARCHIVE)) > build/stack.out; status=$$?; cat build/stack.out; exit $$status
	@(echo; cat build/stack.out) >> bench/results/results.txt
	@python3 bench/plot.py bench/results

# The calls' instructions, by callgrind: they do not depend on what else the machine does. It does not know every instruction of the machine at hand, so the
# descent in C is compiled without those.
COUNTED = build/check.o build/tuned.o build/descent-counted.o
build/descent-counted.o: bench/peers/descent.c $(BENCH_H)
	$(PEER_CC) -O3 -c $< -o $@

build/count: bench/count.c $(BENCH_C) $(BENCH_H) $(COUNTED) $(ARCHIVE) $(PEERS)
	$(CC) $(CFLAGS) -Iinclude -Ibench bench/count.c bench/scene.c bench/archive.c $(COUNTED) $(ARCHIVE) $(PEERS) -lpthread -ldl -lm -o $@

bench-count: bench-build
	@$(MAKE) --no-print-directory build/count
	@rm -rf build/dumps && mkdir -p build/dumps
	@valgrind --quiet --tool=callgrind --instr-atstart=no --callgrind-out-file=build/dumps/out build/count
	@python3 bench/count.py build/dumps | tee bench/results/instructions.txt

# The calls on tables that were made to be slow; one call each, some two minutes in all.
build/worst: bench/worst.c bench/peers/common.h include/balluchaw.h $(ARCHIVE)
	@mkdir -p build
	$(CC) $(CFLAGS) -Iinclude -Ibench bench/worst.c $(ARCHIVE) -o $@

bench-worst: need archive
	@$(MAKE) --no-print-directory build/worst
	@build/worst > build/worst.out && cat build/worst.out && cp build/worst.out bench/results/worst.txt

# This archive's calls beside the same calls of an archive before it, in one process, taking turns. BEFORE is a folder of the project as it was, with its
# archive built. On both sides each function starts at a multiple of 64 bytes: where its loops lie can make more than the change does. Linked in both
# orders: the side that comes second may be slower by some hundredths for that alone. Each side is compiled with its own header, so it may be from before A.6
# gave the calls a version and a price. It may be from before A.4 made enter and amend of put, too: its archive.c has archive_put, of a free key, and
# archive_replace, a put of a held one, which are what enter and amend are to be compared with, so they get those names.
define SIDE
@$(CC) $(CFLAGS) -I$(2)/include -I$(2)/bench -c $(2)/bench/archive.c -o build/$(1)-calls.o
@ld -r build/$(1)-calls.o $(2)/$(ARCHIVE) -o build/$(1).o
@nm build/$(1).o | sed -n 's/.* T archive_\(.*\)/archive_\1 $(1)_\1/p' | sed 's/_put$$/_enter/; s/_replace$$/_amend/' > build/$(1).names
@objcopy --set-section-alignment '.text*=64' --redefine-syms=build/$(1).names --wildcard --localize-symbol='balluchaw_*' --localize-symbol='check_in_*' \
	--localize-symbol='descent_in_*' build/$(1).o
endef
TURNS = bench/turns.c bench/sides.c bench/timing.c bench/scene.c
TURNED = $(PEERS_O) $(ARCHIVE) $(PEERS) -lpthread -ldl -lm

bench-turns: bench-build
	@test -f '$(BEFORE)/$(ARCHIVE)' || { echo "make bench-turns BEFORE=folder, of the project as it was before, where make archive was done"; exit 2; }
	$(call SIDE,now,.)
	$(call SIDE,before,$(BEFORE))
	@$(CC) $(CFLAGS) -Iinclude -Ibench $(TURNS) build/before.o build/now.o $(TURNED) -o build/turns && echo "now linked second:" && build/turns $(ROUNDS)
	@$(CC) $(CFLAGS) -Iinclude -Ibench $(TURNS) build/now.o build/before.o $(TURNED) -o build/turns && echo "now linked first:" && build/turns $(ROUNDS)

# The calls on tables of version 2 beside those on tables of version 1 with the same orders, by this archive, in one process, taking turns.
VERSIONS = bench/versions.c bench/sides.c bench/timing.c bench/scene.c bench/archive.c
build/versions: $(VERSIONS) $(BENCH_H) $(PEERS_O) $(ARCHIVE) $(PEERS)
	$(CC) $(CFLAGS) -Iinclude -Ibench $(VERSIONS) $(TURNED) -o $@

bench-versions: bench-build
	@$(MAKE) --no-print-directory build/versions
	@bash -o pipefail -c 'build/versions $(ROUNDS) | tee build/versions.out' && cp build/versions.out bench/results/versions.txt

# One small table, three rounds: are all answers right, and the bytes as before after each change? Are the descents on more tables those of the C, path
# and all? Are the slow tables tables, and are README's figures those of the results?
bench-smoke: bench-build
	@$(IN_SCRATCH) && { build/bench $$scratch > build/bench-smoke.out || { cat build/bench-smoke.out; exit 1; }; }
	@tail -n 1 build/bench-smoke.out
	@$(MAKE) --no-print-directory bench-turns BEFORE=. ROUNDS=1 > build/turns-smoke.out && echo "two archives in turns: $$(grep -c '^[a-z].* γ ' build/turns-smoke.out) rows, all answers right"
	@$(MAKE) --no-print-directory build/versions > build/versions-build.out && build/versions 1 > build/versions-smoke.out && echo "two versions in turns: $$(grep -c '^[a-z].* γ ' build/versions-smoke.out) rows, all answers right"
	@$(MAKE) --no-print-directory build/count > build/count-smoke.out && build/stack > build/stack-smoke.out && build/count && echo "calls on a painted stack and calls to count: all answers right"
	@build/worst 4096 > build/worst-smoke.out && echo "slow tables: $$(tail -n +3 build/worst-smoke.out | wc -l) are tables, and an enter into each gives its bytes"
	@python3 bench/table.py bench/results README.md
	@bench/undefined $(ARCHIVE)

# The kit: what a gateway's programmer needs. uninstall takes away exactly what install puts in place.
TO = $(DESTDIR)$(PREFIX)

install: archive install-program
	install -d $(TO)/lib/pkgconfig $(TO)/include $(TO)/share/man/man3
	install -m 644 $(ARCHIVE) $(TO)/lib/
	install -m 644 include/balluchaw.h $(TO)/include/
	sed 's|@PREFIX@|$(PREFIX)|' balluchaw.pc.in > $(TO)/lib/pkgconfig/balluchaw.pc
	install -m 644 man/balluchaw.3 $(TO)/share/man/man3/

install-program: program
	install -d $(TO)/bin $(TO)/share/man/man1
	install -m 755 $(PROGRAM) $(TO)/bin/balluchaw
	install -m 644 man/balluchaw.1 $(TO)/share/man/man1/

uninstall:
	rm -f $(TO)/lib/libballuchaw.a $(TO)/include/balluchaw.h $(TO)/lib/pkgconfig/balluchaw.pc $(TO)/share/man/man3/balluchaw.3
	rm -f $(TO)/bin/balluchaw $(TO)/share/man/man1/balluchaw.1

clean:
	rm -rf build target crates/*/out

# ---- documents --------------------------------------------------------------
.PHONY: pictures lesson auditor

# Has docs/AUDIT.md all files that the promises rest on, and no other?
auditor:
	@scripts/need python3:python3
	@scripts/auditor

# All pictures again, each from a run through the program.
pictures: reference
	@scripts/need python3:python3
	scripts/pictures pictures

# docs/class.md and docs/format.md, each followed in a fresh folder as a reader does; then examples/reader.py and the stored pictures.
lesson: reference program
	@scripts/need python3:python3
	@scripts/lesson
	@scripts/try-reader
	@rm -rf build/pictures
	@PROGRAM=$(PROGRAM) scripts/pictures build/pictures
	@diff -r pictures build/pictures && echo "pictures: as stored"
