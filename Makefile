# board: an emulated MIPS32 board for real-time software, proved. `make demo`, `make check`, `make compare`, `make
# qemu`, `make fuzz` and `make firmware` need no toolchain; all else needs Rattle's `rt`.
BOARD = build/board

# The crates whose wrong bodies `make attack` tries (none: all), as in `make attack CRATES="brd_exec brd_isa"`.
CRATES =

# How many random boards `make compare` tries, and the first one's seed.
BOARDS = 2000
SEED = 1

# How many inputs `make fuzz` tries, from the seed SEED on.
INPUTS = 5000

# Where `make install` puts the program and the kit for C, below DESTDIR, and the file that `make package` makes.
PREFIX = /usr/local
DESTDIR =
PACKAGE = build/board.deb

.PHONY: unpack demo sheet check board dist test attack compare qemu fuzz firmware gate-times bench bench-parts install \
    uninstall package clean

# Runs the examples on the program of dist/.
demo: unpack
	examples/demo $(BOARD)

# All tests that need no toolchain, on the program of dist/: 'N passed, M failed, K skipped'. What needs a tool that is
# missing is skipped, and says so.
check: unpack
	tests/gate/commands --without-toolchain $(BOARD)

# A sheet of one page with registers, calls, answers and commands, for printing: build/sheet.html.
sheet:
	mkdir -p build
	page/sheet build/sheet.html

# Unpacks the program of dist/ to build/board.
unpack:
	mkdir -p build
	gunzip -c dist/board.gz > $(BOARD)
	chmod +x $(BOARD)
	sha256sum --check --quiet dist/board.sha256

# Proves what has changed, from nothing on a fresh clone, leaves the program at build/board, and says whether it is that
# of dist/.
board:
	cd crates/brd_cli && rt run -- words 0 </dev/null >/dev/null
	mkdir -p build
	rm -f $(BOARD)
	cp crates/brd_cli/out/brd_cli $(BOARD)
	tests/gate/dist --check $(BOARD)

# Puts the program that `make board` or `make test` left at build/board into dist/.
dist:
	tests/gate/dist --write $(BOARD)

# The whole gate: every proof, the wrong bodies of must-fail/, all tests and the command-line tests.
test:
	tests/run

# Every wrong body on a scratch copy: those of wrong/ too, which the prover has to refuse, and those of by-test/, of
# which a test has to fail. Each of the two ends in 'N refused .., M let through'.
attack:
	tests/gate/attack $(CRATES)
	tests/gate/attack_tests $(CRATES)

# Random boards beside a model in Python, which shares nothing with the program: BOARDS of them, from the seed SEED on.
compare: $(BOARD)
	tests/model/compare $(BOARD) --boards $(BOARDS) --seed $(SEED) --counts

# The same instructions on QEMU and on the board, in both byte orders. It wants Debian's package qemu-system-mips.
qemu: $(BOARD)
	tests/qemu/compare $(BOARD) --qemu

# Random and spoiled inputs of every command, also with memory refused or a stream that fails: INPUTS of them, from the
# seed SEED on. Those that end wrongly are kept in build/fuzz.
fuzz: $(BOARD)
	tests/programs/fuzz $(BOARD) --count $(INPUTS) --seed $(SEED) --counts

# Real code on the board: the tests of zlib, LZ4 and cJSON, from Debian's source packages.
firmware: $(BOARD)
	tests/programs/firmware $(BOARD)

$(BOARD):
	$(MAKE) demo

# The whole gate, and then the processor minutes of each part, which tests/gate/gate.table gets too if all passed.
gate-times:
	tests/gate/gate_time --write

# Speed, on this machine, of the program of dist/: of `debug` and of races in millions of events a second, of the steps
# of `gdb`, of `run` beside QEMU, in millions of instructions, of `explore` beside SPIN, in seconds.
bench: unpack
	tests/programs/debug_speed $(BOARD)
	tests/programs/gdb_speed $(BOARD)
	tests/programs/race_speed $(BOARD)
	tests/programs/speed_qemu $(BOARD)
	tests/programs/search_speed $(BOARD)

# The same of parts of the program, which want Rattle's `rt` and half an hour of proofs on a fresh clone.
bench-parts:
	cd crates/bench_board && rt run >/dev/null
	crates/bench_board/out/bench_board 100000000
	cd crates/bench_repeat && rt run >/dev/null
	crates/bench_repeat/out/bench_repeat 200000000
	cd crates/bench_lanes && rt run >/dev/null
	crates/bench_lanes/out/bench_lanes time
	cd crates/bench_config && rt run >/dev/null
	crates/bench_config/out/bench_config 1
	cd crates/bench_asm && rt run >/dev/null
	crates/bench_asm/out/bench_asm time
	cd crates/bench_elf && rt run >/dev/null
	crates/bench_elf/out/bench_elf time

# Installs the program of build/board, that of dist/ if there is none, the kit for C, examples, documents, pages of the
# manual, completions for bash and zsh, and files for pkg-config and CMake. It needs Python 3, and no toolchain.
install:
	[ -x $(BOARD) ] || $(MAKE) unpack
	install/install $(BOARD) '$(PREFIX)' '$(DESTDIR)'

# Removes all of it.
uninstall:
	install/uninstall '$(PREFIX)' '$(DESTDIR)'

# The same as a package of Debian, for `dpkg -i`.
package:
	[ -x $(BOARD) ] || $(MAKE) unpack
	install/package $(BOARD) '$(PACKAGE)'

clean:
	rm -rf build crates/*/out
