# Builds and tests programs for the board. A project's Makefile says where the kit is, and reads this:
#
#   SDK = ../../sdk
#   include $(SDK)/board.mk
#
# A program is firmware.c, its configuration firmware.cfg, and journals with what the console has to show after each:
# NAME.journal, NAME.console. docs/C.md goes through all of it.
#
#   make                builds build/firmware.elf and build/firmware.cfg, and says what the board doesn't take
#   make test           runs each journal, and compares the console; lost output is a failure, too. EXPECT: what else is;
#                       STRICT=1: an exception, a refused call whose answer nobody looks at, a data race, a store below a
#                       stack and a board that is on in the end are; REPORT=junit.xml: writes that too
#   make ci             as a build server does: each journal with STRICT=1, its races and its stacks as tests of their
#                       own, and what all journals together execute of the project's files; leaves build/ci/tests.xml
#                       (JUnit) and build/ci/coverage.info (lcov), or in REPORTS in the place of build/ci. COVERAGE=80:
#                       fails if fewer than 80 of a hundred lines are executed
#   make accept         takes the consoles as they are for right, where no output was lost
#   make run            shows the report of JOURNAL (firmware.journal)
#   make debug          debugs JOURNAL with the names of C
#   make gdb            debugs JOURNAL with GDB, forward and backward
#   make gdb-server     leaves build/gdb-server, for `target remote | build/gdb-server` of a GDB that an editor starts
#                       (docs/IDE.md); PORT=3333: and serves it at that port of this machine, by socat or ncat
#   make trace          shows what happens under JOURNAL, with files and lines of C; TRACEFLAGS: `board trace`'s options
#   make races          shows the data races of JOURNAL, and fails where there is one
#   make page           leaves JOURNAL as a page for a browser, build/firmware.html
#   make cover          leaves which lines of the project all journals, or JOURNAL=.., execute, build/firmware.info
#   make stacks         shows how deep each stack became under JOURNAL, and fails where something was stored below one
#   make hunt           does the events of JOURNAL in TRIES other orders, and keeps the first that fails; TIME=60: in as
#                       many as there are seconds for
#   make explore        searches all schedules within bounds for one under which the test of JOURNAL fails; TIME=60:
#                       with more and more preemptions, and says after so many seconds what is known; THREADS=4: by 4
#                       threads; PLACES=1000000: all schedules, however many events and preemptions they have, and none
#                       from which none ends
#   make shrink         leaves events out of the schedule that was found, as long as it fails
#   make clean
#
# STACK_CHECK=1 with any of these: each function looks whether the stack has room for it. ORDER=little: the program is
# little-endian, and its journals are taken for it. LIBC=1: with the C library that sdk/libc has built.
#
# DATA = frames.bin: files whose bytes are linked into the program as they are.
#
# A project of several programs names them, PROGRAMS = meter scale: each has its meter.cfg, its sources, SOURCES_meter
# (meter.c if left out), its DATA_meter, and its tests, meter.journal and meter.*.journal. PROGRAM says which one is run,
# debugged or hunted.

# What others call so in the environment, as GNU time its format, isn't meant for this.
$(foreach it,TIME DATA COVERAGE REPORTS PORT THREADS,$(if $(filter environment,$(origin $(it))),$(eval override undefine $(it))))

PROGRAMS ?= firmware
PROGRAM ?= $(firstword $(PROGRAMS))
SOURCES ?= $(PROGRAM).c
DATA ?=
LIBS ?=
LIBC ?=
OPTIMIZE ?= -O2
HANDLER_STACK ?= 1024
STACK_CHECK ?=
ORDER ?= big
JOURNAL ?= $(PROGRAM).journal
TIME ?=
TRIES ?= 200
SEED ?= 1
EXPECT ?= console
MOVE ?= raises
JOBS ?= $(shell nproc 2> /dev/null || echo 1)
STRICT ?=
REPORT ?=
COVERAGE ?=
EVENTS ?= 100000
PREEMPTIONS ?=
TICKS ?=
RAISES ?=
RAISED ?=
PLACES ?=
THREADS ?=
FAIR ?= 0
LOOK ?=
GDB ?= gdb-multiarch
GDBFLAGS ?=
PORT ?=
TRACEFLAGS ?=
BUILD ?= build
REPORTS ?= $(BUILD)/ci

# The program, and where the kit builds a C library: in a clone, or with an installed kit.
IN_CLONE := $(wildcard $(SDK)/../Makefile)
BOARD ?= $(SDK)/$(if $(IN_CLONE),../build/board,../../../bin/board)
export KIT_BUILD ?= $(if $(IN_CLONE),$(SDK)/../build,$(or $(XDG_CACHE_HOME),$(HOME)/.cache)/board)
export CROSS ?= mips-linux-gnu-
CC = $(CROSS)gcc
LD = $(CROSS)ld

ENDIAN_big = -EB
ENDIAN_little = -EL
EMULATION_big = elf32btsmip
EMULATION_little = elf32ltsmip
ENDIAN := $(or $(ENDIAN_$(ORDER)),$(error ORDER is big or little, and not '$(ORDER)'))
$(if $(filter-out 1,$(LIBC)),$(error LIBC is 1 or nothing, and not '$(LIBC)'))
$(if $(filter-out 1,$(STRICT)),$(error STRICT is 1 or nothing, and not '$(STRICT)'))
ifneq ($(words $(PROGRAM)) $(filter $(PROGRAM),$(PROGRAMS)),1 $(PROGRAM))
$(error PROGRAM is one of '$(PROGRAMS)', and not '$(PROGRAM)')
endif

# Code of MIPS32 Release 1 that stays where it is linked: no code of Release 2, which Debian's GCC makes by itself; no
# floating point, no small data, which needs $gp.
MACHINE = $(ENDIAN) -march=mips32 -mabi=32 -msoft-float -mno-abicalls -fno-pic -G0 -mno-gpopt

# The compiler is one for Linux, which the board isn't.
SYSTEM = -U__linux__ -U__linux -Ulinux -U__gnu_linux__ -U__unix__ -U__unix -Uunix

# The headers of the kit and of the compiler, and with LIBC those of the C library; never those of this system.
LIBRARY = $(KIT_BUILD)/libc/$(ORDER)
COMPILERS := $(shell $(CC) -print-file-name=include)
HEADERS = -nostdinc -isystem $(SDK)/include $(if $(filter 1,$(LIBC)),-isystem $(LIBRARY)/include) \
    -isystem $(COMPILERS) -isystem $(SDK)/include/plain
DEPENDS = -MMD -MP
FLAGS_OF_C = $(MACHINE) $(SYSTEM) $(if $(filter 1,$(LIBC)),-DBOARD_LIBC,-ffreestanding) -fno-stack-protector \
    -fno-asynchronous-unwind-tables -std=gnu11 -g $(OPTIMIZE) -Wall -Wextra \
    $(if $(STACK_CHECK),-finstrument-functions) $(HEADERS)
COMPILE = $(CC) $(FLAGS_OF_C) -I. $(CFLAGS)
FLAGS_OF_ASSEMBLER = $(MACHINE) -g $(HEADERS)
ASSEMBLE = $(CC) $(FLAGS_OF_ASSEMBLER) -DHANDLER_STACK=$(HANDLER_STACK) -I.
FLAGS_OF_LINKER = $(ENDIAN) -n -z noexecstack -e 0x80000000 -T $(SDK)/board.ld
LINK = $(LD) $(FLAGS_OF_LINKER)

KIT = $(BUILD)/kit
OBJECTS = $(BUILD)/objects
KIT_OBJECTS = $(patsubst %,$(KIT)/%.o,stop format $(if $(filter 1,$(LIBC)),system,print memory) \
    $(if $(STACK_CHECK),stack))

# The sources of a program, and where the object file of a source is: below BUILD, wherever the source is.
sources = $(or $(SOURCES_$1),$(if $(word 2,$(PROGRAMS)),$1.c,$(SOURCES)))
object = $(OBJECTS)/$(patsubst /%,root/%,$(subst ../,up/,$1)).o
data = $(or $(DATA_$1),$(if $(word 2,$(PROGRAMS)),,$(DATA)))
objects = $(BUILD)/$1/start.o $(foreach it,$(call sources,$1) $(call data,$1),$(call object,$(it)))
NEEDED = $(if $(filter 1,$(LIBC)),$(LIBRARY)/libc.a)
ARCHIVES = $(filter %.a -l% -L%,$(LIBS)) $(NEEDED)
ALL_SOURCES = $(sort $(foreach it,$(PROGRAMS),$(call sources,$(it))))
FLAGS = $(CURDIR) $(COMPILE) $(ASSEMBLE) $(LINK) $(LIBS) $(foreach it,$(PROGRAMS),$(it) $(call objects,$(it)))
WRONG := $(filter-out %.c %.S %.s,$(ALL_SOURCES))
$(if $(WRONG),$(error a source is NAME.c, NAME.S or NAME.s, and not '$(firstword $(WRONG))'))

IMAGE = $(BUILD)/$(PROGRAM).elf
CONFIGURATION = $(BUILD)/$(PROGRAM).cfg
# Its tests: of the only program all journals are.
journals = $(if $(word 2,$(PROGRAMS)),$(wildcard $1.journal $1.*.journal),$(wildcard *.journal))

.PHONY: all test ci accept run debug gdb gdb-server settings trace races page cover stacks hunt explore shrink clean FORCE
.DELETE_ON_ERROR:
.SECONDARY:

all: $(foreach it,$(PROGRAMS),$(BUILD)/$(it)/judged)

# The libraries come twice: before the kit's objects, whose functions are weak, and after those, which may use them.
define program
$(BUILD)/$1.elf: $(call objects,$1) $(KIT_OBJECTS) $(filter-out -%,$(LIBS)) $(SDK)/board.ld \
    $(NEEDED)
	$$(LINK) -o $$@ $(call objects,$1) $(LIBS) $(KIT_OBJECTS) --start-group $(ARCHIVES) --end-group

# Whether the board takes both.
$(BUILD)/$1/judged: $(BUILD)/$1.elf $(BUILD)/$1.cfg
	@$(SDK)/judge '$$(BOARD)' $$^ $1.cfg && { [ ! -x '$$(BOARD)' ] || touch $$@; }

$(BUILD)/$1/start.o: $(SDK)/lib/start.S $(BUILD)/$1.cfg $(BUILD)/flags
	$$(ASSEMBLE) -I$(BUILD)/$1 -c -o $$@ $$<

# It makes entries.inc for start.S, too, and the list of the names.
$(BUILD)/$1.cfg: $1.cfg $(SDK)/configure $(SDK)/lib/configure.awk $(SDK)/lib/names.h $(BUILD)/flags
	$(SDK)/configure $$< $$@ $$(COMPILE)
endef
$(foreach it,$(PROGRAMS),$(eval $(call program,$(it))))

define compiled
$(call object,$1): $1 $(BUILD)/flags | $(NEEDED)
	@mkdir -p $$(@D)
	$(if $(filter %.c,$1),$$(COMPILE),$$(ASSEMBLE)) $(if $(filter %.s,$1),,$$(DEPENDS)) -c -o $$@ $$<
endef
$(foreach it,$(ALL_SOURCES),$(eval $(call compiled,$(it))))

# The bytes of a file, from _binary_NAME_start to _binary_NAME_end.
define bytes
$(call object,$1): $1 $(BUILD)/flags
	@mkdir -p $$(@D)
	$$(LD) $(ENDIAN) -m $(EMULATION_$(ORDER)) -r -b binary -o $$@ $$<
endef
$(foreach it,$(sort $(foreach it,$(PROGRAMS),$(call data,$(it)))),$(eval $(call bytes,$(it))))

$(KIT)/%.o: $(SDK)/lib/%.c $(BUILD)/flags | $(NEEDED)
	$(COMPILE) $(DEPENDS) -c -o $@ $<

$(KIT)/%.o: $(SDK)/lib/%.S $(BUILD)/flags
	$(ASSEMBLE) $(DEPENDS) -c -o $@ $<

$(LIBRARY)/libc.a:
	@echo "there is no C library for ORDER=$(ORDER) yet, which this makes: $(SDK)/libc $(ORDER)" >&2; exit 1

# What each object file was made of; of another project's nothing holds.
ifeq ($(strip $(shell cat $(BUILD)/flags 2> /dev/null)),$(strip $(FLAGS)))
-include $(wildcard $(KIT)/*.d $(foreach it,$(PROGRAMS),$(BUILD)/$(it)/configuration.d) \
    $(patsubst %.o,%.d,$(foreach it,$(ALL_SOURCES),$(call object,$(it)))))
endif

# What was built with other flags, or for another project, is built anew.
$(BUILD)/flags: FORCE
	$(shell mkdir -p $(KIT))$(file > $@.new,$(FLAGS))@cmp -s $@.new $@ || cp $@.new $@

# Each program's tests, also after one that has failed.
tests = status=0; $(foreach it,$(PROGRAMS),$(SDK)/test $1 $(BOARD) $(BUILD)/$(it).elf $(BUILD)/$(it).cfg \
    $(call journals,$(it)) || status=1;) exit $$status

test: all
	@$(if $(REPORT),rm -f '$(REPORT)')
	@$(call tests,$(if $(STRICT),--strict) --expect '$(EXPECT)' $(if $(REPORT),--junit '$(REPORT)') --jobs '$(JOBS)')

ci: all
	@rm -rf '$(REPORTS)'
	@status=0; $(foreach it,$(PROGRAMS),$(SDK)/ci --expect '$(EXPECT)' --coverage '$(COVERAGE)' --jobs '$(JOBS)' \
	    '$(REPORTS)' $(BUILD) $(BOARD) $(BUILD)/$(it).elf $(BUILD)/$(it).cfg $(call journals,$(it)) || status=1;) exit $$status

# The options of `board` for the data of JOURNAL.
laid = $$($(SDK)/data $(JOURNAL))

accept: all
	@$(call tests,--accept --jobs '$(JOBS)')

run: all
	@$(SDK)/test --report $(BOARD) $(IMAGE) $(CONFIGURATION) $(JOURNAL)

debug: all
	@$(SDK)/ordered $(IMAGE) $(JOURNAL) > $(BUILD)/debug.journal
	@$(SDK)/debug $(BOARD) $(IMAGE) $(CONFIGURATION) $(BUILD)/debug.journal $(laid)

# For editors that start GDB by themselves: what GDB's `target remote |` is given.
gdb-server: all
	@$(SDK)/ordered $(IMAGE) $(JOURNAL) > $(BUILD)/debug.journal
	@printf '%s\n' '#!/bin/sh' "cd '$(CURDIR)'" \
	    "exec '$(BOARD)' gdb '$(IMAGE)' '$(CONFIGURATION)' '$(BUILD)/debug.journal' $(laid)" > $(BUILD)/gdb-server
	@chmod +x $(BUILD)/gdb-server
	@$(if $(PORT),$(SDK)/serve '$(PORT)',echo) $(BUILD)/gdb-server

# For other tools that build (sdk/cmake), a line each: how the names of the tools begin, the flags of the compiler, of the
# assembler and of the linker, the program, and the C library.
settings:
	@printf '%s\n' '$(CROSS)' '$(FLAGS_OF_C)' '$(FLAGS_OF_ASSEMBLER)' '$(FLAGS_OF_LINKER)' '$(BOARD)' '$(LIBRARY)'

gdb: all
	@$(SDK)/ordered $(IMAGE) $(JOURNAL) > $(BUILD)/debug.journal
	@GDB='$(GDB)' BOARD_DATA="$(laid)" $(SDK)/gdb $(BOARD) $(IMAGE) $(CONFIGURATION) $(BUILD)/debug.journal $(GDBFLAGS)

# What `board trace` says of JOURNAL, which is taken for the program's byte order, with names and lines of C.
traced = $(SDK)/ordered $(IMAGE) $(JOURNAL) > $(BUILD)/trace.journal && \
    $(SDK)/named $(IMAGE) $(CONFIGURATION) $(BOARD) trace $1 $(IMAGE) $(CONFIGURATION) $(BUILD)/trace.journal $(laid)

trace: all
	@$(call traced,$(TRACEFLAGS))

races: all
	@$(call traced,--races) | tee $(BUILD)/races
	@grep -qx 'races: 0 words' $(BUILD)/races

page: all
	@$(call traced,--format html $(TRACEFLAGS)) > $(BUILD)/$(PROGRAM).html
	@$(SDK)/sourced $(BUILD)/$(PROGRAM).html $(wildcard $(ALL_SOURCES) *.h $(SDK)/lib/*.[cS] $(SDK)/include/*.h)
	@echo "$(BUILD)/$(PROGRAM).html"

# Of all journals of PROGRAM, or of the one that the command line names.
cover: all
	@rm -f $(BUILD)/$(PROGRAM).info
	@$(SDK)/ci --only-coverage $(BUILD)/$(PROGRAM).info $(BUILD) $(BOARD) $(IMAGE) $(CONFIGURATION) \
	    $(if $(filter file,$(origin JOURNAL)),$(call journals,$(PROGRAM)),$(JOURNAL))

stacks: all
	@$(call traced,--stacks) | tee $(BUILD)/stacks
	@grep -qx 'stack overflow: none' $(BUILD)/stacks

# With TIME alone, as many as there is time for.
tries = $(if $(and $(TIME),$(filter file,$(origin TRIES))),1000000,$(TRIES))

hunt: all
	@$(SDK)/hunt $(BOARD) $(IMAGE) $(CONFIGURATION) $(JOURNAL) $(BUILD)/hunt.journal --tries '$(tries)' \
	    --time '$(TIME)' --seed '$(SEED)' --expect '$(EXPECT)' --move '$(MOVE)' --jobs '$(JOBS)'

explore: all
	@$(SDK)/explore $(BOARD) $(IMAGE) $(CONFIGURATION) $(JOURNAL) $(BUILD)/explore.journal --events '$(EVENTS)' \
	    --preemptions '$(PREEMPTIONS)' --ticks '$(TICKS)' --raises '$(RAISES)' --lines '$(RAISED)' \
	    --places '$(PLACES)' --threads '$(THREADS)' --fair '$(FAIR)' --look '$(LOOK)' --time '$(TIME)'

shrink: all
	@$(SDK)/explore --shrink $(BOARD) $(IMAGE) $(CONFIGURATION) $(JOURNAL) $(BUILD)/explore.journal \
	    $(BUILD)/shrunk.journal --fair '$(FAIR)' --look '$(LOOK)'

clean:
	rm -rf $(BUILD)
