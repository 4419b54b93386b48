#!/bin/bash
# The tests of `board gdb` with GDB itself, gdb-multiarch in batch mode: tests/programs/gdb.sh PROGRAM. Programs of the
# kit and of `board asm`, in both byte orders: breaks, locals of C, watches, and above all moves backward. They are
# skipped, which a line says, where GDB or a compiler is missing.
. "$(dirname "$0")/check.sh"
sdk=$PWD/sdk
have gdb-multiarch "GDB on the board" || { summary; exit; }
keep_objects
ulimit -c 0

# session NAME: runs GDB on $elf, $cfg and $journal. On standard input are its commands, each after '> ', and between
# them patterns of whole lines that it has to print, in this order, after the command that they stand under.
session() {
    local name=$1 line wanted=() commands=() count=0
    while IFS= read -r line; do
        if [[ "$line" == '> '* ]]; then
            count=$((count + 1))
            commands+=(-ex "echo \\n@$count\\n" -ex "${line#> }")
            wanted+=("@$count")
        else
            wanted+=("$line")
        fi
    done
    timeout 120 sdk/gdb "$board" "$elf" "$cfg" "$journal" "${commands[@]}" < /dev/null > "$work/said" 2>&1
    local status=$? wrong='' it=0
    while IFS= read -r line; do
        if [ $it -lt ${#wanted[@]} ] && [[ "$line" =~ ^(${wanted[it]})$ ]]; then it=$((it + 1)); fi
    done < "$work/said"
    [ $it = ${#wanted[@]} ] || wrong="no line '${wanted[it]}'"
    [ $status != 124 ] || wrong="$wrong; it hasn't ended"
    verdict "gdb: $name" "${wrong:+$wrong: $(tail -c 2500 "$work/said")}"
}

# ordered JOURNAL: the journal for the byte order of $elf.
ordered() {
    journal=$work/journal
    sdk/ordered "$elf" "$1" > "$journal"
}

# project FOLDER ARGUMENT..: make in the folder of a project of the kit, and its files.
project() {
    local folder=$1
    shift
    make -s -C "$folder" SDK="$sdk" BOARD="$board" BUILD="$work/build" "$@" > "$work/made" 2>&1 || return
    elf=$work/build/firmware.elf
    cfg=$work/build/firmware.cfg
    ordered "$folder/firmware.journal"
}

# Programs in assembler: a delay slot, an exception in one, steps of one processor among those of two.
for order in big little; do
    elf=$work/slots.$order
    { echo "        .byteorder $order"; cat tests/data/gdb/slots.s; } > "$work/slots.s"
    "$board" asm "$work/slots.s" "$elf"
    cfg=tests/data/gdb/slots.cfg
    ordered tests/data/gdb/slots.journal
    session "a delay slot and an exception in one, $order-endian" << 'END'
> info threads
\* 1 +Thread 1 .*0x80000000 in .*
  2 +Thread 2 .*0x80000024 in .*
> monitor goto 13
at 13.*
> thread 1
.*
> maintenance flush register-cache
> printf "%x t0=%d t1=%d\n", $pc, $t0, $t1
80000004 t0=2 t1=1
> stepi
0x80000008 in .*
> stepi
0x8000000c in .*
> stepi
0x80000004 in .*
> printf "%x t0=%d t1=%d\n", $pc, $t0, $t1
80000004 t0=1 t1=2
> reverse-stepi
0x8000000c in .*
> printf "%x t0=%d t1=%d\n", $pc, $t0, $t1
8000000c t0=1 t1=1
> reverse-stepi
0x80000008 in .*
> reverse-stepi
0x80000004 in .*
> printf "%x t0=%d t1=%d\n", $pc, $t0, $t1
80000004 t0=2 t1=1
> continue
Thread 1( ".*")? received signal SIGBUS, Bus error\.
0x80000018 in .*
> printf "%x t0=%d t1=%d t2=%x\n", $pc, $t0, $t1, $t2
80000018 t0=0 t1=3 t2=80000000
> reverse-stepi
0x80000014 in .*
> reverse-stepi
0x80000010 in .*
> stepi
0x80000014 in .*
> stepi
0x80000018 in .*
> stepi
Thread 1( ".*")? received signal SIGBUS, Bus error\.
0x80000018 in .*
> break *0x80000008
Breakpoint 1 at 0x80000008
> reverse-continue
Thread 1( ".*")? hit Breakpoint 1, 0x80000008 in .*
> printf "%x t0=%d t1=%d\n", $pc, $t0, $t1
80000008 t0=0 t1=2
> reverse-continue
Thread 1( ".*")? hit Breakpoint 1, 0x80000008 in .*
> reverse-continue
Thread 1( ".*")? hit Breakpoint 1, 0x80000008 in .*
> printf "%x t0=%d t1=%d\n", $pc, $t0, $t1
80000008 t0=2 t1=0
> reverse-continue
No more reverse-execution history\.
> info threads
.* 1 +Thread 1 .*0x80000000 in .*
.* 2 +Thread 2 .*0x80000024 in .*
> thread 2
.*
> stepi
0x80000028 in .*
> stepi
0x80000024 in .*
> monitor goto 3
at 3
> maintenance flush register-cache
> stepi
0x80000024 in .*
> thread 1
.*
> printf "%x t0=%d t1=%d\n", $pc, $t0, $t1
80000008 t0=2 t1=0
> thread 2
.*
> delete 1
> break *0x80000024
Breakpoint 2 at 0x80000024
> continue
Thread 2( ".*")? hit Breakpoint 2, 0x80000024 in .*
> reverse-stepi
0x80000028 in .*
END
    # The cause and the place of an exception, once it has come; and all registers.
    session "the registers of an exception, $order-endian" << 'END'
> continue
Thread 1( ".*")? received signal SIGBUS, Bus error\.
> print $cause
\$1 = <unavailable>
> continue
No more reverse-execution history\.
> info threads
\* 1 +Thread 1 "task 1" \(cpu 1, dormant\) +0x80000018 in .*
  2 +Thread 2 "task 2" \(cpu 2, runs\) .*
> printf "%x %x %x\n", $cause, $epc, $badvaddr
80000010 80000014 80000001
> print $status
\$2 = <unavailable>
> thread 2
.*
> print $badvaddr
\$3 = <unavailable>
> thread 1
.*
> info all-registers
 +zero +at .*
.*80000010.*
 f0: .*
.* epc *
.*80000014.*
END
    session "a condition of a break, $order-endian" << 'END'
> break *0x80000008 if $t1 == 1
Breakpoint 1 at 0x80000008
> continue
Thread 1( ".*")? hit Breakpoint 1, 0x80000008 in .*
> printf "t0=%d t1=%d\n", $t0, $t1
t0=1 t1=1
> continue
Thread 1( ".*")? received signal SIGBUS, Bus error\.
> reverse-continue
Thread 1( ".*")? hit Breakpoint 1, 0x80000008 in .*
> printf "t0=%d t1=%d\n", $t0, $t1
t0=1 t1=1
> reverse-continue
No more reverse-execution history\.
END
    # A task that an exception has ended, and beyond: its processor has nothing to execute.
    session "after an exception, $order-endian" << 'END'
> continue
Thread 1( ".*")? received signal SIGBUS, Bus error\.
> continue
No more reverse-execution history\.
> reverse-continue
Thread 1( ".*")? received signal SIGBUS, Bus error\.
> printf "%x t0=%d t1=%d\n", $pc, $t0, $t1
80000018 t0=0 t1=3
> reverse-continue
No more reverse-execution history\.
END
done

# A reverse step is of the thread that was chosen: also from a break of another one, which GDB steps first, after a list
# of the threads, and after something was shown of others.
elf=$work/slots.big
cfg=tests/data/gdb/slots.cfg
journal=tests/data/gdb/slots.journal
session "a reverse step of a chosen thread" << 'END'
> break *0x80000024 thread 2
Breakpoint 1 at 0x80000024
> continue
Thread 2( ".*")? hit Breakpoint 1, 0x80000024 in .*
> continue
> continue
Thread 2( ".*")? hit Breakpoint 1, 0x80000024 in .*
> thread 1
\[Switching to thread 1 .*
#0  0x80000008 in .*
> reverse-stepi
0x80000004 in .*
> delete
> info threads
\* 1 +Thread 1 .*0x80000004 in .*
  2 +Thread 2 .*
> thread apply 2 1 2 -q print $pc
\$3 = .*
> reverse-stepi
0x80000000 in .*
> info threads
\* 1 +Thread 1 .*0x80000000 in .*
  2 +Thread 2 .*
END

# A step over a call that assigns its caller to another processor ends on that one, once the caller goes on there: in
# the same thread where tasks are threads, in another one where processors are.
for order in big little; do
    elf=$work/mover.$order
    { echo "        .byteorder $order"; cat tests/data/gdb/mover.s; } > "$work/mover.s"
    "$board" asm "$work/mover.s" "$elf"
    cfg=tests/data/gdb/mover.cfg
    ordered tests/data/gdb/mover.journal
    session "a step over a call that moves its caller to another processor, $order-endian" << 'END'
> stepi 3
0x8000000c in .*
> stepi
0x80000010 in .*
> monitor where
position 20 of 40: .*
> info threads
\* 1 +Thread 1 "task 1" \(cpu 2, runs\) +0x80000010 in .*
  2 +Thread 2 "task 2" \(cpu 1, runs\) .*
  3 +Thread 3 "task 3" \(cpu 2, dormant\) .*
> reverse-stepi
0x8000000c in .*
> info threads
\* 1 +Thread 1 "task 1" \(cpu 1, runs\) +0x8000000c in .*
> stepi
0x80000010 in .*
> stepi
0x80000014 in .*
> printf "t0=%d\n", $t0
t0=1
END
    session "the same where processors are threads, $order-endian" << 'END'
> monitor threads processors
threads are the processors
> info threads
\* 1 +Thread 1 "task 1" 0x80000000 in .*
  2 +Thread 2 "task 3" .*
> stepi 3
0x8000000c in .*
> stepi
Thread 2( ".*")? received signal SIGTRAP, Trace/breakpoint trap\.
\[Switching to Thread 2\]
0x80000010 in .*
> monitor where
position 20 of 40: .*
> info threads
  1 +Thread 1 "task 2" .*
\* 2 +Thread 2 "task 1" 0x80000010 in .*
> stepi
0x80000014 in .*
> printf "t0=%d\n", $t0
t0=1
END
done

# Suspended tasks, one of which waits too, keep their registers, and are stepped backward to their last instruction.
for order in big little; do
    elf=$work/suspended.$order
    { echo "        .byteorder $order"; cat tests/data/gdb/suspended.s; } > "$work/suspended.s"
    "$board" asm "$work/suspended.s" "$elf"
    cfg=tests/data/gdb/suspended.cfg
    ordered tests/data/gdb/suspended.journal
    session "suspended tasks, $order-endian" << 'END'
> continue
The journal ends here: no processor executes anything\.
> info threads
\* 1 +Thread 1 "task 1" \(cpu 1, suspended, waits for a wake-up\) +0x80000008 in .*
  2 +Thread 2 "task 2" \(cpu 1, suspended\) +0x80000008 in .*
  3 +Thread 3 "task 3" \(cpu 1, dormant\) +0x80000034 in .*
> thread 1
.*
> printf "v0=%d\n", $v0
v0=16
> reverse-stepi
0x80000004 in .*
> monitor where
position 1 of 20: a step of processor 1 comes
> info threads
\* 1 +Thread 1 "task 1" \(cpu 1, runs\) +0x80000004 in .*
  2 +Thread 2 "task 2" \(cpu 1, ready under task 1\) +0x80000008 in .*
END
done

# Watches of stores, in a delay slot too, and of loads and accesses by the bytes that an instruction names.
for order in big little; do
    elf=$work/parts.$order
    { echo "        .byteorder $order"; cat tests/data/gdb/parts.s; } > "$work/parts.s"
    "$board" asm "$work/parts.s" "$elf"
    cfg=tests/data/gdb/parts.cfg
    ordered tests/data/gdb/parts.journal
    session "a watch of a store in a delay slot, $order-endian" << 'END'
> watch *(int *)0x80000058
Hardware watchpoint 1: .*
> continue
Old value = 9
New value = 2
0x8000002c in .*
> continue
Old value = 2
New value = 1
0x8000002c in .*
> continue
Old value = 1
New value = 0
0x80000038 in .*
> continue
No more reverse-execution history\.
> reverse-continue
Old value = 0
New value = 1
0x80000034 in .*
> stepi
Old value = 1
New value = 0
0x80000038 in .*
> reverse-continue
New value = 1
> reverse-continue
New value = 2
> reverse-continue
New value = 9
0x80000034 in .*
> delete
> stepi
0x8000002c in .*
END
    # Backward the condition sees the bytes as they are before the store.
    session "a condition of a watch, $order-endian" << 'END'
> watch *(int *)0x80000058 if *(int *)0x80000058 == 1
Hardware watchpoint 1: .*
> continue
Old value = 2
New value = 1
0x8000002c in .*
> continue
No more reverse-execution history\.
> reverse-continue
Old value = 0
New value = 1
0x80000034 in .*
> reverse-continue
No more reverse-execution history\.
END
    session "a watch of reads, $order-endian" << 'END'
> rwatch *(char *)0x80000044
Hardware read watchpoint 1: .*
> continue
Hardware read watchpoint 1: .*
Value = [58] .*
0x80000010 in .*
> rwatch *(int *)0x80000050
Hardware read watchpoint 2: .*
> continue
Hardware read watchpoint 2: .*
Value = 1
0x80000024 in .*
> continue
No more reverse-execution history\.
> reverse-continue
Hardware read watchpoint 2: .*
Value = 1
0x80000020 in .*
> reverse-continue
Hardware read watchpoint 1: .*
Value = [58] .*
0x8000000c in .*
> reverse-continue
No more reverse-execution history\.
END
    session "a watch of reads and writes, $order-endian" << 'END'
> awatch *(short *)0x8000004e
Hardware access \(read/write\) watchpoint 1: .*
> awatch *(int *)0x80000054
Hardware access \(read/write\) watchpoint 2: .*
> continue
Hardware access \(read/write\) watchpoint 1: .*
0x800000(1c|20) in .*
> delete 1
> continue
Hardware access \(read/write\) watchpoint 2: .*
0x80000028 in .*
> delete
> continue
No more reverse-execution history\.
END
done
elf=$work/parts.big
"$board" asm tests/data/gdb/parts.s "$elf"
journal=tests/data/gdb/parts.journal
session "a watch, and a break at the instruction that stores" << 'END'
> break *0x8000001c
Breakpoint 1 at 0x8000001c
> watch *(short *)0x8000004e
Hardware watchpoint 2: .*
> continue
Breakpoint 1, 0x8000001c in .*
> continue
Hardware watchpoint 2: .*
Old value = 0
New value = 4
0x80000020 in .*
> stepi 2
0x80000028 in .*
> reverse-continue
The watch was met by the instruction at this break\.
Breakpoint 1, 0x8000001c in .*
> monitor where
position 7 of 40: .*
END
# The last byte of a long watch, and the one after it, which isn't watched.
session "a watch of many bytes" << 'END'
> rwatch *(char (*)[49])0x80000010
Hardware read watchpoint 1: .*
> continue
No more reverse-execution history\.
> monitor reset
at 0
> delete
> maintenance flush register-cache
> rwatch *(char (*)[50])0x80000010
Hardware read watchpoint 2: .*
> continue
Hardware read watchpoint 2: .*
0x8000000c in .*
> watch *(char (*)[512])0x80000020
Hardware watchpoint 3: .*
> continue
Hardware watchpoint 3: .*
0x80000018 in .*
> watch *(char *)0x80000050
Hardware watchpoint 4: .*
> continue
Could not insert hardware watchpoint 4\.
> monitor where
position 6 of 40: .*
> delete 4
> continue
Hardware watchpoint 3: .*
0x8000001c in .*
END
session "the bytes of unaligned loads, big-endian" << 'END'
> rwatch *(char *)0x80000043
Hardware read watchpoint 1: .*
> continue
Value = 4 .*
0x8000000c in .*
> continue
Value = 4 .*
0x80000014 in .*
> awatch *(char *)0x8000004a
Hardware access \(read/write\) watchpoint 2: .*
> continue
Hardware access \(read/write\) watchpoint 2: .*
0x80000018 in .*
> continue
No more reverse-execution history\.
END
elf=$work/parts.little
ordered tests/data/gdb/parts.journal
session "the bytes of unaligned loads, little-endian" << 'END'
> rwatch *(char *)0x80000043
Hardware read watchpoint 1: .*
> continue
Value = 1 .*
0x80000014 in .*
> awatch *(char *)0x8000004a
Hardware access \(read/write\) watchpoint 2: .*
> continue
No more reverse-execution history\.
END

# examples/fault: from the exception to the store that spoiled the pointer, on the other processor.
elf=$work/fault.elf
cfg=examples/fault/fault.cfg
journal=examples/fault/fault.journal
"$board" asm examples/fault/fault.s "$elf"
session "the cause of examples/fault" << 'END'
> continue
Thread 1( ".*")? received signal SIGBUS, Bus error\.
0x80000008 in .*
> x/i $pc
=> 0x80000008:	lw	a0,0\(t0\)
> print/x $t0
\$1 = 0xffffffff
> monitor where
.*6026.*
> watch *(int *)&chosen
Hardware watchpoint 1: .*
> reverse-continue
Thread 2( ".*")? hit Hardware watchpoint 1: .*
Old value = -1
New value = -2147483552
0x80000038 in .*
> x/i $pc
=> 0x80000038:	sw	t2,0\(t0\)
> monitor where
.*56.*
> printf "%x %x\n", $t0, $t1
80000080 80000080
> x/8dw &samples
0x80000060:	-1	-1	-1	-1
0x80000070:	-1	-1	-1	-1
END

# What `board trace` shows up to a position: its last lines, all of them, and the summary, at both ends of a stretch of
# ticks too, and where interrupts come.
shows() {
    local position
    for position; do
        sdk/gdb "$board" "$elf" "$cfg" "$journal" -ex "monitor goto $position" -ex 'echo @\n' -ex 'monitor trace 3' \
            -ex 'echo @\n' -ex 'monitor trace 5000' -ex 'echo @\n' -ex 'monitor summary' -ex 'echo @\n' \
            < /dev/null > "$work/said" 2>&1
        "$board" trace --to $position "$elf" "$cfg" "$journal" > "$work/whole"
        { echo @; tail -n 3 "$work/whole"; echo @; cat "$work/whole"; echo @
            "$board" trace --summary --to $position "$elf" "$cfg" "$journal"; } > "$work/wanted"
        awk '/^@$/ { marks++ } marks >= 1 && marks < 4' "$work/said" > "$work/shown"
        verdict "gdb: the trace and the summary up to $position of ${elf##*/}" \
            "$([ $(grep -c . "$work/wanted") -ge 7 ] && diff "$work/wanted" "$work/shown" 2>&1 ||
            tail -n 20 "$work/said")"
    done
}
shows 0 1 19 2019 2020 4000 6022 6026

elf=$work/interrupt.elf
cfg=examples/interrupt/interrupt.cfg
journal=examples/interrupt/interrupt.journal
"$board" asm examples/interrupt/interrupt.s "$elf"
shows 9 10 27 46

# A handler is a thread while it runs, and the task under it keeps its own; steps of the task pass over it both ways.
session "a handler as a thread" << 'END'
> tbreak *0x80000030
Temporary breakpoint 1 at 0x80000030
> continue
Thread 3( ".*")? hit Temporary breakpoint 1, 0x80000030 in .*
> info threads
  1 +Thread 1 "task 1" \(cpu 1, waits for a wake-up\) +0x80000008 in .*
  2 +Thread 2 "task 2" \(cpu 1, ready under handler 4\) +0x80000028 in .*
\* 3 +Thread 260 "handler 4" \(cpu 1\) +0x80000030 in .*
> stepi
0x80000034 in .*
> thread 2
\[Switching to thread 2 .*
#0  0x80000028 in .*
> stepi
0x8000002c in .*
> info threads
  1 +Thread 1 "task 1" .*
\* 2 +Thread 2 "task 2" .*
> reverse-stepi
0x80000028 in .*
> reverse-stepi
0x80000024 in .*
> thread 1
\[Switching to thread 1 .*
> stepi
0x8000000c in .*
END

# (A line whose processor is stopped is accepted no more, so a deadlock is told.)
elf=$work/stopped.elf
cfg=tests/data/gdb/stopped.cfg
journal=tests/data/gdb/stopped.journal
"$board" asm tests/data/gdb/stopped.s "$elf"
shows 7 12

# LO and HI, and what else the command monitor shows: of a task that runs, of tasks that wait, each for something else,
# and what was written.
elf=$work/waits.elf
cfg=tests/data/gdb/waits.cfg
journal=tests/data/gdb/waits.journal
"$board" asm tests/data/gdb/waits.s "$elf"
session "the registers of a product" << 'END'
> tbreak *0x80000060
Temporary breakpoint 1 at 0x80000060
> continue
Thread 8( ".*")? hit Temporary breakpoint 1, 0x80000060 in .*
> stepi 3
0x8000006c in .*
> printf "%x %x\n", $lo, $hi
34000000 12
> info registers lo hi
lo: 0x34000000
hi: 0x12
END
session "what monitor shows" << 'END'
> tbreak *0x80000060
Temporary breakpoint 1 at 0x80000060
> continue
> monitor where
position 24 of 40: a step of processor 1 comes
> monitor tasks
processor 1: task 8
task 1 waiting, priority 1, processor 1
task 2 waiting, priority 2, processor 1
task 3 waiting, priority 3, processor 1
task 4 waiting, priority 4, processor 1
task 5 waiting, priority 5, processor 1
task 6 waiting, priority 6, processor 1
task 7 waiting, priority 7, processor 1
task 8 ready, priority 8, processor 1
task 9 dormant, priority 9, processor 1
> monitor objects
task 1 waits for a wake-up
task 2 waits for the end of a delay, until tick 6
task 3 waits for semaphore 1
task 4 waits for semaphore 1, until tick 10
task 5 waits for event flag 1
task 6 waits to send to data queue 1
task 7 waits to receive from data queue 2
> continue
The journal ends here: no processor executes anything\.
> monitor console
Ok
> monitor goto 0
at 0
> monitor objects
no task waits
> monitor back 9
at 0
> monitor goto 24
at 24
> monitor mark 9
mark 9 stands at 24
> monitor goto 7
at 7
> monitor mark 0
mark 0 stands at 7
> monitor back 9
at 24
> monitor where
position 24 of 40: .*
> monitor back 0
at 7
> monitor mark 10
unknown; .*
> monitor mark before_the_store
the mark stands at 7
> monitor goto 9
at 9
> monitor mark before_the_store
the mark stands at 9
> monitor mark other.1
the mark stands at 9
> monitor goto 3
at 3
> monitor goto before_the_store
at 9
> monitor goto nowhere
no mark has this name; .*
> monitor where
position 9 of 40: .*
> monitor marks
mark 0 stands at 7
.*
mark before_the_store stands at 9
mark other.1 stands at 9
> monitor mark a_name_that_is_longer_than_31_bytes
unknown; .*
> monitor goto 7
at 7
> monitor back 1
at 0
> monitor goto 41
past 40
> monitor where
position 0 of 40: a step of processor 1 comes
> monitor help
goto N: goes to position N
reset, restart: goes to position 0
where: the position, and whose step comes
mark N, back N: lets mark N of 0 to 9 stand here, goes to where it stands
mark NAME, goto NAME: the same of a mark with a name; marks: where the marks stand
threads tasks, threads processors: what threads are
tasks: the tasks and their states
objects: who waits for what, which task has which mutex, when time handlers are due
console: what was written to the console
help: these commands
trace N: .*
summary: .*
> monitor nothing
unknown; .*
END

# Tasks as threads: each with what it does and its own context, also while it waits; and processors as threads.
session "tasks that wait, as threads" << 'END'
> tbreak *0x80000060
Temporary breakpoint 1 at 0x80000060
> continue
Thread 8( ".*")? hit Temporary breakpoint 1, 0x80000060 in .*
> info threads
  1 +Thread 1 "task 1" \(cpu 1, waits for a wake-up\) +0x80000008 in .*
  2 +Thread 2 "task 2" \(cpu 1, waits for the end of a delay, until tick 6\) +0x80000014 in .*
  3 +Thread 3 "task 3" \(cpu 1, waits for semaphore 1\) +0x80000020 in .*
  4 +Thread 4 "task 4" \(cpu 1, waits for semaphore 1, until tick 10\) +0x80000030 in .*
  5 +Thread 5 "task 5" \(cpu 1, waits for event flag 1\) +0x80000044 in .*
  6 +Thread 6 "task 6" \(cpu 1, waits to send to data queue 1\) +0x80000054 in .*
  7 +Thread 7 "task 7" \(cpu 1, waits to receive from data queue 2\) +0x80000060 in .*
\* 8 +Thread 8 "task 8" \(cpu 1, runs\) +0x80000060 in .*
  9 +Thread 9 "task 9" \(cpu 1, dormant\) +0x80000060 in .*
> thread 4
\[Switching to thread 4 .*
#0  0x80000030 in .*
> printf "%d %d\n", $a0, $a1
1 9
> reverse-stepi
0x8000002c in .*
> monitor where
position 11 of 40: .*
> thread 6
\[Switching to thread 6 .*
> printf "%x\n", $pc
80000044
> monitor threads processors
threads are the processors
> monitor goto 24
at 24
> maintenance flush register-cache
> info threads
  1 +Thread 1 "task 8" 0x80000060 in .*
> thread 1
\[Switching to thread 1 .*
> stepi
0x80000064 in .*
> reverse-stepi
0x80000060 in .*
> monitor threads tasks
threads are the tasks, and the handlers that run
> maintenance flush register-cache
> info threads
.* Thread 3 "task 3" \(cpu 1, waits for semaphore 1\) +0x80000020 in .*
.* Thread 8 "task 8" \(cpu 1, runs\) +0x80000060 in .*
> monitor reset
at 0
> monitor where
position 0 of 40: .*
END

# Every byte of the stream is answered, or ends it: D and k by status 0, an end without them by 4.
# ends NAME STATUS BYTES
ends() {
    printf '%b' "$3" | timeout 60 "$board" gdb "$elf" "$cfg" "$journal" > "$work/out" 2> "$work/err"
    local got=${PIPESTATUS[1]}
    verdict "gdb: $1" "$([ "$got" = "$2" ] || echo "status $got, wanted $2: $(head -c 600 "$work/err")")"
}
ends "a pipe that ends at once" 4 ''
ends "a pipe that ends after an answer" 4 '+$?#3f+'
ends "a pipe that ends within a packet" 4 '+$qSupp'
ends "D" 0 '+$?#3f+$D#44'
ends "k" 0 '$k#6b'
ends "vKill" 0 '$vKill;1#6e'
# Packets by themselves, as another client may send them.
# packet PAYLOAD: a packet of GDB's protocol.
packet() {
    local sum=0 i
    for ((i = 0; i < ${#1}; i++)); do sum=$(((sum + $(printf '%d' "'${1:i:1}")) % 256)); done
    printf '$%s#%02x' "$1" "$sum"
}
# command TEXT: the payload by which GDB sends its command monitor.
command() {
    printf 'qRcmd,%s' "$(printf %s "$1" | od -An -v -tx1 | tr -d ' \n')"
}
# replies NAME WANTED PAYLOAD..: the payloads of the replies, a line each, but for what is shown on the console.
replies() {
    local name=$1 wanted=$2
    shift 2
    for it; do packet "$it"; done > "$work/packets"
    packet D >> "$work/packets"
    timeout 60 "$board" gdb "$elf" "$cfg" "$journal" < "$work/packets" > "$work/out" 2> "$work/err"
    sed -E 's/\+?\$([^#]*)#../\1\n/g' "$work/out" | grep -v '^O[0-9a-f]' > "$work/got"
    verdict "gdb: $name" "$(printf '%s\nOK\n' "$wanted" | diff - "$work/got")"
}
elf=$work/slots.big
cfg=tests/data/gdb/slots.cfg
journal=tests/data/gdb/slots.journal
points=()
for i in {10..73}; do points+=("Z0,800001$i,4"); done
replies "64 breaks of a kind" "$(printf 'OK\n%.0s' {1..64})
E01
OK
OK
OK
OK
E01" "${points[@]}" Z0,80000024,4 Z0,80000110,4 Z1,80000024,4 z0,80000110,4 Z0,80000024,4 Z0,80000028,4
replies "512 bytes of watches of a kind" 'E01
E01
OK
OK
E01
OK
OK
E01
OK
OK
E01
T05thread:01;' Z2,80000040,0 Z2,80000040,201 Z2,80000040,200 Z2,80000040,200 Z2,80000040,1 Z3,80000040,1ff \
    Z3,80000044,1 \
    Z3,80000046,1 z3,80000040,1ff Z3,80000040,1ff Z4,80000040,ffffffff "vCont;s:1"
# Steps of a thread that is named, of one that is chosen by Hg, by T, and by a stop.
replies "whose step it is" 'OK
T05thread:02;
OK
OK
T05thread:01;
T05thread:01;
OK
T05thread:02;
OK
OK
OK
T05thread:01;
OK
OK
T05thread:02;
E01
E01
E01
T05thread:02;' "$(command "goto 9")" "vCont;s:2" Hc0 Hg1 s bs T2 s Hc1 T2 Hg2 bs Hc-1 T2 bs Hg3 Hc3 T3 bs
# A step of a thread that isn't there is refused, and moves nothing: by one action, by the first of two that steps, and
# within a range. What one continues is whatever there is.
replies "a step of a thread that isn't there" 'E01
E01
E01
E01
E01
QC01
00000000
T05thread:01;
OK
E01
T05thread:02;' "vCont;s:3" "vCont;S05:104" "vCont;s:ffffffff" "vCont;c;s:3" "vCont;r80000000,80000008:3;c" qC p8 \
    "vCont;s:1;c:7" "$(command "threads processors")" "vCont;s:9" "vCont;s:2"
# Another position is another stop, though the one before was told: $t0 is 1 there.
replies "a break at another position" 'OK
T05thread:01;swbreak:;
OK
T05thread:01;swbreak:;
00000001' Z0,80000008,4 "vCont;c" "$(command "goto 14")" "vCont;c" p8
# The point that is named is the one whose byte is read, and not its neighbour.
elf=$work/parts.big
cfg=tests/data/gdb/parts.cfg
journal=tests/data/gdb/parts.journal
replies "neighbours of what is read" 'OK
OK
OK
T05thread:01;rwatch:80000050;' Z3,80000054,1 Z3,8000004f,1 Z3,80000050,4 "vCont;c"
# Who executes at the end.
elf=$work/slots.big
cfg=tests/data/gdb/slots.cfg
journal=tests/data/gdb/slots.journal
session "the end where processor 2 alone executes" << 'END'
> continue
Thread 1( ".*")? received signal SIGBUS, Bus error\.
> continue
The journal ends here\.
END

# GDB is killed while it is connected.
mkfifo "$work/to"
{ "$board" gdb "$elf" "$cfg" "$journal" < "$work/to" > "$work/out" 2> "$work/err"; echo $? > "$work/status"; } &
exec 9> "$work/to"
printf '+$?#3f+' >&9
exec 9>&-
wait
verdict "gdb: a pipe that is unplugged" "$([ "$(cat "$work/status")" = 4 ] || cat "$work/status" "$work/err")"

have make "GDB on programs in C" || { summary; exit; }
have python3 "GDB on programs in C" || { summary; exit; }
have mips-linux-gnu-gcc "GDB on programs in C" || { summary; exit; }

for order in big little; do
    for level in -O0 -O2; do
        project tests/data/gdb/pair OPTIMIZE=$level ORDER=$order
        session "lines and locals of C, $level, $order-endian" << 'END'
> break weigh
Breakpoint 1 at 0x80[0-9a-f]{6}: file firmware\.c, line 19\.
> continue
Thread 1( ".*")? hit Breakpoint 1, weigh \(number=1, sample=0x8000[0-9a-f]{4}\) at firmware\.c:19
19	.*
> print *sample
\$1 = \{number = 0, weight = 0\}
> next
20	.*
> next
21	.*
> next
22	.*
> print parts
\$2 = \{1, 2, 3\}
> print *sample
\$3 = \{number = 1, weight = 6\}
> up
#1 .* in meter \(count=5\) at firmware\.c:48
.*
> print last
\$4 = \{number = 1, weight = 6\}
> print i
\$5 = 1
> down
#0 .*
> finish
.* in meter \(count=5\) at firmware\.c:48
Value returned is \$6 = 6
> delete
> reverse-next
48	.*
> print total
\$7 = 0
> next
.*
> print total
\$8 = 6
> reverse-next
(0x80[0-9a-f]{6}	)?48	.*
> reverse-step
.*
> info threads
.* 1 +Thread 1 .* at firmware\.c:.*
END
        # The end of the run, and back: the other processor spoiled it.
        session "back to a store of the other processor, $level, $order-endian" << 'END'
> break board_stop
Breakpoint 1 at .*
> continue
Thread 1( ".*")? hit Breakpoint 1, .*board_stop \(file=0x.* "firmware.c", line=50, condition=0x.* "total < kept\.limit"\) at .*
> bt
#0 .*board_stop .*
#1 .* in meter \(count=.*\) at firmware\.c:50
#2 .* in task_1 \(\) at .*entries\.inc:2
> print total
\$1 = 90
> print kept
\$2 = \{rates = \{9, 10, 11\}, limit = 12\}
> watch kept.limit
Hardware watchpoint 2: kept\.limit
> reverse-continue
Thread 2( ".*")? hit Hardware watchpoint 2: kept\.limit
Old value = 12
New value = 100
.*set_rate \(place=.*, rate=12\) at firmware\.c:33
> bt
#0 .*set_rate \(place=.*, rate=12\) at firmware\.c:33
#1 .* in clerk \(rate=9\) at firmware\.c:39
#2 .* in task_2 \(\) at .*entries\.inc:3
> thread 1
.*
> bt
#0 .*
> delete
> thread 2
.*
> reverse-finish
.*clerk \(rate=9\) at firmware\.c:39
39	.*
> watch kept.limit
Hardware watchpoint 3: kept\.limit
> continue
Thread 2( ".*")? hit Hardware watchpoint 3: kept\.limit
Old value = 100
New value = 12
> info breakpoints
.*hw watchpoint .*
	breakpoint already hit 1 time
> tbreak pulse
Temporary breakpoint 4 at .*
> continue
Thread 3( ".*")? hit Temporary breakpoint 4, pulse \(line=3\) at firmware\.c:2[89]
2[89]	.*
> bt
#0  pulse \(line=3\) at firmware\.c:2[89]
#1 .* in handler_3 \(\) at .*
> reverse-stepi
.*
> info threads
.* 1 +Thread 1 .*
.* 2 +Thread 2 .*
END
    done
done

# A replay isn't changed.
session "writes are refused" << 'END'
> print kept.limit
\$1 = 100
> set var kept.limit = 5
Cannot access memory at address 0x80[0-9a-f]{6}
> print kept.limit
\$2 = 100
> set $t0 = 5
Could not write register.*
END

# Eight processors as threads; a million events back to the first.
for order in big little; do
    project tests/data/gdb/eight ORDER=$order
    session "eight processors, $order-endian" << 'END'
> info threads
\* 1 +Thread 1 .* task_1 \(\) at .*
  2 +Thread 2 .* task_2 \(\) at .*
  3 +Thread 3 .* task_3 \(\) at .*
  4 +Thread 4 .* task_4 \(\) at .*
  5 +Thread 5 .* task_5 \(\) at .*
  6 +Thread 6 .* task_6 \(\) at .*
  7 +Thread 7 .* task_7 \(\) at .*
  8 +Thread 8 .* task_8 \(\) at .*
> tbreak count thread 7
Temporary breakpoint 1 at .*
> continue
Thread 7( ".*")? hit Temporary breakpoint 1, count \(number=7\) at .*
> thread 4
.*
> stepi
.*
> stepi
.*
> info threads
\* 4 +Thread 4 .*
> thread apply 8 2 -q print $pc
.*
> continue
No more reverse-execution history\.
> thread apply all -q bt 1
#0 .*count \(number=8\) at firmware\.c:1[01]
#0 .*count \(number=7\) at firmware\.c:1[01]
#0 .*count \(number=6\) at firmware\.c:1[01]
#0 .*count \(number=5\) at firmware\.c:1[01]
#0 .*count \(number=4\) at firmware\.c:1[01]
#0 .*count \(number=3\) at firmware\.c:1[01]
#0 .*count \(number=2\) at firmware\.c:1[01]
#0 .*count \(number=1\) at firmware\.c:1[01]
END
    session "a million events back to the first, $order-endian" << 'END'
> continue
No more reverse-execution history\.
> monitor where
.*1002400.*
> watch first
Hardware watchpoint 1: first
> reverse-continue
Thread [1-8]( ".*")? hit Hardware watchpoint 1: first
Old value = [1-8]
New value = 0
> reverse-continue
No more reverse-execution history\.
> monitor where
.*position 0 of.*
> info threads
.* 1 +Thread 1 .* task_1 \(\) at .*
.* 2 +Thread 2 .* task_2 \(\) at .*
> delete
> tbreak firmware.c:11
Temporary breakpoint 2 at .*
> continue
Thread [1-8]( ".*")? hit Temporary breakpoint 2, .*
END
done

# The kit's planted mistakes, back from what is seen to the cause: a stack that overflows,
for level in -O0 -O2; do
    project tests/data/gdb/overflow OPTIMIZE=$level
    session "the cause of an overflow, $level" << 'END'
> continue
(Program|Thread 2( ".*")?) received signal SIGBUS, Bus error\.
.*meter \(.*\) at firmware\.c:3[23]
3[23]	.*
> print next
\$1 = \(struct sample \* volatile\) 0x61616161
> watch -l next
Hardware watchpoint 1: -location next
> reverse-continue
Old value = \(struct sample \* volatile\) 0x61616161
> reverse-continue
> reverse-continue
> reverse-continue
New value = \(struct sample \* volatile\) 0x80[0-9a-f]{6} .*
.*report \(byte=.*\) at firmware\.c:16
16	.*
> bt
#0 .*report \(byte=.*\) at firmware\.c:16
#1 .* in clerk \(.*\) at firmware\.c:23
#2 .* in task_1 \(\) at .*
END

    # and an update that is lost, under an order that `make explore` finds.
    if ! project tests/data/kit/adders OPTIMIZE=$level CFLAGS=-DRACE explore &&
        [ -e "$work/build/explore.journal" ]; then
        ordered "$work/build/explore.journal"
        session "the cause of a lost update, $level" << 'END'
> continue
No more reverse-execution history\.
> print sum
\$1 = [34]
> watch sum
Hardware watchpoint 1: sum
> reverse-continue
Thread [12]( ".*")? hit Hardware watchpoint 1: sum
Old value = [34]
New value = [34]
.*add \(number=.*\) at firmware\.c:11
> reverse-continue
Thread [12]( ".*")? hit Hardware watchpoint 1: sum
Old value = [34]
New value = 0
.*add \(number=.*\) at firmware\.c:11
> thread apply all -q bt
#[01] .*add \(number=.*\) at firmware\.c:1[1-5]
#[12] .* in task_[12] \(\) at .*
#[01] .*add \(number=.*\) at firmware\.c:1[1-5]
#[12] .* in task_[12] \(\) at .*
END
    else
        fail "gdb: the cause of a lost update, $level" "no order was found: $(tail -c 1000 "$work/made")"
    fi
done

# make gdb: commands from a file, those of GDB's command line, and what is missing.
project tests/data/gdb/pair
printf '%s\n' 'break weigh' continue 'print number' > "$work/commands"
make -s -C tests/data/gdb/pair SDK="$sdk" BOARD="$board" BUILD="$work/build" gdb < "$work/commands" > "$work/said" 2>&1
verdict "gdb: make gdb" "$(grep -qx '\$1 = 1' "$work/said" || cat "$work/said")"
make -s -C tests/data/gdb/pair SDK="$sdk" BOARD="$board" BUILD="$work/build" gdb GDBFLAGS="-ex 'print 6 * 7'" \
    < "$work/nothing" > "$work/said" 2>&1
verdict "gdb: make gdb with options" "$(grep -qx '\$1 = 42' "$work/said" || cat "$work/said")"
echo 'print nothing' | sdk/gdb "$board" "$elf" "$cfg" "$journal" > "$work/said" 2>&1
verdict "gdb: a command that fails" "$([ $? = 1 ] && grep -qx 'No symbol "nothing" in current context\.' "$work/said" ||
    cat "$work/said")"

# GDB's text interface, in a terminal.
if have script "GDB's text interface"; then
    cp -r tests/data/gdb/pair "$work/code"
    printf 'SDK = %s\ninclude $(SDK)/board.mk\n' "$PWD/sdk" > "$work/code/Makefile"
    printf '%s\n' 'set confirm off' 'break weigh' continue 'layout regs' quit |
        timeout 120 script -qec "stty rows 40 cols 120; make -s -C '$work/code' BOARD='$board' gdb GDBFLAGS=-tui" \
            /dev/null > "$work/said" 2>&1
    verdict "gdb: the text interface" "$(
        grep -aq 'Register' "$work/said" && grep -aq 'B+>' "$work/said" &&
            grep -aqE 'Thread 1( ".*")? hit Breakpoint 1' "$work/said" || tail -c 3000 "$work/said" | cat -v)"
fi

# A move that would take an hour ends where GDB asks for that: by the byte 3, and by Ctrl-C in GDB.
elf=$work/endless.elf
printf '%s\n' 'first: addiu $t0, $t0, 1' ' b first' ' nop' > "$work/endless.s"
"$board" asm "$work/endless.s" "$elf"
cfg=$work/endless.cfg
printf '%s\n' 'BOARD(1, 0x10000);' 'CRE_TSK(1, {TA_HLNG | TA_ACT, 0, first, 1, 1024, NULL});' > "$cfg"
journal=$work/endless.journal
{ echo board-journal 2 big; yes 'S 1 4294967295' | head -n 25; } > "$journal"
python3 - "$board" "$elf" "$cfg" "$journal" > "$work/said" 2>&1 << 'END'
import select, subprocess, sys, time

server = subprocess.Popen([sys.argv[1], "gdb", *sys.argv[2:]], stdin=subprocess.PIPE, stdout=subprocess.PIPE, bufsize=0)
come = b""

def send(text):
    server.stdin.write(b"$%s#%02x" % (text, sum(text) % 256))

def reply():
    global come
    while True:
        end = come.find(b"#") + 3
        if 3 <= end <= len(come):
            packet, come = come[:end].lstrip(b"+")[1:-3], come[end:]
            if packet == b"OK" or not packet.startswith(b"O"):
                return packet.decode()
            print(bytes.fromhex(packet[1:].decode()).decode(), end="")
        elif select.select([server.stdout], [], [], 60)[0]:
            come += server.stdout.read(4096)
        else:
            sys.exit("no answer")

def ask(request):
    send(request)
    print(reply())

def interrupt(move):
    send(move)
    if select.select([server.stdout], [], [], 1)[0]:
        print("it has stopped by itself")
    begun = time.monotonic()
    server.stdin.write(b"\x03")
    print(reply(), "soon" if time.monotonic() - begun < 10 else "late")

ask(b"QStartNoAckMode")
interrupt(b"vCont;c")
interrupt(b"vCont;c")
ask(b"vCont;s:1")
server.stdin.write(b"\x03")
ask(b"bs")
ask(b"Z0,80000ff0,4")
interrupt(b"bc")
ask(b"qRcmd," + b"goto 0".hex().encode())
send(b"k")
print(server.wait(60))
END
printf '%s\n' OK 'T02thread:01; soon' 'T02thread:01; soon' 'T05thread:01;' 'T05thread:01;' OK 'T02thread:01; soon' \
    'at 0' OK 0 > "$work/wanted"
verdict "gdb: the byte 3 ends a move" "$(cmp -s "$work/said" "$work/wanted" || cat "$work/said")"
# More comes than another input may have: acknowledgments, and then GDB goes.
printf '%s\n' 'board-journal 2 big' 'S 1 1' > "$work/short.journal"
{ head -c 140000000 /dev/zero | tr '\0' '+'; printf '$k#6b'; } |
    timeout 600 "$board" gdb "$elf" "$cfg" "$work/short.journal" > "$work/said" 2>&1
status=${PIPESTATUS[1]}
verdict "gdb: 140,000,000 bytes" "$([ "$status" = 0 ] || cat "$work/said")"
cat > "$work/interrupted.py" << 'END'
import os, signal, threading
threading.Timer(2, os.kill, (os.getpid(), signal.SIGINT)).start()
END
session "Ctrl-C" << END
> source $work/interrupted.py
> continue
(Thread 1( ".*")?|Program) received signal SIGINT, Interrupt\\.
.*
> printf "%d\\n", \$t0 > 0
1
> reverse-stepi
.*
> monitor goto 0
at 0
END
summary
