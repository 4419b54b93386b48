#!/bin/bash
# The tests of `board explore` and `board shrink`: tests/programs/explore.sh PROGRAM. examples/explore/cases has
# searches, a line each, and says what its fields are. What no line of it can say follows.
. "$(dirname "$0")/check.sh"
. tests/programs/growths.sh
examples=examples/explore

# assembled SOURCE: makes an object file of one of the examples, once, and `image` its name.
assembled() {
    image=$work/$1.elf
    [ -f "$image" ] || "$board" asm "$examples/$1" "$image" || fail "explore: $1" "it isn't assembled"
}

# explores ARGUMENT..: runs `board explore`, which leaves $work/out and $work/err. The status is its own. Schedules are
# searched one by one, unless `how` says otherwise.
how=(--memory 0)
explores() {
    "$board" explore "$@" "${how[@]}" < /dev/null > "$work/out" 2> "$work/err"
}

# events JOURNAL: how many it has.
events() {
    awk 'NR > 1 { n += $NF } END { print n + 0 }' "$1"
}

# is_found: what is wrong with a search that should have found a schedule, of which the status is given.
is_found() {
    [ "$1" = 5 ] || echo -n "; status $1, wanted 5"
    [ "$(cat "$work/err")" = "board: a schedule fails" ] || echo -n "; standard error is '$(head -c 300 "$work/err")'"
    grep -q '^fails after ' "$work/out" && grep -qE '^ +0  ' "$work/out" ||
        echo -n "; it doesn't say what happens: $(head -c 300 "$work/out")"
}

# is_none NUMBER BOUNDS STATUS [ENDED]: what is wrong with a search that should have tried so many schedules, of which
# so many came to an end (all if left out), and found none.
is_none() {
    local thing=schedules ended=${4:-$1}
    [ "$1" != 1 ] || thing=schedule
    [ "$3" = 0 ] || echo -n "; status $3, wanted 0"
    [ ! -s "$work/err" ] || echo -n "; standard error is '$(head -c 300 "$work/err")'"
    [ "$(head -n 1 "$work/out")" = "none of $1 $thing fails: $2" ] || echo -n "; it says '$(head -c 300 "$work/out")'"
    sed -n 2p "$work/out" | grep -qE '^looked for: .' || echo -n "; it doesn't say what was looked for"
    sed -n 3p "$work/out" | grep -qE "^$ended came to an end, (none was cut|[0-9]+ w(as|ere) cut) short" ||
        echo -n "; it says '$(sed -n 3p "$work/out")', and not $ended"
    [ "$(sed -n 3p "$work/out" | grep -c 'none was cut short')" = $((ended == $1)) ] ||
        echo -n "; how many were cut short is wrong"
    [ "$(grep -c '^warning: none came to an end' "$work/out")" = $((ended == 0 && ! fair)) ] ||
        echo -n "; it warns, or doesn't"
}

# bounds OPTION..: how the bounds of options are told.
bounds() {
    local -A number=([events]=1000 [preemptions]=1 [ticks]=0 [raises]=0)
    local told="at most" name owed=0
    while [ $# -gt 0 ]; do
        case $1 in
        --events | --preemptions | --ticks) number[${1#--}]=$2 ;;
        --raises) number[raises]=${2##*.} owed=${2%%.*} ;;
        esac
        shift
    done
    for name in events preemptions ticks raises; do
        [ "${number[$name]}" != 1 ] || told="$told ${number[$name]} ${name%s}"
        [ "${number[$name]}" = 1 ] || told="$told ${number[$name]} $name"
        case $name in events | preemptions) told="$told," ;; ticks) told="$told and" ;; esac
    done
    [ "${number[raises]}" = 0 ] || told="$told; rest is an end after $owed raises"
    [ "$owed" != 1 ] || told="${told%s}"
    echo "$told"
}

# shown HOW CONFIG JOURNAL: what is wrong with a journal's last board, which should show something: a byte of memory,
# an exception, a deadlock, the console.
shown() {
    local files=("$image" "$2" "$3")
    case $1 in
    '') ;;
    exception) "$board" trace --summary "${files[@]}" | grep -q 'last exception at event' || echo -n "; no exception" ;;
    deadlock) "$board" trace --summary "${files[@]}" | grep -q '^deadlock: ' || echo -n "; no deadlock" ;;
    console*) [ "$("$board" run "${files[@]}" | tail -n 1)" = "${1#console }" ] || echo -n "; another console" ;;
    *=*) printf '%s\n' "goto $(events "$3")" "mem ${1%=*}" | "$board" debug "${files[@]}" | tail -n 1 |
        grep -qx "${1#*=}" ||
        echo -n "; another byte than $1" ;;
    *) echo -n "; the table says '$1'" ;;
    esac
}

# left_of: how many events `board shrink` says that it has left.
left_of() {
    sed -n '1s/^\([0-9]*\) of [0-9]* events are left.*/\1/p' "$work/out"
}

# switches_of JOURNAL: how often a step in a journal is of another processor than the last step before it.
switches_of() {
    awk '$1 == "S" { if (last != "" && last != $2) count++; last = $2 } END { print count + 0 }' "$1"
}

# shrinks NAME CONFIG JOURNAL OPTION..: what `board shrink` leaves of a journal: no more events, with no more switches,
# which still fail, and of which no more are left then. (Where they fail only at the fair end, the journal that is kept
# has that, too.)
shrinks() {
    local name=$1 config=$2 journal=$3 wrong="" before left turns then
    shift 3
    "$board" shrink "$image" "$config" "$journal" "$@" --out "$work/left" > "$work/out" 2> "$work/err" ||
        wrong="$wrong; status $?; $(head -c 300 "$work/err")"
    before=$(events "$journal")
    left=$(left_of)
    [ "${left:-99999}" -le "$before" ] || wrong="$wrong; of $before events it says '$(head -n 1 "$work/out")'"
    turns=$(sed -n "1s/^.* events are left, with \([0-9]*\) of $(switches_of "$journal") switches\$/\1/p" "$work/out")
    [ "${turns:-99999}" -le "$(switches_of "$journal")" ] ||
        wrong="$wrong; of the switches it says '$(head -n 1 "$work/out")'"
    grep -q "fails after $left event" "$work/out" || wrong="$wrong; it says '$(head -n 2 "$work/out")'"
    grep -q ' and the fair end: ' "$work/out" || {
        [ "$(events "$work/left")" = "$left" ] ||
            wrong="$wrong; $left events are left, and $(events "$work/left") are kept"
        [ "$(switches_of "$work/left")" = "$turns" ] ||
            wrong="$wrong; with $turns switches, and $(switches_of "$work/left") are kept"
    }
    "$board" shrink "$image" "$config" "$work/left" "$@" > "$work/out" 2> "$work/err" ||
        wrong="$wrong; what is left doesn't fail"
    [ "$(left_of)" -le "$left" ] || wrong="$wrong; $left events are left, and then $(left_of)"
    then=$(sed -n '1s/^.*, with \([0-9]*\) of [0-9]* switches$/\1/p' "$work/out")
    [ "${then:-99999}" -le "$(switches_of "$work/left")" ] || wrong="$wrong; then $then switches are left"
    verdict "shrink: $name" "$wrong"
}

# without WORDS OPTION..: the options but for those that only `explore` has, in `options`.
without() {
    options=()
    while [ $# -gt 0 ]; do
        case $1 in
        --shortest) ;;
        --events | --preemptions | --ticks | --raises | --lines) shift ;;
        --shard | --remember | --threads | --time | --lazy | --only | --raises-at) shift ;;
        *) options+=("$1") ;;
        esac
        shift
    done
}

# finds NAME CONFIG PREEMPTIONS EVENTS SHOWN OPTION..: a schedule is found, with so many preemptions and none with
# fewer, of so many events where a number is given. Its journal leads to the failure, and so does what is left of it.
finds() {
    local name=$1 config=$2 preemptions=$3 count=$4 shows=$5 wrong fewer=()
    shift 5
    rm -f "$work/found"
    explores "$image" "$config" "$@" --out "$work/found"
    wrong=$(is_found $?)
    [ -z "$count" ] || [ "$(events "$work/found")" = "$count" ] ||
        wrong="$wrong; $(events "$work/found") events, not $count"
    grep -qE "^fails after ($(events "$work/found") events?|[0-9]+ events? and the fair end): " "$work/out" ||
        wrong="$wrong; it says '$(head -n 1 "$work/out")', and the journal has $(events "$work/found") events"
    wrong="$wrong$(shown "$shows" "$config" "$work/found")"
    while [ $# -gt 0 ]; do
        if [ "$1" = --preemptions ]; then shift; else fewer+=("$1"); fi
        shift
    done
    explores "$image" "$config" "${fewer[@]}" --preemptions "$preemptions"
    [ $? = 5 ] || wrong="$wrong; with $preemptions preemptions it isn't found"
    if [ "$preemptions" -gt 0 ]; then
        explores "$image" "$config" "${fewer[@]}" --preemptions $((preemptions - 1)) ||
            wrong="$wrong; with one preemption fewer: status $?"
    fi
    verdict "explore: $name" "$wrong"
    without "${fewer[@]}"
    shrinks "$name" "$config" "$work/found" "${options[@]}"
}

while IFS='|' read -r source config words told shows; do
    case $source in '#'* | '') continue ;; esac
    assembled "$source"
    read -ra given <<< "$words"
    read -ra answer <<< "$told"
    if [ "${answer[0]}" = found ]; then
        finds "$source $words" "$examples/$config" "${answer[1]}" "${answer[2]:-}" "$shows" "${given[@]}"
    else
        explores "$image" "$examples/$config" "${given[@]}"
        got=$?
        fair=0
        case $words in *--fair*) fair=1 ;; esac
        verdict "explore: $source $words" "$(is_none "${answer[1]}" "$(bounds "${given[@]}")" $got "${answer[2]:-}")"
    fi
done < $examples/cases

# ---- The lazy schedules alone, as a search goes by itself: they come to the same, with as few preemptions.

# lazily OPTION..: the same options without those that such a search doesn't know.
lazily() {
    options=()
    while [ $# -gt 0 ]; do
        case $1 in
        --shard | --remember | --threads) shift ;;
        *) options+=("$1") ;;
        esac
        shift
    done
}

# is_lazily_none BOUNDS STATUS: what is wrong with such a search that should have found none.
is_lazily_none() {
    [ "$2" = 0 ] || echo -n "; status $2, wanted 0: $(head -c 300 "$work/err")"
    [ ! -s "$work/err" ] || echo -n "; standard error is '$(head -c 300 "$work/err")'"
    [ "$(head -n 1 "$work/out")" = "none of the schedules fails: $1" ] &&
        sed -n 2p "$work/out" | grep -q '^looked for: .' &&
        sed -n 3p "$work/out" | grep -qE "^[0-9]+ places? w(as|ere) gone through, (1 is an end|[0-9]+ are ends)$cut\$" ||
        echo -n "; it says '$(head -c 300 "$work/out")'"
}

cut='(, [0-9]+ w(as|ere) cut short by --(events|ticks))*'
how=()
while IFS='|' read -r source config words told shows; do
    case $source,$words in '#'* | ,* | *--fair*) continue ;; esac
    assembled "$source"
    read -ra given <<< "$words"
    read -ra answer <<< "$told"
    lazily "${given[@]}"
    if [ "${answer[0]}" = found ]; then
        finds "$source $words, lazily" "$examples/$config" "${answer[1]}" "${answer[2]:-}" "$shows" "${options[@]}"
    else
        explores "$image" "$examples/$config" "${options[@]}"
        wrong=$(is_lazily_none "$(bounds "${given[@]}")" $?)
        mv "$work/out" "$work/lazy"
        explores "$image" "$examples/$config" "${options[@]}" --lazy 1000000
        verdict "explore: $source $words, lazily" \
            "$wrong$(cmp "$work/lazy" "$work/out" || echo "; with --lazy it says '$(head -c 300 "$work/out")'")"
    fi
done < $examples/cases
# Without the memory for that schedules are searched one by one.
printf '%s\n' 'main: lui $t0, %hi(count)' 'addiu $t1, $0, 1500' 'again: sw $t1, %lo(count)($t0)' \
    'addiu $t1, $t1, -1' 'bne $t1, $0, again' nop 'addiu $v0, $0, 3' syscall '.align 4' 'count: .word 0' \
    > "$work/stores.s"
"$board" asm "$work/stores.s" "$work/stores"
wide=("$work/stores" $examples/lost_update.cfg --exception --preemptions 0 --events 20000)
explores "${wide[@]}"
wrong=$(is_lazily_none "$(bounds --events 20000 --preemptions 0)" $?)
explores "${wide[@]}" --memory 1
verdict "explore: more places than fit into a MiB" \
    "$wrong$(grep -q '^none of 2 schedules fails: ' "$work/out" || head -c 300 "$work/out")"
# takes NAME ARGUMENT..: a search takes 24 MiB at most. (Python itself takes less.)
takes() {
    local name=$1 taken
    shift
    have python3 "$name" || return 0
    taken=$(python3 -c 'import resource, subprocess, sys
subprocess.run(sys.argv[1:], stdout=subprocess.DEVNULL, stderr=subprocess.DEVNULL)
print(resource.getrusage(resource.RUSAGE_CHILDREN).ru_maxrss)' "$board" explore "$@" --exception --threads 1)
    verdict "$name" "$([ "$taken" -le $((24 * 1024)) ] || echo "$taken KiB")"
}

# Places take no more memory than is said: without a bound these would be above 100 MiB.
sed 's/1500/30000/' "$work/stores.s" > "$work/many.s"
"$board" asm "$work/many.s" "$work/many"
takes "explore: no more memory than --memory says" "$work/many" $examples/lost_update.cfg \
    --events 400000 --preemptions 0 --memory 16
# One by one there is a board for each choice of a schedule; one for each event would be above 100 MiB, too.
takes "explore: a few boards one by one" "$work/many" $examples/lost_update.cfg --events 1000 --memory 0
takes "explore: a few boards in a shard" "$work/many" $examples/lost_update.cfg --events 1000 --preemptions 2 \
    --shard 1/400
how=(--memory 0)

# ---- Without bounds: a program that is right within them is right, and what is found within them is found.

# unbounded OPTION..: the same without those that bound events and preemptions, or that such a search doesn't know.
unbounded() {
    options=()
    while [ $# -gt 0 ]; do
        case $1 in
        --events | --preemptions | --fair | --shard | --remember | --threads | --time) shift ;;
        --shortest) ;;
        *) options+=("$1") ;;
        esac
        shift
    done
}

# holds STATUS: what is wrong with a search without bounds that should have found nothing.
holds() {
    [ "$1" = 0 ] || echo -n "; status $1, wanted 0: $(head -c 300 "$work/err")"
    [ ! -s "$work/err" ] || echo -n "; standard error is '$(head -c 300 "$work/err")'"
    head -n 1 "$work/out" | grep -q '^none fails, however many events and preemptions it has: at most ' &&
        sed -n 2p "$work/out" | grep -q '^looked for: .' &&
        sed -n 3p "$work/out" | grep -qE '^[0-9]+ places? w(as|ere) gone through, (1 is an end|[0-9]+ are ends)$' &&
        [ "$(wc -l < "$work/out")" = 3 ] ||
        echo -n "; it says '$(head -c 300 "$work/out")'"
}

while IFS='|' read -r source config words told shows; do
    case $source in '#'* | '') continue ;; esac
    read -ra given <<< "$words"
    unbounded "${given[@]}"
    case $source,$words,$told in
    *_right.s,*,none* | mutex.s,*,none*)
        assembled "$source"
        explores "$image" "$examples/$config" "${options[@]}" --places 1000000
        wrong=$(holds $?)
        explores "$image" "$examples/$config" "${options[@]}" --places 1000000 --livelock
        verdict "explore: $source $words, without bounds" "$wrong$(holds $?)"
        ;;
    *,*--fair*,found*)
        # (within bounds it takes a fair end to see that nobody gets on)
        assembled "$source"
        explores "$image" "$examples/$config" "${options[@]}" --places 1000000 --livelock --out "$work/found"
        wrong=$(is_found $?)
        grep -q ': nobody gets on: from there no schedule comes to an end$' "$work/out" ||
            wrong="$wrong; it says '$(head -c 300 "$work/out")'"
        "$board" run "$image" "$examples/$config" "$work/found" > "$work/ran" || wrong="$wrong; it doesn't run"
        explores "$image" "$examples/$config" "${options[@]}" --places 1000000
        [ $? = 0 ] && grep -qE '^warning: from [0-9]+ of them no schedule comes to an end' "$work/out" ||
            wrong="$wrong; without --livelock it says '$(head -c 300 "$work/out")'"
        verdict "explore: $source $words, nobody gets on" "$wrong"
        ;;
    *,*--fair*,*) ;;
    *,found*)
        assembled "$source"
        explores "$image" "$examples/$config" "${options[@]}" --places 1000000 --out "$work/found"
        verdict "explore: $source $words, without bounds" \
            "$(is_found $?)$(shown "$shows" "$examples/$config" "$work/found")"
        ;;
    esac
done < $examples/cases

# ---- Who comes to an instruction, without bounds: somebody comes to a label where somebody does within bounds, and the
# journal leads there.

# reaches NAME CONFIG LABEL OPTION..: whether somebody comes to the label, the same with bounds and without.
reaches() {
    local name=$1 config=$2 label=$3 wrong= got
    shift 3
    rm -f "$work/found"
    explores "$image" "$config" --reach "$label" "$@" --places 100000 --out "$work/found"
    got=$?
    if [ $got = 5 ]; then
        [ "$(cat "$work/err")" = "board: a schedule fails" ] || wrong="; standard error is '$(head -c 300 "$work/err")'"
        grep -qE "^fails after [0-9]+ events?: processor [0-9] is at $label\$" "$work/out" ||
            wrong="$wrong; it says '$(head -n 1 "$work/out")'"
        "$board" shrink "$image" "$config" "$work/found" --reach "$label" > "$work/left" ||
            wrong="$wrong; its journal doesn't come there"
    else
        wrong=$(holds $got)
        [ "$(sed -n 2p "$work/out")" = "looked for: a processor at $label" ] ||
            wrong="$wrong; it looks for $(sed -n 2p "$work/out")"
    fi
    explores "$image" "$config" --reach "$label" "$@" --events 60 --preemptions 3
    [ $? = $got ] || wrong="$wrong; without bounds the status is $got, and within them another one"
    [ "$wanted" = both ] || [ "$wanted" = $got ] || wrong="$wrong; the status is $got, wanted $wanted"
    verdict "explore: $name, who comes to $label" "$wrong"
}

# labels SOURCE: those of a source.
labels() {
    sed -n 's/^\([a-z_]*\):.*/\1/p' "$1"
}

wanted=both
for source in wakeup.s wakeup_right.s deadlock.s inversion.s; do
    assembled $source
    config=${source%.s}
    ticks=0
    [ $source = inversion.s ] && ticks=2        # its tasks wait for ticks, so without any it comes to no end
    for label in $(labels $examples/$source); do
        reaches $source "$examples/${config%_right}.cfg" "$label" --ticks $ticks
    done
done
for source in interrupt.s interrupt_right.s; do
    assembled $source
    for label in $(labels $examples/$source); do
        reaches $source $examples/interrupt.cfg "$label" --raises 1 --lines 3
    done
done

# adders LINE..: two tasks add 1 to a word, by these lines; who of them is done last comes to `lost` if it isn't 2.
adders() {
    printf '%s\n' '        .equ    ext_tsk, 3' 'count:  .word   0' 'done:   .word   0' \
        'main:   lui     $s0, %hi(count)' "$@"
    cat << 'END'
add:    ll      $t1, %lo(done)($s0)
        addiu   $t1, $t1, 1
        addu    $t2, $t1, $0
        sc      $t1, %lo(done)($s0)
        beqz    $t1, add
        addiu   $t3, $0, 2
        bne     $t2, $t3, end
        nop
        lw      $t0, %lo(count)($s0)
        beq     $t0, $t3, end
        nop
lost:   nop
end:    addiu   $v0, $0, ext_tsk
        syscall
END
}
image=$work/adders.elf
adders '        lw      $t0, %lo(count)($s0)' '        addiu   $t0, $t0, 1' '        sw      $t0, %lo(count)($s0)' \
    > "$work/adders.s"
"$board" asm "$work/adders.s" "$image"
wanted=5 reaches "two tasks that add" $examples/lost_update.cfg lost
adders 'again:  ll      $t0, %lo(count)($s0)' '        addiu   $t0, $t0, 1' '        sc      $t0, %lo(count)($s0)' \
    '        beqz    $t0, again' '        nop' > "$work/adders.s"
"$board" asm "$work/adders.s" "$image"
wanted=0 reaches "two tasks that add by LL and SC" $examples/lost_update.cfg lost

# ---- The consoles of all ends: those of the race, each with its schedule; of the repaired program the right one. The
# values of words tell ends apart that print the same.

ends() {
    local wanted=$1 wrong=
    shift
    explores "$@" --places 100000 --finals || wrong="; status $?"
    [ "$(sed -n 's/^\(".*\) at an end after [0-9]* events$/\1/p' "$work/out" | sort | tr -d '\n')" = "$wanted" ] ||
        wrong="$wrong; it says '$(head -c 500 "$work/out")'"
    verdict "explore: $*, all ends" "$wrong"
}
"$board" asm examples/lost_update/racy.s "$work/racy.elf"
"$board" asm examples/lost_update/repaired.s "$work/repaired.elf"
ends '"3""4""5""6""7""8""9"' "$work/racy.elf" examples/lost_update/racy.cfg
ends '"9"' "$work/repaired.elf" examples/lost_update/repaired.cfg
assembled lost_update.s
ends '""' "$image" $examples/lost_update.cfg
ends '"", count=1"", count=2' "$image" $examples/lost_update.cfg --values count
verdict "explore: how many ends there are by values" \
    "$(grep -qx '2 consoles with values at the ends, and no other' "$work/out" || head -c 500 "$work/out")"
ends '"", main=1007714304, count=1"", main=1007714304, count=2' \
    "$image" $examples/lost_update.cfg --values 0x80000004,count
assembled lost_update_right.s
ends '"", count=2' "$image" $examples/lost_update.cfg --values count

# ---- A task that another one ends while it counts in memory of its own: started again it shows how far it had come.

cat > "$work/ended.s" << 'END'
own: .word 0
shown: .word 0
first: addiu $a0, $0, 2
addiu $v0, $0, 4                # ter_tsk
syscall
addiu $a0, $0, 2
addiu $v0, $0, 1                # act_tsk
syscall
addiu $v0, $0, 3                # ext_tsk
syscall
second: lui $s0, %hi(own)
lw $t0, %lo(own)($s0)
bne $t0, $0, again
addiu $t0, $0, 1
sw $t0, %lo(own)($s0)
addiu $t0, $0, 2
sw $t0, %lo(own)($s0)
addiu $t0, $0, 3
sw $t0, %lo(own)($s0)
addiu $v0, $0, 3
syscall
again: lw $t0, %lo(own)($s0)
sw $t0, %lo(shown)($s0)
addiu $a0, $t0, 48
addiu $v0, $0, 40               # put_chr
syscall
addiu $v0, $0, 3
syscall
END
cat > "$work/ended.cfg" << 'END'
BOARD(2, 0x10000);
CRE_TSK(1, {TA_ACT, 0, first, 1, 256, NULL});
CLASS(TCL_2) { CRE_TSK(2, {TA_ACT, 0, second, 1, 256, NULL}); }
END
image=$work/ended.elf
"$board" asm "$work/ended.s" "$image"
ends '"""1""2""3"' "$image" "$work/ended.cfg"
for bounds in "--places 10000" "--preemptions 2"; do
    read -ra options <<< "$bounds"
    explores "$image" "$work/ended.cfg" --never "shown == 2" "${options[@]}" --out "$work/found"
    verdict "explore: a task that is ended, $bounds" \
        "$(is_found $?)$(shown 80000007=02 "$work/ended.cfg" "$work/found")"
done
explores "$image" "$work/ended.cfg" --never "shown > 3" --places 10000
verdict "explore: a task that is ended, none" "$(holds $?)"

# ---- The same board in the other byte order: as many schedules, and the words are those of its own order.

fair=0
for source in peterson.s peterson_right.s; do
    { echo '        .byteorder little'; cat $examples/$source; } > "$work/little.s"
    "$board" asm "$work/little.s" "$work/little"
    explores "$work/little" $examples/peterson.cfg --word inside=0..1 --events 50 --preemptions 2 --out "$work/found"
    got=$?
    if [ $source = peterson.s ]; then
        wrong=$(is_found $got)
        grep -qx 'board-journal 2 little' "$work/found" || wrong="$wrong; its journal is $(head -n 1 "$work/found")"
    else
        wrong=$(is_none 522 "at most 50 events, 2 preemptions, 0 ticks and 0 raises" $got 220)
    fi
    verdict "explore: $source, little-endian" "$wrong"
done

# ---- What is looked for where nothing is said, and by an address

assembled deadlock.s
explores "$image" $examples/deadlock.cfg
wrong=$(is_found $?)
grep -q '^fails after .* events: a deadlock: ' "$work/out" || wrong="$wrong; it says $(head -n 1 "$work/out")"
verdict "explore: a deadlock, by itself" "$wrong"
assembled seqlock.s
explores "$image" $examples/seqlock.cfg --events 40
verdict "explore: an exception, by itself" "$(is_found $?)"
assembled lost_update.s
explores "$image" $examples/lost_update.cfg
verdict "explore: no exception, no deadlock" \
    "$(is_none 12 "at most 1000 events, 1 preemption, 0 ticks and 0 raises" $?)"
explores "$image" $examples/lost_update.cfg --word 0x80000000=2
verdict "explore: a word by its address" "$(is_found $?)"
explores "$image" $examples/lost_update.cfg --word 0x7fffffff=0
verdict "explore: a word that isn't there" "$(is_found $?)"
explores "$image" $examples/lost_update.cfg --word count=0..2,0x80000000=1..2 --out "$work/found"
got=$?
verdict "explore: what fails at once" "$([ $got = 5 ] || echo "status $got")$([ "$(events "$work/found")" = 0 ] ||
    echo "; $(events "$work/found") events")"
assembled readers.s
explores "$image" $examples/readers.cfg --never 'x == y + 1 , 1+writer +writer+ readers >= 0x4' --events 50 \
    --preemptions 2 --shortest
wrong=$(is_found $?)
grep -qE '^fails after .* events: x == y \+ 1, as 1 == 0 \+ 1$' "$work/out" ||
    wrong="$wrong; it says $(head -n 1 "$work/out")"
verdict "explore: a condition that holds" "$wrong"
explores "$image" $examples/readers.cfg --never 'writer + writer + readers > 2' --events 50 --preemptions 2 --shortest
wrong=$(is_found $?)
grep -qE '^fails after 13 events: writer \+ writer \+ readers > 2, as 1 \+ 1 \+ 1 > 2$' "$work/out" ||
    wrong="$wrong; it says $(head -n 1 "$work/out")"
verdict "explore: a condition of several words" "$wrong"
explores "$image" $examples/readers.cfg --never '4294967295 + 1 <= x' --events 20
wrong=$(is_none 126 "at most 20 events, 1 preemption, 0 ticks and 0 raises" $? 0)
[ "$(sed -n 2p "$work/out")" = "looked for: 4294967295 + 1 <= x" ] ||
    wrong="$wrong; it looks for $(sed -n 2p "$work/out")"
verdict "explore: a condition that never holds" "$wrong"
assembled handoff_right.s
explores "$image" $examples/handoff.cfg --console '\x41\x42' --events 40
verdict "explore: a console by its bytes" "$([ $? = 0 ] || head -c 300 "$work/out" "$work/err")"
explores "$image" $examples/handoff.cfg --console 'AB\n' --events 40
verdict "explore: a console with a newline more" "$(is_found $?)"
explores "$image" $examples/handoff.cfg --console 'A\\' --events 40
verdict "explore: a console with a backslash" "$(is_found $?)"

# ---- The shortest within the bounds, by more preemptions than the fewest; and more preemptions than can help

"$board" asm examples/lost_update/racy.s "$work/racy"
for most in 1 2; do
    explores "$work/racy" examples/lost_update/racy.cfg --console 9 --ends --preemptions $most --shortest
    wrong=$(is_found $?)
    [ "$(head -n 1 "$work/out" | cut -d ' ' -f 3)" = $((62 - 2 * most)) ] ||
        wrong="$wrong; it says $(head -n 1 "$work/out")"
    verdict "explore: the shortest with $most preemptions" "$wrong"
done
explores "$work/racy" examples/lost_update/racy.cfg --console 9 --ends
grep -q '^fails after 60 events: the console is "3", not "9"$' "$work/out"
verdict "explore: what the console is" "$([ $? = 0 ] || head -n 1 "$work/out")"
assembled interrupt.s
(ulimit -t 20; exec "$board" explore "$image" $examples/interrupt.cfg --preemptions 100000 --memory 0) < /dev/null > "$work/out" \
    2> "$work/err"
got=$?
verdict "explore: more preemptions than can help" "$([ $got = 0 ] || echo "status $got")"

# ---- Large searches: a million events in a row, and no more memory than a few boards take

printf 'main: b main\nnop\n' > "$work/loop.s"
"$board" asm "$work/loop.s" "$work/loop"
explores "$work/loop" $examples/lost_update.cfg --events 1000000 --preemptions 0
verdict "explore: a million events" "$(is_none 2 "at most 1000000 events, 0 preemptions, 0 ticks and 0 raises" $? 0)"
explores "$work/loop" $examples/lost_update.cfg --events 0 --ends
verdict "explore: no events" "$(is_none 1 "at most 0 events, 1 preemption, 0 ticks and 0 raises" $? 0)"
explores "$work/loop" $examples/lost_update.cfg --events 0 --ends --fair 1
got=$?
verdict "explore: no events, and a fair end" "$([ $got = 5 ] || echo "status $got")"
assembled lost_update_right.s
sed 's/0x10000)/0x1000000)/' $examples/lost_update.cfg > "$work/large.cfg"
(ulimit -v 400000; exec "$board" explore "$image" "$work/large.cfg" --word count=2 --memory 0) < /dev/null > "$work/out" \
    2> "$work/err"
verdict "explore: 16 MiB of RAM in 400,000 KiB" \
    "$(is_none 16 "at most 1000 events, 1 preemption, 0 ticks and 0 raises" $?)"
(ulimit -v 40000; exec "$board" explore "$image" "$work/large.cfg" --word count=2 --memory 0) < /dev/null > "$work/out" \
    2> "$work/err"
check "explore: 16 MiB of RAM in 40,000 KiB" 3 "$work/nothing" "board: out of memory" $?

# ---- States that are remembered: the same answer, and fewer schedules

# remembers MIB LEAST MOST: what is wrong with searches that may remember so much, and have to try so many schedules.
remembers() {
    local told
    assembled peterson_right.s
    explores "$image" $examples/peterson.cfg --word inside=0..1 --events 50 --preemptions 2 --remember "$1" ||
        echo -n "; status $?"
    told=$(sed -n 's/^none of \([0-9]*\) schedules\{0,1\} fails: .*/\1/p' "$work/out")
    [ "${told:-0}" -ge "$2" ] && [ "$told" -le "$3" ] || echo -n "; it says $(head -c 300 "$work/out")"
    assembled peterson.s
    explores "$image" $examples/peterson.cfg --word inside=0..1 --events 50 --preemptions 2 --remember "$1" --shortest \
        --out "$work/found"
    is_found $?
    shown 8000000f=02 $examples/peterson.cfg "$work/found"
    [ "$(events "$work/found")" = 33 ] || echo -n "; $(events "$work/found") events"
}
verdict "explore: no states are remembered" "$(remembers 0 522 522)"
verdict "explore: 1 MiB of states is remembered" "$(remembers 1 1 521)"
verdict "explore: 64 MiB of states are remembered" "$(remembers 64 1 400)"

# ---- Shards: together they try what the whole search does; one of them finds

shard_bounds="at most 50 events, 2 preemptions, 0 ticks and 0 raises"
for of in 1 2 5; do
    wrong=
    total=0
    found=0
    for number in $(seq $of); do
        assembled peterson_right.s
        explores "$image" $examples/peterson.cfg --word inside=0..1 --events 50 --preemptions 2 --shard "$number/$of" ||
            wrong="$wrong; shard $number: status $?"
        tried=$(sed -n 's/^none of \([0-9]*\) schedules\{0,1\} fails: .*/\1/p' "$work/out")
        [ $of = 1 ] || grep -qF "$shard_bounds, shard $number of $of" "$work/out" ||
            wrong="$wrong; it says $(cat "$work/out")"
        total=$((total + ${tried:-0}))
        assembled peterson.s
        explores "$image" $examples/peterson.cfg --word inside=0..1 --events 50 --preemptions 2 --shard "$number/$of"
        [ $? = 0 ] || found=$((found + 1))
    done
    [ $total = 522 ] || wrong="$wrong; $total schedules"
    [ $found -gt 0 ] || wrong="$wrong; no shard finds what the whole search finds"
    verdict "explore: $of shards" "$wrong"
done

# ---- Seconds: what is known when they are over, and nothing else than without them if they aren't

# is_over STATUS: what is wrong with a search whose time was over after it had found that none fails with some
# preemptions.
is_over() {
    [ "$1" = 2 ] || echo -n "; status $1"
    [ ! -s "$work/out" ] || echo -n "; it writes $(head -c 300 "$work/out")"
    grep -qx 'board: the search: not known: --time is over, but none fails with --preemptions [0-9]' "$work/err" ||
        echo -n "; it says $(head -c 300 "$work/err")"
}
assembled peterson_right.s
explores "$image" $examples/peterson.cfg --word inside=0..1 --events 60 --preemptions 9 --time 2
verdict "explore: time is over" "$(is_over $?)"
explores "$image" $examples/peterson.cfg --word inside=0..1 --events 50 --preemptions 2 --time 1000000
verdict "explore: there is time enough" "$(is_none 522 "at most 50 events, 2 preemptions, 0 ticks and 0 raises" $? 220)"
assembled peterson.s
explores "$image" $examples/peterson.cfg --word inside=0..1 --events 50 --preemptions 2 --time 1000000 \
    --out "$work/found"
verdict "explore: what is found in time" "$(is_found $?)"

# ---- Threads: what one thread says, but which schedule is found

for threads in 1 2 5 64; do
    assembled peterson_right.s
    explores "$image" $examples/peterson.cfg --word inside=0..1 --events 50 --preemptions 2 --threads $threads
    wrong=$(is_none 522 "at most 50 events, 2 preemptions, 0 ticks and 0 raises" $? 220)
    explores "$image" $examples/peterson.cfg --word inside=0..1 --events 50 --preemptions 2 --threads $threads --shard 2/3
    wrong="$wrong$(grep -q '^none of [0-9]* schedules fails' "$work/out" || echo "; shard 2 of 3: $(head -c 300 "$work/out")")"
    assembled peterson.s
    explores "$image" $examples/peterson.cfg --word inside=0..1 --events 50 --preemptions 2 --threads $threads --out "$work/found"
    verdict "explore: by $threads threads" "$wrong$(is_found $?)"
    explores "$image" $examples/peterson.cfg --word inside=0..1 --events 50 --preemptions 2 --threads $threads --shortest --out "$work/found"
    verdict "explore: the shortest by $threads threads" "$(is_found $?)"
done
assembled peterson_right.s
explores "$image" $examples/peterson.cfg --word inside=0..1 --events 60 --preemptions 9 --threads 3 --time 2
verdict "explore: time is over for threads" "$(is_over $?)"
# Through places they go together, and come to the very same: some 2,800 places, of which many come at once; and where
# a writer is left out, the schedule of the first place that fails.
how=()
for source in readers_right readers; do
    assembled $source.s
    for threads in 1 2 3 5; do
        : > "$work/found"
        explores "$image" $examples/readers.cfg --exception --events 50 --preemptions 4 --threads $threads \
            --out "$work/found"
        echo "status $?" >> "$work/out"
        cat "$work/found" >> "$work/out"
        [ $threads -gt 1 ] || mv "$work/out" "$work/wanted"
        [ $threads = 1 ] || verdict "explore: places of $source by $threads threads" \
            "$(cmp "$work/wanted" "$work/out" || head -c 300 "$work/out")"
    done
    check_that="$(head -n 1 "$work/wanted")"
    verdict "explore: places of $source by one thread" \
        "$(case $check_that in "none of the schedules fails: "* | "fails after "*) ;; *) echo "$check_that" ;; esac)"
done
how=(--memory 0)

# ---- Preemptions and raises in some regions alone

# is_none_inside REGIONS BOUNDS STATUS: what is wrong with such a search that should have found none, and tells its
# regions by these lines.
is_none_inside() {
    local lines
    lines=$(wc -l <<< "$1")
    [ "$3" = 0 ] || echo -n "; status $3, wanted 0: $(head -c 300 "$work/err")"
    [ ! -s "$work/err" ] || echo -n "; standard error is '$(head -c 300 "$work/err")'"
    [ "$(head -n 1 "$work/out")" = "none of the schedules fails: $2" ] &&
        [ "$(sed -n "2,$((lines + 1))p" "$work/out")" = "$1" ] &&
        sed -n "$((lines + 2))p" "$work/out" | grep -q '^looked for: .' &&
        sed -n "$((lines + 3))p" "$work/out" | grep -qE "^[0-9]+ places? w(as|ere) gone through, (1 is an end|[0-9]+ are ends)$cut\$" ||
        echo -n "; it says '$(head -c 300 "$work/out")'"
}

# An update is lost where a processor is preempted behind its load (at main+0x4), up to its store.
how=()
assembled lost_update.s
for regions in 0x8000000c..0x80000014 0x80000010..0x80000014 main..0x80000008,0x8000000c..0x80000010; do
    finds "lost_update.s --only $regions" $examples/lost_update.cfg 1 12 80000003=01 --word count=2 --shortest --only $regions
done
while IFS='|' read -r regions told; do
    for preemptions in 1 2; do
        explores "$image" $examples/lost_update.cfg --word count=2 --preemptions $preemptions --only $regions
        wrong=$(is_none_inside "switches only in $told" "$(bounds --preemptions $preemptions)" $?)
        verdict "explore: lost_update.s --only $regions --preemptions $preemptions" "$wrong"
    done
done << 'END'
main..0x80000008|main..main+0x4
count..main,0x80000014..0x80000020|count..main, main+0x10..main+0x1c
END
explores "$image" $examples/lost_update.cfg --word count=2 --only main..0x8000000c --memory 0
check "explore: --only without memory" 2 "$work/nothing" \
    "board: the search: not known: there are more places than --memory holds" $?

# With --raises-at alone a processor may be preempted anywhere, also where no line may be raised: nobody comes there.
{ cat $examples/lost_update.cfg && echo 'DEF_INH(3, {TA_ASM, main});'; } > "$work/raised.cfg"
finds "lost_update.s --raises-at" "$work/raised.cfg" 1 12 80000003=01 --word count=2 --shortest --raises 0..1 --lines 3 \
    --raises-at 0x80000020..0x80000024

# A handler takes an update away where its line is raised behind the task's load (at main+0x4), up to its store.
assembled interrupt.s
raised=(--word count=2 --raises 1 --lines 3)
for regions in 0x8000000c..0x80000014 0x80000010..0x80000014 main..0x80000008,0x80000010..0x80000014; do
    finds "interrupt.s --raises-at $regions" $examples/interrupt.cfg 0 14 80000003=01 "${raised[@]}" --shortest \
        --raises-at $regions
done
finds "interrupt.s --only and --raises-at" $examples/interrupt.cfg 0 14 80000003=01 "${raised[@]}" --only main..handle \
    --raises-at 0x8000000c..0x80000014
while IFS='|' read -r regions told; do
    explores "$image" $examples/interrupt.cfg "${raised[@]}" --raises-at $regions
    wrong=$(is_none_inside "raises only in $told" "$(bounds --raises 1)" $?)
    verdict "explore: interrupt.s --raises-at $regions" "$wrong"
    explores "$image" $examples/interrupt.cfg "${raised[@]}" --only main..handle --raises-at $regions
    wrong=$(is_none_inside "switches only in main..handle"$'\n'"raises only in $told" "$(bounds --raises 1)" $?)
    verdict "explore: interrupt.s --only main..handle --raises-at $regions" "$wrong"
done << 'END'
main..0x8000000c|main..main+0x8
main..0x80000008,0x80000014..handle|main..main+0x4, main+0x10..handle
handle..0x80000034|handle..handle+0x18
END
explores "$image" $examples/interrupt.cfg "${raised[@]}" --raises-at main..handle --memory 0
check "explore: --raises-at without memory" 2 "$work/nothing" \
    "board: the search: not known: there are more places than --memory holds" $?
how=(--memory 0)

# ---- Options that have no meaning

assembled lost_update.s
files=("$image" $examples/lost_update.cfg)
# refuses WHAT OPTION..: a line with status 2.
refuses() {
    local what=$1
    shift
    explores "${files[@]}" "$@"
    check "explore: $*" 2 "$work/nothing" "board: the search: $what" $?
}
word="--word has what words should be, as count=2 (at the end) or inside=0..1 (always), with commas between them; a place is a symbol, or 0x and a hexadecimal address"
for wrong in count count= count=1.. count=..1 count=1.2 'count=1,' ',count=1' count=-1 count=4294967296 0x=1 \
    0x100000000=1 count=1=2 ''; do
    refuses "$word" --word "$wrong"
done
refuses "--word names a symbol that the object file doesn't have" --word nothing=1
never="--never has conditions with commas between them, as in1 + in2 > 1: sums of numbers and of words at symbols of the object file, with <, <=, >, >=, == or != between them"
for wrong in '' count 'count <' '< 2' 'count = 2' 'count => 2' 'count ! 2' 'count < < 2' 'count < 1 < 2' 'count + < 2' \
    '+ count < 2' 'count 1 < 2' 'count - 1 < 2' 'count < -1' 'count < 4294967296' 'count < 0x' 'nothing < 1' \
    'count < 2,' ',count < 2' 'count < 2 count < 3'; do
    refuses "$never" --never "$wrong"
done
refuses "--events is a number from 0 to 1,000,000" --events 1000001
refuses "--fair is a number of rounds from 0 to 20,000" --fair 20001
for option in "--fair 1" "--remember 1" "--shard 1/1" --shortest "--threads 2" "--time 1"; do
    refuses "--places goes with none of --fair, --remember, --shard, --shortest, --threads and --time" --places 10 $option
done
refuses "not known: there are more than --places places" --places 1
for option in "--fair 1" "--remember 1" "--shard 1/1" "--places 10"; do
    refuses "--lazy goes with none of --fair, --places, --remember and --shard" --lazy 10 $option
done
refuses "not known: there are more than --lazy places" --lazy 1
regions="has regions of instructions with commas between them, as push..pop: from a place up to, not including, another one, each a symbol of the object file, or 0x and a hexadecimal address"
# Of what is said of raises a line has a handler.
handled=("$work/interrupt.s.elf" $examples/interrupt.cfg)
for option in --only --raises-at; do
    [ $option = --only ] || files=("${handled[@]}")
    raised=(--raises 1 --lines 3)
    [ $option = --raises-at ] || raised=()
    for wrong in '' main count.main count..0x count..4294967296 'count..main,' ',count..main' 0x80000000.; do
        refuses "$option $regions" "${raised[@]}" $option "$wrong"
    done
    for wrong in ..main count.. count..nothing nothing..main; do
        refuses "$option names a symbol that the object file doesn't have" "${raised[@]}" $option "$wrong"
    done
    for wrong in main..count count..count main..0x80000004; do
        refuses "$option has a region whose end isn't above its start" "${raised[@]}" $option "$wrong"
    done
    refuses "$option has a region twice" "${raised[@]}" $option count..main,main..0x80000008,0x80000000..0x80000004
    for other in "--fair 1" "--remember 1" "--shard 1/1" "--threads 2" "--places 10" "--lazy 10"; do
        refuses "--only and --raises-at go with none of --fair, --lazy, --places, --remember, --shard and --threads" \
            "${raised[@]}" $option count..main $other
    done
done
for none in "" "--raises 0" "--only count..main"; do
    refuses "--raises-at says where lines may be raised, and --raises how often" --raises-at count..main $none
done
files=("$image" $examples/lost_update.cfg)
refuses "--livelock and --finals go with --places" --livelock
refuses "--livelock and --finals go with --places" --finals
refuses "--values goes with --finals" --places 1000 --values count
values="--values has words with commas between them, each a symbol of the object file, or 0x and a hexadecimal address"
for wrong in nothing count=1 'count,' ',count' count,,main 0x 0x100000000 ''; do
    refuses "$values" --places 1000 --finals --values "$wrong"
done
refuses "--values names a word twice" --places 1000 --finals --values count,main,0x80000000
for wrong in 0x80000002 0x7ffffffc 0x80010000 0xfffffffc; do
    refuses "--values names a place that has no word: it isn't in RAM, or its address is no multiple of 4" \
        --places 1000 --finals --values "$wrong"
done
refuses "--remember is a number of MiB from 0 to 4,096" --remember 4097
refuses "--threads is a number from 1 to 64" --threads 65
refuses "--raises says how often lines may be raised, and --lines which" --raises 1
refuses "--raises says how often lines may be raised, and --lines which" --lines 3
for wrong in '' x -1 1.2 2..1 ..1 1.. 1..x 01 4294967296; do
    refuses "--raises is R or F..R: lines are raised R times at most, and F times before rest is an end, R times if left out" \
        "--raises=$wrong" --lines 3
done
refuses "--lines names a line without a handler" --raises 1 --lines 3
refuses "--lines names a line twice" --raises 1 --lines 3,4,3
refuses "--out names the object file or the configuration" --out "$image"
refuses "--out names the object file or the configuration" --out $examples/lost_update.cfg
for wrong in 32 x '1,,2' '1,' ',1' 01 ''; do
    refuses "--lines has interrupt lines from 0 to 31 with commas between them, as 3,4" --raises 1 --lines "$wrong"
done
for wrong in 1 0/1 2/1 1/0 /1 1/ 1/1/1 01/2 a/b ''; do
    refuses "--shard is K/M, shard K of M, with K from 1 to M" --shard "$wrong"
done
# shellcheck disable=SC1003
for wrong in '\' '\q' '\x4' '\xzz'; do
    refuses '--console has a text, in which \n, \r, \t, \\ and \xHH stand for a byte' --console "$wrong"
done
refuses "--time doesn't go with --shortest" --shortest --time 1
for option in --events --preemptions --ticks --fair --remember --threads --time --memory; do
    for wrong in x -1 1.5 4294967296; do
        explores "${files[@]}" $option $wrong
        got=$?
        verdict "explore: $option $wrong" "$([ $got = 2 ] && [ ! -s "$work/out" ] || echo "status $got")"
    done
done

# ---- shrink: of what doesn't fail, and of a long journal

explores "${files[@]}" --word count=2 --out "$work/found"
"$board" shrink "${files[@]}" "$work/found" --deadlock > "$work/out" 2> "$work/err"
check "shrink: what doesn't fail" 1 "$work/nothing" "board: the journal: nothing of what is looked for fails" $?
"$board" journal 2 4000 --turn 3 --tick-every 7 > "$work/journal"
assembled deadlock.s
"$board" journal 2 200 --turn 5 --tick-every 7 > "$work/journal"
shrinks "a long journal" $examples/deadlock.cfg "$work/journal" --deadlock
left=$(events "$work/left")
verdict "shrink: a deadlock needs 17 steps" "$([ "$left" = 17 ] || echo "$left are left")"
turns=$(switches_of "$work/left")
verdict "shrink: a deadlock needs 2 switches" "$([ "$turns" = 2 ] || echo "$turns are left")"
"$board" shrink "$image" $examples/deadlock.cfg "$work/found" --word nothing=1 > "$work/out" 2> "$work/err"
check "shrink: a symbol that isn't there" 2 "$work/nothing" \
    "board: the search: --word names a symbol that the object file doesn't have" $?

# ---- Files

"$board" explore "$work/nosuch" $examples/deadlock.cfg > "$work/out" 2> "$work/err"
check "explore: no object file" 4 "$work/nothing" "board: can't open $work/nosuch: $is_missing" $?
if [ -e /dev/full ]; then
    "$board" explore "$image" $examples/deadlock.cfg > /dev/full 2> "$work/err"
    got=$?
    verdict "explore: a full output" "$([ $got = 4 ] || echo "status $got")"
    explores "$image" $examples/deadlock.cfg --out /dev/full
    got=$?
    verdict "explore: a journal that can't be written" "$([ $got = 4 ] || echo "status $got")"
fi

# ---- Refused memory

# (A search that may remember states remembers fewer where a growth is refused, and says another number of schedules. One
# through places goes on one by one then.)
assembled lost_update_right.s
: > "$work/in"
how=()
explores "$image" $examples/lost_update.cfg --word count=2 --memory 0
cp "$work/out" "$work/wanted_too"
explores "$image" $examples/lost_update.cfg --word count=2
cp "$work/out" "$work/wanted"
refuse_each explore 3 "board: out of memory" "$board" explore "$image" $examples/lost_update.cfg --word count=2
rm "$work/wanted_too"
assembled lost_update.s
"$board" shrink "$image" $examples/lost_update.cfg "$work/found" --word count=2 > "$work/wanted"
refuse_each shrink 3 "board: out of memory" "$board" shrink "$image" $examples/lost_update.cfg "$work/found" \
    --word count=2

# ---- Beside SPIN

what="searches beside SPIN"
if ! command -v spin > /dev/null || ! command -v cc > /dev/null; then
    skip "$what" "SPIN and a C compiler"
else
    check_script "$what" tests/programs/search_speed "$board" lost_update
fi

# ---- Random boards beside the model

if have python3 "searches beside the model"; then
    check_script "searches beside the model" tests/model/searches "$board" --boards 60
    check_script "searches without bounds beside the model" tests/model/endless "$board" --small --boards 60
    check_script "who comes to instructions, beside the model" tests/model/endless "$board" --small --reach --boards 40
fi

summary
