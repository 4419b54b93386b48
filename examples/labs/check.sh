# shellcheck shell=bash
# What the checkers of the labs share: each examples/labs/N/check reads this file, looks at what a student has made in a
# folder, prints a line for each thing that is missing, and ends with `summary`. docs/LABS.md says how one is made.
# $lab is the lab's folder, $given the student's, $work a folder for files.
#
#   --seed N       draws the data by N. Without it they are others each time, and the last line says by which N
#   --seconds N    how long a search may take, 20 if left out
#   --points FILE  prints how many points that is, by FILE, which has lines `LAB PART POINTS`
#
# BOARD names another program than build/board.
set -u
export LC_ALL=C
lab=$(cd "$(dirname "$0")" && pwd) || exit 2
number=$(basename "$lab")
seed=$((RANDOM * 32768 + RANDOM))
seconds=20
points=
while [[ $# -gt 2 && "$1" == --* ]]; do
    case $1 in
        --seed | --seconds) [[ "$2" =~ ^[0-9]{1,9}$ ]] && printf -v "${1#--}" %d "$((10#$2))" || set -- ;;
        --points) [ -r "$2" ] && points=$2 || set -- ;;
        *) set -- ;;
    esac
    [ $# = 0 ] || shift 2
done
[ $# = 1 ] && [ -d "$1" ] || {
    echo "use: $0 [--seed N] [--seconds N] [--points FILE] FOLDER, where your lab.s of lab $number is" >&2
    exit 2
}
given=$(cd "$1" && pwd) || exit 2
board=${BOARD:-$lab/../../../build/board}
[ -x "$board" ] || { echo "there is no program $board: make demo, in the clone's folder" >&2; exit 2; }
work=$(mktemp -d) || exit 2
trap 'rm -rf "$work"' EXIT
said=$'\n'
lacking=0
lost=' '
hinted=1
state=$((seed * 2654435761 & 0x7fffffff))

# draw LOW HIGH: $drawn is a number from LOW to HIGH, which are at most 2^23 apart: a linear congruential generator with
# the constants of ISO/IEC 9899, 7.22.2, and the upper of its bits, so that a seed gives the same on each machine.
draw() {
    state=$(((state * 1103515245 + 12345) & 0x7fffffff))
    drawn=$(($1 + (state >> 8) % ($2 - $1 + 1)))
}
draw 0 1

# say TEXT: prints a line, the same only once.
say() {
    [[ "$said" == *$'\n'"$1"$'\n'* ]] || { echo "$1"; said=$said$1$'\n'; }
}

# missing PART TEXT: something is missing, which costs the points of this part of the lab.
missing() {
    say "$2"
    lacking=$((lacking + 1))
    lost="$lost$1 "
}

# summary: the last lines. Nothing comes after it.
summary() {
    [ "$lacking" = 0 ] && echo "lab $number: nothing is missing"
    [ -z "$points" ] || awk -v lab="$number" -v lost="$lost" '
        $1 == lab { all += $3; if (!index(lost, " " $2 " ") && !index(lost, " all ")) got += $3 }
        END { print "lab " lab ": " got + 0 " of " all + 0 " points" }' "$points"
    echo "the data were drawn by --seed $seed"
    exit $((lacking > 0))
}

# limited SECONDS ARGUMENTS..: the program with these arguments, ended after that time with status 124.
limited() {
    timeout "$1" "$board" "${@:2}"
}

# why STATUS FILE: in a line, why a command of the program failed that left its errors in FILE.
why() {
    if [ "$1" = 124 ]; then echo "not done after 10 seconds"; else head -n 1 "$2"; fi
}

# text_of NAME: copies a student's text to $work/NAME, with the line ends of Unix and without a byte order mark.
text_of() {
    sed $'1s/^\xef\xbb\xbf//; s/\r$//' "$given/$1" > "$work/$1" 2> /dev/null
}

# assembled SOURCE PROGRAM [WORDS]: assembles a source to $work/PROGRAM. Where that fails, a line says why, and nothing
# more is looked at.
assembled() {
    local got
    [ -f "$1" ] || { missing all "there is no $(basename "$1") in $given"; summary; }
    limited 10 asm "$1" "$work/$2" 2> "$work/said"
    got=$?
    [ $got = 0 ] || { missing all "lab.s${3:-}: $(why $got "$work/said")"; summary; }
}

# redrawn SOURCE LINE..: makes SOURCE of $work/lab.s. Each LINE comes in the place of the line that begins as it does, up
# to its colon or comma. The status is 1 where $work/lab.s doesn't have such a line, once.
redrawn() {
    local to=$1 line begins
    cp "$work/lab.s" "$to"
    shift
    for line in "$@"; do
        begins=${line%%[,:]*}
        begins=${begins//./[.]}
        begins="^([[:space:]]*)${begins// /[[:space:]]+}[[:space:]]*[,:].*"
        [ "$(grep -cE "$begins" "$to")" = 1 ] || return 1
        sed -i -E "s/$begins/\\1$line/" "$to"
    done
}

# ran PROGRAM CONFIGURATION JOURNAL: runs $work/PROGRAM. $console is what it wrote, $off whether the board is off in the
# end, $work/trace what `board trace` says, and $exceptions has a line for each exception: the task, the place, and what
# the trace says of it.
ran() {
    local got
    last=("$work/$1" "$2" "$3")
    hinted=
    limited 10 run "${last[@]}" > "$work/report" 2> "$work/said" &&
        limited 10 trace "${last[@]}" > "$work/trace" 2> "$work/said"
    got=$?
    [ $got = 0 ] || { missing all "$(basename "$3"): $(why $got "$work/said")"; summary; }
    console=$(sed '1,/^console /d' "$work/report" | tr -d '\0')
    off=$(sed -n 's/^off //p' "$work/report")
    exceptions=$(sed -nE 's/^ *[0-9]+ [0-9] +task ([0-9]+) +([^ ]+) +((AdEL|AdES|IBE|DBE|Bp|RI|Ov|Tr): .*)/\1 \2: \3/p' \
        "$work/trace" | sed -E 's/, task [0-9]+ dormant.*//')
}

# address_of LABEL: the address of a label in eight digits, if the word there was loaded or stored in the last run.
address_of() {
    limited 10 trace --word "$1" "${last[@]}" | sed -nE 's/.*\((8[0-9a-f]{7})\): .*/\1/p' | head -n 1 | grep .
}

# words_from ADDRESS COUNT: the addresses of so many words, as --word wants them.
words_from() {
    local it
    for ((it = 0; it < $2; it++)); do printf '0x%08x,' $((16#$1 + 4 * it)); done | sed 's/,$//'
}

# hint: what `board trace --summary` says of the last run beside exceptions: who waits for whom, who spins, which calls
# were refused; where there is nothing of that and the board is on, where its tasks are. Two lines, once a run.
hint() {
    [ -z "$hinted" ] || return
    hinted=1
    limited 10 trace --summary "${last[@]}" > "$work/hints" 2> /dev/null
    {
        grep -E '^(deadlock|circular wait|lost)|^cpu [0-9] spins| E_[A-Z]+ ' "$work/hints" ||
            { [ "$off" = 1 ] || grep -E '^task [0-9]+ (ready|waiting)' "$work/hints"; }
    } | head -n 2 | sed 's/^ */    trace --summary: /'
}

# searched PROGRAM CONFIGURATION SECONDS OPTIONS..: searches all schedules within bounds. $found is none, fails, late
# (the time was up) or refused; what the search says is in $work/searched.
searched() {
    limited "$3" explore "$work/$1" "$2" "${@:4}" > "$work/searched" 2>&1
    found=$?
    case $found in
        0) found=none ;;
        124) found=late ;;
        # A find is status 1 or 5, with its line.
        1 | 5) grep -q '^fails after ' "$work/searched" && found=fails || found=refused ;;
        *) found=refused ;;
    esac
}

# none_fails PART PROGRAM CONFIGURATION OPTIONS..: what is missing where one of the schedules with up to 2 preemptions
# fails. All those with 1 have to be searched. Those with 2 needn't: a line says that there wasn't the time.
none_fails() {
    local preemptions
    for preemptions in 1 2; do
        searched "$2" "$3" "$seconds" --events 300 --fair 100 --preemptions $preemptions "${@:4}"
        case $found in
            fails)
                missing "$1" "a schedule of lab.s fails: $(head -n 1 "$work/searched")"
                sed -n '2,5s/^ \+/    event /p' "$work/searched"
                return 1
                ;;
            late)
                [ $preemptions = 1 ] || {
                    say "(no schedule with 1 preemption fails; those with 2 are too many for --seconds $seconds)"
                    return 0
                }
                missing "$1" "the schedules with 1 preemption are too many for --seconds $seconds"
                return 1
                ;;
            refused) missing "$1" "board explore: $(head -n 1 "$work/searched")"; return 1 ;;
        esac
    done
}
