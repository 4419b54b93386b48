# shellcheck shell=bash
# What with_parallel and with_slurm share: a folder $work for a search in shards, and what becomes of its parts.

# prepare WORK SHARDS BOARD IMAGE CONFIG OPTION..: puts the program, the two files and a script into the folder WORK.
# There `./search K` searches shard K, and leaves out.K, err.K, its status, status.K, and the journal found.K. It fails
# where it has found something, and nowhere else.
prepare() {
    work=$1 shards=$2
    cp "$3" "$work/board" && cp "$4" "$work/image" && cp "$5" "$work/config" || return
    shift 5
    {
        echo '#!/bin/bash'
        echo 'touch "found.$1" "out.$1" "err.$1" && echo none > "status.$1"'
        printf './board explore image config '
        [ $# = 0 ] || printf '%q ' "$@"
        echo "--shard \"\$1/$shards\" --out \"found.\$1\" > \"out.\$1\" 2> \"err.\$1\""
        echo 'status=$?'
        echo 'echo $status > "status.$1"'
        echo '[ $status != 5 ]'
    } > "$work/search"
    chmod +x "$work/search" "$work/board"
}

# merge OUT: tells what the shards came to, with the status that `board explore` would have. A schedule fails if a shard
# says so, and its journal is kept as OUT. None does only if all say so.
merge() {
    local shard status total=0 tried ended=0
    for shard in $(seq "$shards"); do
        if [ "$(cat "$work/status.$shard" 2> /dev/null)" = 5 ] && cp "$work/found.$shard" "$1"; then
            cat "$work/out.$shard"
            echo "board: a schedule fails: shard $shard of $shards" >&2
            return 5
        fi
    done
    for shard in $(seq "$shards"); do
        status=$(cat "$work/status.$shard" 2> /dev/null)
        tried=$(sed -n 's/^none of \([0-9]*\) schedules\{0,1\} fails: .*/\1/p' "$work/out.$shard" 2> /dev/null)
        if [ "$status" != 0 ] || [ -z "$tried" ]; then
            echo "shard $shard of $shards has no answer, status ${status:-none}:" >&2
            [ ! -f "$work/err.$shard" ] || cat "$work/err.$shard" >&2
            case $status in 1 | 2 | 3) return "$status" ;; *) return 4 ;; esac
        fi
        total=$((total + tried))
        grep -q '^0 came to an end' "$work/out.$shard" || ended=1
    done
    sed -n "1s/^none of [0-9]* schedules\{0,1\}/none of $total schedules/; 1s/, shard .*//; 1,2p" "$work/out.1"
    # (a shard's warning is one of all if no shard has a schedule that came to an end)
    [ $ended = 1 ] || sed -n '/^warning: /p' "$work/out.1"
}
