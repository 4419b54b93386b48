# shellcheck shell=bash
# Read by tests that refuse each growth of a program in turn, after check.sh: a growth is a call of the C library for
# memory. It takes a C compiler; without one, such a test is skipped.
can_refuse=no
if command -v cc > /dev/null && cc -shared -fPIC -O1 -o "$work/refuse.so" tests/programs/refuse.c -ldl; then
    can_refuse=yes
fi

# refuse_each NAME STATUS ERROR PROGRAM ARGUMENT..: runs the program on $work/in, and refuses each of its growths in
# turn. Each run ends with that status and ERROR as all of standard error (`*` stands for any text), or with everything
# as in $work/wanted (or $work/wanted_too, if it is there); the last, to which nothing is refused, with the former.
refuse_each() {
    local name="$1, each growth refused in turn" refusal=$2 text=$3 n status=1 wrong=""
    shift 3
    if [ "$can_refuse" = no ]; then
        skip "$name" cc
        return
    fi
    for ((n = 1; n < 20000; n++)); do
        rm -f "$work/refused"
        LD_PRELOAD="$work/refuse.so" REFUSE=$n REFUSED="$work/refused" \
            "$@" < "$work/in" > "$work/out" 2> "$work/err"
        status=$?
        if [ "$status" = 0 ]; then
            cmp -s "$work/out" "$work/wanted" || cmp -s "$work/out" "$work/wanted_too" 2> /dev/null ||
                wrong="$wrong; growth $n: another output"
        elif [ "$status" != "$refusal" ]; then
            wrong="$wrong; growth $n: status $status, $(head -n 1 "$work/err")"
        else
            # shellcheck disable=SC2053
            [[ "$(cat "$work/err")" == $text ]] || wrong="$wrong; growth $n: $(head -n 1 "$work/err")"
        fi
        [ -f "$work/refused" ] || break
    done
    [ "$n" -gt 5 ] || wrong="$wrong; only $((n - 1)) growths were refused"
    [ "$status" = 0 ] || wrong="$wrong; the run that nothing is refused to fails"
    verdict "$name" "${wrong:0:2000}"
}

# counts PROGRAM ARGUMENT..: how many growths a run of the program on $work/in has; its output is in $work/out, and its
# status in $counted.
counts() {
    LD_PRELOAD="$work/refuse.so" COUNTED="$work/counted" "$@" < "$work/in" > "$work/out" 2> "$work/err"
    counted=$?
    cat "$work/counted"
}
