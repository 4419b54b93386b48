/* An MCS lock; without RIGHT it is left too early. Who has to wait for ever is in an invalid end state.
 * (examples/explore/mcs.s) */
byte tail, next[3], waits[3], count;

proctype task(byte me)
{
    byte other, loaded;
    waits[me] = 1;
    atomic { other = tail; tail = me };
    if
    :: other != 0 -> next[other] = me; waits[me] == 0
    :: else
    fi;
    loaded = count;
    count = loaded + 1;
    other = next[me];
    if
    :: other != 0 -> waits[other] = 0
    :: else ->
        if
        :: atomic { tail == me -> tail = 0 }
        :: else ->
#ifdef RIGHT
            next[me] != 0;
            other = next[me];
            waits[other] = 0
#endif
        fi
    fi
}

init {
    atomic { run task(1); run task(2) };
    _nr_pr == 1;
    assert(count == 2)
}
