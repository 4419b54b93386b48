/* Two tasks take a semaphore, one with a timeout; without RIGHT it doesn't look whether it got it. Two ticks pass at any
 * place. (examples/explore/timeout.s) */
byte units = 1, inside, left;
bool waits, got;

inline enter()
{
    inside++;
    assert(inside <= 1);
    inside--
}

active proctype first()
{
    atomic { units > 0 -> units-- };
    enter();
    atomic {
        if
        :: waits -> waits = false; got = true
        :: else -> units++
        fi
    }
}

active proctype second()
{
    atomic {
        if
        :: units > 0 -> units--; got = true
        :: else -> waits = true; left = 2
        fi
    };
    !waits;
#ifdef RIGHT
    if
    :: got -> enter(); units++
    :: else
    fi
#else
    enter();
    units++
#endif
}

active proctype clock()
{
    byte ticks;
    do
    :: atomic {
           ticks < 2 ->
           ticks++;
           if
           :: waits && left == 1 -> waits = false
           :: waits && left > 1 -> left--
           :: else
           fi
       }
    :: ticks == 2 -> break
    od
}
