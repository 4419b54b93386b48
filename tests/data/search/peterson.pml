/* Peterson's lock; without RIGHT the two stores are in the wrong order. (examples/explore/peterson.s) */
bool flags[2];
byte turn, inside;

active [2] proctype task()
{
#ifdef RIGHT
    flags[_pid] = true;
    turn = 1 - _pid;
#else
    turn = 1 - _pid;
    flags[_pid] = true;
#endif
    do
    :: if
       :: !flags[1 - _pid] -> break
       :: else
       fi;
       if
       :: turn != 1 - _pid -> break
       :: else
       fi
    od;
    inside++;
    assert(inside <= 1);
    inside--;
    flags[_pid] = false
}
