/* Two processes add 1 to a word, by a load and a store; with RIGHT in one step. (examples/explore/lost_update.s) */
byte count;

proctype adder()
{
#ifdef RIGHT
    d_step { count++ }
#else
    byte loaded;
    loaded = count;
    count = loaded + 1
#endif
}

init {
    atomic { run adder(); run adder() };
    _nr_pr == 1;
    assert(count == 2)
}
