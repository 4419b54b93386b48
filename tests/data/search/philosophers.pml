/* Three philosophers; with RIGHT the third one takes the fork on the right first. (examples/explore/philosophers.s) */
byte forks[3] = 1;

proctype eat(byte one, other)
{
    atomic { forks[one] > 0 -> forks[one]-- };
    atomic { forks[other] > 0 -> forks[other]-- };
    forks[other]++;
    forks[one]++
}

init {
    atomic {
        run eat(0, 1);
        run eat(1, 2);
#ifdef RIGHT
        run eat(0, 2)
#else
        run eat(2, 0)
#endif
    }
}
