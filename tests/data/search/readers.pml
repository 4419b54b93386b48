/* A lock for two readers and a writer; without RIGHT who comes looks first and enters then. (examples/explore/readers.s) */
byte writer, x, y;
short readers;

active proctype write()
{
#ifdef RIGHT
    atomic { readers == 0 -> readers = -1 };
#else
    readers == 0;
    writer = 1;
#endif
    x = 1;
    y = 1;
#ifdef RIGHT
    readers = 0
#else
    writer = 0
#endif
}

active [2] proctype read()
{
    byte seen_x, seen_y;
#ifdef RIGHT
    atomic { readers >= 0 -> readers++ };
#else
    writer == 0;
    d_step { readers++ };
#endif
    seen_x = x;
    seen_y = y;
    assert(seen_x == seen_y);
    d_step { readers-- }
}
