/* Treiber's stack, of which two processes pop two nodes, and one pushes the first of them back; without RIGHT the
 * exchange compares the head alone, which is the ABA problem. `changes` stands for the link that a store ends.
 * (examples/explore/treiber.s) */
byte head = 1, next[3], owners[3];
byte changes;

inline pop(node)
{
    do
    ::  d_step { node = head; seen = changes };
        if
        :: node == 0 -> break
        :: else
        fi;
        after = next[node];
        if
#ifdef RIGHT
        :: atomic { changes == seen -> head = after; changes++ }; owners[node]++; assert(owners[node] <= 1); break
#else
        :: atomic { head == node -> head = after; changes++ }; owners[node]++; assert(owners[node] <= 1); break
#endif
        :: else
        fi
    od
}

proctype first()
{
    byte node, after, seen;
    pop(node);
    pop(node)
}

proctype second()
{
    byte node, other, after, seen;
    pop(node);
    if
    :: node != 0 ->
        pop(other);
        owners[node] = 0;
        do
        ::  after = head;
            next[node] = after;
            if
            :: atomic { head == after -> head = node; changes++ }; break
            :: else
            fi
        od
    :: else
    fi
}

init {
    next[1] = 2;
    atomic { run first(); run second() }
}
