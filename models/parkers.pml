/* What a thread of waiting.pml sleeps by, which takes this file in: a parker, and its queue of one turn. */

#ifdef BELL
bit sleeper[PARTIES];       /* a thread that waits at the bell, and that no ring is meant for */
byte rung[PARTIES];         /* rings that no thread has answered yet */
bit searcher[PARTIES];      /* a thread that looks at the queue once more before it sleeps */
byte bell[PARTIES];
bit in_system[PARTIES];     /* a thread that sleeps on the bell's word */

/* RunQueue::pay under the queue's lock, then Doorbell::ring: the count, and the wake. */
inline wake(q) {
    d_step {
        rings = 0;
        if
        :: turn_of[q] == IDLE ->
            turn_of[q] = QUEUED;
            if
            :: sleeper[q] && rung[q] + searcher[q] == 0 -> sleeper[q] = 0; rung[q]++; rings = 1
            :: else -> skip
            fi
        :: turn_of[q] == RUNNING -> turn_of[q] = NOTIFIED
        :: else -> skip
        fi
    };
    if
    :: rings -> rings = 0; bell[q]++; in_system[q] = 0
    :: else -> skip
    fi
}

/* Queue::add, which rings where no turn was there, and Vacancy::schedule. */
inline add(p) {
    d_step { assert(turn_of[p] == DONE); turn_of[p] = RUNNING };
    bell[p]++;
    in_system[p] = 0;
    d_step { assert(turn_of[p] == RUNNING || turn_of[p] == NOTIFIED); turn_of[p] = QUEUED; assert(!sleeper[p]) };
    is_set = 1
}

/* Shared::next with RunQueue::look, and Doorbell::wait: 0 fresh, 1 rung, 2 searching. */
inline next_turn(p) {
    came = 0;
    do
    ::  atomic {
            found = (turn_of[p] == QUEUED);
            if :: found -> turn_of[p] = RUNNING :: else -> skip fi;
            if
            :: came == 1 && rung[p] > 0 -> rung[p]--
            :: came == 1 && rung[p] == 0 -> sleeper[p] = 0
            :: came == 2 -> searcher[p] = 0
            :: else -> skip
            fi;
            if
            :: found -> found = 0; came = 0; break
            :: !found && came != 2 -> searcher[p] = 1; came = 2
            :: !found && came == 2 -> sleeper[p] = 1; came = 1
            fi
        };
        if
        :: came == 2 -> skip
        :: else ->
            do
            :: atomic { bell[p] == 0 -> seen = 0 };
                atomic { if :: bell[p] == 0 -> in_system[p] = 1 :: else -> skip fi };
                in_system[p] == 0
            :: atomic { bell[p] != 0 -> seen = bell[p] };
                atomic { if :: bell[p] == seen -> bell[p]--; seen = 0; break :: else -> seen = 0 fi }
            od
        fi
    od
}
#else
inline wake(q) {
    d_step {
        if
        :: turn_of[q] == IDLE -> turn_of[q] = QUEUED
        :: turn_of[q] == RUNNING -> turn_of[q] = NOTIFIED
        :: else -> skip
        fi
    }
}
inline add(p) { d_step { assert(turn_of[p] == DONE); turn_of[p] = QUEUED; is_set = 1 } }
inline next_turn(p) { atomic { turn_of[p] == QUEUED -> turn_of[p] = RUNNING } }
#endif

/* Parker::begin, which may be refused: then `may_wait` is 0. */
inline begin(p) {
    may_wait = 1;
    if
#ifdef WRONG_BEGINS_TWICE           /* asks for a turn where one is set already */
#else
    :: is_set -> skip
#endif
    :: atomic { !is_set && refusals > 0 -> refusals--; may_wait = 0 }
#ifdef WRONG_BEGINS_TWICE
    :: true -> add(p)
#else
    :: !is_set -> add(p)
#endif
    fi
}

/* Parker::turn. */
inline turn(p) {
#ifndef WRONG_TURN_KEPT             /* a turn that was taken counts as set still */
    is_set = 0;
#endif
    next_turn(p)
}

/* Context::end of a poll that was ready, and of one that was pending. */
inline finish(p) {
    d_step { assert(turn_of[p] == RUNNING || turn_of[p] == NOTIFIED); turn_of[p] = DONE }
}
inline rest(p, yields) {
    d_step {
        if
        :: turn_of[p] == RUNNING && !(yields) -> turn_of[p] = IDLE; printf("party %d sleeps\n", p)
        :: else -> assert(turn_of[p] == RUNNING || turn_of[p] == NOTIFIED); turn_of[p] = QUEUED
        fi
    }
}
