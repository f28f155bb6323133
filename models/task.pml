/* A task that sleeps for a state, alone or beside a shared flow, and who wakes it, step by step as crates/waking_states and
   `watching`, `combine` of crates/hot_sources have it: the state's word, the waker that the bell holds, the stop, and whether the
   task was woken. README.md says which function each inline stands for, what is asserted, and how a trail is read.

   -DSETTERS=n  1 or 2
   -DSETS=n     how many values each setter sets, each any of 0, 1 and 2
   -DSTOPS=n    how often the task is let go at most, at any moment
   -DEMISSIONS=n how many values a flow accepts for which the task sleeps too, or 0 where it sleeps for the state alone

   A planted mistake is one of the names WRONG_.. below, each beside what it changes. */
#ifndef SETTERS
#define SETTERS 1
#endif
#ifndef SETS
#define SETS 2
#endif
#ifndef STOPS
#define STOPS 0
#endif
#ifndef EMISSIONS
#define EMISSIONS 0
#endif

/* What the task was given of the state, that was given nothing yet. */
#define NONE 3

byte value = 0;
bit let_go;
bit waker;              /* under the bell's lock: the task's, while it sleeps by the bell, or is about to */
bit flow_waker;         /* under the flow's lock */
byte accepted;          /* by the flow */

bit woken = 1;          /* the task's queue has a turn for it */
byte given = NONE;      /* the task's own: the last value of the state, and how many of the flow */
byte received;
bit ended;              /* it was told of the stop, and asks no more */
bit asleep;             /* its thread waits for a turn */

/* A waker that is let go sets a turn, by a step of its own, after the lock was given back. */
inline wake() { atomic { woken = 1; printf("woken\n") } }

/* TaskBell::ring: the waker is taken out under the lock */
inline ring(taken) {
    atomic { taken = waker; waker = 0 };
    if
    :: taken -> wake()
    :: else -> skip
    fi;
    taken = 0
}

/* StateSeat::set, which is one swap. */
inline swap(s) {
    atomic {
        if :: value = 0 :: value = 1 :: value = 2 fi;
        printf("setter %d sets %d\n", s, value)
    }
}

/* RungSeat::set, of a seat that rings a TaskBell */
inline set(s, taken) {
#ifdef WRONG_SET_RINGS_FIRST
    ring(taken);
    swap(s)
#else
    swap(s);
#ifndef WRONG_SET_RINGS_NOBODY
    ring(taken)
#endif
#endif
}

/* TaskBell::let_go */
inline stop(taken) {
#ifdef WRONG_RINGS_THE_TASK_FIRST
    ring(taken);
    atomic { let_go = 1; printf("the task is let go\n") }
#else
    atomic { let_go = 1; printf("the task is let go\n") };
    ring(taken)
#endif
}

/* TaskBell::sleep */
inline leave_waker() { atomic { waker = 1; printf("        leaves its waker\n") } }

/* Collector::try_next, one load. Who is told of a stop has asked since. */
inline ask() {
    atomic {
        if
        :: value != given -> given = value; has_value = 1; printf("        is given %d\n", given)
        :: else -> has_asked_since = let_go
        fi
    }
}

/* WatchingRun::poll_next */
inline watch() {
#ifdef WRONG_TASK_ASKS_FIRST
    is_let_go = let_go;
    ask();
    leave_waker();
#else
    leave_waker();
#ifdef WRONG_TASK_LOADS_THE_STOP_LAST
    ask();
    is_let_go = let_go;
#else
    is_let_go = let_go;
    ask();
#endif
#endif
    is_over = is_let_go && !has_value
}

/* Subscription::poll_next, whose last look lies under the flow's lock. */
inline receive() {
    atomic {
        if
        :: received < accepted -> received++; has_value = 1; printf("        receives %d\n", received)
#ifdef WRONG_FLOW_HAS_NO_WAKER
        :: else -> skip
#else
        :: else -> flow_waker = 1
#endif
        fi
    }
}

/* BothRun::poll_next: each is asked once; and what next_of makes of it: the task is asked again where there was a value. It ends where
   the state's run has, and nothing has come. */
inline poll() {
    has_value = 0;
    watch();
#if EMISSIONS > 0
    receive();
#endif
    if
    :: is_over && !has_value -> ended = 1; assert(has_asked_since)
    :: else -> skip
    fi
}

proctype task() {
    bit has_value, is_let_go, is_over, has_asked_since;
    do
    :: ended -> break
    :: else ->
        atomic { asleep = 1; woken -> asleep = 0; woken = 0 };
        do
        ::  poll();
            if
            :: ended || !has_value -> break
            :: else -> skip
            fi
        od;
        has_value = 0; is_let_go = 0; is_over = 0
    od
}

proctype setter(byte s, left) {
    bit taken;
    do
    :: left == 0 -> break
    :: else -> set(s, taken); left--
    od
}

#if STOPS > 0
/* Lets the task go, at any moment, or never. */
proctype stopper(byte left) {
    bit taken;
    do
    :: left == 0 -> break
    :: left != 0 -> stop(taken); left--
    :: left != 0 -> break
    od
}
#endif

#if EMISSIONS > 0
/* Accepts, under the flow's lock, and wakes after that. */
proctype emitter(byte left) {
    bit taken;
    do
    :: left == 0 -> break
    :: else ->
        atomic { accepted++; taken = flow_waker; flow_waker = 0 };
        if
        :: taken -> wake()
        :: else -> skip
        fi;
        taken = 0; left--
    od
}
#endif

init {
    byte i = 0;
    atomic {
        run task();
        do :: i < SETTERS -> run setter(i, SETS); i++ :: else -> break od;
        i = 0;
#if STOPS > 0
        run stopper(STOPS);
#endif
#if EMISSIONS > 0
        run emitter(EMISSIONS);
#endif
        skip
    };
    /* Nobody can go on. Then the task has ended, or sleeps, and nothing has come that it sleeps for. */
    timeout;
    assert(ended || (asleep && given == value && received == accepted && !let_go))
}
