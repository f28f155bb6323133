/* Who watches a state, and who is woken, step by step as crates/state_waiting has it over crates/state_flow: the state's word, the
   three words of the bell, who sleeps on the first of those, the turn, and the marks of watchers. README.md says which function
   each inline stands for, what is asserted, and how a trail is read.

   -DSETTERS=n  1 or 2
   -DWATCHERS=n 1 or 2
   -DSETS=n     how many values each setter sets, each any of 0, 1 and 2
   -DSTOPS=n    how often all are let go at most, at any moment
   -DALONE=n    how often watcher 0 alone is let go at most, at any moment
   -DSPURIOUS=n how many sleeps end for nothing
   -DLIMITS     a wait may come to the end of its time, at any turn, and then the watcher waits anew

   A planted mistake is one of the names WRONG_.. below, each beside what it changes. */
#ifndef SETTERS
#define SETTERS 1
#endif
#ifndef WATCHERS
#define WATCHERS 1
#endif
#ifndef SETS
#define SETS 2
#endif
#ifndef STOPS
#define STOPS 0
#endif
#ifndef ALONE
#define ALONE 0
#endif
#ifndef SPURIOUS
#define SPURIOUS 0
#endif

/* What a watcher was given that was given nothing yet. */
#define NONE 3

byte value = 0;
byte turn = 0;
byte sleepers = 0;
bit let_go;
bit mark[WATCHERS];     /* this watcher alone was let go */

bit asleep[WATCHERS];   /* on the turn, in the system */
byte given[WATCHERS];   /* a watcher's own: the last value that it was given */
bit ended[WATCHERS];    /* it was told of the stop, and asks no more */

#if WATCHERS == 1
#define SLEEPING (asleep[0])
#else
#define SLEEPING (asleep[0] + asleep[1])
#endif

inline rise(w) { asleep[w] = 0; printf("        watcher %d rises\n", w) }

/* wake_all */
inline wake_all() {
    atomic {
#ifdef WRONG_WAKES_ONE_WATCHER      /* whichever */
        if
        :: asleep[0] -> rise(0)
#if WATCHERS > 1
        :: asleep[1] -> rise(1)
#endif
        :: SLEEPING == 0 -> skip
        fi
#else
        if :: asleep[0] -> rise(0) :: else -> skip fi;
#if WATCHERS > 1
        if :: asleep[1] -> rise(1) :: else -> skip fi;
#endif
        skip
#endif
    }
}

/* Bell::ring, where somebody sleeps: the next turn, and then the wake. */
inline wake() {
#ifdef WRONG_WAKES_BEFORE_THE_TURN
    wake_all();
    turn++
#else
#ifndef WRONG_TURN_STAYS            /* a wake alone */
    turn++;
#endif
    wake_all()
#endif
}

/* Bell::ring: one load of the number of sleepers, and the rest where there are some. */
inline ring() {
    if
#ifdef WRONG_RINGS_FOR_TWO          /* where one sleeps nobody rings */
    :: sleepers > 1 -> wake()
#else
    :: sleepers != 0 -> wake()
#endif
    :: else -> skip
    fi
}

/* StateSeat::set, which is one swap; and compare_and_set where it finds its value. What is equal changes nothing, and rings too. */
inline swap(s) {
    atomic {
        if :: value = 0 :: value = 1 :: value = 2 fi;
        printf("setter %d sets %d\n", s, value)
    }
}

/* WatchedSeat::set */
inline set(s) {
#ifdef WRONG_COUNT_LOADED_FIRST     /* before the swap */
    if
    :: sleepers != 0 -> swap(s); wake()
    :: else -> swap(s)
    fi
#else
    swap(s);
    ring()
#endif
}

/* Bell::let_go */
inline stop() {
#ifdef WRONG_RINGS_BEFORE_THE_STOP
    ring();
    atomic { let_go = 1; printf("all are let go\n") }
#else
    atomic { let_go = 1; printf("all are let go\n") };
    ring()
#endif
}

/* Stopper::stop */
inline stop_alone(w) {
#ifdef WRONG_RINGS_BEFORE_THE_MARK
    ring();
    atomic { mark[w] = 1; printf("watcher %d is let go\n", w) }
#else
    atomic { mark[w] = 1; printf("watcher %d is let go\n", w) };
    ring()
#endif
}

/* Collector::try_next, one load, and what a turn makes of it: the wait is over where there is a value, or the watcher was let go.
   Who is told of that has asked since. */
inline ask(w) {
    atomic {
        if
        :: value != given[w] -> given[w] = value; is_over = 1; printf("        watcher %d is given %d\n", w, value)
#ifdef WRONG_STOP_LOADED_LAST       /* after the value: what was set before the stop may be missed */
        :: else -> has_asked_since = let_go
        fi
    };
    atomic {
        is_let_go = let_go;
        if
        :: !is_over && is_let_go -> ended[w] = 1; is_over = 1; assert(has_asked_since)
#else
        :: value == given[w] && is_let_go -> ended[w] = 1; is_over = 1; assert(let_go || mark[w])
#endif
        :: else -> skip
        fi;
        is_let_go = 0
    }
}

/* Watcher::is_stopped: whether all were let go, and else the watcher's mark, where somebody may set it. */
inline look_whether_let_go(w) {
    is_let_go = let_go;
#if ALONE > 0
    if
    :: w == 0 && !is_let_go -> is_let_go = mark[w]
    :: else -> skip
    fi
#endif
}

/* Watcher::attempt, without the sleep: the turn, whether the watcher was let go, and the value. */
inline look(w) {
#ifdef WRONG_TURN_LOADED_LAST
    look_whether_let_go(w);
    ask(w);
    seen = turn
#else
    seen = turn;
#ifndef WRONG_STOP_LOADED_LAST
    look_whether_let_go(w);
#endif
    ask(w)
#endif
}

/* Watcher::look_on: any number of asks, of which the code makes four. One that gives nothing changes nothing, and so isn't a step
   here. */
inline look_on(w) {
    if
    :: atomic { value != given[w] -> given[w] = value; has_found = 1; printf("        watcher %d is given %d\n", w, value) }
    :: skip
    fi
}

/* Bell::lie_down and rise */
inline count(w) { atomic { sleepers++; printf("        watcher %d lies down\n", w) } }
inline discount(w) { atomic { sleepers--; is_over = 0; seen = 0; printf("        watcher %d is up\n", w) } }

/* Bell::sleep: it compares the turn as it lays the thread down. */
inline sleep(w) {
    atomic {
        if
#ifdef WRONG_TURN_NOT_COMPARED
        :: true -> asleep[w] = 1; printf("        watcher %d sleeps\n", w)
#else
        :: turn == seen -> asleep[w] = 1; printf("        watcher %d sleeps\n", w)
        :: else -> skip
#endif
        fi;
        seen = 0
    };
    !asleep[w]
}

/* Watcher::next with wait, and next_within with wait_within. */
inline next(w) {
    look_on(w);
    if
    :: has_found -> has_found = 0
    :: else ->
#ifndef WRONG_COUNTED_LATE
        count(w);
#endif
#ifdef WRONG_LOOKS_ARE_THE_LAST     /* who has looked on sleeps once it is counted, and asks only after that */
        seen = turn;
        sleep(w);
#endif
        do
        ::  look(w);
            if
            :: is_over -> break
#ifdef LIMITS
            :: !is_over -> break
#endif
            :: !is_over ->
#ifdef WRONG_COUNTED_LATE           /* after the value is loaded */
                count(w);
#endif
                sleep(w);
#ifdef WRONG_COUNTED_LATE
                sleepers--
#endif
            fi
        od;
#ifdef WRONG_COUNTED_LATE
        is_over = 0
#else
#ifdef WRONG_STAYS_COUNTED
        is_over = 0
#else
        discount(w)
#endif
#endif
    fi
}

/* Sets so many values. */
proctype setter(byte s, left) {
    do
    :: left == 0 -> break
    :: else -> set(s); left--
    od;
    printf("setter %d ends\n", s)
}

/* Watches without end, or until it is told of a stop. */
proctype watcher(byte w) {
    byte seen;
    bit has_found, is_over, is_let_go;
#ifdef WRONG_STOP_LOADED_LAST
    bit has_asked_since;
#endif
    do
    :: ended[w] -> break
    :: else -> next(w)
    od;
    printf("        watcher %d ends\n", w)
}

#if STOPS > 0
/* Lets all go, at any moment, or never. */
proctype stopper(byte left) {
    do
    :: left == 0 -> break
    :: left != 0 -> stop(); left--
    :: left != 0 -> break
    od
}
#endif

#if ALONE > 0
/* Lets watcher 0 go, at any moment, or never. */
proctype stopper_of_one(byte left) {
    do
    :: left == 0 -> break
    :: left != 0 -> stop_alone(0); left--
    :: left != 0 -> break
    od
}
#endif

#if SPURIOUS > 0
/* A sleep may end for nothing. */
proctype spurious() {
    byte times;
    do
    :: atomic { times < SPURIOUS && asleep[0] -> rise(0); times++ }
#if WATCHERS > 1
    :: atomic { times < SPURIOUS && asleep[1] -> rise(1); times++ }
#endif
    :: break
    od
}
#endif

init {
    byte i = 0;
    atomic {
        do :: i < WATCHERS -> given[i] = NONE; run watcher(i); i++ :: else -> break od;
        i = 0;
        do :: i < SETTERS -> run setter(i, SETS); i++ :: else -> break od;
        i = 0;
#if STOPS > 0
        run stopper(STOPS);
#endif
#if ALONE > 0
        run stopper_of_one(ALONE);
#endif
#if SPURIOUS > 0
        run spurious();
#endif
        skip
    };
    /* Nobody can go on. Then each watcher has ended, or sleeps, and nothing has come that it sleeps for. */
    timeout;
    do
    :: i == WATCHERS -> break
    :: else -> assert(ended[i] || (asleep[i] && given[i] == value && !let_go && !mark[i])); i++
    od;
    assert(sleepers == SLEEPING)
}
