/* Who waits on a flow of values of any type, and who is woken, step by step as crates/value_flows has it: what lies under its lock,
   its two bells, of crates/state_bell, who sleeps by them, and the marks of subscriptions. README.md says which function each inline
   stands for, what is asserted, and how a trail is read.

   -DEMITTERS=n       1 or 2
   -DSUBSCRIPTIONS=n  1 or 2
   -DPLACES=n         replay + extra, at least 1
   -DREPLAY=n         how many of the latest values a subscription begins with
   -DVALUES=n         how many values each emitter has
   -DDROPS_OLDEST     the policy DropOldest
   -DDROPS_LATEST     the policy DropLatest; without one of these it is Suspend
   -DTRIES            each value may be emitted by try_emit, too
   -DLEAVES           subscription 0 may cancel, or ask no more, after any receipt and before the first
   -DSTOPS=n          how often all are let go at most, at any moment
   -DALONE=n          how often subscription 0 alone is let go at most, at any moment
   -DREFUSED=n        how many clones are refused at most
   -DSPURIOUS=n       how many sleeps end for nothing
   -DLIMITS           a subscription's wait may come to the end of its time, at any turn, and then it waits anew

   A planted mistake is one of the names WRONG_.. below, each beside what it changes. */
#ifndef EMITTERS
#define EMITTERS 1
#endif
#ifndef SUBSCRIPTIONS
#define SUBSCRIPTIONS 1
#endif
#ifndef PLACES
#define PLACES 1
#endif
#ifndef REPLAY
#define REPLAY 0
#endif
#ifndef VALUES
#define VALUES 2
#endif
#ifndef STOPS
#define STOPS 0
#endif
#ifndef ALONE
#define ALONE 0
#endif
#ifndef REFUSED
#define REFUSED 0
#endif
#ifndef SPURIOUS
#define SPURIOUS 0
#endif
#define PARTIES (EMITTERS + SUBSCRIPTIONS)
#define SUBSCRIBER(s) (EMITTERS + (s))
#define CLOSED 255

/* What a try to emit, or an ask for the next value, came to. */
#define ACCEPTED 1
#define DROPPED 2
#define FULL 3
#define NOTHING 4
#define THERE 5
#define MISSED 6
#define STOPPED 7

/* What lies under the lock: how many values were accepted, and the number of each subscription's next one. */
bit locked;
byte accepted = 0;
byte cursor[SUBSCRIPTIONS] = CLOSED;

/* The bells: subscriptions sleep by the one, emissions by the other. */
#define NEWS 0
#define ROOM 1
byte turn[2];
byte sleepers[2];
bit let_go;             /* of the bell for news; that of the other is loaded by nobody */
bit mark[SUBSCRIPTIONS];    /* this subscription alone was let go */

bit asleep[PARTIES];    /* on the turn of its bell, in the system */

/* For what is asserted. */
bit ended[PARTIES];     /* it emits, or asks, no more */
byte let_go_at;         /* how many values were accepted as all were let go first */
byte marked_at;         /* the same, of subscription 0 alone */
byte refusals = REFUSED;

#define IS_NEXT(s) (cursor[s] == accepted)
#define IS_BEHIND(s) (accepted - cursor[s] > PLACES)
#define HAS_ROOM(s) (cursor[s] == CLOSED || accepted - cursor[s] < PLACES)
#if SUBSCRIPTIONS == 1
#define HAVE_ROOM (HAS_ROOM(0))
#define SUBSCRIPTIONS_ASLEEP (asleep[SUBSCRIBER(0)])
#else
#define HAVE_ROOM (HAS_ROOM(0) && HAS_ROOM(1))
#define SUBSCRIPTIONS_ASLEEP (asleep[SUBSCRIBER(0)] + asleep[SUBSCRIBER(1)])
#endif
#if EMITTERS == 1
#define EMISSIONS_ASLEEP (asleep[0])
#else
#define EMISSIONS_ASLEEP (asleep[0] + asleep[1])
#endif

/* ---- The bells ---- */

inline rise(p) { asleep[p] = 0; printf("party %d rises\n", p) }

/* wake_all of the turn by which these two parties sleep, or the one. */
inline wake_all(one, other) {
    atomic {
        if :: asleep[one] -> rise(one) :: else -> skip fi;
        if :: asleep[other] -> rise(other) :: else -> skip fi
    }
}
inline wake_one(one, other) {
    atomic { if :: asleep[one] -> rise(one) :: asleep[other] -> rise(other) :: else -> skip fi }
}

/* Bell::ring of the bell for news. */
inline ring_news() {
    if
    :: sleepers[NEWS] != 0 ->
        turn[NEWS]++;
#ifdef WRONG_NEWS_FOR_ONE           /* whichever */
        wake_one(SUBSCRIBER(0), SUBSCRIBER(SUBSCRIPTIONS - 1))
#else
        wake_all(SUBSCRIBER(0), SUBSCRIBER(SUBSCRIPTIONS - 1))
#endif
    :: else -> skip
    fi
}

/* Bell::ring of the bell for room. */
inline ring_room() {
    if
    :: sleepers[ROOM] != 0 ->
        turn[ROOM]++;
#ifdef WRONG_ROOM_FOR_ONE           /* whichever */
        wake_one(0, EMITTERS - 1)
#else
        wake_all(0, EMITTERS - 1)
#endif
    :: else -> skip
    fi
}

/* Bell::lie_down and rise */
inline count(bell, p) { atomic { sleepers[bell]++; printf("party %d lies down\n", p) } }
inline discount(bell, p) { atomic { sleepers[bell]--; printf("party %d is up\n", p) } }

/* Bell::sleep and sleep_for: it compares the turn as it lays the thread down. */
inline sleep(bell, p) {
    atomic {
        if
        :: turn[bell] == seen -> asleep[p] = 1; printf("party %d sleeps\n", p)
        :: else -> skip
        fi;
        seen = 0
    };
    !asleep[p]
}

/* ValueFlow::stop: Bell::let_go of the one bell, and then of the other. */
inline let_all_go() {
    atomic {
        if :: !let_go -> let_go = 1; let_go_at = accepted :: else -> skip fi;
        printf("all are let go\n")
    }
}
inline stop() {
#ifdef WRONG_STOP_RINGS_ROOM_FIRST  /* the two in the other order: what an emission asks is marked last */
    ring_room();
    let_all_go();
    ring_news()
#else
    let_all_go();
    ring_news();
#ifndef WRONG_STOP_LEAVES_EMISSIONS /* the bell for news alone */
    ring_room()
#else
    skip
#endif
#endif
}

/* Stopper::stop, of subscription 0. */
inline stop_alone() {
    atomic {
        if :: !mark[0] -> mark[0] = 1; marked_at = accepted :: else -> skip fi;
        printf("subscription 0 is let go\n")
    };
#ifdef WRONG_ALONE_RINGS_ROOM       /* the bell by which emissions sleep */
    ring_room()
#else
    ring_news()
#endif
}

/* ---- Emissions ---- */

/* offer: a round of the lock, with Ring::entrance and accept. */
inline offer(e) {
    atomic {
        !locked;
        if
#ifdef DROPS_OLDEST
        :: true ->
#else
        :: HAVE_ROOM ->
#endif
            accepted++;
            result = ACCEPTED;
            printf("a value of emitter %d is accepted as %d\n", e, accepted - 1)
#ifdef DROPS_LATEST
        :: else -> result = DROPPED
#else
        :: else -> result = FULL
#endif
        fi
    }
}

/* ValueFlow::try_emit */
inline try_emit(e) {
#ifdef WRONG_NEWS_BEFORE_THE_VALUE
    ring_news();
    offer(e)
#else
    offer(e);
    if
#ifdef WRONG_EMISSION_RINGS_ROOM    /* the bell by which emissions sleep */
    :: result == ACCEPTED -> ring_room()
#else
    :: result == ACCEPTED -> ring_news()
#endif
    :: else -> skip
    fi
#endif
}

/* ValueFlow::attempt, without the sleep: the turn, the stop, the try. Who is answered the stop found no room after it was marked. */
inline attempt_to_emit(e) {
#ifdef WRONG_EMISSION_TURN_LOADED_LAST
    is_let_go = let_go;
    try_emit(e);
    seen = turn[ROOM];
#else
    seen = turn[ROOM];
    is_let_go = let_go;
    try_emit(e);
#endif
    atomic {
        if
        :: result == FULL && is_let_go -> result = STOPPED; printf("emitter %d is let go\n", e)
        :: else -> skip
        fi;
        is_let_go = 0
    }
}

/* ValueFlow::emit with wait. */
inline emit(e) {
    try_emit(e);
    if
    :: result != FULL -> skip
    :: else ->
#ifndef WRONG_EMISSION_COUNTED_LATE
        count(ROOM, e);
#endif
#ifdef WRONG_FIRST_TRY_IS_THE_LAST  /* who found no room sleeps once it is counted, and tries only after that */
        seen = turn[ROOM];
        sleep(ROOM, e);
#endif
        do
        ::  attempt_to_emit(e);
            if
            :: result != FULL -> break
            :: else ->
#ifdef WRONG_EMISSION_COUNTED_LATE  /* after the try, each time */
                count(ROOM, e);
#endif
                sleep(ROOM, e);
#ifdef WRONG_EMISSION_COUNTED_LATE
                discount(ROOM, e)
#endif
            fi
        od;
#ifndef WRONG_EMISSION_COUNTED_LATE
#ifndef WRONG_EMISSION_STAYS_COUNTED
        discount(ROOM, e);
#endif
#endif
        seen = 0
    fi;
    result = 0
}

/* ---- Receipts ---- */

/* begin: a round of the lock, with Ring::cache_start. */
inline subscribe(s) {
    atomic {
        !locked;
        cursor[s] = (accepted > REPLAY -> accepted - REPLAY : 0);
        printf("subscription %d begins with value %d\n", s, cursor[s])
    }
}

/* Subscription::look with find: a round of the lock, with Ring::standing; where the next value is there the lock stays taken. */
inline look(s) {
    atomic {
        !locked;
        if
#ifdef DROPS_OLDEST
        :: IS_BEHIND(s) ->
            result = MISSED;
            printf("subscription %d missed %d values\n", s, accepted - PLACES - cursor[s]);
            cursor[s] = accepted - PLACES
#endif
        :: !IS_NEXT(s) && !IS_BEHIND(s) -> locked = 1; result = THERE
        :: IS_NEXT(s) -> result = NOTHING
        fi
    };
    if
    :: result == MISSED -> ring_room()
    :: else -> skip
    fi
}

/* Subscription::give_clone: give, which gives the lock up and rings, or where the clone is refused pass. */
inline give(s) {
    if
    :: atomic { refusals > 0 -> refusals--; locked = 0; printf("a clone for subscription %d is refused\n", s) }
    :: atomic { printf("subscription %d receives value %d\n", s, cursor[s]); cursor[s]++; locked = 0 };
#ifdef WRONG_RECEIPT_RINGS_NEWS     /* the bell by which subscriptions sleep */
        ring_news()
#else
        ring_room()
#endif
    fi
}

/* Subscription::look_on: any number of looks, of which the code makes four. One that finds nothing changes nothing, and so isn't a
   step here. */
inline look_on(s) {
    if
    :: !IS_NEXT(s) -> look(s)
    :: result = NOTHING
    fi
}

/* Subscription::is_stopped: whether all were let go, and else the subscription's mark, where somebody may set it. */
inline look_whether_let_go(s) {
    is_let_go = let_go;
#if ALONE > 0
    if
    :: s == 0 && !is_let_go -> is_let_go = mark[s]
    :: else -> skip
    fi
#endif
}

/* Subscription::attempt, without the sleep: the turn, the stop and the mark, the look. Who is told of a stop received all that was
   accepted before. */
inline attempt(s) {
#ifdef WRONG_NEWS_TURN_LOADED_LAST
    look_whether_let_go(s);
    look(s);
    seen = turn[NEWS];
#else
    seen = turn[NEWS];
#ifdef WRONG_NEWS_STOP_LOADED_LAST
    look(s);
    look_whether_let_go(s);
#else
    look_whether_let_go(s);
    look(s);
#endif
#endif
    atomic {
        if
        :: result == NOTHING && is_let_go ->
            result = STOPPED;
            assert((let_go && cursor[s] >= let_go_at) || (mark[s] && cursor[s] >= marked_at));
            printf("subscription %d is let go\n", s)
        :: else -> skip
        fi;
        is_let_go = 0
    }
}

/* Subscription::awaited with wait, and awaited_within with wait_within. */
inline await_next(s) {
    look_on(s);
    if
    :: result != NOTHING -> skip
    :: else ->
#ifndef WRONG_RECEIVER_COUNTED_LATE
        count(NEWS, SUBSCRIBER(s));
#endif
#ifdef WRONG_LAST_LOOK_IS_UNCOUNTED /* who has looked on sleeps once it is counted, and asks only after that */
        seen = turn[NEWS];
        sleep(NEWS, SUBSCRIBER(s));
#endif
        do
        ::  attempt(s);
            if
            :: result != NOTHING -> break
#ifdef LIMITS
            :: result == NOTHING -> break
#endif
            :: result == NOTHING ->
#ifdef WRONG_RECEIVER_COUNTED_LATE  /* after the look, each time */
                count(NEWS, SUBSCRIBER(s));
#endif
                sleep(NEWS, SUBSCRIBER(s));
#ifdef WRONG_RECEIVER_COUNTED_LATE
                discount(NEWS, SUBSCRIBER(s))
#endif
            fi
        od;
#ifndef WRONG_RECEIVER_COUNTED_LATE
#ifndef WRONG_RECEIVER_STAYS_COUNTED
        discount(NEWS, SUBSCRIBER(s));
#endif
#endif
        seen = 0
    fi
}

/* Subscription::next with received, and next_within. */
inline next(s) {
    await_next(s);
    if
    :: result == THERE -> give(s)
    :: else -> skip
    fi
}

/* Subscription::cancel with end, a round of the lock. */
inline cancel(s) {
#ifdef WRONG_ROOM_BEFORE_THE_END
    ring_room();
#endif
    atomic { !locked; cursor[s] = CLOSED; printf("subscription %d ends\n", s) };
#ifndef WRONG_ROOM_BEFORE_THE_END
#ifndef WRONG_END_RINGS_NOBODY
    ring_room();
#endif
#endif
    skip
}

/* ---- Who does what ---- */

/* Emits so many values, each by emit, or where it may, by try_emit. */
proctype emitter(byte e, left) {
    byte seen, result;
    bit is_let_go;
    do
    :: left == 0 -> break
    :: left != 0 -> emit(e); left--
#ifdef TRIES
    :: left != 0 -> try_emit(e); result = 0; left--
#endif
    od;
    ended[e] = 1
}

/* Receives without end, or until it is told of a stop; then it cancels, or asks no more. */
proctype subscription(byte s) {
    byte seen, result;
    bit is_let_go;
    subscribe(s);
    do
    :: result == STOPPED -> break
    :: result != STOPPED -> next(s)
#ifdef LEAVES
    :: s == 0 -> break
#endif
    od;
    result = 0;
    if
    :: cancel(s)
    :: skip
    fi;
    ended[SUBSCRIBER(s)] = 1
}

#if STOPS > 0
/* Lets all go, at any moment, or never. */
proctype stopper(byte left) {
    do
    :: left == 0 -> break
    :: left != 0 -> stop(); left--
    :: left != 0 -> break
    od
}
#endif

#if ALONE > 0
/* Lets subscription 0 go, at any moment, or never. */
proctype stopper_of_one(byte left) {
    do
    :: left == 0 -> break
    :: left != 0 -> stop_alone(); left--
    :: left != 0 -> break
    od
}
#endif

#if SPURIOUS > 0
/* A sleep may end for nothing. */
proctype spurious() {
    byte times;
    do
    :: atomic { times < SPURIOUS && asleep[0] -> rise(0); times++ }
    :: atomic { times < SPURIOUS && asleep[SUBSCRIBER(0)] -> rise(SUBSCRIBER(0)); times++ }
    :: break
    od
}
#endif

init {
    byte i = 0;
    atomic {
        do :: i < EMITTERS -> run emitter(i, VALUES); i++ :: else -> break od;
        i = 0;
        do :: i < SUBSCRIPTIONS -> run subscription(i); i++ :: else -> break od;
        i = 0;
#if STOPS > 0
        run stopper(STOPS);
#endif
#if ALONE > 0
        run stopper_of_one(ALONE);
#endif
#if SPURIOUS > 0
        run spurious();
#endif
        skip
    };
    /* Nobody can go on. Then each party has ended, or sleeps, and nothing has come that it sleeps for. */
    timeout;
    assert(!locked);
    do
    :: i == EMITTERS -> i = 0; break
    :: else -> assert(ended[i] || (asleep[i] && !HAVE_ROOM && !let_go)); i++
    od;
    do
    :: i == SUBSCRIPTIONS -> break
    :: else -> assert(ended[SUBSCRIBER(i)] || (asleep[SUBSCRIBER(i)] && IS_NEXT(i) && !let_go && !mark[i])); i++
    od;
    assert(sleepers[ROOM] == EMISSIONS_ASLEEP && sleepers[NEWS] == SUBSCRIPTIONS_ASLEEP)
}
