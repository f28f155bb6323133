/* Who waits on a shared flow, and who is woken, step by step as crates/shared_flow and crates/shared_lane have it, under
   the policy Suspend. README.md says which function each inline stands for, what is left out and why, what is asserted,
   and how a trail is read.

   -DEMITTERS=n       1 or 2
   -DSUBSCRIPTIONS=n  1 or 2
   -DPLACES=n         replay + extra: 0, 1 or 2
   -DVALUES=n         how many values an emitter has
   -DREFUSED=n        how many times a wait finds no memory to begin by
   -DSCENE=n          who does what: scenes.pml
   -DLOCK_WORD        the lock by its word, as in lock.pml; without it, a lock that is taken or not
   -DBELL             what a thread sleeps by in steps: the run queue and the bell of the toolchain's futures; without it,
                      a thread goes on once its turn is queued
   -DSTOPS            parties may be let go: stops.pml
   -DBLOCKS           parties emit and take several values at once: blocks.pml
   -DRULES            states more than that nobody is forgotten: what holds each time the lock is given back

   A planted mistake is one of the names WRONG_.. here, in parkers.pml, in stops.pml and in blocks.pml, each beside what it
   changes. */
#ifndef EMITTERS
#define EMITTERS 1
#endif
#ifndef SUBSCRIPTIONS
#define SUBSCRIPTIONS 1
#endif
#ifndef PLACES
#define PLACES 1
#endif
#ifndef VALUES
#define VALUES 2
#endif
#ifndef REFUSED
#define REFUSED 0
#endif
#if PLACES == 0
#define CELLS 1
#else
#define CELLS PLACES
#endif
#define PARTIES (EMITTERS + SUBSCRIPTIONS)
#define CLOSED 255

/* Where a turn stands in the queue of a parker. */
#define DONE 0
#define IDLE 1
#define QUEUED 2
#define RUNNING 3
#define NOTIFIED 4

/* What an emission came to. */
#define ACCEPTED 1
#define WAITING 2
#define REMOVED 3
#define FULL 4

/* The words that are touched without the lock. */
byte tail;
byte cursor[SUBSCRIPTIONS];
byte cell[CELLS];
bit flag;

/* What lies under the lock: the sequencer's lists, and the tables of those that sleep. */
bit locked;
byte waiting[2];            /* emissions without room, the oldest first: whose */
byte waiting_count;
byte standing[EMITTERS];    /* an accepted emission whose ticket is out: one more than its number */
byte asleep[4];             /* two tables: the tickets of emissions, and from 2 on the numbers of subscriptions */
byte waker[4];              /* one more than the party that each wakes */

/* A party's own, which others read here for what is asserted alone. */
byte value[EMITTERS];       /* the number of its emission among its own, from 1 on */
byte emission_key[EMITTERS];
byte subscription_key[SUBSCRIPTIONS];

/* The queue of each party's parker, which has one turn. */
byte turn_of[PARTIES];

/* For what is asserted. */
byte withdrawn[EMITTERS];                       /* one bit for each of its emissions */
byte latest[SUBSCRIPTIONS * EMITTERS];          /* the last of an emitter's values that a subscription received */
byte refusals = REFUSED;
byte ended;                                     /* parties, one bit each */
bit asks[SUBSCRIPTIONS];                        /* its last poll was pending */
bit emits[EMITTERS];                            /* the same */
bit bare;                                       /* a value was received by try_next, and nobody took the lock since */

/* An emission's value, and its ticket: whose, and the how-manieth of its own. */
#define NAME(e) ((e) * 8 + value[e])
#define OWNER(name) ((name) / 8)
#define COUNT(name) ((name) % 8)

#define EMISSION_TABLE 0
#define SUBSCRIPTION_TABLE 2
#define SUBSCRIBER(s) (EMITTERS + (s))
#define IS_UNREAD(s, number) (cursor[s] != CLOSED && cursor[s] <= (number))
#define IS_BEHIND(s, lag) (cursor[s] != CLOSED && cursor[s] <= tail && tail - cursor[s] >= (lag))
#if SUBSCRIPTIONS == 1
#define ANY_UNREAD(number) IS_UNREAD(0, number)
#define ANY_BEHIND(lag) IS_BEHIND(0, lag)
#else
#define ANY_UNREAD(number) (IS_UNREAD(0, number) || IS_UNREAD(1, number))
#define ANY_BEHIND(lag) (IS_BEHIND(0, lag) || IS_BEHIND(1, lag))
#endif
#if EMITTERS == 1
#define ANY_STANDS (standing[0] != 0)
#else
#define ANY_STANDS (standing[0] != 0 || standing[1] != 0)
#endif
/* Sequencer::has_unfinished */
#ifdef WRONG_FLAG_DOWN              /* an accepted emission that is to be received by all counts for nothing */
#define HAS_UNFINISHED (waiting_count != 0)
#else
#define HAS_UNFINISHED (waiting_count != 0 || (PLACES == 0 && ANY_STANDS))
#endif

#include "parkers.pml"

/* ---- Sleepers ---- */

/* WaitList::sleep: where it sleeps already it stays, else it takes a place; its waker lies there. */
inline park_task(table, wait_key, number, p) {
    if
    :: wait_key != 0 && asleep[table + wait_key - 1] == number -> skip
    :: else ->
        if
        :: asleep[table] == 0 -> wait_key = 1
        :: else -> assert(asleep[table + 1] == 0); wait_key = 2
        fi;
        asleep[table + wait_key - 1] = number
    fi;
    /* Each is polled by one party alone, so that no waker of another is thrown away. */
    assert(waker[table + wait_key - 1] == 0 || waker[table + wait_key - 1] == p + 1);
    waker[table + wait_key - 1] = p + 1;
    printf("party %d lies down\n", p)
}

/* Takes a sleeper out, and keeps its waker: WakeList::add. */
inline take_out(key) { mine = mine | (1 << (waker[key] - 1)); waker[key] = 0; asleep[key] = 0 }

#define NOBODY 0
#define NOBODY_IN(table) (asleep[table] == 0 && asleep[table + 1] == 0)

inline exchange(one, other) { woken = one; one = other; other = woken; woken = 0 }

/* WaitList::wake_all: the table for the owner's own, in which nobody lies. */
inline wake_all() {
#ifdef WRONG_WAKES_ONE_SUBSCRIPTION /* one of those that sleep */
    if
    :: asleep[2] != 0 -> take_out(SUBSCRIPTION_TABLE)
    :: else -> if :: asleep[3] != 0 -> take_out(SUBSCRIPTION_TABLE + 1) :: else -> skip fi
    fi
#else
    exchange(asleep[2], exchanged[0]);
    exchange(asleep[3], exchanged[1]);
    exchange(waker[2], exchanged_waker[0]);
    exchange(waker[3], exchanged_waker[1])
#endif
}

/* WaitList::wake, of the subscription that the call ended. */
inline wake_ended(gone) {
#ifdef WRONG_ENDED_SLEEPS_ON        /* who ended is left in the table */
    skip
#else
    if :: gone != NOBODY && asleep[2] == gone -> take_out(SUBSCRIPTION_TABLE) :: else -> skip fi;
    if :: gone != NOBODY && asleep[3] == gone -> take_out(SUBSCRIPTION_TABLE + 1) :: else -> skip fi
#endif
}

/* Sequencer::is_below and emitter_of, of a ticket. */
#define IS_DONE(name, below) (NAME(OWNER(name)) == (name) && standing[OWNER(name)] != 0 \
    && standing[OWNER(name)] - 1 < (below))
#define IS_OUT(name) (NAME(OWNER(name)) == (name) && (standing[OWNER(name)] != 0 \
    || (waiting_count != 0 && waiting[0] == OWNER(name)) || (waiting_count == 2 && waiting[1] == OWNER(name))))
#define IS_WITHDRAWN(name) ((withdrawn[OWNER(name)] & (1 << COUNT(name))) != 0)

/* has_to_wait */
#ifdef WRONG_TAKEN_SLEEPS_ON        /* who was answered isn't looked for */
#define HAS_TO_WAIT(name, below) (!IS_DONE(name, below) && (IS_OUT(name) || !IS_WITHDRAWN(name)))
#else
#ifdef WRONG_WITHDRAWN_SLEEPS_ON    /* who was withdrawn isn't looked for */
#define HAS_TO_WAIT(name, below) (!IS_DONE(name, below) && (IS_OUT(name) || IS_WITHDRAWN(name)))
#else
#define HAS_TO_WAIT(name, below) (!IS_DONE(name, below) && IS_OUT(name))
#endif
#endif
#define IS_TO_RISE(key, below) (asleep[key] != 0 && !HAS_TO_WAIT(asleep[key], below))

/* SleepingEmissions::wake_done */
inline wake_done(below) {
#ifdef WRONG_WAKES_ANOTHER          /* the first that sleeps, where one has to wait no more */
    if
    :: IS_TO_RISE(0, below) || IS_TO_RISE(1, below) ->
        if
        :: asleep[0] != 0 -> take_out(EMISSION_TABLE)
        :: else -> take_out(EMISSION_TABLE + 1)
        fi
    :: else -> skip
    fi
#else
    if :: IS_TO_RISE(0, below) -> take_out(EMISSION_TABLE) :: else -> skip fi;
    if :: IS_TO_RISE(1, below) -> take_out(EMISSION_TABLE + 1) :: else -> skip fi
#endif
}

/* ---- Through the lock ---- */

#ifdef LOCK_WORD
/* Lock::take and put, as in lock.pml, without the looks before the 2 is written. */
byte word = 1;
bit on_word[PARTIES];
inline lock(p) {
    atomic { if :: word == 1 -> word = 0; has = 1 :: else -> has = 0 fi };
    do
    :: has -> break
    :: else ->
        atomic { has = (word == 1); word = 2; if :: has -> break :: else -> skip fi };
        atomic { if :: word == 2 -> on_word[p] = 1 :: else -> skip fi };
        !on_word[p]
    od;
    skip;
    d_step { has = 0; before = tail; bare = 0; printf("party %d takes the lock\n", p) }
}
inline rise_from_word() {
    if
    :: on_word[0] -> on_word[0] = 0
    :: on_word[1] -> on_word[1] = 0
#if PARTIES > 2
    :: on_word[2] -> on_word[2] = 0
#endif
    :: else -> skip
    fi
}
#define IS_FREE (word == 1)
#else
inline lock(p) { atomic { !locked -> locked = 1; before = tail; bare = 0; printf("party %d takes the lock\n", p) } }
#define IS_FREE (!locked)
#endif

/* Access::enter: the lock, and which number the next emission has now. */
inline enter(p) { lock(p) }

/* What holds as the lock is given back. */
inline check_rules() {
    /* Whoever lies in a table can be helped yet: its ticket is out, its subscription open. */
    assert(asleep[0] == 0 || (IS_OUT(asleep[0]) && !IS_WITHDRAWN(asleep[0])));
    assert(asleep[1] == 0 || (IS_OUT(asleep[1]) && !IS_WITHDRAWN(asleep[1])));
    assert(asleep[2] == 0 || cursor[asleep[2] - 1] != CLOSED);
    assert(asleep[3] == 0 || cursor[asleep[3] - 1] != CLOSED);
#ifdef RULES
    /* The flag is up whenever something is unfinished. */
    assert(!HAS_UNFINISHED || flag);
    /* Whoever lies in a table waits: a subscription there has nothing to receive, and where there are places no emission
       there was let in. */
    assert(asleep[2] == 0 || cursor[asleep[2] - 1] == tail);
    assert(asleep[3] == 0 || cursor[asleep[3] - 1] == tail);
    assert(PLACES == 0 || asleep[0] == 0 || !IS_DONE(asleep[0], tail));
    assert(PLACES == 0 || asleep[1] == 0 || !IS_DONE(asleep[1], tail));
    /* None lies there twice. */
    assert((asleep[0] == 0 || asleep[0] != asleep[1]) && (asleep[2] == 0 || asleep[2] != asleep[3]));
    /* No waker is left under the lock but those of whom lies there. */
    assert((waker[0] == 0) == (asleep[0] == 0) && (waker[1] == 0) == (asleep[1] == 0));
    assert((waker[2] == 0) == (asleep[2] == 0) && (waker[3] == 0) == (asleep[3] == 0))
#endif
}

/* The owner has nobody left whom an earlier call of its was to wake. */
inline check_none_left() {
#ifdef RULES
    assert(mine == 0 && exchanged[0] == 0 && exchanged[1] == 0 && exchanged_waker[0] == 0 && exchanged_waker[1] == 0)
#else
    skip
#endif
}

#ifdef WRONG_TABLE_NOT_FIRED        /* the table that was taken out is kept as it is, for the next exchange */
#define NONE_LEFT (mine == 0)
#else
#ifdef WRONG_WAKERS_NOT_FIRED       /* the table alone is fired, not who was taken out one by one */
#define NONE_LEFT (exchanged_waker[0] == 0 && exchanged_waker[1] == 0)
#else
#define NONE_LEFT (mine == 0 && exchanged_waker[0] == 0 && exchanged_waker[1] == 0)
#endif
#endif

/* The next of an exchanged table: its place is empty then. */
inline fire_exchanged(key) {
    woken = exchanged_waker[key] - 1;
#ifndef WRONG_TABLE_NOT_CLEARED     /* its waker is called, and its entry stays for the next exchange */
    exchanged[key] = 0;
#endif
    exchanged_waker[key] = 0
}

/* WakeList::fire_unless: each waker is called once the lock is given back, those of the exchanged table first. */
inline fire() {
    do
    :: NONE_LEFT -> break
    :: else ->
        d_step {
            if
#ifndef WRONG_TABLE_NOT_FIRED
            :: exchanged_waker[0] != 0 -> fire_exchanged(0)
            :: exchanged_waker[0] == 0 && exchanged_waker[1] != 0 -> fire_exchanged(1)
#endif
            :: else ->
                if
                :: mine & 1 -> woken = 0
                :: else -> if :: mine & 2 -> woken = 1 :: else -> if :: mine & 4 -> woken = 2 :: else -> woken = 3 fi fi
                fi;
                mine = mine - (1 << woken)
            fi;
            printf("party %d is woken\n", woken)
        };
        wake(woken);
        woken = 0
    od;
    skip
}

/* The lock is given back. */
inline give_back(p) {
    check_rules();
#ifdef LOCK_WORD
    has = (word == 2); word = 1;
#else
    locked = 0;
#endif
    printf("party %d gives the lock back\n", p)
}

/* Access::leave: help, then the lock is given back, then the wakes. `gone` is the subscription that the call ended. */
inline leave(p, gone) {
#ifdef WRONG_FIRES_FIRST            /* before help, so that those that this round woke are called at the party's next */
    fire();
#endif
    /* Shared::wake_subscriptions, with wake_ended, and tie_flag */
    d_step {
        check_none_left();
        if
        :: tail <= before -> wake_ended(gone)
#ifdef WRONG_EARLY_EMPTINESS        /* whether somebody sleeps was read before the lock was taken */
        :: tail > before && !early -> wake_all()
#else
#ifndef WRONG_NO_HELP_TO_SUBSCRIPTIONS  /* who sleeps for a value isn't looked for */
        :: tail > before && !NOBODY_IN(SUBSCRIPTION_TABLE) -> wake_all()
#endif
#endif
        :: else -> skip
        fi;
#ifdef WRONG_EMISSIONS_AFTER_VALUES /* emissions are looked for only where something was accepted, as subscriptions are */
        rose = tail > before;
#endif
        before = 0;
#ifdef WRONG_FLAG_UNLOCKED          /* the flag is taken back once the lock is given back */
        lower = flag && !HAS_UNFINISHED
#else
#ifdef WRONG_NO_FLAG                /* nobody raises the flag: neither who looks a last time, nor here */
        flag = flag && HAS_UNFINISHED
#else
        flag = HAS_UNFINISHED
#endif
#endif
    };
    /* Shared::wake_emissions: finished_below, where there are no places, loads the cursors */
#if PLACES == 0
    if
    :: tail > 0 && !NOBODY_IN(EMISSION_TABLE) ->
        behind = IS_UNREAD(0, tail - 1);
#if SUBSCRIPTIONS > 1
        behind = behind || IS_UNREAD(1, tail - 1);
#endif
        skip
    :: else -> skip
    fi;
#endif
    d_step {
#ifdef WRONG_LAST_NOT_WOKEN         /* the last that was accepted counts as unfinished */
        wake_done(tail - 1);
#else
#ifdef WRONG_NO_HELP_TO_EMISSIONS   /* who sleeps in an emission that is finished isn't looked for */
        wake_done(0);
#else
#ifdef WRONG_EMISSIONS_AFTER_VALUES
        if :: rose -> wake_done(tail - behind) :: else -> skip fi;
        rose = 0;
#else
        wake_done(tail - behind);
#endif
#endif
#endif
        behind = 0;
        give_back(p)
    };
#ifdef LOCK_WORD
    if :: has -> atomic { has = 0; rise_from_word() } :: else -> skip fi;
#endif
#ifdef WRONG_FLAG_UNLOCKED
    if :: lower -> lower = 0; flag = 0 :: else -> skip fi;
#endif
#ifndef WRONG_FIRES_FIRST
    fire()
#endif
}

/* ---- The sequencer, by one who has the lock ---- */

/* Sequencer::accept: the cell, then the tail. */
inline store_cell(e) { cell[tail % CELLS] = NAME(e) }
inline store_tail(e) { d_step { tail++; printf("value %d of emitter %d is accepted as %d\n", value[e], e, tail - 1) } }
inline accept(e) {
#ifdef WRONG_TAIL_FIRST             /* the tail before the cell */
    store_tail(e); cell[(tail - 1) % CELLS] = NAME(e)
#else
    store_cell(e); store_tail(e)
#endif
}

#ifdef WRONG_ROOM_FOR_MORE          /* one more than there are places */
#define ROOM (CELLS + 1)
#else
#define ROOM CELLS
#endif

/* Sequencer::scan: find_room and accept_first, until nothing waits or there is no room. */
inline scan() {
    do
    :: waiting_count == 0 -> break
    :: atomic { waiting_count != 0 ->
#if SUBSCRIPTIONS > 1
            behind = IS_BEHIND(0, ROOM) };
        atomic {
            behind = behind || IS_BEHIND(1, ROOM);
#else
            behind = IS_BEHIND(0, ROOM);
#endif
            if :: behind -> behind = 0; break :: else -> skip fi };
        accept(waiting[0]);
        d_step { standing[waiting[0]] = tail; waiting[0] = waiting[1]; waiting[1] = 0; waiting_count-- }
    od;
    skip
}

/* Sequencer::wait */
inline wait_last(e) { waiting[waiting_count] = e; waiting_count++; printf("value %d of emitter %d waits\n", value[e], e) }

/* Sequencer::find_room for one that begins: `behind` says that there is none. */
inline find_room(lag) {
    behind = IS_BEHIND(0, lag)
#if SUBSCRIPTIONS > 1
    ; behind = behind || IS_BEHIND(1, lag)
#endif
}

/* Sequencer::start_after_scan */
inline begin_emission(e) {
    if
    :: atomic { waiting_count != 0 -> wait_last(e); result = WAITING }
    :: else ->
        find_room(PLACES);
        if
        :: !behind -> accept(e); result = ACCEPTED
        :: else ->
#if PLACES > 0
            atomic { behind = 0; wait_last(e) };
#else
            find_room(1);
            if
            :: !behind -> accept(e); standing[e] = tail
            :: else -> atomic { behind = 0; wait_last(e) }
            fi;
#endif
            result = WAITING
        fi
    fi
}

/* Sequencer::poll_emit: where there are no places, a pass over the cursors. */
inline poll_ticket(e) {
    result = WAITING;
    if
    :: standing[e] == 0 -> skip
    :: else ->
#if PLACES == 0
        behind = IS_UNREAD(0, standing[e] - 1);
#if SUBSCRIPTIONS > 1
        behind = behind || IS_UNREAD(1, standing[e] - 1);
#endif
        skip;
#endif
        d_step {
            if
            :: behind -> behind = 0
            :: else -> assert(PLACES > 0 || !ANY_UNREAD(standing[e] - 1)); standing[e] = 0; result = ACCEPTED
            fi
        }
    fi
}

/* ---- Emitters ---- */

/* Emitter::start_emit, with Shared::watch. */
inline start_emit(p, e) {
#ifdef WRONG_EARLY_EMPTINESS
    early = NOBODY_IN(SUBSCRIPTION_TABLE);
#endif
    enter(p);
    scan();
    value[e]++;
    begin_emission(e);
    if
    :: result == WAITING ->
#ifdef WRONG_FLAG_LATE              /* the flag after the last look at the cursors */
        scan(); flag = 1
#else
#ifdef WRONG_NO_LAST_LOOK           /* the flag, and no look at the cursors after it */
        flag = 1
#else
#ifdef WRONG_NO_FLAG
        scan()
#else
        flag = 1; scan()
#endif
#endif
#endif
    :: else -> skip
    fi;
    leave(p, NOBODY)
}

/* Emitter::try_emit */
inline try_emit(p, e) {
    enter(p);
    scan();
    d_step { value[e]++; result = FULL };
    if
    :: waiting_count != 0 -> skip
    :: else ->
        find_room(PLACES);
        if
        :: !behind -> accept(e); result = ACCEPTED
        :: else -> behind = 0
        fi
    fi;
    d_step { if :: result == FULL -> withdrawn[e] = withdrawn[e] | (1 << value[e]) :: else -> skip fi };
    leave(p, NOBODY)
}

/* Emitter::poll_emit: one that isn't finished lies down. Who slept and is answered now is found in `leave`. */
inline poll_emit(p, e) {
    enter(p);
#ifndef WRONG_POLL_LETS_NOBODY_IN   /* it looks at its own ticket alone */
    scan();
#endif
    poll_ticket(e);
    d_step {
        if
        :: result == ACCEPTED -> emits[e] = 0
#ifdef WRONG_EMISSION_SLEEPS_UNLOCKED
        :: else -> skip
#else
        :: else -> emits[e] = 1; park_task(EMISSION_TABLE, emission_key[e], NAME(e), p)
#endif
        fi
    };
    leave(p, NOBODY)
#ifdef WRONG_EMISSION_SLEEPS_UNLOCKED   /* it lies down once the lock is given back */
    ;
    d_step {
        if
        :: result == ACCEPTED -> skip
        :: else -> emits[e] = 1; park_task(EMISSION_TABLE, emission_key[e], NAME(e), p)
        fi
    }
#endif
}

/* Emitter::cancel_emit, which is Emitter::close of one with an emission in flight. */
inline cancel_emit(p, e) {
    enter(p);
    scan();
    d_step {
        if
        :: standing[e] != 0 -> standing[e] = 0; result = ACCEPTED
        :: else ->
#ifdef WRONG_WITHDRAWN_STAYS        /* it stays among those that wait */
            skip;
#else
            assert(waiting_count != 0 && (waiting[0] == e || (waiting_count == 2 && waiting[1] == e)));
            if :: waiting[0] == e -> waiting[0] = waiting[1] :: else -> skip fi;
            waiting[1] = 0; waiting_count--;
#endif
            withdrawn[e] = withdrawn[e] | (1 << value[e]);
            result = REMOVED; printf("value %d of emitter %d is withdrawn\n", value[e], e)
        fi;
        emits[e] = 0
    };
#ifdef WRONG_WITHDRAWAL_HELPS_NOBODY    /* it lets in what waits, and wakes nobody but itself */
    d_step { before = 0; wake_done(0); give_back(p) };
    fire()
#else
    leave(p, NOBODY)
#endif
}

/* Emitter::emit. Its looks at the flag (watch_unfinished) only take time. */
inline emit(p, e) {
    start_emit(p, e);
    if
    :: result != WAITING -> skip
    :: else ->
        begin(p);
        if
        :: !may_wait -> cancel_emit(p, e)
        :: else ->
            do
            ::  turn(p);
                poll_emit(p, e);
                if
                :: result == ACCEPTED -> finish(p); break
                :: else -> rest(p, 0)
                fi
            od
        fi
    fi;
    may_wait = 0
}

/* ---- Subscriptions ---- */

/* What is asserted of each value that is received: it is the next of its emitter's that wasn't withdrawn. */
#define BETWEEN(one, other) (((1 << (other)) - 1) & ~((1 << ((one) + 1)) - 1))
inline received(s) {
    assert(COUNT(word_read) > latest[s * EMITTERS + OWNER(word_read)]);
    assert(!(withdrawn[OWNER(word_read)] & (1 << COUNT(word_read))));
    assert((BETWEEN(latest[s * EMITTERS + OWNER(word_read)], COUNT(word_read)) & ~withdrawn[OWNER(word_read)]) == 0);
    latest[s * EMITTERS + OWNER(word_read)] = COUNT(word_read);
    asks[s] = 0;
    printf("subscription %d receives value %d of emitter %d\n", s, COUNT(word_read), OWNER(word_read))
}

/* Reader::try_next: its own cursor and the tail, the cell, the exchange. `got` says whether it gave a value; `alone`, whether
   the call looks at nothing else. */
inline take_next(s, alone) {
    d_step { got = (tail != cursor[s]) };
    if
    :: !got -> skip
    :: else ->
#ifdef WRONG_RECEIVES_FIRST         /* the exchange before the load of the value */
        d_step { cursor[s]++; bare = bare || alone };
        d_step { word_read = cell[(cursor[s] - 1) % CELLS]; received(s); word_read = 0 }
#else
        word_read = cell[cursor[s] % CELLS];
        d_step { cursor[s]++; bare = bare || alone; received(s); word_read = 0 }
#endif
    fi
}

/* Subscription::accept_waiting */
inline accept_waiting(p) {
    enter(p);
#ifndef WRONG_MAKES_NO_ROOM         /* it takes the lock, and lets nobody in */
    scan();
#endif
    leave(p, NOBODY)
}

/* Subscription::look: the flag is looked at after the exchange. */
inline look(p, s) {
#ifdef WRONG_FLAG_READ_FIRST        /* the flag before the exchange */
    was_up = flag;
    take_next(s, 0);
    if :: got && was_up -> accept_waiting(p) :: else -> skip fi;
    was_up = 0
#else
    take_next(s, 0);
    if :: got && flag -> accept_waiting(p) :: else -> skip fi
#endif
}

/* Subscription::look_again, with Shared::look and sleep_subscription. */
inline look_again(p, s) {
    enter(p);
#ifndef WRONG_NO_SECOND_LOOK        /* it lies down without another look under the lock */
    scan();
    take_next(s, 0);
#ifndef WRONG_NO_SCAN_AFTER_VALUE   /* nobody is let in after a value that was found under the lock */
    if :: got -> scan() :: else -> skip fi;
#endif
#endif
#ifdef WRONG_SLEEPS_UNLOCKED        /* it lies down once the lock is given back */
    leave(p, NOBODY);
    d_step {
        if :: got -> skip
        :: else -> asks[s] = 1; park_task(SUBSCRIPTION_TABLE, subscription_key[s], s + 1, p)
        fi
    }
#else
    d_step {
        if :: got -> skip
        :: else -> asks[s] = 1; park_task(SUBSCRIPTION_TABLE, subscription_key[s], s + 1, p)
        fi
    };
    leave(p, NOBODY)
#endif
}

/* Subscription::poll_next */
inline poll_next(p, s) {
    look(p, s);
    if :: got -> skip :: else -> look_again(p, s) fi
}

/* Subscription::next_soon: any number of looks, of which the code makes at most four. */
inline look_on(p, s) {
    do
    :: got -> break
    :: !got -> break
    :: !got ->
#ifdef WRONG_LOOKS_ON_WITHOUT_HELP  /* a value that is found while it looks on helps nobody */
        take_next(s, 0)
#else
        look(p, s)
#endif
    od
}

/* Subscription::next, with wait_for_next and next_soon */
inline next(p, s) {
    look(p, s);
    if
    :: got -> skip
    :: else ->
        begin(p);
        if
        :: !may_wait -> skip
        :: else ->
            look_on(p, s);
            if
            :: got -> skip
            :: else ->
                do
                ::  turn(p);
                    poll_next(p, s);
                    if
                    :: got -> finish(p); break
                    :: else -> rest(p, 0)
                    fi
                od
            fi
        fi
    fi;
    may_wait = 0
}

/* Subscription::try_next */
inline try_next(s) { take_next(s, 1) }

/* Subscription::cancel, with Shared::cancel: what waits is let in before the cursor is closed, and after it. */
inline cancel(p, s) {
    enter(p);
    scan();
    d_step { cursor[s] = CLOSED; printf("subscription %d is cancelled\n", s) };
#ifndef WRONG_CANCEL_LETS_NOBODY_IN /* nobody is let in once the cursor is closed */
    scan();
#endif
#ifdef WRONG_CANCEL_HELPS_NOBODY    /* it lets in what waits, and wakes nobody but itself */
    d_step {
        wake_ended(s + 1);
        before = 0;
        flag = HAS_UNFINISHED;
        give_back(p)
    };
    fire()
#else
    leave(p, s + 1)
#endif
}

/* Any other call that takes the lock, as SharedFlow::subscription_count. */
inline look_in(p) { enter(p); scan(); leave(p, NOBODY) }

#ifdef STOPS
#include "stops.pml"
#endif
#ifdef BLOCKS
#include "blocks.pml"
#endif
#include "scenes.pml"
