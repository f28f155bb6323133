/* The lock of crates/round_lock, step by step: a word, a place for the state, and who sleeps on the word. README.md says
   which function each inline stands for, what is asserted, and how a trail is read.

   -DOWNERS=n   how many owners there are, 2 to 4
   -DROUNDS=n   how many rounds each makes, at most 3; 0: without end, and then no round is counted
   -DSPURIOUS=n how many sleeps end for nothing
   -DWATCH      states what holds in every state, too: not only that nobody is stuck and never two are inside

   A planted mistake is one of the names WRONG_.. below, each beside what it changes. */
#ifndef OWNERS
#define OWNERS 3
#endif
#ifndef ROUNDS
#define ROUNDS 2
#endif
#ifndef SPURIOUS
#define SPURIOUS 1
#endif

#define TAKEN 0
#define FREE 1
#define WANTED 2
/* What one that is about to sleep writes, and sleeps on. */
#ifdef WRONG_WRITES_TAKEN           /* 0, so that nobody sees that one sleeps */
#define ASKED TAKEN
#else
#define ASKED WANTED
#endif
/* What the place holds where no state lies there. */
#define NONE 255

byte word = FREE;
/* The place: the state is how many rounds each owner made, two bits each. It is plain memory. */
byte place = 0;
byte in_place = 0;      /* owners that read or write it now */
byte inside = 0;        /* owners that have the lock */
bool asleep[OWNERS];    /* on the word, in the system */
byte to_wake = 0;       /* owners that gave the lock up when the word was 2, and are about to wake one */
byte to_want = 0;       /* owners that are about to write the 2 */
byte ended = 0;

#define MADE(state, me) (((state) >> (2 * (me))) & 3)

#if OWNERS == 2
#define SOME_SLEEP (asleep[0] || asleep[1])
#elif OWNERS == 3
#define SOME_SLEEP (asleep[0] || asleep[1] || asleep[2])
#else
#define SOME_SLEEP (asleep[0] || asleep[1] || asleep[2] || asleep[3])
#endif

/* The system wakes one that sleeps on the word, whichever, and says whether one did. */
inline rise(me) { asleep[me] = false; to_want++; printf("owner %d rises\n", me) }

inline rise_one() {
    if
    :: asleep[0] -> rise(0)
    :: asleep[1] -> rise(1)
#if OWNERS > 2
    :: asleep[2] -> rise(2)
#endif
#if OWNERS > 3
    :: asleep[3] -> rise(3)
#endif
    :: !SOME_SLEEP -> skip
    fi
}

inline has_taken(me) { inside++; printf("owner %d takes the lock\n", me); assert(inside == 1) }

/* try_take: a compare and exchange, 1 for 0. */
inline try_take(me) {
#ifdef WRONG_TAKES_IN_TWO           /* a load and a store */
    found = word;
    if
    :: found == FREE -> atomic { word = TAKEN; has = true; has_taken(me) }
    :: else -> skip
    fi;
    found = 0
#else
    atomic { if :: word == FREE -> word = TAKEN; has = true; has_taken(me) :: else -> skip fi }
#endif
}

/* look_and_take: any number of looks, of which the code makes at most eleven. A look that finds the lock taken changes
   nothing, and so isn't a step here. */
inline look_and_take(me) {
    do
    :: !has && word == FREE ->
#ifdef WRONG_LOOK_TAKES             /* takes it without an exchange, since the look found it free */
        atomic { word = TAKEN; has = true; has_taken(me) }
#else
        try_take(me)
#endif
    :: break
    od
}

/* park: sleeps where the word is still 2, which the system compares as it lays the thread down. */
inline park(me) {
    atomic {
        if
#ifdef WRONG_SLEEPS_BLIND           /* whatever the word is by now */
        :: true ->
#else
        :: word == ASKED ->
#endif
            asleep[me] = true; to_want--; printf("owner %d sleeps\n", me)
        :: else -> skip
        fi
    };
    !asleep[me]
}

/* take */
inline take(me) {
    try_take(me);
    look_and_take(me);
    if
    :: has -> skip
    :: else ->
        to_want++;
        do
        :: has -> break
        :: else ->
            /* swap */
            atomic {
                found = word;
                word = ASKED;
                if
                :: found == FREE -> to_want--; has = true; has_taken(me)
                :: else -> skip
                fi;
                found = 0
            };
            if
            :: has -> break
            :: else -> skip
            fi;
            park(me);
#ifdef WRONG_WOKEN_TAKES            /* one that was woken takes it as one that comes does, 1 for 0 */
            try_take(me);
            if :: has -> to_want-- :: else -> skip fi
#endif
        od
    fi
}

/* lift and the exchange of give_as: the place is plain memory, so that two steps there would be seen. */
inline lift(me) {
    atomic { in_place++; assert(in_place == 1); assert(place != NONE); state = place };
    atomic { place = NONE; in_place-- }
}
inline lay(me) {
    atomic { in_place++; assert(in_place == 1); assert(place == NONE) };
    atomic { place = state; state = 0; in_place-- }
}

/* The swap of give_as. */
inline give(me) {
#ifdef WRONG_GIVES_IN_TWO           /* a load, then a store */
    found = word;
    atomic { word = FREE; inside--; if :: found == WANTED -> to_wake++ :: else -> skip fi };
#else
    atomic { found = word; word = FREE; inside--; if :: found == WANTED -> to_wake++ :: else -> skip fi };
#endif
    skip
}

/* wake_one */
inline wake(me) {
    if
    :: found == WANTED ->
#ifdef WRONG_WAKES_NOBODY
        atomic { to_wake--; found = 0 }
#else
        atomic { to_wake--; found = 0; printf("owner %d wakes one\n", me); rise_one() }
#endif
    :: else -> found = 0
    fi
}

/* give_as */
inline give_as(me) {
#ifdef WRONG_GIVES_FIRST            /* the word before the state */
    give(me); lay(me); wake(me)
#else
#ifdef WRONG_WAKES_FIRST            /* wakes one before the lock is given up */
    lay(me);
    atomic { if :: word == WANTED -> rise_one() :: else -> skip fi };
    atomic { word = FREE; inside-- }
#else
    lay(me); give(me); wake(me)
#endif
#endif
}

proctype owner(byte me) {
    byte found, state, made;
    bool has;
    do
    :: ROUNDS > 0 && made == ROUNDS -> break
    :: else ->
        take(me);
        has = false;
        lift(me);
#if ROUNDS > 0
        /* What lies there has each of its rounds, and once. */
        d_step { assert(MADE(state, me) == made); state = state + (1 << (2 * me)); made++ };
#endif
        give_as(me)
    od;
    ended++
}

#if SPURIOUS > 0
/* A sleep may end for nothing. This may come to its end at any time, so that nobody counts on it. */
proctype spurious() {
    byte times;
    do
    :: atomic { times < SPURIOUS && SOME_SLEEP -> rise_one(); times++ }
    :: break
    od
}
#endif

#ifdef WATCH
/* What holds in every state. As long as one sleeps, the word is 2; or one that gave the lock up when it was 2 is about to
   wake one; or one that was woken, or came, is about to write the 2. */
#define FORGOTTEN (SOME_SLEEP && word != WANTED && to_wake == 0 && to_want == 0)
proctype watch() {
end:
    atomic { (FORGOTTEN || (word == FREE && (inside != 0 || place == NONE)) || (word != FREE && inside != 1)) -> assert(false) }
}
#endif

init {
    byte i = 0;
    atomic {
        do :: i < OWNERS -> run owner(i); i++ :: else -> break od;
        i = 0;
#ifdef WATCH
        run watch();
#endif
#if SPURIOUS > 0
        run spurious();
#endif
        skip
    };
#if ROUNDS == 0
end:
    false
#else
    /* All come to their end: a state in which nobody can go on before that is an error. */
    ended == OWNERS;
    assert(word == FREE && inside == 0);
    do :: i < OWNERS -> assert(MADE(place, i) == ROUNDS); i++ :: else -> break od
#endif
}
