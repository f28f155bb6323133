/* The parties of waiting.pml, which takes this file in at its end: who does what in each scene, and what is asserted once
   nobody can go on. */

#ifdef STOPS
#define IS_STOPPED(p) is_stopped[p]
#else
#define IS_STOPPED(p) 0
#endif

#define OWN \
    byte before, result, word_read, mine, woken; bit behind, got, may_wait, is_set; \
    byte exchanged[2], exchanged_waker[2]; \
    byte came, seen; bit found, rings, has, early, lower, was_up, rose

inline end(p) { d_step { ended = ended | (1 << (p)); printf("party %d ends\n", p) } }

/* Emits so many values, each again where it was given up for want of memory, and closes then, with none in flight. */
proctype emitter(byte p, e, left) {
    OWN;
    do
    :: left == 0 -> break
    :: else ->
        emit(p, e);
        if :: result == REMOVED -> skip :: else -> left-- fi;
        result = 0
    od;
    end(p)
}

/* Receives so many values by `next`, or without end, and cancels then; or stays, and asks no more. */
proctype subscriber(byte p, s, left; bit stays, ever) {
    OWN;
    do
    :: !ever && left == 0 -> break
    :: else ->
        next(p, s);
        if :: got && !ever -> left-- :: else -> skip fi;
        got = 0
    od;
    if
    :: stays -> skip
    :: else -> cancel(p, s)
    fi;
    end(p)
}

#if SCENE == 4 || SCENE == 11
/* Polls its emission by a task of its own, yields for another reason as often as `polls` says, and closes its emitter with
   the emission in flight, or ends where that is finished. */
proctype chooser(byte p, e, polls) {
    OWN;
    start_emit(p, e);
    if
    :: result != WAITING -> skip
    :: else ->
        begin(p);
        turn(p);
        do
        :: polls == 0 -> cancel_emit(p, e); break
        :: polls != 0 ->
            poll_emit(p, e);
            polls--;
            if
            :: result == ACCEPTED -> break
            :: else -> rest(p, 1); turn(p)
            fi
        :: polls != 0 -> cancel_emit(p, e); break
        od;
        finish(p)
    fi;
    end(p)
}
#endif

#if SCENE == 5 || SCENE == 6 || SCENE == 11
/* Takes so many values or fewer, each by `try_next`, asking as often as it likes, or by `next`, and cancels then; or stays. */
proctype taker(byte p, s, left; bit stays) {
    OWN;
    do
    :: true -> break
    :: left != 0 -> try_next(s); if :: got -> left-- :: else -> skip fi; got = 0
    :: left != 0 -> next(p, s); left--; got = 0
    od;
    if
    :: stays -> skip
    :: else -> cancel(p, s)
    fi;
    end(p)
}
#endif

#if SCENE == 6
/* Tries to emit, so often. */
proctype trier(byte p, e, left) {
    OWN;
    do
    :: left == 0 -> break
    :: else -> try_emit(p, e); result = 0; left--
    od;
    end(p)
}
#endif

#if SCENE == 10
/* Begins an emission after those that it emits, and asks no more. */
proctype starter(byte p, e, left) {
    OWN;
    do
    :: left == 0 -> break
    :: else -> emit(p, e); result = 0; left--
    od;
    start_emit(p, e);
    end(p)
}
#endif

#if SCENE == 7
/* Polls by a task of its own, yields for another reason, and cancels its subscription while it sleeps, or after a value. */
proctype visitor(byte p, s, polls) {
    OWN;
    begin(p);
    turn(p);
    do
    :: polls == 0 -> break
    :: polls != 0 -> poll_next(p, s); polls--; if :: got -> got = 0; break :: else -> rest(p, 1); turn(p) fi
    :: polls != 0 -> break
    od;
    cancel(p, s);
    finish(p);
    end(p)
}
#endif

#if SCENE == 8
/* Receives a value and emits one, so often, with one parker for both. */
proctype answerer(byte p, e, s, left) {
    OWN;
    do
    :: left == 0 -> break
    :: else ->
        next(p, s); got = 0;
        emit(p, e); result = 0;
        left--
    od;
    cancel(p, s);
    end(p)
}
#endif

#ifdef STOPS
/* Emits so many values, each until it is let go, and ends then with none in flight. */
proctype stoppable_emitter(byte p, e, left) {
    OWN;
    bit is_let_go;
    do
    :: left == 0 -> break
    :: else ->
        emit_or_stop(p, e);
        assert(standing[e] == 0 && (waiting_count == 0 || waiting[0] != e) && (waiting_count < 2 || waiting[1] != e));
        if :: result == STOPPED -> break :: else -> left-- fi;
        result = 0
    od;
    end(p)
}

/* Receives values until it is let go, and asks no more then, or cancels. */
proctype stoppable_subscriber(byte p, s) {
    OWN;
    bit is_let_go;
    do
    ::  next_or_stop(p, s);
        got = 0;
        if :: result == STOPPED -> break :: else -> skip fi
    od;
    asks[s] = 0;
    if
    :: true -> skip
    :: true -> cancel(p, s)
    fi;
    end(p)
}

/* Stops a party, at any moment, and once more, or never. */
proctype stopper(byte p) {
    do
    :: true -> stop(p)
    :: true -> break
    od
}
#endif

#ifdef BLOCKS
/* Emits so many values at once. */
proctype block_emitter(byte p, e, count) {
    OWN;
    BLOCK_OWN;
    left = count;
    emit_all(p, e);
    end(p)
}

/* Receives by `next_all` until it has so many values of the first emitter, or without end, and cancels then. */
proctype block_subscriber(byte p, s, count; bit ever) {
    OWN;
    BLOCK_OWN;
    do
    :: !ever && latest[s * EMITTERS] == count -> break
    :: else -> next_all(p, s); got = 0
    od;
    cancel(p, s);
    end(p)
}

/* Takes by `try_next_all`, asking as often as it likes, and by `next_all`, until it has so many, and stays. */
proctype block_taker(byte p, s, count) {
    OWN;
    BLOCK_OWN;
    do
    :: latest[s * EMITTERS] >= count -> break
    :: latest[s * EMITTERS] < count -> take_all(s); d_step { bare = bare || got; got = 0 }
    :: latest[s * EMITTERS] < count -> next_all(p, s); got = 0
    od;
    end(p)
}
#endif

#define EVER 0, 0, 1
#define TAKES(n) n, 0, 0
#define TAKES_AND_STAYS(n) n, 1, 0

init {
    byte i;
    byte parties;
    atomic {
#if SCENE == 1
        /* One that emits, and one that receives all, and cancels. */
        run emitter(0, 0, VALUES); run subscriber(SUBSCRIBER(0), 0, TAKES(VALUES)); parties = 3;
#elif SCENE == 2
        /* Two that emit, and one that receives without end. */
        run emitter(0, 0, VALUES); run emitter(1, 1, VALUES); run subscriber(SUBSCRIBER(0), 0, EVER); parties = 7;
#elif SCENE == 3
        /* One that emits, one that receives without end, one that cancels after its first value. */
        run emitter(0, 0, VALUES); run subscriber(SUBSCRIBER(0), 0, EVER); run subscriber(SUBSCRIBER(1), 1, TAKES(1)); parties = 7;
#elif SCENE == 4
        /* One that emits, one that gives its emission up, one that receives without end. */
        run emitter(0, 0, VALUES); run chooser(1, 1, 2); run subscriber(SUBSCRIBER(0), 0, EVER); parties = 7;
#elif SCENE == 5
        /* One that emits, and one that takes by try_next or next, and cancels. */
        run emitter(0, 0, VALUES); run taker(SUBSCRIBER(0), 0, VALUES, 0); parties = 3;
#elif SCENE == 6
        /* One that emits, one that tries, one that takes by try_next or next, and stays. */
        run emitter(0, 0, VALUES); run trier(1, 1, 2); run taker(SUBSCRIBER(0), 0, VALUES, 1); parties = 7;
#elif SCENE == 7
        /* One that emits, one that receives without end, one that cancels its subscription while it sleeps. */
        run emitter(0, 0, VALUES); run subscriber(SUBSCRIBER(0), 0, EVER); run visitor(SUBSCRIBER(1), 1, 2); parties = 7;
#elif SCENE == 8
        /* One that emits, and one that receives and emits by one parker. */
        run emitter(0, 0, VALUES); run answerer(1, 1, 0, VALUES); parties = 3;
#elif SCENE == 9
        /* One that emits, one that receives all but the last, and stays. */
        run emitter(0, 0, VALUES); run subscriber(SUBSCRIBER(0), 0, TAKES_AND_STAYS(VALUES - PLACES)); parties = 3;
#elif SCENE == 10
        /* One that emits, and asks no more after it began its last emission, one that receives without end, one that receives
           all but the last and stays. */
        run starter(0, 0, VALUES - 1); run subscriber(SUBSCRIBER(0), 0, EVER);
        run subscriber(SUBSCRIBER(1), 1, TAKES_AND_STAYS(VALUES - PLACES)); parties = 7;
#elif SCENE == 11
        /* One that emits, one that gives its emission up, one that takes by try_next or next, and stays. */
        run emitter(0, 0, VALUES); run chooser(1, 1, 2); run taker(SUBSCRIBER(0), 0, VALUES, 1); parties = 7;
#elif SCENE == 12
        /* One that emits, one that receives until it is let go, and who stops that. */
        run emitter(0, 0, VALUES); run stoppable_subscriber(SUBSCRIBER(0), 0); run stopper(SUBSCRIBER(0)); parties = 3;
#elif SCENE == 13
        /* One that emits until it is let go, one that receives too few for the last emission and stays, and who stops the first. */
        run stoppable_emitter(0, 0, VALUES); run subscriber(SUBSCRIBER(0), 0, TAKES_AND_STAYS(VALUES - PLACES - 1));
        run stopper(0); parties = 3;
#elif SCENE == 14
        /* One that emits a list, and one that receives all by what is there, and cancels. */
        run block_emitter(0, 0, VALUES); run block_subscriber(SUBSCRIBER(0), 0, VALUES, 0); parties = 3;
#elif SCENE == 15
        /* One that emits a list, one that emits one by one, one that receives by what is there, without end. */
        run block_emitter(0, 0, VALUES); run emitter(1, 1, 2); run block_subscriber(SUBSCRIBER(0), 0, VALUES, 1); parties = 7;
#elif SCENE == 16
        /* One that emits a list, one that receives by what is there, without end, one that receives one by one. */
        run block_emitter(0, 0, VALUES); run block_subscriber(SUBSCRIBER(0), 0, VALUES, 1); run subscriber(SUBSCRIBER(1), 1, EVER); parties = 7;
#elif SCENE == 17
        /* One that emits a list, and one that takes all but the last by what is there, and stays. */
        run block_emitter(0, 0, VALUES); run block_taker(SUBSCRIBER(0), 0, VALUES - PLACES); parties = 3;
#endif
        skip
    };
    /* Nobody can go on. Then each has ended or sleeps, and nobody sleeps for what has come. */
    timeout;
    assert(IS_FREE);
    do
    :: parties == 0 -> break
    :: else ->
        if :: parties & 1 -> assert((ended & (1 << i)) || (turn_of[i] == IDLE && !IS_STOPPED(i))) :: else -> skip fi;
        i++; parties = parties >> 1
    od;
    assert(bare || waiting_count == 0 || ANY_BEHIND(CELLS));
    i = 0;
    do
    :: i == EMITTERS -> break
    :: else -> assert(bare || !emits[i] || standing[i] == 0 || (PLACES == 0 && ANY_UNREAD(standing[i] - 1))); i++
    od;
    i = 0;
    do
    :: i == SUBSCRIPTIONS -> break
    :: else -> assert(!asks[i] || cursor[i] == CLOSED || cursor[i] == tail); i++
    od
}
