/* Values by the block, for waiting.pml: an emitter emits a list of them, and a subscription takes what is there, as many as two.
   A party that does so has BLOCK_OWN beside its own. */

#define BLOCK_OWN byte left, take, accepted, index, picked, first_word

#ifdef WRONG_BLOCK_TOO_LONG         /* one more than has room */
#define BLOCK_ROOM (PLACES + 1)
#else
#define BLOCK_ROOM PLACES
#endif

/* One cursor of the round that looks for a block's room. */
inline shorten_block(s) {
    atomic {
        if
        :: cursor[s] == CLOSED -> skip
        :: cursor[s] != CLOSED && tail - cursor[s] >= BLOCK_ROOM -> take = 0
        :: else -> if :: BLOCK_ROOM - (tail - cursor[s]) < take -> take = BLOCK_ROOM - (tail - cursor[s]) :: else -> skip fi
        fi
    }
}

/* Sequencer::try_emit_all: blocks, each by one round over the cursors, its cells one after another and then the tail. */
inline accept_block(e) {
    index = 0;
    do
    :: index == take -> break
    :: else ->
#ifdef WRONG_BLOCK_TAIL_FIRST       /* the tail before the last cell */
        if :: index + 1 == take -> tail = tail + take :: else -> skip fi;
        d_step { value[e]++; cell[(tail - (index + 1 == take -> take : 0) + index) % CELLS] = NAME(e); index++ }
#else
        d_step { value[e]++; cell[(tail + index) % CELLS] = NAME(e); index++ }
#endif
    od;
    skip;
    d_step {
#ifndef WRONG_BLOCK_TAIL_FIRST
        tail = tail + take;
#endif
        accepted = accepted + take; index = 0;
        printf("%d values of emitter %d are accepted up to %d\n", take, e, tail - 1)
    }
}

/* Emitter::try_emit_all, with Shared::try_emit_all: one way through the lock. */
inline try_emit_all(p, e) {
    enter(p);
    scan();
    accepted = 0;
    do
    :: accepted == left || waiting_count != 0 -> break
    :: else ->
        take = (left - accepted < CELLS -> left - accepted : CELLS);
        shorten_block(0);
#if SUBSCRIPTIONS > 1
        shorten_block(1);
#endif
        if
        :: take == 0 -> break
        :: else -> accept_block(e)
        fi
    od;
    skip;
    d_step { take = 0; left = left - accepted; accepted = 0 };
    leave(p, NOBODY)
}

/* Emitter::emit_all of all that is left, called again where it was cut short for want of memory. */
inline emit_all(p, e) {
    do
    :: left == 0 -> break
    :: else ->
        try_emit_all(p, e);
        if
        :: left == 0 -> skip
        :: else ->
            emit(p, e);
            if :: result == REMOVED -> skip :: else -> left-- fi;
            result = 0
        fi
    od
}

/* Reader::try_next_all: its own cursor and the tail, the cells, one exchange. */
inline take_all(s) {
    d_step { picked = (tail - cursor[s] < 2 -> tail - cursor[s] : 2); got = (picked != 0) };
    if
    :: !got -> skip
    :: else ->
#ifdef WRONG_BLOCK_RECEIVES_FIRST   /* the exchange before the values are loaded */
        cursor[s] = cursor[s] + picked;
        first_word = cell[(cursor[s] - picked) % CELLS];
        if :: picked == 2 -> word_read = cell[(cursor[s] - 1) % CELLS] :: else -> word_read = first_word fi;
        d_step {
#else
        first_word = cell[cursor[s] % CELLS];
        if :: picked == 2 -> word_read = cell[(cursor[s] + 1) % CELLS] :: else -> word_read = first_word fi;
        d_step {
            cursor[s] = cursor[s] + picked;
#endif
            left = word_read;
            word_read = first_word; received(s);
            if :: picked == 2 -> word_read = left; received(s) :: else -> skip fi;
            word_read = 0; first_word = 0; picked = 0; left = 0
        }
    fi
}

/* Subscription::look_for_all: the flag is looked at after the exchange. */
inline look_for_all(p, s) {
    take_all(s);
#ifndef WRONG_BLOCK_HELPS_NOBODY    /* it takes all, and looks at no flag */
    if :: got && flag -> accept_waiting(p) :: else -> skip fi
#endif
}

/* Subscription::next_all. Before it waits it looks for one once more, as wait_for_next does while it looks on. */
inline next_all(p, s) {
    look_for_all(p, s);
    if
    :: got -> skip
    :: else ->
        next(p, s);
        if :: got -> look_for_all(p, s); got = 1 :: else -> skip fi
    fi
}
