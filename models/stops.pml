/* What lets a thread of waiting.pml go, which takes this file in: a stoppable parker has, beside its queue, a mark that it was stopped
   and a slot for a waker of its task, both under a lock of their own. */
bit is_stopped[PARTIES];
bit slot[PARTIES];

#define STOPPED 5

/* Stopper::stop, which is AbortHandle::abort. */
inline stop(p) {
#ifdef WRONG_STOP_WAKES_FIRST       /* it wakes who sleeps, and then sets the mark */
    atomic { if :: slot[p] -> slot[p] = 0; wake(p) :: else -> skip fi };
    is_stopped[p] = 1
#else
    atomic { is_stopped[p] = 1; printf("party %d is stopped\n", p); if :: slot[p] -> slot[p] = 0; wake(p) :: else -> skip fi }
#endif
}

/* The poll of the mark, which leaves a waker where it isn't set: StoppableParker::turn. */
inline poll_stop(p) {
#ifdef WRONG_STOP_LOOKS_FIRST       /* a waker is left after the look at the mark */
    is_let_go = is_stopped[p];
    if :: is_let_go -> skip :: else -> slot[p] = 1 fi
#else
#ifdef WRONG_STOP_LEAVES_NO_WAKER   /* no waker is left */
    is_let_go = is_stopped[p]
#else
    d_step { is_let_go = is_stopped[p]; if :: is_let_go -> skip :: else -> slot[p] = 1 fi }
#endif
#endif
}

/* StoppableParker::next and received, over the looks of Subscription::next_now and next_soon. */
inline next_or_stop(p, s) {
    if
    :: is_stopped[p] -> result = STOPPED
    :: else ->
        begin(p);
        if
        :: !may_wait -> skip
        :: else ->
            look(p, s);
            if :: got -> skip :: else -> look_on(p, s) fi;
            if
            :: got -> skip
            :: else ->
                do
                ::  turn(p);
                    poll_stop(p);
                    if
                    :: is_let_go -> is_let_go = 0; finish(p); result = STOPPED; break
                    :: else ->
                        poll_next(p, s);
                        if
                        :: got -> finish(p); break
                        :: else -> rest(p, 0)
                        fi
                    fi
                od
            fi
        fi
    fi;
    may_wait = 0
}

/* StoppableParker::emit, finish and finished. */
inline emit_or_stop(p, e) {
    if
    :: is_stopped[p] -> result = STOPPED
    :: else ->
        start_emit(p, e);
        if
        :: result != WAITING -> skip
        :: else ->
            begin(p);
            if
            :: !may_wait -> cancel_emit(p, e)
            :: else ->
                do
                ::  turn(p);
                    poll_stop(p);
                    if
                    :: is_let_go ->
                        is_let_go = 0;
                        finish(p);
#ifdef WRONG_STOPPED_STAYS          /* it is let go, and its emission waits on */
                        result = REMOVED;
#else
                        cancel_emit(p, e);
#endif
                        break
                    :: else ->
                        poll_emit(p, e);
                        if
                        :: result == ACCEPTED -> finish(p); break
                        :: else -> rest(p, 0)
                        fi
                    fi
                od
            fi
        fi
    fi;
    may_wait = 0
}
