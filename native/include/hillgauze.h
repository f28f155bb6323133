/*
 * Hillgauze for C: shared flows and state flows whose every call is proved. docs/NATIVE.md says how to build and
 * link. No call here waits; hillgauze_wait.h has some that do, and isn't proved.
 *
 * A handle is a struct with one pointer, which this side never reads or writes. It is null, or has one object.
 * Begin with HILLGAUZE_NULL. A call that makes something puts it in a null handle; a call that ends something
 * leaves the handle null.
 *
 * What the library asks, and no proof sees:
 *
 * 1. A pointer that is passed isn't NULL, points to what its type says, and is aligned. That holds of a slice, too,
 *    even where it has no values: a slice is a pointer and the count of the values there. Two handles of one call are
 *    two different ones. While a call runs nothing else writes a slice that it reads, or reads or writes one that it
 *    fills.
 * 2. A handle was begun with HILLGAUZE_NULL, and since then only these functions wrote it. It may be moved to
 *    another place in memory: then the old place is no handle any more. It isn't copied.
 * 3. One call at a time on one handle. Any thread may make it, and each kind of handle may go from thread to
 *    thread. Two calls on two threads are ordered by whatever makes one happen before the other: a lock, a thread's
 *    start or join, a release and the acquire that reads it. Handles of one lane, or of one state flow, may be used at
 *    once, each by its own thread: no call takes a lock, waits, or blocks another, but for malloc's.
 * 4. No call comes from a signal handler, or from the forked child of a process with threads.
 * 5. malloc, realloc and free come from one allocator, and align a block to each power of two up to 16 that divides
 *    its size. Only hillgauze_shared_new, hillgauze_lane_new, hillgauze_lane_admit, hillgauze_state_new and
 *    hillgauze_state_take_seat take memory.
 * 6. Seats are given back to a seat of their own state flow (hillgauze_state_give_back).
 *
 * Order between threads. Each step on words that handles share is a sequentially consistent atomic one, and stands in
 * one order with the program's own. So, in the words of C11, what a thread did before the first of two calls happens
 * before what another does after the second, where
 *
 * - the first begins an emission, by hillgauze_lane_try_emit, hillgauze_lane_try_emit_all or
 *   hillgauze_lane_start_emit, and the second is the hillgauze_reader_try_next or hillgauze_reader_try_next_all that
 *   gives its value;
 * - the first is the hillgauze_reader_try_next or hillgauze_reader_try_next_all that gives a value, and in the second,
 *   under another policy than DROP_OLDEST, an emission is accepted that takes its place: one whose number is greater
 *   than the value's by at least `replay` and `extra` together, or by at least 1 where both are 0;
 * - the first is hillgauze_reader_close, and the second finds the reader's place free: hillgauze_lane_count, which
 *   doesn't count it any more, or hillgauze_lane_admit, which gives it to another reader;
 * - the first is hillgauze_reader_close, and in the second, under another policy than DROP_OLDEST, an emission is
 *   accepted that takes the place of a value which the reader had pending, by as much as above;
 * - the first changes the value of a state flow, by hillgauze_state_set or hillgauze_state_compare_and_set, and the
 *   second finds the value that it set, or one that was set after it: hillgauze_state_value,
 *   hillgauze_collector_try_next with a VALUE, or hillgauze_state_compare_and_set that is DONE;
 * - the first is hillgauze_collector_cancel or hillgauze_collector_free, and the second is hillgauze_state_collectors,
 *   which doesn't count the collector any more.
 *
 * No other order is promised: none by NOTHING, FULL or UNEQUAL, and none by a set of an equal value. Where a value is
 * set again, a call that finds it may have found the earlier one.
 *
 * Where all of this holds, each call does just what is said beside it here. A null handle, one of another kind, a
 * number out of range or want of memory are answered by a refusal, and then nothing has happened, but for what is
 * said beside the call.
 */
#ifndef HILLGAUZE_H
#define HILLGAUZE_H

#include <stddef.h>
#include <stdint.h>

#ifdef __cplusplus
extern "C" {
#endif

/* The version of the library and of this header. */
#define HILLGAUZE_VERSION "0.1.0"
#define HILLGAUZE_VERSION_MAJOR 0
#define HILLGAUZE_VERSION_MINOR 1
#define HILLGAUZE_VERSION_PATCH 0

/* A shared flow on one thread at a time. */
typedef struct hillgauze_shared {
    void *object;
} hillgauze_shared;

/* The one party of a lane that emits. A lane is a shared flow between threads. */
typedef struct hillgauze_sequencer {
    void *object;
} hillgauze_sequencer;

/* A party of a lane that receives. */
typedef struct hillgauze_reader {
    void *object;
} hillgauze_reader;

/* A seat at a state flow: it reads and sets the value. */
typedef struct hillgauze_state {
    void *object;
} hillgauze_state;

/* A seat at a state flow that collects its values. */
typedef struct hillgauze_collector {
    void *object;
} hillgauze_collector;

/* The null handle of any kind, as in `hillgauze_shared flow = HILLGAUZE_NULL;`. */
#define HILLGAUZE_NULL { NULL }

/* What every call answers. Where `refusal` isn't 0 the call was refused, and `kind` and `word` are 0. */
typedef struct hillgauze_reply {
    uint32_t refusal; /* 0, or a number of hillgauze_refusal */
    uint32_t kind;    /* a number of hillgauze_kind */
    uint64_t word;    /* what the kind says; else 0 */
} hillgauze_reply;

/* Why a call was refused. */
enum hillgauze_refusal {
    HILLGAUZE_TOO_LARGE = 1,           /* replay and extra are over 65,536 together */
    HILLGAUZE_POLICY_NEEDS_BUFFER = 2, /* a policy that drops values, and replay and extra are both 0 */
    HILLGAUZE_BAD_LIMIT = 3,           /* subscribers, emits or seats are 0 or over 1,024, or first is over 2^62 */
    HILLGAUZE_NO_MEMORY = 4,           /* malloc gave no memory */
    HILLGAUZE_SUBSCRIBERS_FULL = 5,    /* each place for a subscription, a reader or a seat is taken */
    HILLGAUZE_EMITS_FULL = 6,          /* the emission would have to wait, and each ticket is out */
    HILLGAUZE_SPENT = 7,               /* the numbers below 2^62 are used up */
    HILLGAUZE_PRELUDE_TOO_LONG = 10,   /* a prelude of more than 16 values */
    HILLGAUZE_NULL_HANDLE = 101,       /* the handle is null */
    HILLGAUZE_OTHER_KIND = 102,        /* the handle has an object of another kind */
    HILLGAUZE_HANDLE_TAKEN = 103,      /* the handle in which something is to be put isn't null */
    HILLGAUZE_NO_SUCH_POLICY = 104     /* the policy isn't a number of hillgauze_policy */
};

/* What a call answered. */
enum hillgauze_kind {
    HILLGAUZE_DONE = 1,      /* it happened; word is 0, but for what is said beside the call */
    HILLGAUZE_ACCEPTED = 2,  /* the emission was accepted and is finished; word is its number */
    HILLGAUZE_DROPPED = 3,   /* the policy dropped the emission, and nothing changed */
    HILLGAUZE_FULL = 4,      /* the emission would have to wait, and nothing changed */
    HILLGAUZE_WAITING = 5,   /* the emission isn't finished; where it begins, word is its ticket */
    HILLGAUZE_REMOVED = 6,   /* the emission waited and was never accepted */
    HILLGAUZE_LEFT = 7,      /* the emission was accepted, and stays with its subscribers; word is its number */
    HILLGAUZE_GONE = 8,      /* the ticket isn't out */
    HILLGAUZE_VALUE = 9,     /* word is the value */
    HILLGAUZE_NOTHING = 10,  /* there is no value */
    HILLGAUZE_OVERTAKEN = 11, /* the value was dropped just as it was to be received: ask again */
    HILLGAUZE_CLOSED = 12,   /* the subscription isn't live */
    HILLGAUZE_COUNT = 13,    /* word is the number that was asked for, or how many values were accepted or came */
    HILLGAUZE_UNEQUAL = 14   /* the state's value wasn't the one that was expected, and stays */
};

/* What a flow without room does with an emission. */
enum hillgauze_policy {
    HILLGAUZE_SUSPEND = 0,     /* it waits until there is room */
    HILLGAUZE_DROP_OLDEST = 1, /* the oldest pending values make room for it */
    HILLGAUZE_DROP_LATEST = 2  /* it is dropped */
};

/* What a shared flow or a lane is made with. `replay` and `extra` together are the places of each subscriber. */
typedef struct hillgauze_config {
    uint64_t replay;      /* how many of the latest values a new subscriber gets */
    uint64_t extra;       /* how many values more than these a subscriber may have pending */
    uint64_t first;       /* the number of the first emission, of the first subscription and of the first ticket */
    uint32_t policy;      /* a number of hillgauze_policy */
    uint32_t subscribers; /* how many may be live at once: 1 to 1,024 */
    uint32_t emits;       /* how many tickets may be out at once: 1 to 1,024 */
} hillgauze_config;

/*
 * Each call may be refused as NULL_HANDLE or OTHER_KIND. A call that puts something in a handle is refused as
 * HANDLE_TAKEN where that one isn't null. Other refusals stand beside the call, in the order in which they come.
 *
 * `emitter` is a number of the caller's own for who emits, as the theorems tell emitters apart. It has no part in any
 * answer, and nobody receives it: 0 serves.
 */

/* ---- The shared flow on one thread ---- */

/*
 * Makes a shared flow without subscriptions. It takes all memory that the flow will ever use. DONE.
 * Refused: NO_SUCH_POLICY, TOO_LARGE, POLICY_NEEDS_BUFFER, BAD_LIMIT, NO_MEMORY.
 */
hillgauze_reply hillgauze_shared_new(hillgauze_shared *flow, const hillgauze_config *config);

/* Emits where there is room. ACCEPTED, DROPPED under DROP_LATEST, or FULL under SUSPEND. Refused: SPENT. */
hillgauze_reply hillgauze_shared_try_emit(hillgauze_shared *flow, uint32_t emitter, uint64_t value);

/*
 * Tries these values one after another, up to the first that isn't accepted. COUNT says how many were: all, or there
 * is no room for the next one, or DROP_LATEST drops it, or the numbers are used up. Refused: SPENT, where the first
 * one is.
 */
hillgauze_reply hillgauze_shared_try_emit_all(hillgauze_shared *flow, uint32_t emitter, const uint64_t *values,
                                              size_t count);

/*
 * Begins an emission. ACCEPTED; DROPPED under DROP_LATEST; WAITING with a ticket under SUSPEND, where it waits for
 * room, or, on a flow without places, until each subscription has received it. Refused: SPENT, EMITS_FULL.
 */
hillgauze_reply hillgauze_shared_start_emit(hillgauze_shared *flow, uint32_t emitter, uint64_t value);

/*
 * Asks about an emission with a ticket. DONE: it is finished, word is its number, and the ticket is taken back;
 * WAITING; GONE.
 */
hillgauze_reply hillgauze_shared_poll_emit(hillgauze_shared *flow, uint64_t ticket);

/* Takes a ticket back. REMOVED, LEFT or GONE. */
hillgauze_reply hillgauze_shared_cancel_emit(hillgauze_shared *flow, uint64_t ticket);

/*
 * A new subscription, which begins at the oldest value of the replay cache. DONE, and word is the subscription's
 * number.
 * Refused: SPENT, SUBSCRIBERS_FULL.
 */
hillgauze_reply hillgauze_shared_subscribe(hillgauze_shared *flow);

/*
 * A new subscription, which receives these values before all others, and no other subscription does. DONE, and word
 * is the subscription's number. Refused: PRELUDE_TOO_LONG, SPENT, SUBSCRIBERS_FULL.
 */
hillgauze_reply hillgauze_shared_subscribe_with(hillgauze_shared *flow, const uint64_t *values, size_t count);

/* Receives the oldest value that the subscription has pending. VALUE, NOTHING or CLOSED. */
hillgauze_reply hillgauze_shared_next(hillgauze_shared *flow, uint64_t subscription);

/*
 * Receives the oldest values that the subscription has pending, as many as find room in `values`, and puts them there
 * in order, from the first place on; what is behind them stays. COUNT says how many; NOTHING or CLOSED where there is
 * none. Without room, `count` being 0, it asks for none: COUNT 0.
 */
hillgauze_reply hillgauze_shared_try_next_all(hillgauze_shared *flow, uint64_t subscription, uint64_t *values,
                                              size_t count);

/* Ends a subscription, and gives up what it has pending. DONE, or CLOSED where it wasn't live. */
hillgauze_reply hillgauze_shared_cancel(hillgauze_shared *flow, uint64_t subscription);

/* How many values the subscription has pending: COUNT. 0 where it isn't live. */
hillgauze_reply hillgauze_shared_pending(hillgauze_shared *flow, uint64_t subscription);

/* How many subscriptions are live: COUNT. */
hillgauze_reply hillgauze_shared_count(hillgauze_shared *flow);

/* How many values the replay cache holds: COUNT. */
hillgauze_reply hillgauze_shared_cache_len(hillgauze_shared *flow);

/*
 * A value of the replay cache, by its index from the oldest on: VALUE, or NOTHING where the index isn't below its
 * length.
 */
hillgauze_reply hillgauze_shared_cache_at(hillgauze_shared *flow, uint64_t index);

/* Empties the replay cache. Live subscriptions keep what they have pending. DONE. */
hillgauze_reply hillgauze_shared_reset(hillgauze_shared *flow);

/* Frees the flow. The handle is null then. DONE. */
hillgauze_reply hillgauze_shared_free(hillgauze_shared *flow);

/* ---- The lane: a shared flow between threads ---- */

/*
 * Makes a lane, and gives its sequencer. DONE.
 * Refused: NO_SUCH_POLICY, TOO_LARGE, POLICY_NEEDS_BUFFER, BAD_LIMIT, NO_MEMORY.
 */
hillgauze_reply hillgauze_lane_new(hillgauze_sequencer *sequencer, const hillgauze_config *config);

/*
 * Emits where there is room, after it accepted the emissions that wait: those stay accepted, whatever it answers.
 * ACCEPTED, DROPPED under DROP_LATEST, or FULL under SUSPEND. Under DROP_OLDEST it moves a reader that is too far
 * behind past its oldest value. Refused: SPENT.
 */
hillgauze_reply hillgauze_lane_try_emit(hillgauze_sequencer *sequencer, uint32_t emitter, uint64_t value);

/*
 * Tries these values one after another, up to the first that isn't accepted, after it accepted the emissions that wait:
 * those stay accepted, whatever it answers. One look at the readers serves for as many values as find room. COUNT says
 * how many were accepted: all, or there is no room for the next one, or DROP_LATEST drops it, or the numbers are used
 * up. Under DROP_OLDEST it moves a reader that is too far behind past its oldest values. Refused: SPENT, where the
 * first one is.
 */
hillgauze_reply hillgauze_lane_try_emit_all(hillgauze_sequencer *sequencer, uint32_t emitter, const uint64_t *values,
                                            size_t count);

/*
 * Begins an emission, after it accepted those that wait. ACCEPTED; DROPPED under DROP_LATEST; WAITING with a ticket
 * under SUSPEND, where it waits for room, or, on a lane without places, until each reader has received it. Refused:
 * SPENT, EMITS_FULL.
 */
hillgauze_reply hillgauze_lane_start_emit(hillgauze_sequencer *sequencer, uint32_t emitter, uint64_t value);

/*
 * Asks about an emission with a ticket. DONE: it is finished, word is its number, and the ticket is taken back;
 * WAITING; GONE. It accepts nothing: hillgauze_lane_scan does.
 */
hillgauze_reply hillgauze_lane_poll_emit(hillgauze_sequencer *sequencer, uint64_t ticket);

/* Takes a ticket back. REMOVED, LEFT or GONE. */
hillgauze_reply hillgauze_lane_cancel_emit(hillgauze_sequencer *sequencer, uint64_t ticket);

/* Accepts emissions that wait, in their order, while there is room. COUNT says how many. */
hillgauze_reply hillgauze_lane_scan(hillgauze_sequencer *sequencer);

/*
 * Admits a reader, and puts it in a null handle. It begins at the oldest value of the replay cache, as it is now,
 * and may go to another thread. It takes the memory of the values that it will take at once. DONE.
 * Refused: NO_MEMORY, SPENT, SUBSCRIBERS_FULL.
 */
hillgauze_reply hillgauze_lane_admit(hillgauze_sequencer *sequencer, hillgauze_reader *reader);

/* How many readers there are, as this call finds them: COUNT. */
hillgauze_reply hillgauze_lane_count(hillgauze_sequencer *sequencer);

/* How many values the replay cache holds: COUNT. */
hillgauze_reply hillgauze_lane_cache_len(hillgauze_sequencer *sequencer);

/*
 * A value of the replay cache, by its index from the oldest on: VALUE, or NOTHING where the index isn't below its
 * length.
 */
hillgauze_reply hillgauze_lane_cache_at(hillgauze_sequencer *sequencer, uint64_t index);

/* Empties the replay cache. Readers keep what they have pending. DONE. */
hillgauze_reply hillgauze_lane_reset(hillgauze_sequencer *sequencer);

/*
 * Frees the sequencer. Nobody emits any more; its readers still take what was accepted. The lane itself is freed
 * with the last of its handles. The handle is null then. DONE.
 */
hillgauze_reply hillgauze_lane_free(hillgauze_sequencer *sequencer);

/*
 * Takes the reader's next value. VALUE; NOTHING where it found none; OVERTAKEN, under DROP_OLDEST alone, where the
 * value was dropped just then.
 */
hillgauze_reply hillgauze_reader_try_next(hillgauze_reader *reader);

/*
 * Takes the reader's next values at once, as many as are there and find room in `values`, and at most 64, and puts
 * them there in order, from the first place on; what is behind them stays. COUNT says how many, 0 where there is a
 * value and no room; NOTHING where it found none; OVERTAKEN, under DROP_OLDEST alone, where the first of them was
 * dropped just then, and none was received.
 */
hillgauze_reply hillgauze_reader_try_next_all(hillgauze_reader *reader, uint64_t *values, size_t count);

/* The number of the emission at which the reader began: COUNT. */
hillgauze_reply hillgauze_reader_start(hillgauze_reader *reader);

/* How many values the reader received: COUNT. */
hillgauze_reply hillgauze_reader_received(hillgauze_reader *reader);

/* How many values were dropped for the reader, as far as it has seen: COUNT. */
hillgauze_reply hillgauze_reader_dropped(hillgauze_reader *reader);

/* Ends the reader. Its place is free for another, and it holds nobody back. The handle is null then. DONE. */
hillgauze_reply hillgauze_reader_close(hillgauze_reader *reader);

/* ---- The state flow: a value that threads share ---- */

/*
 * Makes a state flow with a value, and gives its first seat, of which `seats - 1` more can be taken. DONE.
 * Refused: BAD_LIMIT, NO_MEMORY.
 */
hillgauze_reply hillgauze_state_new(hillgauze_state *seat, uint64_t value, uint32_t seats);

/* The value as it is now: VALUE. */
hillgauze_reply hillgauze_state_value(hillgauze_state *seat);

/* Sets the value. One that is equal to the present value changes nothing. DONE. */
hillgauze_reply hillgauze_state_set(hillgauze_state *seat, uint64_t value);

/* Sets the value to `update` where it is equal to `expect`. DONE where it was, else UNEQUAL. */
hillgauze_reply hillgauze_state_compare_and_set(hillgauze_state *seat, uint64_t expect, uint64_t update);

/* How many collectors there are, as this call finds them: COUNT. */
hillgauze_reply hillgauze_state_collectors(hillgauze_state *seat);

/* How many more seats can be taken of this one: COUNT. */
hillgauze_reply hillgauze_state_spare(hillgauze_state *seat);

/*
 * Takes a new seat for another thread, and puts it in a null handle. Of the new one `share` more can be taken, and
 * of this one `share + 1` fewer. DONE. Refused: NO_MEMORY, SUBSCRIBERS_FULL where `share + 1` is over what the seat
 * has to spare.
 */
hillgauze_reply hillgauze_state_take_seat(hillgauze_state *seat, uint32_t share, hillgauze_state *other);

/*
 * Takes back another seat of the same state flow, with all that can be taken of it. The other handle is null then.
 * DONE.
 */
hillgauze_reply hillgauze_state_give_back(hillgauze_state *seat, hillgauze_state *other);

/*
 * Begins to collect: the seat becomes a collector, which is put in a null handle, and the seat's handle is null
 * then. DONE.
 */
hillgauze_reply hillgauze_state_collect(hillgauze_state *seat, hillgauze_collector *collector);

/* Frees the seat. What could be taken of it is lost; the state flow is freed with the last of its handles. DONE. */
hillgauze_reply hillgauze_state_free(hillgauze_state *seat);

/*
 * The value, where it isn't the last one that this collector gave: VALUE, else NOTHING. The first call gives the
 * value.
 */
hillgauze_reply hillgauze_collector_try_next(hillgauze_collector *collector);

/*
 * Ends the collecting: the collector becomes a seat again, which is put in a null handle, and the collector's
 * handle is null then. DONE.
 */
hillgauze_reply hillgauze_collector_cancel(hillgauze_collector *collector, hillgauze_state *seat);

/* Ends the collecting, and frees the seat. The handle is null then. DONE. */
hillgauze_reply hillgauze_collector_free(hillgauze_collector *collector);

#ifdef __cplusplus
}
#endif

#endif
