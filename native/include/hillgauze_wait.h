/*
 * Waiting, for C on Linux: who receives sleeps until somebody emits or sets, who emits sleeps until there is room, and
 * both learn when nobody emits or sets any more. All of it is C over hillgauze.h, in this file alone, and isn't proved.
 *
 * A `hillgauze_bells` stands beside a lane or a state flow, for as long as anybody uses that. Begin with
 * HILLGAUZE_BELLS_NEW. Any threads may use it at once. Where nobody sleeps, a call pays one load for it.
 *
 * Who uses these calls for a flow uses them for each step on it: an emission or a set that goes past them wakes nobody,
 * unless hillgauze_tell_values follows it, and a receipt wakes no emitter, unless hillgauze_tell_room does.
 *
 * Why no wake-up is lost: a sleeper counts itself in (1), loads the number of rings (r), and looks once more (2); who
 * emits stores the tail in the library (a), and then loads the count of sleepers (b). Each of these steps is sequentially
 * consistent. Where b comes before 1, then a comes before 2, which finds the value. Where 1 comes before b, the bell is
 * rung: where that is before r, then a comes before 2, too; where it is after r, the futex finds another number of rings,
 * or wakes who sleeps. It is the same with the cursor of a reader, and an emitter that looks for room.
 *
 * The words of a bell are reached by the __atomic builtins of GCC and Clang. syscall and clock_gettime have to be
 * declared: by -std=gnu11, or by _GNU_SOURCE before the first include.
 */
#ifndef HILLGAUZE_WAIT_H
#define HILLGAUZE_WAIT_H

#include "hillgauze.h"

#include <limits.h>
#include <linux/futex.h>
#include <sys/syscall.h>
#include <time.h>
#include <unistd.h>

#ifdef __cplusplus
extern "C" {
#endif

/* One way to be woken. Only the functions of this file use what is in it. */
typedef struct hillgauze_bell {
    uint32_t rings;
    uint32_t sleepers;
} hillgauze_bell;

/* Who waits at one lane, or at one state flow. */
typedef struct hillgauze_bells {
    hillgauze_bell values;
    hillgauze_bell room;
    uint32_t ended;
} hillgauze_bells;

#define HILLGAUZE_BELLS_NEW { { 0, 0 }, { 0, 0 }, 0 }

/* A time without an end, for the calls that take one. */
#define HILLGAUZE_FOREVER INT64_C(-1)

static inline void hillgauze_bell_ring_always(hillgauze_bell *bell) {
    __atomic_add_fetch(&bell->rings, 1, __ATOMIC_SEQ_CST);
    syscall(SYS_futex, &bell->rings, FUTEX_WAKE_PRIVATE, INT_MAX, NULL, NULL, 0);
}

static inline void hillgauze_bell_ring(hillgauze_bell *bell) {
    if (__atomic_load_n(&bell->sleepers, __ATOMIC_SEQ_CST) != 0)
        hillgauze_bell_ring_always(bell);
}

/* Counts the caller in as asleep, and gives the number of rings. What may have changed is looked at after this. */
static inline uint32_t hillgauze_bell_lie_down(hillgauze_bell *bell) {
    __atomic_add_fetch(&bell->sleepers, 1, __ATOMIC_SEQ_CST);
    return __atomic_load_n(&bell->rings, __ATOMIC_SEQ_CST);
}

static inline void hillgauze_bell_get_up(hillgauze_bell *bell) {
    __atomic_sub_fetch(&bell->sleepers, 1, __ATOMIC_SEQ_CST);
}

/* The moment so many nanoseconds from now, by the clock that sleeping goes by. */
static inline struct timespec hillgauze_moment_after(int64_t nanoseconds) {
    struct timespec moment;
    clock_gettime(CLOCK_MONOTONIC, &moment);
    moment.tv_sec += (time_t)(nanoseconds / 1000000000);
    moment.tv_nsec += (long)(nanoseconds % 1000000000);
    if (moment.tv_nsec >= 1000000000) {
        moment.tv_sec += 1;
        moment.tv_nsec -= 1000000000;
    }
    return moment;
}

static inline int hillgauze_is_past(const struct timespec *moment) {
    struct timespec now;
    clock_gettime(CLOCK_MONOTONIC, &now);
    return now.tv_sec != moment->tv_sec ? now.tv_sec > moment->tv_sec : now.tv_nsec >= moment->tv_nsec;
}

/* Sleeps until the bell is rung more often than so many times, or until the moment, where there is one. */
static inline void hillgauze_bell_sleep(hillgauze_bell *bell, uint32_t rings, const struct timespec *moment) {
    syscall(SYS_futex, &bell->rings, FUTEX_WAIT_BITSET_PRIVATE, rings, moment, NULL, FUTEX_BITSET_MATCH_ANY);
}

/* Wakes who waits for values: after an emission or a set that went past the calls of this file. */
static inline void hillgauze_tell_values(hillgauze_bells *bells) {
    hillgauze_bell_ring(&bells->values);
}

/* Wakes who waits for room: after a receipt or the end of a reader that went past the calls of this file. */
static inline void hillgauze_tell_room(hillgauze_bells *bells) {
    hillgauze_bell_ring(&bells->room);
}

/* Says that nobody emits or sets any more: after the last step of the last one who could. */
static inline void hillgauze_tell_end(hillgauze_bells *bells) {
    __atomic_store_n(&bells->ended, 1, __ATOMIC_SEQ_CST);
    hillgauze_bell_ring_always(&bells->values);
    hillgauze_bell_ring_always(&bells->room);
}

/* Whether that was said. */
static inline int hillgauze_has_ended(hillgauze_bells *bells) {
    return __atomic_load_n(&bells->ended, __ATOMIC_SEQ_CST) != 0;
}

/* What waits: a look, which answers NOTHING or FULL where it is to be made again. */
typedef hillgauze_reply (*hillgauze_look)(void *handle, uint64_t *values, size_t count);

static inline int hillgauze_is_in_vain(hillgauze_reply reply) {
    return reply.refusal == 0 && (reply.kind == HILLGAUZE_NOTHING || reply.kind == HILLGAUZE_FULL);
}

/* Looks. Where the end was told before it finds nothing, that is its answer: CLOSED. */
static inline hillgauze_reply hillgauze_look_or_end(hillgauze_bells *bells, hillgauze_look look, void *handle,
                                                    uint64_t *values, size_t count) {
    int ended = hillgauze_has_ended(bells);
    hillgauze_reply reply = look(handle, values, count);
    if (hillgauze_is_in_vain(reply) && ended)
        reply.kind = HILLGAUZE_CLOSED;
    return reply;
}

/* Looks until that isn't in vain, and sleeps meanwhile, for so many nanoseconds at most. */
static inline hillgauze_reply hillgauze_look_and_sleep(hillgauze_bells *bells, hillgauze_bell *bell, int64_t most,
                                                       hillgauze_look look, void *handle, uint64_t *values,
                                                       size_t count) {
    hillgauze_reply reply = hillgauze_look_or_end(bells, look, handle, values, count);
    struct timespec moment = { 0, 0 };
    if (!hillgauze_is_in_vain(reply) || most == 0)
        return reply;
    if (most > 0)
        moment = hillgauze_moment_after(most);
    for (;;) {
        uint32_t rings = hillgauze_bell_lie_down(bell);
        reply = hillgauze_look_or_end(bells, look, handle, values, count);
        if (hillgauze_is_in_vain(reply))
            hillgauze_bell_sleep(bell, rings, most > 0 ? &moment : NULL);
        hillgauze_bell_get_up(bell);
        if (!hillgauze_is_in_vain(reply))
            return reply;
        if (most > 0 && hillgauze_is_past(&moment))
            return hillgauze_look_or_end(bells, look, handle, values, count);
    }
}

static inline hillgauze_reply hillgauze_look_at_reader(void *handle, uint64_t *values, size_t count) {
    hillgauze_reader *reader = (hillgauze_reader *)handle;
    hillgauze_reply reply;
    do {
        reply = values ? hillgauze_reader_try_next_all(reader, values, count) : hillgauze_reader_try_next(reader);
    } while (reply.kind == HILLGAUZE_OVERTAKEN);
    return reply;
}

static inline hillgauze_reply hillgauze_look_at_collector(void *handle, uint64_t *values, size_t count) {
    (void)values;
    (void)count;
    return hillgauze_collector_try_next((hillgauze_collector *)handle);
}

/* The emitter's number is the second of the words. */
static inline hillgauze_reply hillgauze_look_for_room(void *handle, uint64_t *words, size_t count) {
    (void)count;
    return hillgauze_lane_try_emit((hillgauze_sequencer *)handle, (uint32_t)words[1], words[0]);
}

/*
 * Emits as hillgauze_lane_try_emit does, on a lane with places, and sleeps while that is FULL: for `most` nanoseconds at
 * most, or without an end. ACCEPTED, DROPPED, FULL where the time is over, or CLOSED where the end was told. Refused as
 * that is. A lane without places is FULL for as long as somebody reads.
 *
 * Where several threads emit, the sequencer lies behind a lock of theirs. They may hold it while this sleeps, since who
 * reads makes room without it. This waits for each reader: a thread that emits and is itself late with a reader of its
 * own sleeps for good.
 */
static inline hillgauze_reply hillgauze_lane_emit(hillgauze_sequencer *sequencer, hillgauze_bells *bells,
                                                  uint32_t emitter, uint64_t value, int64_t most) {
    uint64_t words[2] = { value, emitter };
    hillgauze_reply reply =
        hillgauze_look_and_sleep(bells, &bells->room, most, hillgauze_look_for_room, sequencer, words, 2);
    if (reply.refusal == 0 && reply.kind == HILLGAUZE_ACCEPTED)
        hillgauze_tell_values(bells);
    return reply;
}

/*
 * Takes the reader's next value, and sleeps while there is none: for `most` nanoseconds at most, or without an end.
 * VALUE, NOTHING where the time is over, or CLOSED where the end was told and each value was received or dropped.
 */
static inline hillgauze_reply hillgauze_reader_next(hillgauze_reader *reader, hillgauze_bells *bells, int64_t most) {
    hillgauze_reply reply =
        hillgauze_look_and_sleep(bells, &bells->values, most, hillgauze_look_at_reader, reader, NULL, 0);
    if (reply.refusal == 0 && reply.kind == HILLGAUZE_VALUE)
        hillgauze_tell_room(bells);
    return reply;
}

/*
 * The same for several values, which it puts in `values` as hillgauze_reader_try_next_all does. COUNT says how many;
 * NOTHING and CLOSED as above.
 */
static inline hillgauze_reply hillgauze_reader_next_all(hillgauze_reader *reader, hillgauze_bells *bells,
                                                        uint64_t *values, size_t count, int64_t most) {
    hillgauze_reply reply =
        hillgauze_look_and_sleep(bells, &bells->values, most, hillgauze_look_at_reader, reader, values, count);
    if (reply.refusal == 0 && reply.kind == HILLGAUZE_COUNT)
        hillgauze_tell_room(bells);
    return reply;
}

/* Ends a reader as hillgauze_reader_close does, and wakes who waits for room. */
static inline hillgauze_reply hillgauze_reader_leave(hillgauze_reader *reader, hillgauze_bells *bells) {
    hillgauze_reply reply = hillgauze_reader_close(reader);
    hillgauze_tell_room(bells);
    return reply;
}

/* Sets a state's value as hillgauze_state_set does, and wakes who waits for it. */
static inline hillgauze_reply hillgauze_state_tell(hillgauze_state *seat, hillgauze_bells *bells, uint64_t value) {
    hillgauze_reply reply = hillgauze_state_set(seat, value);
    hillgauze_tell_values(bells);
    return reply;
}

/*
 * The state's value, where it isn't the last one that this collector gave, and sleeps while it is: for `most` nanoseconds
 * at most, or without an end. VALUE, NOTHING where the time is over, or CLOSED where the end was told.
 */
static inline hillgauze_reply hillgauze_collector_next(hillgauze_collector *collector, hillgauze_bells *bells,
                                                       int64_t most) {
    return hillgauze_look_and_sleep(bells, &bells->values, most, hillgauze_look_at_collector, collector, NULL, 0);
}

#ifdef __cplusplus
}
#endif

#endif
