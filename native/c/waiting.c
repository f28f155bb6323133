/*
 * Threads that wait by hillgauze_wait.h: nothing is lost, nobody sleeps for good, and each learns of the end. It has no
 * line about waiting of its own.
 */
#define _GNU_SOURCE
#include "hillgauze_wait.h"

#include <pthread.h>
#include <stdio.h>
#include <stdlib.h>

#define CHECK(holds) ((holds) ? (void)0 : (fprintf(stderr, "line %d: " #holds "\n", __LINE__), exit(1)))

enum { VALUES = 100000, TURNS = 20000, READERS = 3 };

/* Far more than any wait here takes. */
static const int64_t LONG = INT64_C(60000000000);

static hillgauze_bells lane_bells = HILLGAUZE_BELLS_NEW;
static hillgauze_bells state_bells = HILLGAUZE_BELLS_NEW;

static void *sum_one_by_one(void *handle) {
    hillgauze_reader *reader = handle;
    uint64_t sum = 0;
    hillgauze_reply next;
    while ((next = hillgauze_reader_next(reader, &lane_bells, LONG)).kind == HILLGAUZE_VALUE)
        sum += next.word;
    CHECK(next.kind == HILLGAUZE_CLOSED);
    CHECK(sum == (uint64_t)VALUES * (VALUES + 1) / 2);
    return NULL;
}

static void *sum_blocks(void *handle) {
    hillgauze_reader *reader = handle;
    uint64_t sum = 0, values[64];
    hillgauze_reply next;
    while ((next = hillgauze_reader_next_all(reader, &lane_bells, values, 64, HILLGAUZE_FOREVER)).kind == HILLGAUZE_COUNT)
        for (uint64_t index = 0; index < next.word; index++)
            sum += values[index];
    CHECK(next.kind == HILLGAUZE_CLOSED);
    CHECK(sum == (uint64_t)VALUES * (VALUES + 1) / 2);
    return NULL;
}

/* Takes some values, and leaves while others are pending. */
static void *leave_early(void *handle) {
    hillgauze_reader *reader = handle;
    for (int taken = 0; taken < 1000; taken++)
        CHECK(hillgauze_reader_next(reader, &lane_bells, LONG).kind == HILLGAUZE_VALUE);
    CHECK(hillgauze_reader_leave(reader, &lane_bells).kind == HILLGAUZE_DONE);
    return NULL;
}

static void emit_to_many(void) {
    hillgauze_config config = { .extra = 4, .policy = HILLGAUZE_SUSPEND, .subscribers = READERS, .emits = 1 };
    hillgauze_sequencer sequencer = HILLGAUZE_NULL;
    hillgauze_reader readers[READERS] = { HILLGAUZE_NULL, HILLGAUZE_NULL, HILLGAUZE_NULL };
    void *(*bodies[READERS])(void *) = { sum_one_by_one, sum_blocks, leave_early };
    pthread_t threads[READERS];
    CHECK(hillgauze_lane_new(&sequencer, &config).kind == HILLGAUZE_DONE);
    for (int place = 0; place < READERS; place++)
        CHECK(hillgauze_lane_admit(&sequencer, &readers[place]).kind == HILLGAUZE_DONE);
    CHECK(hillgauze_reader_next(&readers[0], &lane_bells, 1000000).kind == HILLGAUZE_NOTHING);
    for (int place = 0; place < READERS; place++)
        CHECK(pthread_create(&threads[place], NULL, bodies[place], &readers[place]) == 0);
    for (uint64_t value = 1; value <= VALUES; value++)
        CHECK(hillgauze_lane_emit(&sequencer, &lane_bells, 0, value, LONG).kind == HILLGAUZE_ACCEPTED);
    CHECK(!hillgauze_has_ended(&lane_bells));
    hillgauze_lane_free(&sequencer);
    hillgauze_tell_end(&lane_bells);
    for (int place = 0; place < READERS; place++) {
        CHECK(pthread_join(threads[place], NULL) == 0);
        hillgauze_reader_close(&readers[place]);
    }
    printf("%d values to %d readers\n", VALUES, READERS);
}

static void time_is_over(void) {
    hillgauze_config config = { .extra = 1, .policy = HILLGAUZE_SUSPEND, .subscribers = 1, .emits = 1 };
    hillgauze_bells bells = HILLGAUZE_BELLS_NEW;
    hillgauze_sequencer sequencer = HILLGAUZE_NULL;
    hillgauze_reader reader = HILLGAUZE_NULL;
    CHECK(hillgauze_reader_next(&reader, &bells, LONG).refusal == HILLGAUZE_NULL_HANDLE);
    CHECK(hillgauze_lane_new(&sequencer, &config).kind == HILLGAUZE_DONE);
    CHECK(hillgauze_lane_admit(&sequencer, &reader).kind == HILLGAUZE_DONE);
    CHECK(hillgauze_lane_emit(&sequencer, &bells, 0, 7, 0).kind == HILLGAUZE_ACCEPTED);
    CHECK(hillgauze_lane_emit(&sequencer, &bells, 0, 8, 0).kind == HILLGAUZE_FULL);
    CHECK(hillgauze_lane_emit(&sequencer, &bells, 0, 8, 5000000).kind == HILLGAUZE_FULL);
    hillgauze_tell_end(&bells);
    CHECK(hillgauze_lane_emit(&sequencer, &bells, 0, 8, HILLGAUZE_FOREVER).kind == HILLGAUZE_CLOSED);
    CHECK(hillgauze_reader_next(&reader, &bells, HILLGAUZE_FOREVER).word == 7);
    CHECK(hillgauze_reader_next(&reader, &bells, HILLGAUZE_FOREVER).kind == HILLGAUZE_CLOSED);
    hillgauze_reader_close(&reader);
    hillgauze_lane_free(&sequencer);
}

/* Two seats hand a number to and fro by one state: the even ones are set by one, the odd ones by the other. */
struct side {
    hillgauze_state seat;
    hillgauze_collector collector;
    uint64_t first;
};

static void *answer(void *given) {
    struct side *side = given;
    for (uint64_t turn = side->first; turn < TURNS; turn += 2) {
        uint64_t seen = 0;
        while (seen < turn) {
            hillgauze_reply next = hillgauze_collector_next(&side->collector, &state_bells, LONG);
            CHECK(next.kind == HILLGAUZE_VALUE);
            seen = next.word;
        }
        hillgauze_state_tell(&side->seat, &state_bells, turn + 1);
    }
    return NULL;
}

static void take_turns(void) {
    struct side sides[2] = { { HILLGAUZE_NULL, HILLGAUZE_NULL, 0 }, { HILLGAUZE_NULL, HILLGAUZE_NULL, 1 } };
    hillgauze_state collecting = HILLGAUZE_NULL;
    pthread_t other;
    CHECK(hillgauze_state_new(&sides[0].seat, 0, 4).kind == HILLGAUZE_DONE);
    CHECK(hillgauze_state_take_seat(&sides[0].seat, 0, &sides[1].seat).kind == HILLGAUZE_DONE);
    for (int side = 0; side < 2; side++) {
        CHECK(hillgauze_state_take_seat(&sides[0].seat, 0, &collecting).kind == HILLGAUZE_DONE);
        CHECK(hillgauze_state_collect(&collecting, &sides[side].collector).kind == HILLGAUZE_DONE);
    }
    CHECK(pthread_create(&other, NULL, answer, &sides[1]) == 0);
    answer(&sides[0]);
    CHECK(pthread_join(other, NULL) == 0);
    CHECK(hillgauze_state_value(&sides[0].seat).word == TURNS);
    hillgauze_tell_end(&state_bells);
    for (int side = 0; side < 2; side++) {
        hillgauze_collector_next(&sides[side].collector, &state_bells, LONG);
        CHECK(hillgauze_collector_next(&sides[side].collector, &state_bells, LONG).kind == HILLGAUZE_CLOSED);
        hillgauze_collector_free(&sides[side].collector);
        hillgauze_state_free(&sides[side].seat);
    }
    printf("%d turns between two threads\n", TURNS);
}

int main(void) {
    emit_to_many();
    time_is_over();
    take_turns();
    return 0;
}
