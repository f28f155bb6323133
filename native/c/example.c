/* Each kind of flow from C: what it answers is compared with what the header says. */
#include "hillgauze.h"

#include <pthread.h>
#include <sched.h>
#include <stdbool.h>
#include <stdio.h>
#include <stdlib.h>

enum { MANY = 20000, SETS = 20000, AT_ONCE = 64 };

/* Ends the program, and says where, if the reply isn't this one. */
static void expect(const char *call, hillgauze_reply reply, uint32_t kind, uint64_t word) {
    if (reply.refusal != 0 || reply.kind != kind || reply.word != word) {
        fprintf(stderr, "%s: refusal %u, kind %u, word %llu\n", call, (unsigned)reply.refusal, (unsigned)reply.kind,
                (unsigned long long)reply.word);
        exit(1);
    }
}

/* The same of a refusal. */
static void expect_refusal(const char *call, hillgauze_reply reply, uint32_t refusal) {
    if (reply.refusal != refusal || reply.kind != 0 || reply.word != 0) {
        fprintf(stderr, "%s: refusal %u, not %u\n", call, (unsigned)reply.refusal, (unsigned)refusal);
        exit(1);
    }
}

/* Ends the program if the values aren't these. */
static void expect_values(const char *call, const uint64_t *values, const uint64_t *wanted, size_t count) {
    for (size_t i = 0; i < count; i++) {
        if (values[i] != wanted[i]) {
            fprintf(stderr, "%s: %llu at %zu, not %llu\n", call, (unsigned long long)values[i], i,
                    (unsigned long long)wanted[i]);
            exit(1);
        }
    }
}

static hillgauze_config flow_config(uint64_t replay, uint64_t extra, uint32_t policy) {
    hillgauze_config config = {.replay = replay, .extra = extra, .policy = policy, .subscribers = 4, .emits = 4};
    return config;
}

/* One place, which a slow subscription fills: the second emission waits until there is room. */
static void on_one_thread(void) {
    hillgauze_shared flow = HILLGAUZE_NULL;
    hillgauze_config config = flow_config(1, 0, HILLGAUZE_SUSPEND);
    uint64_t prelude[2] = {7, 8};
    expect("new", hillgauze_shared_new(&flow, &config), HILLGAUZE_DONE, 0);
    expect("subscribe_with", hillgauze_shared_subscribe_with(&flow, prelude, 2), HILLGAUZE_DONE, 0);
    expect("try_emit", hillgauze_shared_try_emit(&flow, 0, 10), HILLGAUZE_ACCEPTED, 0);
    expect("try_emit", hillgauze_shared_try_emit(&flow, 0, 11), HILLGAUZE_FULL, 0);
    expect("start_emit", hillgauze_shared_start_emit(&flow, 0, 11), HILLGAUZE_WAITING, 0);
    expect("pending", hillgauze_shared_pending(&flow, 0), HILLGAUZE_COUNT, 3);
    expect("next", hillgauze_shared_next(&flow, 0), HILLGAUZE_VALUE, 7);
    expect("next", hillgauze_shared_next(&flow, 0), HILLGAUZE_VALUE, 8);
    expect("poll_emit", hillgauze_shared_poll_emit(&flow, 0), HILLGAUZE_WAITING, 0);
    expect("next", hillgauze_shared_next(&flow, 0), HILLGAUZE_VALUE, 10);
    expect("poll_emit", hillgauze_shared_poll_emit(&flow, 0), HILLGAUZE_DONE, 1);
    expect("cache_at", hillgauze_shared_cache_at(&flow, 0), HILLGAUZE_VALUE, 11);
    expect("cache_at", hillgauze_shared_cache_at(&flow, 1), HILLGAUZE_NOTHING, 0);
    expect("subscribe", hillgauze_shared_subscribe(&flow), HILLGAUZE_DONE, 1);
    expect("count", hillgauze_shared_count(&flow), HILLGAUZE_COUNT, 2);
    expect("cancel", hillgauze_shared_cancel(&flow, 0), HILLGAUZE_DONE, 0);
    expect("next", hillgauze_shared_next(&flow, 0), HILLGAUZE_CLOSED, 0);
    expect("reset", hillgauze_shared_reset(&flow), HILLGAUZE_DONE, 0);
    expect("cache_len", hillgauze_shared_cache_len(&flow), HILLGAUZE_COUNT, 0);
    expect("free", hillgauze_shared_free(&flow), HILLGAUZE_DONE, 0);
}

/* Four places: of six values four are accepted. What comes stands first, and what is behind it stays. */
static void blocks_on_one_thread(void) {
    hillgauze_shared flow = HILLGAUZE_NULL;
    hillgauze_config config = flow_config(0, 4, HILLGAUZE_SUSPEND);
    uint64_t values[6] = {10, 11, 12, 13, 14, 15};
    uint64_t came[3] = {1, 2, 3};
    config.first = ((uint64_t)1 << 62) - 7;
    expect("new", hillgauze_shared_new(&flow, &config), HILLGAUZE_DONE, 0);
    expect("subscribe", hillgauze_shared_subscribe(&flow), HILLGAUZE_DONE, config.first);
    expect("try_next_all", hillgauze_shared_try_next_all(&flow, config.first, came, 3), HILLGAUZE_NOTHING, 0);
    expect("try_emit_all", hillgauze_shared_try_emit_all(&flow, 0, values, 6), HILLGAUZE_COUNT, 4);
    expect("try_emit_all", hillgauze_shared_try_emit_all(&flow, 0, values + 4, 2), HILLGAUZE_COUNT, 0);
    expect("try_next_all", hillgauze_shared_try_next_all(&flow, config.first, came, 0), HILLGAUZE_COUNT, 0);
    expect_values("try_next_all", came, (uint64_t[]){1, 2, 3}, 3);
    expect("try_next_all", hillgauze_shared_try_next_all(&flow, config.first, came, 3), HILLGAUZE_COUNT, 3);
    expect_values("try_next_all", came, (uint64_t[]){10, 11, 12}, 3);
    expect("try_emit_all", hillgauze_shared_try_emit_all(&flow, 0, values + 4, 2), HILLGAUZE_COUNT, 2);
    expect("try_next_all", hillgauze_shared_try_next_all(&flow, config.first, came, 1), HILLGAUZE_COUNT, 1);
    expect_values("try_next_all", came, (uint64_t[]){13, 11, 12}, 3);
    expect("try_next_all", hillgauze_shared_try_next_all(&flow, config.first, came, 3), HILLGAUZE_COUNT, 2);
    expect_values("try_next_all", came, (uint64_t[]){14, 15, 12}, 3);
    expect("try_emit_all", hillgauze_shared_try_emit_all(&flow, 0, values, 2), HILLGAUZE_COUNT, 1);
    expect_refusal("try_emit_all", hillgauze_shared_try_emit_all(&flow, 0, values, 2), HILLGAUZE_SPENT);
    expect("try_emit_all", hillgauze_shared_try_emit_all(&flow, 0, values, 0), HILLGAUZE_COUNT, 0);
    expect("cancel", hillgauze_shared_cancel(&flow, config.first), HILLGAUZE_DONE, 0);
    expect("try_next_all", hillgauze_shared_try_next_all(&flow, config.first, came, 3), HILLGAUZE_CLOSED, 0);
    expect("try_next_all", hillgauze_shared_try_next_all(&flow, config.first, came, 0), HILLGAUZE_COUNT, 0);
    expect_values("try_next_all", came, (uint64_t[]){14, 15, 12}, 3);
    expect("free", hillgauze_shared_free(&flow), HILLGAUZE_DONE, 0);
}

/* A reader takes 64 values at once, at most. */
static void blocks_of_a_lane(void) {
    hillgauze_sequencer sequencer = HILLGAUZE_NULL;
    hillgauze_reader reader = HILLGAUZE_NULL;
    hillgauze_config config = flow_config(0, AT_ONCE + 2, HILLGAUZE_SUSPEND);
    uint64_t values[AT_ONCE + 3], came[AT_ONCE + 1];
    for (uint64_t i = 0; i < AT_ONCE + 3; i++) {
        values[i] = 100 + i;
    }
    for (int i = 0; i < AT_ONCE + 1; i++) {
        came[i] = 7;
    }
    expect("new", hillgauze_lane_new(&sequencer, &config), HILLGAUZE_DONE, 0);
    expect("admit", hillgauze_lane_admit(&sequencer, &reader), HILLGAUZE_DONE, 0);
    expect("try_next_all", hillgauze_reader_try_next_all(&reader, came, 0), HILLGAUZE_NOTHING, 0);
    expect("try_emit_all", hillgauze_lane_try_emit_all(&sequencer, 0, values, 0), HILLGAUZE_COUNT, 0);
    expect("try_emit_all", hillgauze_lane_try_emit_all(&sequencer, 0, values, AT_ONCE + 3), HILLGAUZE_COUNT,
           AT_ONCE + 2);
    expect("start_emit", hillgauze_lane_start_emit(&sequencer, 0, 99), HILLGAUZE_WAITING, 0);
    expect("try_next_all", hillgauze_reader_try_next_all(&reader, came, 0), HILLGAUZE_COUNT, 0);
    expect("try_next_all", hillgauze_reader_try_next_all(&reader, came, AT_ONCE + 1), HILLGAUZE_COUNT, AT_ONCE);
    expect_values("try_next_all", came, values, AT_ONCE);
    expect_values("try_next_all", came + AT_ONCE, (uint64_t[]){7}, 1);
    expect("try_emit_all", hillgauze_lane_try_emit_all(&sequencer, 0, values, 1), HILLGAUZE_COUNT, 1);
    expect("poll_emit", hillgauze_lane_poll_emit(&sequencer, 0), HILLGAUZE_DONE, AT_ONCE + 2);
    expect("try_next_all", hillgauze_reader_try_next_all(&reader, came, 3), HILLGAUZE_COUNT, 3);
    expect_values("try_next_all", came, (uint64_t[]){100 + AT_ONCE, 101 + AT_ONCE, 99, 103}, 4);
    expect("try_next_all", hillgauze_reader_try_next_all(&reader, came, 3), HILLGAUZE_COUNT, 1);
    expect_values("try_next_all", came, (uint64_t[]){100, 101 + AT_ONCE, 99}, 3);
    expect("try_next_all", hillgauze_reader_try_next_all(&reader, came, 3), HILLGAUZE_NOTHING, 0);
    expect("received", hillgauze_reader_received(&reader), HILLGAUZE_COUNT, AT_ONCE + 4);
    expect("free", hillgauze_lane_free(&sequencer), HILLGAUZE_DONE, 0);
    expect("close", hillgauze_reader_close(&reader), HILLGAUZE_DONE, 0);
}

/* What is refused leaves everything as it was. */
static void refused(void) {
    hillgauze_shared flow = HILLGAUZE_NULL;
    hillgauze_sequencer no_sequencer = HILLGAUZE_NULL;
    hillgauze_reader no_reader = HILLGAUZE_NULL;
    hillgauze_collector no_flow = HILLGAUZE_NULL;
    uint64_t came[2] = {5, 6};
    hillgauze_config config = flow_config(1, 0, HILLGAUZE_SUSPEND);
    uint64_t prelude[17] = {0};
    expect_refusal("next", hillgauze_shared_next(&flow, 0), HILLGAUZE_NULL_HANDLE);
    expect_refusal("try_emit_all", hillgauze_shared_try_emit_all(&flow, 0, came, 2), HILLGAUZE_NULL_HANDLE);
    expect_refusal("try_next_all", hillgauze_shared_try_next_all(&flow, 0, came, 2), HILLGAUZE_NULL_HANDLE);
    expect_refusal("try_emit_all", hillgauze_lane_try_emit_all(&no_sequencer, 0, came, 2), HILLGAUZE_NULL_HANDLE);
    expect_refusal("try_next_all", hillgauze_reader_try_next_all(&no_reader, came, 2), HILLGAUZE_NULL_HANDLE);
    config.policy = 3;
    expect_refusal("new", hillgauze_shared_new(&flow, &config), HILLGAUZE_NO_SUCH_POLICY);
    config = flow_config(65537, 0, HILLGAUZE_SUSPEND);
    expect_refusal("new", hillgauze_shared_new(&flow, &config), HILLGAUZE_TOO_LARGE);
    config = flow_config(0, 0, HILLGAUZE_DROP_OLDEST);
    expect_refusal("new", hillgauze_shared_new(&flow, &config), HILLGAUZE_POLICY_NEEDS_BUFFER);
    config = flow_config(1, 0, HILLGAUZE_SUSPEND);
    expect("new", hillgauze_shared_new(&flow, &config), HILLGAUZE_DONE, 0);
    expect_refusal("new", hillgauze_shared_new(&flow, &config), HILLGAUZE_HANDLE_TAKEN);
    expect_refusal("subscribe_with", hillgauze_shared_subscribe_with(&flow, prelude, 17), HILLGAUZE_PRELUDE_TOO_LONG);
    no_flow.object = flow.object; /* no program should: here it shows what a call of another kind is answered */
    expect_refusal("try_next", hillgauze_collector_try_next(&no_flow), HILLGAUZE_OTHER_KIND);
    no_reader.object = flow.object;
    expect_refusal("try_next_all", hillgauze_reader_try_next_all(&no_reader, came, 2), HILLGAUZE_OTHER_KIND);
    expect_values("try_next_all", came, (uint64_t[]){5, 6}, 2);
    expect("free", hillgauze_shared_free(&flow), HILLGAUZE_DONE, 0);
    expect_refusal("free", hillgauze_shared_free(&flow), HILLGAUZE_NULL_HANDLE);
}

/* Takes every value on a thread of its own. They count up from 0. */
static void *read_all(void *place) {
    hillgauze_reader *reader = place;
    for (uint64_t wanted = 0; wanted < MANY;) {
        hillgauze_reply reply = hillgauze_reader_try_next(reader);
        if (reply.refusal == 0 && reply.kind == HILLGAUZE_NOTHING) {
            sched_yield();
            continue;
        }
        expect("try_next", reply, HILLGAUZE_VALUE, wanted);
        wanted += 1;
    }
    return NULL;
}

/* One thread emits, and two receive; a third finds no place until one of them has ended. */
static void between_threads(void) {
    hillgauze_sequencer sequencer = HILLGAUZE_NULL;
    hillgauze_reader readers[2] = {HILLGAUZE_NULL, HILLGAUZE_NULL};
    hillgauze_reader late = HILLGAUZE_NULL;
    hillgauze_config config = flow_config(0, 64, HILLGAUZE_SUSPEND);
    pthread_t threads[2];
    config.subscribers = 2;
    expect("new", hillgauze_lane_new(&sequencer, &config), HILLGAUZE_DONE, 0);
    for (int i = 0; i < 2; i++) {
        expect("admit", hillgauze_lane_admit(&sequencer, &readers[i]), HILLGAUZE_DONE, 0);
        if (pthread_create(&threads[i], NULL, read_all, &readers[i]) != 0) {
            exit(2);
        }
    }
    for (uint64_t value = 0; value < MANY;) {
        hillgauze_reply reply = hillgauze_lane_try_emit(&sequencer, 0, value);
        if (reply.refusal == 0 && reply.kind == HILLGAUZE_FULL) {
            sched_yield();
            continue;
        }
        expect("try_emit", reply, HILLGAUZE_ACCEPTED, value);
        value += 1;
    }
    for (int i = 0; i < 2; i++) {
        pthread_join(threads[i], NULL);
        expect("received", hillgauze_reader_received(&readers[i]), HILLGAUZE_COUNT, MANY);
        expect("dropped", hillgauze_reader_dropped(&readers[i]), HILLGAUZE_COUNT, 0);
    }
    expect_refusal("admit", hillgauze_lane_admit(&sequencer, &late), HILLGAUZE_SUBSCRIBERS_FULL);
    expect("close", hillgauze_reader_close(&readers[0]), HILLGAUZE_DONE, 0);
    expect("count", hillgauze_lane_count(&sequencer), HILLGAUZE_COUNT, 1);
    expect("admit", hillgauze_lane_admit(&sequencer, &late), HILLGAUZE_DONE, 0);
    expect("start", hillgauze_reader_start(&late), HILLGAUZE_COUNT, MANY);
    expect("free", hillgauze_lane_free(&sequencer), HILLGAUZE_DONE, 0);
    expect("try_next", hillgauze_reader_try_next(&late), HILLGAUZE_NOTHING, 0);
    expect("close", hillgauze_reader_close(&late), HILLGAUZE_DONE, 0);
    expect("close", hillgauze_reader_close(&readers[1]), HILLGAUZE_DONE, 0);
}

/* Collects a state until its last value came. */
static void *collect_all(void *place) {
    hillgauze_collector *collector = place;
    bool ended = false;
    for (uint64_t last = 0; !ended;) {
        hillgauze_reply reply = hillgauze_collector_try_next(collector);
        if (reply.refusal != 0 || (reply.kind == HILLGAUZE_VALUE && reply.word < last)) {
            exit(3);
        }
        if (reply.kind == HILLGAUZE_NOTHING) {
            sched_yield();
        }
        last = reply.kind == HILLGAUZE_VALUE ? reply.word : last;
        ended = last == SETS;
    }
    return NULL;
}

/* One thread sets, and another collects. */
static void a_state(void) {
    hillgauze_state seat = HILLGAUZE_NULL;
    hillgauze_state other = HILLGAUZE_NULL;
    hillgauze_collector collector = HILLGAUZE_NULL;
    pthread_t thread;
    expect("new", hillgauze_state_new(&seat, 0, 2), HILLGAUZE_DONE, 0);
    expect("take_seat", hillgauze_state_take_seat(&seat, 0, &other), HILLGAUZE_DONE, 0);
    expect("collect", hillgauze_state_collect(&other, &collector), HILLGAUZE_DONE, 0);
    expect("collectors", hillgauze_state_collectors(&seat), HILLGAUZE_COUNT, 1);
    if (pthread_create(&thread, NULL, collect_all, &collector) != 0) {
        exit(2);
    }
    for (uint64_t value = 1; value < SETS; value++) {
        expect("set", hillgauze_state_set(&seat, value), HILLGAUZE_DONE, 0);
    }
    expect("compare_and_set", hillgauze_state_compare_and_set(&seat, SETS, 0), HILLGAUZE_UNEQUAL, 0);
    expect("compare_and_set", hillgauze_state_compare_and_set(&seat, SETS - 1, SETS), HILLGAUZE_DONE, 0);
    pthread_join(thread, NULL);
    expect("cancel", hillgauze_collector_cancel(&collector, &other), HILLGAUZE_DONE, 0);
    expect_refusal("take_seat", hillgauze_state_take_seat(&seat, 0, (hillgauze_state[]){HILLGAUZE_NULL}),
                   HILLGAUZE_SUBSCRIBERS_FULL);
    expect("give_back", hillgauze_state_give_back(&seat, &other), HILLGAUZE_DONE, 0);
    expect("spare", hillgauze_state_spare(&seat), HILLGAUZE_COUNT, 1);
    expect("value", hillgauze_state_value(&seat), HILLGAUZE_VALUE, SETS);
    expect("take_seat", hillgauze_state_take_seat(&seat, 0, &other), HILLGAUZE_DONE, 0);
    expect("collect", hillgauze_state_collect(&other, &collector), HILLGAUZE_DONE, 0);
    expect("free", hillgauze_collector_free(&collector), HILLGAUZE_DONE, 0);
    expect("collectors", hillgauze_state_collectors(&seat), HILLGAUZE_COUNT, 0);
    expect("free", hillgauze_state_free(&seat), HILLGAUZE_DONE, 0);
}

int main(void) {
    on_one_thread();
    blocks_on_one_thread();
    blocks_of_a_lane();
    refused();
    between_threads();
    a_state();
    puts("every reply was the one that the header says");
    return 0;
}
