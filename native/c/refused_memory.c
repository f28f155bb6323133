/*
 * Want of memory. Each of the five calls that take memory is made again and again, with its first, its second ..
 * request refused, until none is left: it is refused as NO_MEMORY, nothing has changed and nothing is lost, and with
 * memory it succeeds. Every other call does its work while each request is refused, and makes none.
 */
#include "expect.h"

#include <limits.h>
#include <stdbool.h>

/* ---- Memory ---- */

/* By the linker's --wrap (native/test) the library calls __wrap_malloc for malloc, and __real_malloc is malloc. */
void *__real_malloc(size_t size);
void *__real_realloc(void *block, size_t size);
void __real_free(void *block);
void *__wrap_malloc(size_t size);
void *__wrap_realloc(void *block, size_t size);
void __wrap_free(void *block);

/* How many blocks the library has. */
static long blocks;
/* How many requests it made since the last `refuse`, and which of them are refused, counted from 1. */
static unsigned requests, first_refused, last_refused;

static void refuse(unsigned first, unsigned last) {
    requests = 0;
    first_refused = first;
    last_refused = last;
}

static void refuse_none(void) { refuse(1, 0); }

static void refuse_all(void) { refuse(1, UINT_MAX); }

static bool is_refused(void) {
    requests += 1;
    return first_refused <= requests && requests <= last_refused;
}

void *__wrap_malloc(size_t size) {
    void *block = is_refused() ? NULL : __real_malloc(size);
    blocks += block != NULL;
    return block;
}

void *__wrap_realloc(void *block, size_t size) {
    void *moved = is_refused() ? NULL : __real_realloc(block, size);
    blocks += block == NULL && moved != NULL;
    return moved;
}

void __wrap_free(void *block) {
    blocks -= block != NULL;
    __real_free(block);
}

/* ---- The flows ---- */

/* A handle of each kind that is in use, and empty ones for what the calls make. */
struct flows {
    hillgauze_shared flow;
    hillgauze_sequencer sequencer;
    hillgauze_reader reader;
    hillgauze_state seat;
    hillgauze_state other;
    hillgauze_collector collector;
    hillgauze_shared made_flow;
    hillgauze_sequencer made_sequencer;
    hillgauze_reader made_reader;
    hillgauze_state made_seat;
};

static void expect_refusal(const char *call, hillgauze_reply reply, uint32_t refusal) {
    if (reply.refusal != refusal || reply.kind != 0 || reply.word != 0) {
        fprintf(stderr, "%s: refusal %u, not %u\n", call, (unsigned)reply.refusal, (unsigned)refusal);
        exit(1);
    }
}

static hillgauze_config flow_config(uint64_t replay, uint64_t extra, uint32_t subscribers) {
    hillgauze_config config = {.replay = replay, .extra = extra, .subscribers = subscribers, .emits = 4};
    return config;
}

/* Flows that have each something to lose: two values that were emitted, of which one was received. */
static void begin(struct flows *flows) {
    static const struct flows none;
    hillgauze_config config = flow_config(1, 3, 4);
    *flows = none;
    refuse_none();
    expect("shared_new", hillgauze_shared_new(&flows->flow, &config), HILLGAUZE_DONE, 0);
    expect("subscribe", hillgauze_shared_subscribe(&flows->flow), HILLGAUZE_DONE, 0);
    expect("lane_new", hillgauze_lane_new(&flows->sequencer, &config), HILLGAUZE_DONE, 0);
    expect("lane_admit", hillgauze_lane_admit(&flows->sequencer, &flows->reader), HILLGAUZE_DONE, 0);
    for (uint64_t number = 0; number < 2; number++) {
        expect("try_emit", hillgauze_shared_try_emit(&flows->flow, 0, 10 + number), HILLGAUZE_ACCEPTED, number);
        expect("try_emit", hillgauze_lane_try_emit(&flows->sequencer, 0, 20 + number), HILLGAUZE_ACCEPTED, number);
    }
    expect("next", hillgauze_shared_next(&flows->flow, 0), HILLGAUZE_VALUE, 10);
    expect("try_next", hillgauze_reader_try_next(&flows->reader), HILLGAUZE_VALUE, 20);
    expect("state_new", hillgauze_state_new(&flows->seat, 7, 4), HILLGAUZE_DONE, 0);
    expect("take_seat", hillgauze_state_take_seat(&flows->seat, 0, &flows->other), HILLGAUZE_DONE, 0);
    expect("collect", hillgauze_state_collect(&flows->other, &flows->collector), HILLGAUZE_DONE, 0);
    expect("try_next", hillgauze_collector_try_next(&flows->collector), HILLGAUZE_VALUE, 7);
}

/* They answer just what they answered before, to each question that changes nothing. */
static void expect_unchanged(struct flows *flows) {
    expect("pending", hillgauze_shared_pending(&flows->flow, 0), HILLGAUZE_COUNT, 1);
    expect("count", hillgauze_shared_count(&flows->flow), HILLGAUZE_COUNT, 1);
    expect("cache_len", hillgauze_shared_cache_len(&flows->flow), HILLGAUZE_COUNT, 1);
    expect("cache_at", hillgauze_shared_cache_at(&flows->flow, 0), HILLGAUZE_VALUE, 11);
    expect("count", hillgauze_lane_count(&flows->sequencer), HILLGAUZE_COUNT, 1);
    expect("cache_len", hillgauze_lane_cache_len(&flows->sequencer), HILLGAUZE_COUNT, 1);
    expect("cache_at", hillgauze_lane_cache_at(&flows->sequencer, 0), HILLGAUZE_VALUE, 21);
    expect("start", hillgauze_reader_start(&flows->reader), HILLGAUZE_COUNT, 0);
    expect("received", hillgauze_reader_received(&flows->reader), HILLGAUZE_COUNT, 1);
    expect("dropped", hillgauze_reader_dropped(&flows->reader), HILLGAUZE_COUNT, 0);
    expect("value", hillgauze_state_value(&flows->seat), HILLGAUZE_VALUE, 7);
    expect("collectors", hillgauze_state_collectors(&flows->seat), HILLGAUZE_COUNT, 1);
    expect("spare", hillgauze_state_spare(&flows->seat), HILLGAUZE_COUNT, 2);
    expect("try_next", hillgauze_collector_try_next(&flows->collector), HILLGAUZE_NOTHING, 0);
}

/* They go on where they stood, and are freed: nothing is left. */
static void end(struct flows *flows) {
    expect("next", hillgauze_shared_next(&flows->flow, 0), HILLGAUZE_VALUE, 11);
    expect("try_emit", hillgauze_shared_try_emit(&flows->flow, 0, 12), HILLGAUZE_ACCEPTED, 2);
    expect("try_next", hillgauze_reader_try_next(&flows->reader), HILLGAUZE_VALUE, 21);
    expect("try_emit", hillgauze_lane_try_emit(&flows->sequencer, 0, 22), HILLGAUZE_ACCEPTED, 2);
    expect("set", hillgauze_state_set(&flows->seat, 8), HILLGAUZE_DONE, 0);
    expect("try_next", hillgauze_collector_try_next(&flows->collector), HILLGAUZE_VALUE, 8);
    expect("free", hillgauze_shared_free(&flows->flow), HILLGAUZE_DONE, 0);
    expect("free", hillgauze_lane_free(&flows->sequencer), HILLGAUZE_DONE, 0);
    expect("close", hillgauze_reader_close(&flows->reader), HILLGAUZE_DONE, 0);
    expect("free", hillgauze_state_free(&flows->seat), HILLGAUZE_DONE, 0);
    expect("free", hillgauze_collector_free(&flows->collector), HILLGAUZE_DONE, 0);
    expect_that(blocks == 0, "free", "each block of memory was given back");
}

/* ---- The five calls ---- */

static hillgauze_reply new_flow(struct flows *flows) {
    hillgauze_config config = flow_config(2, 1, 4);
    return hillgauze_shared_new(&flows->made_flow, &config);
}
static hillgauze_reply count_flow(struct flows *flows) { return hillgauze_shared_count(&flows->made_flow); }
static hillgauze_reply free_flow(struct flows *flows) { return hillgauze_shared_free(&flows->made_flow); }

static hillgauze_reply new_lane(struct flows *flows) {
    hillgauze_config config = flow_config(2, 1, 4);
    return hillgauze_lane_new(&flows->made_sequencer, &config);
}
static hillgauze_reply count_lane(struct flows *flows) { return hillgauze_lane_count(&flows->made_sequencer); }
static hillgauze_reply free_lane(struct flows *flows) { return hillgauze_lane_free(&flows->made_sequencer); }

static hillgauze_reply admit(struct flows *flows) {
    return hillgauze_lane_admit(&flows->sequencer, &flows->made_reader);
}
static hillgauze_reply count_received(struct flows *flows) { return hillgauze_reader_received(&flows->made_reader); }
static hillgauze_reply close_reader(struct flows *flows) { return hillgauze_reader_close(&flows->made_reader); }

static hillgauze_reply new_state(struct flows *flows) { return hillgauze_state_new(&flows->made_seat, 5, 1); }
static hillgauze_reply count_spare(struct flows *flows) { return hillgauze_state_spare(&flows->made_seat); }
static hillgauze_reply free_state(struct flows *flows) { return hillgauze_state_free(&flows->made_seat); }

static hillgauze_reply take_seat(struct flows *flows) {
    return hillgauze_state_take_seat(&flows->seat, 0, &flows->made_seat);
}
static hillgauze_reply give_back(struct flows *flows) {
    return hillgauze_state_give_back(&flows->seat, &flows->made_seat);
}

/* A call that puts something in an empty handle, one that asks it for a number, which is 0, and one that ends it. */
struct making {
    const char *name;
    hillgauze_reply (*make)(struct flows *);
    hillgauze_reply (*count)(struct flows *);
    hillgauze_reply (*end)(struct flows *);
};

static const struct making makings[] = {
    {"hillgauze_shared_new", new_flow, count_flow, free_flow},
    {"hillgauze_lane_new", new_lane, count_lane, free_lane},
    {"hillgauze_lane_admit", admit, count_received, close_reader},
    {"hillgauze_state_new", new_state, count_spare, free_state},
    {"hillgauze_state_take_seat", take_seat, count_spare, give_back},
};
enum { MAKINGS = sizeof makings / sizeof makings[0] };

/* With memory the call succeeds, and what it made can be used and ended. */
static void make_and_end(struct flows *flows, const struct making *making) {
    long before = blocks;
    refuse_none();
    expect(making->name, making->make(flows), HILLGAUZE_DONE, 0);
    expect(making->name, making->count(flows), HILLGAUZE_COUNT, 0);
    expect_that(blocks > before, making->name, "it took memory");
    expect(making->name, making->end(flows), HILLGAUZE_DONE, 0);
    expect_that(blocks == before, making->name, "it gave back what it took");
}

/* Refuses the requests of one call, and says whether it made so many that one was refused. */
static bool is_met(struct flows *flows, const struct making *making, unsigned first, unsigned last) {
    long before = blocks;
    refuse(first, last);
    hillgauze_reply reply = making->make(flows);
    bool met = requests >= first;
    refuse_none();
    if (!met) {
        expect(making->name, reply, HILLGAUZE_DONE, 0);
        expect(making->name, making->end(flows), HILLGAUZE_DONE, 0);
        return false;
    }
    expect_refusal(making->name, reply, HILLGAUZE_NO_MEMORY);
    expect_refusal(making->name, making->count(flows), HILLGAUZE_NULL_HANDLE);
    expect_that(blocks == before, making->name, "a refused call gave back what it took");
    expect_unchanged(flows);
    make_and_end(flows, making);
    expect_unchanged(flows);
    return true;
}

/* Each request of the call is refused once alone, and once with all that would come after it. */
static void refuse_each(struct flows *flows, const struct making *making) {
    unsigned number = 1;
    while (is_met(flows, making, number, number) && is_met(flows, making, number, UINT_MAX)) {
        number += 1;
    }
    expect_that(number > 1, making->name, "it asked for memory");
    printf("%s: each of %u requests\n", making->name, number - 1);
}

/* ---- What else the header says of want of memory ---- */

/* Where a call would be refused for another reason as well, the one that stands first beside it is told. */
static void order_of_refusals(struct flows *flows) {
    hillgauze_config config = flow_config(1, 0, 1);
    hillgauze_sequencer full = HILLGAUZE_NULL;
    hillgauze_reader only = HILLGAUZE_NULL, reader = HILLGAUZE_NULL;
    hillgauze_state seat = HILLGAUZE_NULL;
    refuse_none();
    expect("lane_new", hillgauze_lane_new(&full, &config), HILLGAUZE_DONE, 0);
    expect("lane_admit", hillgauze_lane_admit(&full, &only), HILLGAUZE_DONE, 0);
    long before = blocks;
    expect_refusal("lane_admit", hillgauze_lane_admit(&full, &reader), HILLGAUZE_SUBSCRIBERS_FULL);
    expect_refusal("take_seat", hillgauze_state_take_seat(&flows->seat, 2, &seat), HILLGAUZE_SUBSCRIBERS_FULL);
    expect_that(blocks == before, "lane_admit, take_seat", "a call that is refused as full gave back what it took");

    refuse_all();
    expect_refusal("lane_admit", hillgauze_lane_admit(&full, &reader), HILLGAUZE_NO_MEMORY);
    refuse(2, UINT_MAX);
    expect_refusal("lane_admit", hillgauze_lane_admit(&full, &reader), HILLGAUZE_NO_MEMORY);
    expect_that(requests == 2, "lane_admit", "its second request, for what is taken at once, was refused");
    refuse_all();
    expect_refusal("lane_admit", hillgauze_lane_admit(&full, &only), HILLGAUZE_HANDLE_TAKEN);
    expect_refusal("take_seat", hillgauze_state_take_seat(&flows->seat, 2, &seat), HILLGAUZE_NO_MEMORY);
    expect_refusal("state_new", hillgauze_state_new(&seat, 0, 0), HILLGAUZE_BAD_LIMIT);
    config.emits = 0;
    expect_refusal("shared_new", hillgauze_shared_new(&flows->made_flow, &config), HILLGAUZE_BAD_LIMIT);
    config.extra = 65536;
    expect_refusal("lane_new", hillgauze_lane_new(&flows->made_sequencer, &config), HILLGAUZE_TOO_LARGE);
    config.policy = 3;
    expect_refusal("shared_new", hillgauze_shared_new(&flows->made_flow, &config), HILLGAUZE_NO_SUCH_POLICY);
    expect_that(blocks == before, "refused calls", "they gave back what they took");

    expect("close", hillgauze_reader_close(&only), HILLGAUZE_DONE, 0);
    expect("free", hillgauze_lane_free(&full), HILLGAUZE_DONE, 0);
}

/* A refused admission uses up none of the numbers of readers, of which this lane has one. */
static void number_of_a_reader(void) {
    hillgauze_config config = flow_config(1, 0, 2);
    hillgauze_sequencer sequencer = HILLGAUZE_NULL;
    hillgauze_reader reader = HILLGAUZE_NULL, late = HILLGAUZE_NULL;
    config.first = ((uint64_t)1 << 62) - 1;
    refuse_none();
    expect("lane_new", hillgauze_lane_new(&sequencer, &config), HILLGAUZE_DONE, 0);
    refuse_all();
    expect_refusal("lane_admit", hillgauze_lane_admit(&sequencer, &reader), HILLGAUZE_NO_MEMORY);
    refuse_none();
    expect("lane_admit", hillgauze_lane_admit(&sequencer, &reader), HILLGAUZE_DONE, 0);
    expect_refusal("lane_admit", hillgauze_lane_admit(&sequencer, &late), HILLGAUZE_SPENT);
    expect("close", hillgauze_reader_close(&reader), HILLGAUZE_DONE, 0);
    expect("free", hillgauze_lane_free(&sequencer), HILLGAUZE_DONE, 0);
}

static void shared_without_memory(hillgauze_shared *flow) {
    uint64_t prelude = 9, value = 0;
    expect("subscribe", hillgauze_shared_subscribe(flow), HILLGAUZE_DONE, 0);
    expect("subscribe_with", hillgauze_shared_subscribe_with(flow, &prelude, 1), HILLGAUZE_DONE, 1);
    expect("try_emit", hillgauze_shared_try_emit(flow, 0, 10), HILLGAUZE_ACCEPTED, 0);
    expect("start_emit", hillgauze_shared_start_emit(flow, 0, 11), HILLGAUZE_WAITING, 0);
    expect("start_emit", hillgauze_shared_start_emit(flow, 0, 12), HILLGAUZE_WAITING, 1);
    expect("cancel_emit", hillgauze_shared_cancel_emit(flow, 1), HILLGAUZE_REMOVED, 0);
    expect("cancel", hillgauze_shared_cancel(flow, 1), HILLGAUZE_DONE, 0);
    expect("next", hillgauze_shared_next(flow, 0), HILLGAUZE_VALUE, 10);
    expect("poll_emit", hillgauze_shared_poll_emit(flow, 0), HILLGAUZE_DONE, 1);
    expect("try_next_all", hillgauze_shared_try_next_all(flow, 0, &value, 1), HILLGAUZE_COUNT, 1);
    expect("try_emit_all", hillgauze_shared_try_emit_all(flow, 0, &value, 1), HILLGAUZE_COUNT, 1);
    expect("pending", hillgauze_shared_pending(flow, 0), HILLGAUZE_COUNT, 1);
    expect("count", hillgauze_shared_count(flow), HILLGAUZE_COUNT, 1);
    expect("cache_len", hillgauze_shared_cache_len(flow), HILLGAUZE_COUNT, 1);
    expect("cache_at", hillgauze_shared_cache_at(flow, 0), HILLGAUZE_VALUE, 11);
    expect("reset", hillgauze_shared_reset(flow), HILLGAUZE_DONE, 0);
    expect("free", hillgauze_shared_free(flow), HILLGAUZE_DONE, 0);
}

static void lane_without_memory(hillgauze_sequencer *sequencer, hillgauze_reader *reader) {
    uint64_t value = 0;
    expect("try_emit", hillgauze_lane_try_emit(sequencer, 0, 10), HILLGAUZE_ACCEPTED, 0);
    expect("start_emit", hillgauze_lane_start_emit(sequencer, 0, 11), HILLGAUZE_WAITING, 0);
    expect("start_emit", hillgauze_lane_start_emit(sequencer, 0, 12), HILLGAUZE_WAITING, 1);
    expect("cancel_emit", hillgauze_lane_cancel_emit(sequencer, 1), HILLGAUZE_REMOVED, 0);
    expect("try_next", hillgauze_reader_try_next(reader), HILLGAUZE_VALUE, 10);
    expect("scan", hillgauze_lane_scan(sequencer), HILLGAUZE_COUNT, 1);
    expect("poll_emit", hillgauze_lane_poll_emit(sequencer, 0), HILLGAUZE_DONE, 1);
    expect("try_next_all", hillgauze_reader_try_next_all(reader, &value, 1), HILLGAUZE_COUNT, 1);
    expect("try_emit_all", hillgauze_lane_try_emit_all(sequencer, 0, &value, 1), HILLGAUZE_COUNT, 1);
    expect("count", hillgauze_lane_count(sequencer), HILLGAUZE_COUNT, 1);
    expect("cache_len", hillgauze_lane_cache_len(sequencer), HILLGAUZE_COUNT, 1);
    expect("cache_at", hillgauze_lane_cache_at(sequencer, 0), HILLGAUZE_VALUE, 11);
    expect("reset", hillgauze_lane_reset(sequencer), HILLGAUZE_DONE, 0);
    expect("free", hillgauze_lane_free(sequencer), HILLGAUZE_DONE, 0);
    expect("start", hillgauze_reader_start(reader), HILLGAUZE_COUNT, 0);
    expect("received", hillgauze_reader_received(reader), HILLGAUZE_COUNT, 2);
    expect("dropped", hillgauze_reader_dropped(reader), HILLGAUZE_COUNT, 0);
    expect("close", hillgauze_reader_close(reader), HILLGAUZE_DONE, 0);
}

static void state_without_memory(hillgauze_state *seat, hillgauze_state *other) {
    hillgauze_collector collector = HILLGAUZE_NULL;
    expect("set", hillgauze_state_set(seat, 1), HILLGAUZE_DONE, 0);
    expect("compare_and_set", hillgauze_state_compare_and_set(seat, 1, 2), HILLGAUZE_DONE, 0);
    expect("collect", hillgauze_state_collect(other, &collector), HILLGAUZE_DONE, 0);
    expect("try_next", hillgauze_collector_try_next(&collector), HILLGAUZE_VALUE, 2);
    expect("collectors", hillgauze_state_collectors(seat), HILLGAUZE_COUNT, 1);
    expect("cancel", hillgauze_collector_cancel(&collector, other), HILLGAUZE_DONE, 0);
    expect("give_back", hillgauze_state_give_back(seat, other), HILLGAUZE_DONE, 0);
    expect("spare", hillgauze_state_spare(seat), HILLGAUZE_COUNT, 1);
    expect("value", hillgauze_state_value(seat), HILLGAUZE_VALUE, 2);
    expect("collect", hillgauze_state_collect(seat, &collector), HILLGAUZE_DONE, 0);
    expect("free", hillgauze_collector_free(&collector), HILLGAUZE_DONE, 0);
}

/* The other forty-four calls do without memory. */
static void without_memory(void) {
    struct flows flows = {.flow = HILLGAUZE_NULL};
    hillgauze_state alone = HILLGAUZE_NULL;
    hillgauze_config config = flow_config(1, 0, 2);
    refuse_none();
    expect("shared_new", hillgauze_shared_new(&flows.flow, &config), HILLGAUZE_DONE, 0);
    expect("lane_new", hillgauze_lane_new(&flows.sequencer, &config), HILLGAUZE_DONE, 0);
    expect("lane_admit", hillgauze_lane_admit(&flows.sequencer, &flows.reader), HILLGAUZE_DONE, 0);
    expect("state_new", hillgauze_state_new(&flows.seat, 0, 2), HILLGAUZE_DONE, 0);
    expect("take_seat", hillgauze_state_take_seat(&flows.seat, 0, &flows.other), HILLGAUZE_DONE, 0);
    expect("state_new", hillgauze_state_new(&alone, 0, 1), HILLGAUZE_DONE, 0);
    refuse_all();
    shared_without_memory(&flows.flow);
    lane_without_memory(&flows.sequencer, &flows.reader);
    state_without_memory(&flows.seat, &flows.other);
    expect("free", hillgauze_state_free(&alone), HILLGAUZE_DONE, 0);
    expect_that(requests == 0, "the other calls", "none asked for memory");
    expect_that(blocks == 0, "the other calls", "each block of memory was given back");
}

int main(void) {
    struct flows flows;
    begin(&flows);
    for (int i = 0; i < MAKINGS; i++) {
        refuse_each(&flows, &makings[i]);
    }
    order_of_refusals(&flows);
    end(&flows);
    number_of_a_reader();
    expect_that(blocks == 0, "number_of_a_reader", "each block of memory was given back");
    without_memory();
    return 0;
}
