/*
 * The order between threads that the header promises: plain structs go from thread to thread, and nothing but the flows
 * orders who writes and who reads them. Where a promise weren't kept, that would be a race, and the thread sanitizer
 * tells it.
 *
 * The sanitizer sees the steps of a library that was compiled for it. Of one that wasn't it sees none: then the test
 * tells it of each promise (TELL), which shows that these programs need no more than what is promised, and nothing of
 * the library. TOO_EARLY has the emitter write a struct one emission before it may.
 */
#include "expect.h"

#include <pthread.h>
#include <sched.h>

#ifdef TELL
#include <sanitizer/tsan_interface.h>
/* A thread's last step before the first call of a promise, and its first after the second. Each promise has a byte. */
#define BEFORE(promise) __tsan_release(promise)
#define AFTER(promise) __tsan_acquire(promise)
#else
#define BEFORE(promise) ((void)(promise))
#define AFTER(promise) ((void)(promise))
#endif

enum { MOST_PLACES = 4, MOST_AT_ONCE = 3, READERS = 2, MANY = 10000, SETS = 10000, TURNS = 10000 };

/* What is passed on: nothing of it is atomic. */
struct parcel {
    uint64_t number;
    uint64_t square;
};

static void fill(struct parcel *parcel, uint64_t number) {
    parcel->number = number;
    parcel->square = number * number;
}

static void expect_parcel(const char *call, const struct parcel *parcel, uint64_t number) {
    expect_that(parcel->number == number && parcel->square == number * number, call, "the struct is the one sent");
}

static pthread_t start(void *(*work)(void *), void *place) {
    pthread_t thread;
    expect_that(pthread_create(&thread, NULL, work, place) == 0, "pthread_create", "the thread began");
    return thread;
}

static int is_kind(hillgauze_reply reply, uint32_t kind) { return reply.refusal == 0 && reply.kind == kind; }

/* ---- From the emitter to the readers, and back ---- */

/*
 * How many structs a lane needs with so many places, where a call emits or gives so many values at most. That an
 * emission was accepted says that each reader went on to ask for the value that had its place, so it is done with those
 * that came before by another call. Where a call has one value, that is two more than there are places, of which a lane
 * without any counts as one.
 */
static uint64_t slot_count(uint64_t places, uint64_t at_once) {
    uint64_t count = (places > 0 ? places : 1) + 2 * at_once;
#ifdef TOO_EARLY
    count -= 1;
#endif
    return count;
}

/* The structs, of which a lane uses the first ones over and over; and a byte for each promise. */
static struct parcel slots[MOST_PLACES + 2 * MOST_AT_ONCE];
static char emitted[MANY];
static char asked[READERS][MANY];

struct receiver {
    hillgauze_reader reader;
    int index;
    uint64_t slots;
};

/* Takes the index of each struct, and reads that one. */
static void *receive(void *place) {
    struct receiver *receiver = place;
    for (uint64_t wanted = 0; wanted < MANY;) {
        BEFORE(&asked[receiver->index][wanted]);
        hillgauze_reply reply = hillgauze_reader_try_next(&receiver->reader);
        if (is_kind(reply, HILLGAUZE_NOTHING)) {
            sched_yield();
            continue;
        }
        expect("try_next", reply, HILLGAUZE_VALUE, wanted % receiver->slots);
        AFTER(&emitted[wanted]);
        expect_parcel("try_next", &slots[reply.word], wanted);
        wanted += 1;
    }
    return NULL;
}

/* Emits by a try, until there is room. */
static void try_until_accepted(hillgauze_sequencer *sequencer, uint64_t number, uint64_t word) {
    hillgauze_reply reply = hillgauze_lane_try_emit(sequencer, 0, word);
    while (is_kind(reply, HILLGAUZE_FULL)) {
        sched_yield();
        reply = hillgauze_lane_try_emit(sequencer, 0, word);
    }
    expect("try_emit", reply, HILLGAUZE_ACCEPTED, number);
}

/* Begins an emission, and has it accepted and asks for its end until it is done. */
static void start_until_done(hillgauze_sequencer *sequencer, uint64_t number, uint64_t word) {
    hillgauze_reply reply = hillgauze_lane_start_emit(sequencer, 0, word);
    if (!is_kind(reply, HILLGAUZE_WAITING)) {
        expect("start_emit", reply, HILLGAUZE_ACCEPTED, number);
        return;
    }
    uint64_t ticket = reply.word;
    for (reply = hillgauze_lane_poll_emit(sequencer, ticket); is_kind(reply, HILLGAUZE_WAITING);
         reply = hillgauze_lane_poll_emit(sequencer, ticket)) {
        sched_yield();
        hillgauze_lane_scan(sequencer);
    }
    expect("poll_emit", reply, HILLGAUZE_DONE, number);
}

/* The emitter fills each struct again as soon as it may. Each third emission is begun, where there are places. */
static void there_and_back(uint64_t places) {
    hillgauze_sequencer sequencer = HILLGAUZE_NULL;
    hillgauze_config config = {.extra = places, .subscribers = READERS, .emits = 1};
    struct receiver receivers[READERS];
    pthread_t threads[READERS];
    uint64_t count = slot_count(places, 1), lag = places > 0 ? places : 1;
    expect("lane_new", hillgauze_lane_new(&sequencer, &config), HILLGAUZE_DONE, 0);
    for (int i = 0; i < READERS; i++) {
        receivers[i] = (struct receiver){.reader = HILLGAUZE_NULL, .index = i, .slots = count};
        expect("lane_admit", hillgauze_lane_admit(&sequencer, &receivers[i].reader), HILLGAUZE_DONE, 0);
        threads[i] = start(receive, &receivers[i]);
    }
    for (uint64_t number = 0; number < MANY; number++) {
        fill(&slots[number % count], number);
        BEFORE(&emitted[number]);
        if (places == 0 || number % 3 == 0) {
            start_until_done(&sequencer, number, number % count);
        } else {
            try_until_accepted(&sequencer, number, number % count);
        }
        for (int i = 0; i < READERS && number >= lag; i++) {
            AFTER(&asked[i][number - lag]);
        }
    }
    for (int i = 0; i < READERS; i++) {
        pthread_join(threads[i], NULL);
        expect("close", hillgauze_reader_close(&receivers[i].reader), HILLGAUZE_DONE, 0);
    }
    expect("free", hillgauze_lane_free(&sequencer), HILLGAUZE_DONE, 0);
}

/* ---- The same by the block ---- */

/* Takes the indices of some structs at once, and reads those. */
static void *receive_blocks(void *place) {
    struct receiver *receiver = place;
    for (uint64_t wanted = 0, turn = 0; wanted < MANY; turn++) {
        uint64_t words[MOST_AT_ONCE] = {0}, room = turn % MOST_AT_ONCE + 1;
        for (uint64_t number = wanted; number < wanted + room && number < MANY; number++) {
            BEFORE(&asked[receiver->index][number]);
        }
        hillgauze_reply reply = hillgauze_reader_try_next_all(&receiver->reader, words, room);
        if (is_kind(reply, HILLGAUZE_NOTHING)) {
            sched_yield();
            continue;
        }
        expect("try_next_all", reply, HILLGAUZE_COUNT, reply.word);
        expect_that(1 <= reply.word && reply.word <= room, "try_next_all", "some came, and no more than there is room");
        for (uint64_t i = 0; i < reply.word; i++, wanted++) {
            expect_that(words[i] == wanted % receiver->slots, "try_next_all", "the values come in order");
            AFTER(&emitted[wanted]);
            expect_parcel("try_next_all", &slots[words[i]], wanted);
        }
    }
    return NULL;
}

/* The emitter fills some structs as soon as it may, and emits them at once. Those that aren't accepted it emits again. */
static void blocks_there_and_back(uint64_t places) {
    hillgauze_sequencer sequencer = HILLGAUZE_NULL;
    hillgauze_config config = {.extra = places, .subscribers = READERS, .emits = 1};
    struct receiver receivers[READERS];
    pthread_t threads[READERS];
    uint64_t count = slot_count(places, MOST_AT_ONCE), filled = 0;
    expect("lane_new", hillgauze_lane_new(&sequencer, &config), HILLGAUZE_DONE, 0);
    for (int i = 0; i < READERS; i++) {
        receivers[i] = (struct receiver){.reader = HILLGAUZE_NULL, .index = i, .slots = count};
        expect("lane_admit", hillgauze_lane_admit(&sequencer, &receivers[i].reader), HILLGAUZE_DONE, 0);
        threads[i] = start(receive_blocks, &receivers[i]);
    }
    for (uint64_t number = 0, turn = 0; number < MANY; turn++) {
        uint64_t words[MOST_AT_ONCE] = {0}, most = number + turn % MOST_AT_ONCE + 1;
        for (; filled < most && filled < MANY; filled++) {
            fill(&slots[filled % count], filled);
            BEFORE(&emitted[filled]);
        }
        for (uint64_t i = 0; i < filled - number; i++) {
            words[i] = (number + i) % count;
        }
        hillgauze_reply reply = hillgauze_lane_try_emit_all(&sequencer, 0, words, filled - number);
        expect("try_emit_all", reply, HILLGAUZE_COUNT, reply.word);
        expect_that(reply.word <= filled - number, "try_emit_all", "no more are accepted than there are");
        if (reply.word == 0) {
            sched_yield();
        }
        for (uint64_t accepted = number + reply.word; number < accepted; number++) {
            for (int i = 0; i < READERS && number >= places; i++) {
                AFTER(&asked[i][number - places]);
            }
        }
    }
    for (int i = 0; i < READERS; i++) {
        pthread_join(threads[i], NULL);
        expect("close", hillgauze_reader_close(&receivers[i].reader), HILLGAUZE_DONE, 0);
    }
    expect("free", hillgauze_lane_free(&sequencer), HILLGAUZE_DONE, 0);
}

/* ---- From a reader that is closed ---- */

static struct parcel left[3];
static char closed[3];

struct leaver {
    hillgauze_reader reader;
    int index;
};

/* Fills a struct, and closes the reader. */
static void *leave(void *place) {
    struct leaver *leaver = place;
    fill(&left[leaver->index], 7);
    BEFORE(&closed[leaver->index]);
    expect("close", hillgauze_reader_close(&leaver->reader), HILLGAUZE_DONE, 0);
    return NULL;
}

/* The sequencer finds one reader gone by a count, another by the place that it gives to the next, and one by room. */
static void closings(void) {
    hillgauze_sequencer sequencer = HILLGAUZE_NULL;
    hillgauze_config config = {.extra = 1, .subscribers = 1, .emits = 1};
    struct leaver leavers[3] = {{HILLGAUZE_NULL, 0}, {HILLGAUZE_NULL, 1}, {HILLGAUZE_NULL, 2}};
    pthread_t threads[3];
    expect("lane_new", hillgauze_lane_new(&sequencer, &config), HILLGAUZE_DONE, 0);
    expect("lane_admit", hillgauze_lane_admit(&sequencer, &leavers[0].reader), HILLGAUZE_DONE, 0);
    threads[0] = start(leave, &leavers[0]);
    while (hillgauze_lane_count(&sequencer).word != 0) {
        sched_yield();
    }
    AFTER(&closed[0]);
    expect_parcel("lane_count", &left[0], 7);

    hillgauze_reader next = HILLGAUZE_NULL;
    expect("lane_admit", hillgauze_lane_admit(&sequencer, &leavers[1].reader), HILLGAUZE_DONE, 0);
    threads[1] = start(leave, &leavers[1]);
    while (hillgauze_lane_admit(&sequencer, &next).refusal == HILLGAUZE_SUBSCRIBERS_FULL) {
        sched_yield();
    }
    AFTER(&closed[1]);
    expect_parcel("lane_admit", &left[1], 7);

    leavers[2].reader = next;
    expect("try_emit", hillgauze_lane_try_emit(&sequencer, 0, 1), HILLGAUZE_ACCEPTED, 0);
    threads[2] = start(leave, &leavers[2]);
    try_until_accepted(&sequencer, 1, 2);
    AFTER(&closed[2]);
    expect_parcel("try_emit", &left[2], 7);

    for (int i = 0; i < 3; i++) {
        pthread_join(threads[i], NULL);
    }
    expect("free", hillgauze_lane_free(&sequencer), HILLGAUZE_DONE, 0);
}

/* ---- From who sets a state to who finds the value ---- */

static struct parcel parcels[SETS + 1];
static char set[SETS + 1];

/* Fills each struct, and sets the state to its index. */
static void *set_all(void *place) {
    hillgauze_state *seat = place;
    for (uint64_t value = 1; value <= SETS; value++) {
        fill(&parcels[value], value);
        BEFORE(&set[value]);
        expect("set", hillgauze_state_set(seat, value), HILLGAUZE_DONE, 0);
    }
    return NULL;
}

/* Reads the structs of the values that it collects. */
static void *collect_all(void *place) {
    hillgauze_collector *collector = place;
    for (uint64_t value = 0; value < SETS;) {
        hillgauze_reply reply = hillgauze_collector_try_next(collector);
        if (is_kind(reply, HILLGAUZE_NOTHING)) {
            sched_yield();
            continue;
        }
        expect("try_next", reply, HILLGAUZE_VALUE, reply.word);
        value = reply.word;
        AFTER(&set[value]);
        expect_parcel("try_next", &parcels[value], value);
    }
    return NULL;
}

/* Reads the structs of the values that it finds, and of the one that was set before it. */
static void read_all(hillgauze_state *seat) {
    for (uint64_t value = 0; value < SETS;) {
        hillgauze_reply reply = hillgauze_state_value(seat);
        expect("value", reply, HILLGAUZE_VALUE, reply.word);
        value = reply.word;
        AFTER(&set[value]);
        expect_parcel("value", &parcels[value], value);
        expect_parcel("value", &parcels[value > 0 ? value - 1 : 0], value > 0 ? value - 1 : 0);
        sched_yield();
    }
}

/* One sets, one collects, and one reads. */
static void values(void) {
    hillgauze_state seat = HILLGAUZE_NULL, setting = HILLGAUZE_NULL, other = HILLGAUZE_NULL;
    hillgauze_collector collector = HILLGAUZE_NULL;
    expect("state_new", hillgauze_state_new(&seat, 0, 3), HILLGAUZE_DONE, 0);
    expect("take_seat", hillgauze_state_take_seat(&seat, 0, &setting), HILLGAUZE_DONE, 0);
    expect("take_seat", hillgauze_state_take_seat(&seat, 0, &other), HILLGAUZE_DONE, 0);
    expect("collect", hillgauze_state_collect(&other, &collector), HILLGAUZE_DONE, 0);
    pthread_t threads[2] = {start(set_all, &setting), start(collect_all, &collector)};
    read_all(&seat);
    pthread_join(threads[0], NULL);
    pthread_join(threads[1], NULL);
    expect("free", hillgauze_state_free(&seat), HILLGAUZE_DONE, 0);
    expect("free", hillgauze_state_free(&setting), HILLGAUZE_DONE, 0);
    expect("free", hillgauze_collector_free(&collector), HILLGAUZE_DONE, 0);
}

/* ---- From who left a value to who compared it ---- */

enum { FREE = 0, TAKEN = 1 };

static struct parcel counted;
static char freed;

/* Counts up, alone: the state is a lock. */
static void *count_up(void *place) {
    hillgauze_state *seat = place;
    for (int turn = 0; turn < TURNS; turn++) {
        while (is_kind(hillgauze_state_compare_and_set(seat, FREE, TAKEN), HILLGAUZE_UNEQUAL)) {
            sched_yield();
        }
        AFTER(&freed);
        fill(&counted, counted.number + 1);
        BEFORE(&freed);
        if (turn % 2 == 0) {
            expect("set", hillgauze_state_set(seat, FREE), HILLGAUZE_DONE, 0);
        } else {
            expect("compare_and_set", hillgauze_state_compare_and_set(seat, TAKEN, FREE), HILLGAUZE_DONE, 0);
        }
    }
    return NULL;
}

static void comparisons(void) {
    hillgauze_state seats[2] = {HILLGAUZE_NULL, HILLGAUZE_NULL};
    expect("state_new", hillgauze_state_new(&seats[0], FREE, 2), HILLGAUZE_DONE, 0);
    expect("take_seat", hillgauze_state_take_seat(&seats[0], 0, &seats[1]), HILLGAUZE_DONE, 0);
    pthread_t threads[2] = {start(count_up, &seats[0]), start(count_up, &seats[1])};
    for (int i = 0; i < 2; i++) {
        pthread_join(threads[i], NULL);
        expect("free", hillgauze_state_free(&seats[i]), HILLGAUZE_DONE, 0);
    }
    expect_parcel("compare_and_set", &counted, 2 * TURNS);
}

/* ---- From a collector that ended ---- */

static struct parcel collected[2];
static char ended[2];

struct ender {
    hillgauze_collector collector;
    int index;
};

/* Fills a struct, and ends the collecting: one is freed, and the other becomes a seat again. */
static void *end_collecting(void *place) {
    struct ender *ender = place;
    hillgauze_state seat = HILLGAUZE_NULL;
    fill(&collected[ender->index], 9);
    BEFORE(&ended[ender->index]);
    if (ender->index == 0) {
        expect("free", hillgauze_collector_free(&ender->collector), HILLGAUZE_DONE, 0);
    } else {
        expect("cancel", hillgauze_collector_cancel(&ender->collector, &seat), HILLGAUZE_DONE, 0);
        expect("free", hillgauze_state_free(&seat), HILLGAUZE_DONE, 0);
    }
    return NULL;
}

static void endings(void) {
    hillgauze_state seat = HILLGAUZE_NULL;
    struct ender enders[2] = {{HILLGAUZE_NULL, 0}, {HILLGAUZE_NULL, 1}};
    pthread_t threads[2];
    expect("state_new", hillgauze_state_new(&seat, 0, 3), HILLGAUZE_DONE, 0);
    for (int i = 0; i < 2; i++) {
        hillgauze_state other = HILLGAUZE_NULL;
        expect("take_seat", hillgauze_state_take_seat(&seat, 0, &other), HILLGAUZE_DONE, 0);
        expect("collect", hillgauze_state_collect(&other, &enders[i].collector), HILLGAUZE_DONE, 0);
    }
    for (int i = 0; i < 2; i++) {
        threads[i] = start(end_collecting, &enders[i]);
    }
    while (hillgauze_state_collectors(&seat).word != 0) {
        sched_yield();
    }
    for (int i = 0; i < 2; i++) {
        AFTER(&ended[i]);
        expect_parcel("collectors", &collected[i], 9);
        pthread_join(threads[i], NULL);
    }
    expect("free", hillgauze_state_free(&seat), HILLGAUZE_DONE, 0);
}

int main(void) {
    for (uint64_t places = 0; places <= MOST_PLACES; places += 2) {
        there_and_back(places);
    }
    for (uint64_t places = 1; places <= MOST_PLACES; places++) {
        blocks_there_and_back(places);
    }
    closings();
    values();
    comparisons();
    endings();
    puts("each struct was the one sent");
    return 0;
}
