/*
 * A chat between threads: members come, say what they have to say, hear each other, and leave while others go on. The
 * room ends once nobody is left who may speak. Who waits sleeps, by hillgauze_wait.h.
 *
 * Several threads emit, and a lane has one sequencer, which therefore lies behind a lock. Who emits may hold that while
 * it waits for room, since who hears makes room without it.
 */
#define _GNU_SOURCE
#include "hillgauze_wait.h"

#include <pthread.h>
#include <stdio.h>
#include <stdlib.h>
#include <string.h>

#define CHECK(holds) ((holds) ? (void)0 : (fprintf(stderr, "line %d: " #holds "\n", __LINE__), exit(1)))

enum { MEMBERS = 3, TEXTS = 3, LINES = TEXTS + 2, ALL = MEMBERS * LINES };

/* What travels is where a line lies. It is written before it is emitted, so who receives it finds it whole. */
struct line {
    const struct member *from;
    int leaves;
    char text[64];
};

struct room {
    pthread_mutex_t lock; /* of the sequencer, and of the count of those who may still speak */
    hillgauze_sequencer sequencer;
    int speakers;
    hillgauze_bells bells;
};

struct member {
    struct room *room;
    const char *name;
    const char *texts[TEXTS];
    int leaves; /* after its last word; else it hears to the end */
    pthread_t thread;
    hillgauze_reader reader;
    uint64_t first; /* the number of the first line that it hears */
    const struct line *heard[ALL];
    int count;
    struct line said[LINES];
    int spoken;
};

static void enter(struct room *room, hillgauze_reader *reader) {
    pthread_mutex_lock(&room->lock);
    CHECK(hillgauze_lane_admit(&room->sequencer, reader).kind == HILLGAUZE_DONE);
    pthread_mutex_unlock(&room->lock);
}

/* One who may speak more or less; the last one who falls silent ends the room. */
static void may_speak(struct room *room) {
    pthread_mutex_lock(&room->lock);
    room->speakers++;
    pthread_mutex_unlock(&room->lock);
}

static void fall_silent(struct room *room) {
    pthread_mutex_lock(&room->lock);
    if (--room->speakers == 0) {
        hillgauze_lane_free(&room->sequencer);
        hillgauze_tell_end(&room->bells);
    }
    pthread_mutex_unlock(&room->lock);
}

static void say(struct member *member, const char *text, int leaves) {
    struct room *room = member->room;
    struct line *line = &member->said[member->spoken++];
    line->from = member;
    line->leaves = leaves;
    snprintf(line->text, sizeof line->text, "%s %s", member->name, text);
    pthread_mutex_lock(&room->lock);
    CHECK(hillgauze_lane_emit(&room->sequencer, &room->bells, 0, (uintptr_t)line, HILLGAUZE_FOREVER).kind ==
          HILLGAUZE_ACCEPTED);
    pthread_mutex_unlock(&room->lock);
}

/* The next line, or none where the room has ended. */
static const struct line *next_line(struct room *room, hillgauze_reader *reader) {
    hillgauze_reply next = hillgauze_reader_next(reader, &room->bells, HILLGAUZE_FOREVER);
    CHECK(next.kind == HILLGAUZE_VALUE || next.kind == HILLGAUZE_CLOSED);
    return next.kind == HILLGAUZE_VALUE ? (const struct line *)(uintptr_t)next.word : NULL;
}

static void *hear(void *given) {
    struct member *member = given;
    const struct line *line;
    while ((line = next_line(member->room, &member->reader)) != NULL) {
        member->heard[member->count++] = line;
        if (line->leaves && line->from == member)
            break;
    }
    hillgauze_reader_leave(&member->reader, &member->room->bells);
    return NULL;
}

/* Speaks on this thread and hears on another: who did both on one could wait for room that it has to make itself. */
static void *take_part(void *given) {
    struct member *member = given;
    pthread_t hearing;
    enter(member->room, &member->reader);
    member->first = hillgauze_reader_start(&member->reader).word;
    CHECK(pthread_create(&hearing, NULL, hear, member) == 0);
    say(member, "comes", 0);
    for (int index = 0; index < TEXTS && member->texts[index]; index++)
        say(member, member->texts[index], 0);
    if (member->leaves)
        say(member, "leaves", 1);
    fall_silent(member->room);
    CHECK(pthread_join(hearing, NULL) == 0);
    return NULL;
}

static void let_in(struct member *member) {
    may_speak(member->room);
    CHECK(pthread_create(&member->thread, NULL, take_part, member) == 0);
}

int main(void) {
    static struct room room = { .lock = PTHREAD_MUTEX_INITIALIZER, .bells = HILLGAUZE_BELLS_NEW };
    static struct member members[MEMBERS] = {
        { .room = &room, .name = "Ada", .texts = { "says hello", "asks who is there", "thinks" } },
        { .room = &room, .name = "Grace", .texts = { "greets", "found a moth" }, .leaves = 1 },
        { .room = &room, .name = "Emmy", .texts = { "is late", "asks what she missed" } },
    };
    /* Who comes hears the last two lines first. */
    hillgauze_config config = { .replay = 2, .extra = 2, .policy = HILLGAUZE_SUSPEND, .subscribers = 4, .emits = 1 };
    hillgauze_reader minutes = HILLGAUZE_NULL;
    const struct line *said[ALL], *line;
    int count = 0;

    CHECK(hillgauze_lane_new(&room.sequencer, &config).kind == HILLGAUZE_DONE);
    enter(&room, &minutes);
    may_speak(&room); /* keeps the room open for who comes later */
    let_in(&members[0]);
    let_in(&members[1]);
    while ((line = next_line(&room, &minutes)) != NULL) {
        printf("%s\n", line->text);
        said[count++] = line;
        if (line->leaves && line->from == &members[1]) {
            let_in(&members[2]);
            fall_silent(&room);
        }
    }
    hillgauze_reader_leave(&minutes, &room.bells);
    for (struct member *member = members; member < members + MEMBERS; member++) {
        CHECK(pthread_join(member->thread, NULL) == 0);
        CHECK(member->first + (uint64_t)member->count <= (uint64_t)count);
        CHECK(memcmp(member->heard, said + member->first, sizeof *said * (size_t)member->count) == 0);
        printf("%s heard lines %d to %d\n", member->name, (int)member->first + 1, (int)member->first + member->count);
    }
    return 0;
}
