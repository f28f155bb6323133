/* What the tests in C have in common: a reply is compared with the one that the header says. */
#ifndef EXPECT_H
#define EXPECT_H

#include "hillgauze.h"

#include <stdio.h>
#include <stdlib.h>

/* Ends the program, and says where, if the reply isn't this one. */
static void expect(const char *call, hillgauze_reply reply, uint32_t kind, uint64_t word) {
    if (reply.refusal != 0 || reply.kind != kind || reply.word != word) {
        fprintf(stderr, "%s: refusal %u, kind %u, word %llu; not kind %u, word %llu\n", call, (unsigned)reply.refusal,
                (unsigned)reply.kind, (unsigned long long)reply.word, (unsigned)kind, (unsigned long long)word);
        exit(1);
    }
}

/* The same of a fact that no reply says. */
static void expect_that(int holds, const char *call, const char *fact) {
    if (!holds) {
        fprintf(stderr, "%s: not so: %s\n", call, fact);
        exit(1);
    }
}

#endif
