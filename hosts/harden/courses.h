/* courses.h: the returns that are under way in the pool that is being played. For servers.c and tries.c. */
#ifndef POOL_COURSES_H
#define POOL_COURSES_H

#include <stdbool.h>

#include "driver.h"

enum { NOT_YET, AWAITS_ONE, AWAITS_TWO, AWAITS_ENTRY, ENDED }; /* where a return is at a server */
#define KIND_OF(round) ((round) == AWAITS_ONE ? KIND_ONE : KIND_TWO) /* of the messages that it awaits */

/*
 * What becomes of a return: DROP_ONE and DROP_TWO are dropped before that round, DROP_ENTRY once accepted, at some servers before
 * their verdict; SLIPPED has different pairs at the servers. Only HONEST ones and those of ALTERED and PAST_TOP that keep their form
 * are entered.
 */
enum conduct { HONEST, ALTERED, PAST_TOP, DROP_ONE, DROP_TWO, DROP_ENTRY, SLIPPED };

/* A return: what its workshop sent, how far it is at each server, and what the servers wrote for it. */
extern struct course {
    uint32_t id;
    enum conduct conduct;
    uint32_t accepted; /* what the verdict must be */
    uint32_t sums[POOL_MAX_ENTRIES];
    uint8_t shares[POOL_MAX_MAKE_BYTES];
    uint8_t seeds[POOL_MAX_SEEDS_BYTES]; /* of servers 1 to S - 1: they stand for the same shares */
    bool seeded[POOL_MAX_SERVERS];       /* which servers get the seed */
    struct pair {
        uint64_t r, s;
    } pairs[POOL_MAX_SERVERS];
    uint8_t at[POOL_MAX_SERVERS];
    uint8_t ones[POOL_MAX_SERVERS * POOL_ROUND_ONE_BYTES], twos[POOL_MAX_SERVERS * POOL_ROUND_TWO_BYTES];
} courses[MOST_RETURNS];
extern uint32_t course_count;

/* The least stage that a return has at any server. */
uint8_t least_stage(const struct course *c);

/* What a round one with the messages of all servers answers. */
uint32_t round_answer(const struct course *c);

/*
 * The share of a return for server i, as elements or as a seed, or its messages of a round in any order: zeros for those that are
 * not yet written.
 */
void message_of(const struct course *c, uint32_t i, int round, struct run *message);

/* tries.c: calls on copies of the table of server i that must be refused, and what a share must come to there. */
void refused_shares(uint32_t i);
void damaged_seeds(uint32_t i);
void refused_calls(uint32_t i);

/* Other orders and faults in the messages of a return, where they are all there for the round that it awaits at server i. */
void other_orders(uint32_t i);

#endif
