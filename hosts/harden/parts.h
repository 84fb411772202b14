/*
 * parts.h: the three parts of a table that a call is lent, and what a call may change in them. For tables.c and lines.c: see calls.h.
 */
#ifndef POOL_PARTS_H
#define POOL_PARTS_H

#include <stdbool.h>

#include "watch.h"

/* Stages of a table. */
enum { OPEN = 0, CLOSED = 1 };

/* The parts of a table that a call may change. */
enum { BYTES = 1, SLOTS = 2, ELEMENTS = 4 };

/* The numbers of the buffers that hold a table. */
struct lent_table {
    int bytes, slots, elements;
};

#define LENT_SLOTS(k) (void *)lents[k].at, lents[k].len / SLOT_BYTES
#define LENT_ELEMENTS(k) (void *)lents[k].at, lents[k].len / 4
#define LENT_TABLE(t) LENT((t).bytes), LENT_SLOTS((t).slots), LENT_ELEMENTS((t).elements)

struct lent_table lend_table(const struct table *table, size_t extra);

/* How many entries the column at this place of a sheet has, how many of them are published, and where the next one begins. */
struct entries {
    size_t all, published;
    const uint8_t *next;
};
struct entries entries_at(const uint8_t *column);

/* Slot k as it is lent now. */
pool_slot lent_slot(struct lent_table t, size_t k);

bool all_zero(const uint8_t *at, size_t len);

/* The length of a slot's place in the elements, in bytes; the table was taken as sound. */
size_t place_bytes(const struct table *table);

/* The first slot in which the id waits, or, for no id, the first that is free. */
size_t slot_with(const struct table *table, const uint32_t *id);

/* In a lent buffer only the bytes from `from`, so many, differ from what they were. */
void kept_around(int k, size_t from, size_t len);

/* Of the slots and elements only those of slot k differ. */
void kept_others(struct lent_table t, const struct table *was, size_t k);

/* After a round: the slot of the return, which awaited the stage `from`, awaits `to`, and has the same r and s. */
void check_moved(struct lent_table t, const struct table *was, uint32_t id, uint32_t from, uint32_t to);

/*
 * After a decision: slot and place are 0, the id is noted, and the counts have grown. Where the return was entered, the published
 * entries of its share, and nothing else, are added to the totals.
 */
void check_decided(struct lent_table t, const struct table *was, uint32_t id, bool entered);

/* Takes over the parts that a call may change, where it is done; all others are as they were. */
void take_table(struct lent_table t, uint32_t answer, unsigned changes, struct table *table);

#endif
