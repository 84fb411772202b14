/*
 * runs.h: runs that the driver and the fuzzer hand in: copies, and the joined messages of a round, in any order and with
 * faults. Also what a call must answer by what stands in a table.
 */
#ifndef POOL_RUNS_H
#define POOL_RUNS_H

#include "calls.h"

/* A round message: its kind in byte 0, the id, the server in byte 5, elements: d, e, r and s, or sigma and tau. */
enum { KIND_ONE = 34, KIND_TWO = 35, SERVER_AT = 5, D_AT = 6, E_AT = 10, R_AT = 14, S_AT = 18 };

/* The kind of a totals message, in byte 0; the server in byte 1, the count, the totals. */
enum { KIND_TOTALS = 36 };

/* The length of a round message of this kind. */
size_t round_bytes(uint8_t kind);

/* Places in the bytes of a table: the layout stands at the head of crates/rules/specs/Table.antt. */
enum { STAGE_AT = 1, SERVERS_AT = 2, OWN_AT = 3, RETURNS_AT = 4, DECIDED_AT = 6, ENTERED_AT = 8, LEAST_AT = 10 };
enum { SHEET_LEN_AT = 12, HEADER = 14 };

void copy(struct run *to, const struct run *from);
void copy_table(struct table *to, const struct table *from);
void append(struct run *to, const uint8_t *bytes, size_t len);

/* Joins the messages of a round, which stand in server order in `messages`, in a random order. */
void join_shuffled(struct run *to, uint8_t kind, const uint8_t *messages, uint32_t servers);

/* Puts a fault into the joined messages of a round, so that server `own` must refuse them with 12. */
void spoil(struct run *joined, uint8_t kind, uint32_t servers, uint32_t own);

/* Gives another server another r or s, or both, in joined messages of round one: server `own` must refuse sound ones with 16. */
void set_apart(struct run *joined, uint32_t servers, uint32_t own);

/*
 * Check the answer of a round, on a table as it was before the call. Where it is not refused 11, it is refused 12 unless the run
 * has one message of each server, sound and of this round and id. In round one it is refused 12 only there, or where the own
 * message has not the d, e, r and s of the slot; then 16 exactly where the messages have not one r and one s; then 14.
 */
void check_round_one(const struct table *was, uint32_t id, const struct run *joined, size_t room, uint32_t answer);
void check_round_two(const struct table *was, uint32_t id, const struct run *joined, uint32_t answer);

/* A new table has this N and this least count, from 1 to N. */
void check_opened(const struct table *now, uint32_t returns, uint32_t least);

/* Every call refuses a table 11 whose least count is not from 1 to N, or in which a slot has a stage that there is not. */
void check_limits(const struct table *was, uint32_t answer);

/* A close that is not refused 11: none waits; it is refused 15 exactly where fewer than the least count are entered, then 14. */
void check_close(const struct table *was, size_t room, uint32_t answer);

#endif
