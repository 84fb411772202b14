/*
 * calls.h: the C functions of the pool, each called on buffers of exactly the lent size and watched.
 *
 * A call fails the run where it touches a byte outside the buffers, changes what it was only lent to read, answers
 * with a refusal that its place in pool.h does not name, changes anything although it is refused, changes a byte past
 * what it says to have written, changes another return in a table than the one that it is on, changes more than its stage at an
 * accepted verdict, leaves anything of a return in the slot and the place of one that it decides, adds anything but the published
 * entries of one that it enters to the totals, takes or refuses the messages of a round wrongly (check_round), takes a table whose
 * least count or stages are out of their range (check_limits), closes or refuses to close wrongly (check_close), or gives another line
 * or refusal than the totals that it is handed have (check_line), takes or refuses a message of a workshop wrongly (check_message), or
 * makes other messages from seeds than it must (check_seeded).
 *
 * Memory outside is watched in one of two ways. GUARDED: a buffer ends right before, or begins right after, a page that
 * can not be touched. HEAP: a buffer is a block of malloc, for valgrind and for the sanitizers' own malloc. The library
 * is compiled without a sanitizer's checks, so that a sanitizer sees of it only its calls of memcpy and the like: what
 * the library itself touches is caught by the guarded pages and by valgrind.
 */
#ifndef POOL_CALLS_H
#define POOL_CALLS_H

#include "pool.h"

/* More than any call needs, for sheets, circuits and runs that are too long. */
enum { RUN_BYTES = POOL_MAX_SHELF_BYTES + 2000 };

/* A run of bytes that the driver owns. Calls work on copies. */
struct run {
    size_t len;
    uint8_t at[RUN_BYTES];
};

/* What pool_sizes tells of a sheet. */
struct sheet_sizes {
    uint32_t columns, entries, published, wires, multiplications, tests, circuit_bytes, share_bytes, greatest_returns;
};

struct circuit_counts {
    uint32_t wires, multiplications, tests;
};

/* A line, and the three numbers that pool_line gives. */
struct line {
    int64_t determinant, slope, intercept;
};

/* The three parts of a table, as they lie in memory: slots of 40 bytes each, numbers of 4 bytes each. */
enum { SLOT_BYTES = sizeof(pool_slot), SLOTS_BYTES = POOL_SLOTS * SLOT_BYTES };
struct table {
    struct run bytes, slots, elements;
};

/* How many bytes, slots and numbers a table is opened in. */
struct rooms {
    size_t bytes, slots, elements;
};

enum lending { GUARDED, HEAP };

/* To be called once, before any call. */
void calls_start(enum lending how);

/* What to print where a check fails, beside the call's name. */
extern char calls_note[128];

/* Random numbers of the driver, from a seed. */
void seed_random(uint64_t seed);
uint64_t random64(void);
uint32_t random_below(uint32_t limit);
void random_fill(uint8_t *at, size_t len);

/* Numbers in a run, lowest byte first. */
void put_u32(uint8_t *at, uint32_t x);
uint32_t get_u32(const uint8_t *at);
void put_u16(uint8_t *at, uint32_t x);
uint32_t get_u16(const uint8_t *at);

/*
 * The calls. `room` is the length of the output buffer, `extra` how many bytes follow the bytes of a table in its buffer, and
 * how many numbers its elements. Results are set only where a call is done: a table is then the one after the call, an
 * output run what was written.
 */
uint32_t call_sizes(const struct run *sheet, struct sheet_sizes *sizes);
uint32_t call_circuit(const struct run *sheet, size_t room, struct run *out);
uint32_t call_read_circuit(uint32_t entries, const struct run *circuit, struct circuit_counts *counts);
uint32_t call_every_return(const struct run *sheet, size_t room, uint32_t *lists, struct run *out);
uint32_t call_make(const struct run *sheet, uint32_t servers, uint32_t id, const struct run *values,
                   const struct run *random, size_t room, struct run *out);
uint32_t call_make_seeded(const struct run *sheet, uint32_t servers, uint32_t id, const struct run *values,
                          const struct run *random, const struct run *seeds, size_t room, struct run *out);
uint32_t call_open(uint32_t servers, uint32_t own, const struct run *sheet, uint32_t returns, uint32_t least,
                   struct rooms rooms, struct table *table);
uint32_t call_share(struct table *table, size_t extra, const struct run *message, uint64_t r, uint64_t s, size_t room,
                    struct run *out);
uint32_t call_round_one(struct table *table, size_t extra, uint32_t id, const struct run *joined, size_t room,
                        struct run *out);
uint32_t call_round_two(struct table *table, size_t extra, uint32_t id, const struct run *joined, uint32_t *accepted);
uint32_t call_enter(struct table *table, size_t extra, uint32_t id);
uint32_t call_drop(struct table *table, size_t extra, uint32_t id);
uint32_t call_close(struct table *table, size_t extra, size_t room, struct run *out);
uint32_t call_state(struct table *table, size_t extra);
uint32_t call_join(uint32_t servers, const struct run *sheet, uint32_t returns, const struct run *joined, size_t room,
                   uint32_t *accepted, struct run *out);
uint32_t call_line(uint32_t servers, const struct run *sheet, uint32_t returns, const struct run *joined, uint32_t column,
                   struct line *line);
uint32_t call_shelve(uint32_t messages, uint32_t width, const struct run *run, size_t room, struct run *out);
uint32_t call_unshelve(uint32_t messages, uint32_t width, const struct run *run, size_t room, struct run *out);

/* Slot k of a table; a table that calls have made has eight. */
pool_slot slot_of(const struct table *table, size_t k);

/* In a table that calls have made, a slot that is free and its place are all 0. */
void check_free(const struct table *table);

/* Fails the run. */
_Noreturn void fail(const char *why);

#endif
