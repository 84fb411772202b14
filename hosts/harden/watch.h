/*
 * watch.h: lends buffers to one call at a time and checks them afterwards. For calls.c and tables.c: see calls.h.
 */
#ifndef POOL_WATCH_H
#define POOL_WATCH_H

#include "calls.h"

enum { MOST_LENT = 6 };

/* The buffers that the call under way was lent, numbered in the order in which they were. */
extern struct lent {
    uint8_t *at;
    size_t len;
    const struct run *was; /* NULL: filler only */
    size_t extra;          /* filler after the run */
} lents[MOST_LENT];
#define LENT(k) lents[k].at, lents[k].len

void start_call(const char *name);
uint32_t end_call(uint32_t answer);

/* Lend a copy of a run, one with filler after it, or filler only. Each gives the buffer's number. */
int lend(const struct run *run);
int lend_both(const struct run *run, size_t extra);
int lend_room(size_t room);

/* The whole buffer is as it was. */
void kept(int k);

/* The bytes of a buffer from `from` on are filler that began at `start`. */
void kept_filler(int k, size_t from, size_t start);

/* Results stand between words that must stay. */
struct result32 {
    uint32_t before, value, after;
};
struct result_size {
    size_t before, value, after;
};
struct result64 {
    int64_t before, value, after;
};
#define UNSET32 0x5eed5eedu
#define RESULT32 {UNSET32, UNSET32, UNSET32}
#define UNSET_SIZE ((size_t)0x5eed5eed5eed5eedu)
#define RESULT_SIZE {UNSET_SIZE, UNSET_SIZE, UNSET_SIZE}
#define UNSET64 INT64_C(0x5eed5eed5eed5eed)
#define RESULT64 {UNSET64, UNSET64, UNSET64}
void check32(const struct result32 *x, uint32_t answer);
void check_size(const struct result_size *x, uint32_t answer);
void check64(const struct result64 *x, uint32_t answer);

/* The answer is 0 or one of the refusals that the header names for the call. */
#define MAY(refusal) (UINT32_C(1) << (refusal))
#define SHEET (MAY(POOL_KIND) | MAY(POOL_LIMIT))
void answered(uint32_t answer, uint32_t allowed);

/* An output buffer after a call: what was written, or all as it was. */
void take(int k, const struct result_size *written, uint32_t answer, struct run *out);

uint32_t sizes_of(const uint8_t *sheet, size_t len, struct sheet_sizes *s);

#endif
