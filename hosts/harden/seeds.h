/* seeds.h: seed messages that the driver and the fuzzer hand in, and what a call must answer to messages of a workshop. */
#ifndef POOL_SEEDS_H
#define POOL_SEEDS_H

#include "runs.h"
#include "stream.h"

/* Kinds of the messages of a workshop, in byte 0; the id, the server in byte 5, elements or a seed. */
enum { KIND_SHARE = 33, KIND_SEED = 38, ELEMENTS_AT = 6 };

/* The seed message for a server. */
void seed_message(struct run *to, uint32_t id, uint32_t server, const uint8_t *seed);

/* Puts a fault into a seed message for server `own`, which must refuse it with 7. */
void spoil_seed(struct run *message, uint32_t own, size_t share_bytes);

/* The elements of a share, so many: those in a share message, or those of a seed. They stay until the next call. */
const uint8_t *elements_of(const struct run *message, size_t count);

/*
 * Checks the answer of a share, on a table as it was before the call. Where it is not refused 11 or 13, it is refused 7 exactly where
 * the message is neither a share message nor a seed message for this server, or is one of a seed at server 0; then 8 exactly
 * where an element of a share message is not below p.
 */
void check_message(const struct table *was, const struct run *message, uint32_t answer);

/*
 * Checks the answer of making from seeds. Where the sheet, S and the values are sound, it is refused 6 exactly where there are not four
 * elements below p and S - 1 seeds, then 14 by the room; a message of each server is written, those from 1 on with their seeds.
 */
void check_seeded(const struct run *sheet, uint32_t servers, uint32_t id, const struct run *random, const struct run *seeds,
                  size_t room, uint32_t answer, const struct run *out);

#endif
