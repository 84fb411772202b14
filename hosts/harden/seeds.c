/* seeds.c: see seeds.h. */
#include "seeds.h"

#include <stdbool.h>
#include <string.h>

#include "watch.h"

_Static_assert(POOL_MAX_SEEDS_BYTES == POOL_SEEDS_BYTES(POOL_MAX_SERVERS), "the most bytes of seeds");
_Static_assert(POOL_MAX_MAKE_SEEDED_BYTES == POOL_MAKE_SEEDED_BYTES(POOL_MAX_SERVERS, POOL_MAX_SHARE_BYTES), "the most bytes made");

void seed_message(struct run *to, uint32_t id, uint32_t server, const uint8_t *seed)
{
    to->len = 0;
    append(to, (const uint8_t[]){KIND_SEED, 0, 0, 0, 0, (uint8_t)server}, ELEMENTS_AT);
    put_u32(to->at + 1, id);
    append(to, seed, POOL_SEED_BYTES);
}

void spoil_seed(struct run *message, uint32_t own, size_t share_bytes)
{
    uint32_t len = (uint32_t)message->len;
    switch (random_below(6)) {
    case 0:
        message->len -= 1 + random_below(len);
        break;
    case 1:
        message->len += 1 + random_below(40);
        random_fill(message->at + len, message->len - len);
        break;
    case 2: /* elements under the kind byte of a seed */
        message->len = share_bytes;
        memset(message->at + ELEMENTS_AT, 0, share_bytes - ELEMENTS_AT);
        break;
    case 3:
        message->at[0] = random_below(2) ? KIND_SHARE : (uint8_t)(KIND_SEED + 1 + random_below(255));
        break;
    case 4:
        message->at[SERVER_AT] = (uint8_t)(own + 1 + random_below(255));
        break;
    default:
        message->at[SERVER_AT] = 0;
        break;
    }
}

static bool is_seed(const struct run *message)
{
    return message->len == POOL_SEED_MESSAGE_BYTES && message->at[0] == KIND_SEED;
}

const uint8_t *elements_of(const struct run *message, size_t count)
{
    static uint8_t elements[POOL_MAX_SHARE_BYTES];
    if (!is_seed(message))
        return message->at + ELEMENTS_AT;
    seed_elements(message->at + ELEMENTS_AT, message->at + 1, count, elements);
    return elements;
}

static bool below_prime(const uint8_t *elements, size_t len)
{
    for (size_t at = 0; at < len; at += 4)
        if (get_u32(elements + at) >= POOL_PRIME)
            return false;
    return true;
}

void check_message(const struct table *was, const struct run *message, uint32_t answer)
{
    const uint8_t *at = was->bytes.at, *m = message->at;
    struct sheet_sizes sizes;
    if (answer == POOL_STAGE || answer == POOL_FULL)
        return;
    if (sizes_of(at + HEADER, get_u16(at + SHEET_LEN_AT), &sizes) != 0)
        fail("a table without a sheet was taken as sound");
    bool share = message->len == sizes.share_bytes && m[0] == KIND_SHARE;
    bool sound = (share || (is_seed(message) && m[SERVER_AT] != 0)) && m[SERVER_AT] == at[OWN_AT];
    if (sound == (answer == POOL_SHARE))
        fail("a message of the wrong kind, length or server is taken, or a sound one is refused 7");
    if (sound && (share && !below_prime(m + ELEMENTS_AT, message->len - ELEMENTS_AT)) != (answer == POOL_ELEMENT))
        fail("an element that is not below p is taken, or sound ones or a seed are refused 8");
}

/* The messages that were made: server 0's share, then the seeds of the others. */
static void check_made(uint32_t servers, uint32_t id, const struct run *seeds, size_t share_bytes, const struct run *out)
{
    static struct run want;
    const uint8_t *m = out->at;
    if (m[0] != KIND_SHARE || get_u32(m + 1) != id || m[SERVER_AT] != 0 ||
        !below_prime(m + ELEMENTS_AT, share_bytes - ELEMENTS_AT))
        fail("server 0's message of a return made from seeds");
    m += share_bytes;
    for (uint32_t i = 1; i < servers; i++, m += POOL_SEED_MESSAGE_BYTES) {
        seed_message(&want, id, i, seeds->at + (i - 1) * POOL_SEED_BYTES);
        if (memcmp(m, want.at, want.len) != 0)
            fail("a seed message");
    }
}

void check_seeded(const struct run *sheet, uint32_t servers, uint32_t id, const struct run *random, const struct run *seeds,
                  size_t room, uint32_t answer, const struct run *out)
{
    struct sheet_sizes sizes;
    if (answer == POOL_KIND || answer == POOL_LIMIT || answer == POOL_VALUE)
        return;
    if (sizes_of(sheet->at, sheet->len, &sizes) != 0 || servers < POOL_MIN_SERVERS || servers > POOL_MAX_SERVERS)
        fail("a return is made without a sheet, or for too few or too many servers");
    size_t need = POOL_MAKE_SEEDED_BYTES(servers, sizes.share_bytes);
    bool sound = random->len == POOL_SEEDED_RANDOM_BYTES && below_prime(random->at, random->len) &&
                 seeds->len == POOL_SEEDS_BYTES(servers);
    if (answer != (!sound ? POOL_RANDOM : room < need ? POOL_ROOM : POOL_DONE))
        fail("wrong elements or seeds are taken, or sound ones are refused");
    if (answer != POOL_DONE)
        return;
    if (out->len != need)
        fail("a length that the header does not give");
    check_made(servers, id, seeds, sizes.share_bytes, out);
}
