/*
 * secret.c: which branches and places in memory depend on a share's elements or on a seed, for valgrind. The element bytes of a
 * share message, and the seed in a seed message, are marked as undefined before pool_share has them, so that valgrind reports each
 * branch and each address that is worked out from them, in this call and in the later ones on the same table. Three returns are under
 * way; the last one comes to server 1 as a seed.
 *
 * Nothing is filtered. These reports are expected:
 *   - the check that an element is below p, of a share message and, in every call on a table, of the shares that wait
 *     and of the totals: for sound elements it always goes the same way;
 *   - in the rounds, the checks of the joined messages and the verdict, on numbers that the servers publish.
 * Working out the elements of a seed has none of its own: a word of the stream that is p becomes 0 without a branch.
 * Storing shares by place and bringing them back has none. Entering a return has none but those checks.
 * A report in arithmetic (a sum, product or reduction modulo p) shows that the time depends on a secret.
 *
 * The round messages are published, so they, and the slots with the same d and e, are marked as defined once they are
 * written. A return that is accepted must keep its share until it is entered or dropped. One that is decided must leave zeros in its
 * slot and its place, which valgrind knows as defined.
 */
#include <stdio.h>
#include <string.h>
#include <valgrind/memcheck.h>

#include "pool.h"
#include "stream.h"

enum { SERVERS = 2, RETURNS = 4, IDS = 3, SEEDED = IDS - 1 };

static const uint8_t sheet[] = {POOL_YES_NO, POOL_CHOICE, 3, POOL_NUMBER, 4, POOL_TOP, 200, 0, 0, 0, POOL_POINT, 4};
static const uint8_t values[] = {1, 0, 0, 0, 2, 0, 0, 0, 9, 0, 0, 0, 150, 0, 0, 0, 0xb5, 0, 0, 0};
static struct table {
    uint8_t bytes[POOL_MAX_TABLE_BYTES];
    size_t len;
    pool_slot slots[POOL_SLOTS];
    uint32_t elements[POOL_MAX_ELEMENTS];
} tables[SERVERS];
#define TABLE(t) (t)->bytes, (t)->len, (t)->slots, POOL_SLOTS, (t)->elements, POOL_MAX_ELEMENTS

static uint8_t shares[IDS][SERVERS * POOL_MAX_SHARE_BYTES], random_bytes[POOL_MAX_RANDOM_BYTES];
static uint8_t ones[IDS][SERVERS * POOL_ROUND_ONE_BYTES], twos[IDS][SERVERS * POOL_ROUND_TWO_BYTES];
static uint8_t stored[sizeof shares[0]], back[sizeof shares[0]];
static uint8_t seeds[POOL_SEEDS_BYTES(SERVERS)], seeded[SERVERS * POOL_MAX_SHARE_BYTES]; /* of the last return, made from seeds too */
static size_t share_len, random_len, written;

/* Makes the last return with the elements of a seed, and from the seed: server 0's share is the same. Not 0 where something failed. */
static uint32_t make_seeded(void)
{
    static const uint8_t id[4] = {SEEDED};
    uint32_t refused;
    for (size_t k = 0; k < sizeof seeds; k++)
        seeds[k] = (uint8_t)(k * 73 + 5);
    seed_elements(seeds, id, (share_len - 6) / 4, random_bytes + POOL_SEEDED_RANDOM_BYTES);
    refused = pool_make(sheet, sizeof sheet, SERVERS, SEEDED, values, sizeof values, random_bytes, random_len, shares[SEEDED],
                        sizeof shares[SEEDED], &written);
    refused |= pool_make_seeded(sheet, sizeof sheet, SERVERS, SEEDED, values, sizeof values, random_bytes,
                                POOL_SEEDED_RANDOM_BYTES, seeds, sizeof seeds, seeded, sizeof seeded, &written);
    return refused | (uint32_t)(memcmp(seeded, shares[SEEDED], share_len) != 0);
}

/* Not 0 where a call was refused. */
static uint32_t prepare(void)
{
    uint32_t columns, entries, published, wires, multiplications, tests, circuit_bytes, share_bytes, most, refused;
    refused = pool_sizes(sheet, sizeof sheet, &columns, &entries, &published, &wires, &multiplications, &tests,
                         &circuit_bytes, &share_bytes, &most);
    share_len = share_bytes;
    random_len = POOL_RANDOM_BYTES(SERVERS, share_bytes);
    for (size_t k = 0; k < random_len; k++)
        random_bytes[k] = (uint8_t)(k % 4 == 3 ? k % 127 : k * 167);
    for (uint32_t id = 0; id < SEEDED; id++)
        refused |= pool_make(sheet, sizeof sheet, SERVERS, id, values, sizeof values, random_bytes, random_len,
                             shares[id], sizeof shares[id], &written);
    refused |= make_seeded();
    for (uint32_t i = 0; i < SERVERS; i++) {
        struct table *t = &tables[i];
        refused |= pool_open(SERVERS, i, sheet, sizeof sheet, RETURNS, 1, t->bytes, sizeof t->bytes, t->slots,
                             POOL_SLOTS, t->elements, POOL_MAX_ELEMENTS, &t->len);
    }
    return refused;
}

/* Stores the shares, whose elements are secret, and brings them back. */
static uint32_t shelve(void)
{
    uint32_t refused;
    for (size_t i = 0; i < SERVERS; i++)
        (void)VALGRIND_MAKE_MEM_UNDEFINED(shares[0] + i * share_len + 6, share_len - 6);
    refused = pool_shelve(SERVERS, (uint32_t)share_len, shares[0], SERVERS * share_len, stored, sizeof stored, &written);
    refused |= pool_unshelve(SERVERS, (uint32_t)share_len, stored, written, back, sizeof back, &written);
    (void)VALGRIND_MAKE_MEM_DEFINED(shares[0], written);
    (void)VALGRIND_MAKE_MEM_DEFINED(back, written);
    return refused | (uint32_t)(memcmp(shares[0], back, written) != 0);
}

static void say(const char *call) { VALGRIND_PRINTF("secret: %s\n", call); }

/* Where the message of server i goes: round messages may stand in any order, and here it is the reverse one. */
static size_t place_of(size_t i, size_t bytes) { return (SERVERS - 1 - i) * bytes; }

/* Every server takes its share of a return, whose elements are secret; of the last one server 1 takes the seed. */
static uint32_t take_shares(uint32_t id)
{
    uint32_t refused = 0;
    for (size_t i = 0; i < SERVERS; i++) {
        int seed = id == SEEDED && i > 0;
        uint8_t *message = seed ? seeded + share_len : shares[id] + i * share_len, *out = ones[id] + place_of(i, POOL_ROUND_ONE_BYTES);
        size_t len = seed ? POOL_SEED_MESSAGE_BYTES : share_len;
        (void)VALGRIND_MAKE_MEM_UNDEFINED(message + 6, len - 6);
        refused |= pool_share(TABLE(&tables[i]), message, len, 123456789, 987654321, out, POOL_ROUND_ONE_BYTES, &written);
        (void)VALGRIND_MAKE_MEM_DEFINED(out, POOL_ROUND_ONE_BYTES);
        (void)VALGRIND_MAKE_MEM_DEFINED(tables[i].slots, sizeof tables[i].slots);
    }
    return refused;
}

static uint32_t round_one(uint32_t id)
{
    uint32_t refused = 0;
    for (size_t i = 0; i < SERVERS; i++) {
        uint8_t *out = twos[id] + place_of(i, POOL_ROUND_TWO_BYTES);
        refused |= pool_round_one(TABLE(&tables[i]), id, ones[id], sizeof ones[id], out, POOL_ROUND_TWO_BYTES, &written);
        (void)VALGRIND_MAKE_MEM_DEFINED(out, POOL_ROUND_TWO_BYTES);
        (void)VALGRIND_MAKE_MEM_DEFINED(tables[i].slots, sizeof tables[i].slots);
    }
    return refused;
}

/*
 * Whether anything is left at any server in slot k and its place: what is not 0, or not known to be. Of the slot, which was
 * marked as defined before, only what the deciding call itself worked out from elements can be not known.
 */
static uint32_t left(size_t k)
{
    static const uint8_t zeros[POOL_MAX_SHARE_BYTES + 8];
    size_t place = (share_len - 6) / 4 + 2;
    uint32_t found = 0;
    for (struct table *t = tables; t < tables + SERVERS; t++) {
        const uint32_t *at = t->elements + k * place;
        found |= VALGRIND_CHECK_MEM_IS_DEFINED(&t->slots[k], sizeof t->slots[k]) != 0;
        found |= VALGRIND_CHECK_MEM_IS_DEFINED(at, 4 * place) != 0;
        found |= memcmp(&t->slots[k], zeros, sizeof t->slots[k]) != 0 || memcmp(at, zeros, 4 * place) != 0;
    }
    return found;
}

/* Every server gives its verdict on a return. Gives how many accept it. */
static uint32_t round_two(uint32_t id, uint32_t *refused)
{
    uint32_t accepted = 0, verdict = 0;
    for (size_t i = 0; i < SERVERS; i++, accepted += verdict)
        *refused |= pool_round_two(TABLE(&tables[i]), id, twos[id], sizeof twos[id], &verdict);
    return accepted;
}

/* Whether the share of a return, in the slot of its id, is not all in its place at some server. */
static uint32_t missing(uint32_t id)
{
    static uint8_t place[POOL_MAX_SHARE_BYTES], share[POOL_MAX_SHARE_BYTES];
    size_t elements = (share_len - 6) / 4;
    uint32_t found = 0;
    for (size_t i = 0; i < SERVERS; i++) {
        memcpy(place, tables[i].elements + id * (elements + 2), 4 * elements);
        memcpy(share, shares[id] + i * share_len + 6, 4 * elements);
        (void)VALGRIND_MAKE_MEM_DEFINED(place, sizeof place);
        (void)VALGRIND_MAKE_MEM_DEFINED(share, sizeof share);
        found |= memcmp(place, share, 4 * elements) != 0;
    }
    return found;
}

/* Every server enters a return, or drops it. */
static uint32_t end(uint32_t id, const char *call, int enters)
{
    uint32_t refused = 0;
    say(call);
    for (struct table *t = tables; t < tables + SERVERS; t++)
        refused |= enters ? pool_enter(TABLE(t), id) : pool_drop(TABLE(t), id);
    return refused;
}

int main(void)
{
    uint32_t refused = prepare(), accepted = 0, kept = 0, lost = 0;
    say("pool_shelve and pool_unshelve");
    refused |= shelve();
    say("pool_share");
    refused |= take_shares(0);
    say("pool_share while another return waits");
    refused |= take_shares(1);
    say("pool_share of a seed");
    refused |= take_shares(SEEDED);
    say("pool_round_one");
    for (uint32_t id = IDS; id-- > 0;)
        refused |= round_one(id);
    say("pool_round_two");
    for (uint32_t id = 0; id < IDS; id++) {
        accepted += round_two(id, &refused);
        lost |= missing(id);
    }
    /* With the first one that is entered the totals become secret. A drop looks at them, before another is added to them. */
    refused |= end(0, "pool_enter", 1);
    refused |= end(1, "pool_drop", 0);
    refused |= end(2, "pool_enter", 1);
    for (uint32_t id = 0; id < IDS; id++)
        kept |= left(id);
    (void)VALGRIND_MAKE_MEM_DEFINED(&refused, sizeof refused);
    (void)VALGRIND_MAKE_MEM_DEFINED(&accepted, sizeof accepted);
    printf("refused %u, accepted %u%s%s\n", (unsigned)refused, (unsigned)accepted,
           kept ? ", and something of a decided return stays" : "", lost ? ", and the share of an accepted return is gone" : "");
    return refused != 0 || accepted != IDS * SERVERS || kept || lost;
}
