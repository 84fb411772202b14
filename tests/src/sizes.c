/* The sizes and numbers that pool.h tells, as functions, and its functions under the types that the tests use. */
#include "pool.h"

size_t sizes_values(uint32_t columns) { return POOL_VALUES_BYTES(columns); }

size_t sizes_random(uint32_t servers, uint32_t share_bytes) { return POOL_RANDOM_BYTES(servers, share_bytes); }

size_t sizes_make(uint32_t servers, uint32_t share_bytes) { return POOL_MAKE_BYTES(servers, share_bytes); }

size_t sizes_seeds(uint32_t servers) { return POOL_SEEDS_BYTES(servers); }

size_t sizes_make_seeded(uint32_t servers, uint32_t share_bytes) { return POOL_MAKE_SEEDED_BYTES(servers, share_bytes); }

size_t sizes_totals(uint32_t published) { return POOL_TOTALS_BYTES(published); }

size_t sizes_join(uint32_t published) { return POOL_JOIN_BYTES(published); }

size_t sizes_table(size_t sheet_len, uint32_t published, uint32_t returns)
{
    return POOL_TABLE_BYTES(sheet_len, published, returns);
}

size_t sizes_elements(uint32_t share_bytes) { return POOL_ELEMENTS(share_bytes); }

/* The size of a slot, how it is aligned, and where its fields stand. */
size_t sizes_slot(uint32_t number)
{
    struct beside { char byte; pool_slot slot; };
    static const size_t slot[] = {
        sizeof(pool_slot), offsetof(struct beside, slot), offsetof(pool_slot, id), offsetof(pool_slot, stage),
        offsetof(pool_slot, r), offsetof(pool_slot, s), offsetof(pool_slot, d), offsetof(pool_slot, e),
        sizeof((pool_slot *)0)->id, sizeof((pool_slot *)0)->stage, sizeof((pool_slot *)0)->r,
        sizeof((pool_slot *)0)->s, sizeof((pool_slot *)0)->d, sizeof((pool_slot *)0)->e,
    };
    return number < sizeof slot / sizeof slot[0] ? slot[number] : (size_t)-1;
}

size_t sizes_shelf(uint32_t messages, uint32_t width) { return POOL_SHELF_BYTES(messages, width); }

size_t sizes_every_return(uint32_t columns, uint32_t lists) { return POOL_EVERY_RETURN_BYTES(columns, lists); }

/* The numbered constants, in the order in which the header tells them. */
size_t sizes_constant(uint32_t number)
{
    static const size_t constants[] = {
        POOL_DONE, POOL_KIND, POOL_LIMIT, POOL_WIRE, POOL_WRAP, POOL_VALUE, POOL_RANDOM, POOL_SHARE,
        POOL_ELEMENT, POOL_PAIR, POOL_DECIDED, POOL_STAGE, POOL_JOINED, POOL_FULL, POOL_ROOM,
        POOL_FEW, POOL_UNEQUAL, POOL_MANY, POOL_NO_LINE, POOL_RUN,
        POOL_PRIME, POOL_MIN_SERVERS, POOL_MAX_SERVERS, POOL_MAX_RETURNS, POOL_MAX_ENTRIES,
        POOL_YES_NO, POOL_CHOICE, POOL_NUMBER, POOL_TOP, POOL_POINT, POOL_ROUND_ONE_BYTES, POOL_ROUND_TWO_BYTES,
        POOL_MAX_SHEET_BYTES, POOL_MAX_CIRCUIT_BYTES, POOL_MAX_SHARE_BYTES, POOL_MAX_TOTALS_BYTES,
        POOL_MAX_TABLE_BYTES, POOL_MAX_SHELF_MESSAGES, POOL_MAX_SHELF_WIDTH, POOL_MAX_SHELF_BYTES,
        POOL_MAX_LISTS, POOL_MAX_EVERY_RETURN_BYTES,
        POOL_SLOTS, POOL_MAX_ELEMENTS, POOL_FREE, POOL_AWAITS_ONE, POOL_AWAITS_TWO, POOL_AWAITS_ENTRY,
        POOL_SEED_BYTES, POOL_SEED_MESSAGE_BYTES, POOL_SEEDED_RANDOM_BYTES, POOL_MAX_SEEDS_BYTES,
        POOL_MAX_MAKE_SEEDED_BYTES,
    };
    return number < sizeof constants / sizeof constants[0] ? constants[number] : (size_t)-1;
}

/* A function whose type in the header differs from the one that the tests call it by does not compile here. */
typedef const uint8_t *in;
typedef uint8_t *out;
typedef uint32_t *number;
typedef const uint32_t *numbers;
typedef pool_slot *slots;
typedef const pool_slot *slots_in;
uint32_t (*const type_sizes)(in, size_t, number, number, number, number, number, number, number, number, number) = pool_sizes;
uint32_t (*const type_circuit)(in, size_t, out, size_t, size_t *) = pool_circuit;
uint32_t (*const type_read_circuit)(uint32_t, in, size_t, number, number, number) = pool_read_circuit;
uint32_t (*const type_every_return)(in, size_t, out, size_t, number, size_t *) = pool_every_return;
uint32_t (*const type_make)(in, size_t, uint32_t, uint32_t, in, size_t, in, size_t, out, size_t, size_t *) = pool_make;
uint32_t (*const type_make_seeded)(in, size_t, uint32_t, uint32_t, in, size_t, in, size_t, in, size_t, out, size_t,
                                   size_t *) = pool_make_seeded;
uint32_t (*const type_open)(uint32_t, uint32_t, in, size_t, uint32_t, uint32_t, out, size_t, slots, size_t, number,
                            size_t, size_t *) = pool_open;
uint32_t (*const type_share)(in, size_t, slots, size_t, number, size_t, in, size_t, uint64_t, uint64_t, out, size_t,
                             size_t *) = pool_share;
uint32_t (*const type_round_one)(in, size_t, slots, size_t, numbers, size_t, uint32_t, in, size_t, out, size_t,
                                 size_t *) = pool_round_one;
uint32_t (*const type_round_two)(out, size_t, slots, size_t, number, size_t, uint32_t, in, size_t, number) = pool_round_two;
uint32_t (*const type_enter)(out, size_t, slots, size_t, number, size_t, uint32_t) = pool_enter;
uint32_t (*const type_drop)(out, size_t, slots, size_t, number, size_t, uint32_t) = pool_drop;
uint32_t (*const type_close)(out, size_t, slots_in, size_t, numbers, size_t, out, size_t, size_t *) = pool_close;
uint32_t (*const type_state)(in, size_t, slots_in, size_t, numbers, size_t, number, number, number, number, number,
                             number, number, number) = pool_state;
uint32_t (*const type_join)(uint32_t, in, size_t, uint32_t, in, size_t, out, size_t, number, size_t *) = pool_join;
uint32_t (*const type_line)(uint32_t, in, size_t, uint32_t, in, size_t, uint32_t, int64_t *, int64_t *,
                            int64_t *) = pool_line;
uint32_t (*const type_shelve)(uint32_t, uint32_t, in, size_t, out, size_t, size_t *) = pool_shelve;
uint32_t (*const type_unshelve)(uint32_t, uint32_t, in, size_t, out, size_t, size_t *) = pool_unshelve;
