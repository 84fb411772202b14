/* runs.c: see runs.h. */
#include "runs.h"

#include <stdbool.h>
#include <string.h>

#include "watch.h"

void copy(struct run *to, const struct run *from)
{
    to->len = from->len;
    memcpy(to->at, from->at, from->len);
}

void copy_table(struct table *to, const struct table *from)
{
    copy(&to->bytes, &from->bytes);
    copy(&to->slots, &from->slots);
    copy(&to->elements, &from->elements);
}

void append(struct run *to, const uint8_t *bytes, size_t len)
{
    memcpy(to->at + to->len, bytes, len);
    to->len += len;
}

/* Joined messages */

size_t round_bytes(uint8_t kind) { return kind == KIND_ONE ? POOL_ROUND_ONE_BYTES : POOL_ROUND_TWO_BYTES; }

void join_shuffled(struct run *to, uint8_t kind, const uint8_t *messages, uint32_t servers)
{
    size_t each = round_bytes(kind);
    uint32_t from[POOL_MAX_SERVERS] = {0};
    to->len = 0;
    for (uint32_t k = 0; k < servers; k++) {
        uint32_t at = random_below(k + 1);
        from[k] = from[at];
        from[at] = k;
    }
    for (uint32_t k = 0; k < servers; k++)
        append(to, messages + from[k] * each, each);
}

/* Where the message of a server begins; without one, 0. */
static size_t message_by(const struct run *joined, uint8_t kind, uint32_t server)
{
    for (size_t at = 0; at < joined->len; at += round_bytes(kind))
        if (joined->at[at + SERVER_AT] == server)
            return at;
    return 0;
}

/* One message of so many bytes, in place x, is left out. */
static void leave_out(struct run *joined, size_t each, size_t x)
{
    size_t at = x * each, next = at + each;
    memmove(joined->at + at, joined->at + next, joined->len - next);
    joined->len -= each;
}

/* An element of a message of so many bytes. */
static uint8_t *some_element(uint8_t *message, size_t each)
{
    return message + D_AT + 4 * random_below((uint32_t)(each - D_AT) / 4);
}

/* Another element in its place. */
static void alter_element(uint8_t *element)
{
    put_u32(element, (get_u32(element) + 1 + random_below(POOL_PRIME - 1)) % POOL_PRIME);
}

/* The own message and another's change names; where they say the same, the own one is altered. */
static void change_names(uint8_t *mine, uint8_t *other, size_t each)
{
    uint8_t name = mine[SERVER_AT];
    if (mine == other || memcmp(mine + D_AT, other + D_AT, each - D_AT) == 0) {
        alter_element(some_element(mine, each));
        return;
    }
    mine[SERVER_AT] = other[SERVER_AT];
    other[SERVER_AT] = name;
}

void spoil(struct run *joined, uint8_t kind, uint32_t servers, uint32_t own)
{
    size_t each = round_bytes(kind);
    const uint8_t past[] = {(uint8_t)servers, POOL_MAX_SERVERS, 255, (uint8_t)(servers + random_below(256 - servers))};
    uint32_t x = random_below(servers), y = (x + 1 + random_below(servers - 1)) % servers;
    uint8_t *one = joined->at + x * each, *other = joined->at + y * each;
    uint8_t *mine = joined->at + message_by(joined, kind, own);
    switch (random_below(9)) {
    case 0: /* a server twice, another missing */
        memcpy(one, other, each);
        break;
    case 1: /* the same, by name */
        one[SERVER_AT] = other[SERVER_AT];
        break;
    case 2: /* a server missing */
        leave_out(joined, each, x);
        break;
    case 3: /* a server twice, all there */
        append(joined, one, each);
        break;
    case 4:
        one[SERVER_AT] = past[random_below(sizeof past)];
        break;
    case 5: /* the own message altered, wherever it stands */
        alter_element(some_element(mine, each));
        break;
    case 6:
        change_names(mine, one, each);
        break;
    case 7: /* another kind or id */
        one[random_below(SERVER_AT)] ^= (uint8_t)(1 << random_below(8));
        break;
    default:
        put_u32(some_element(one, each), POOL_PRIME + random_below(POOL_PRIME));
        break;
    }
}

void set_apart(struct run *joined, uint32_t servers, uint32_t own)
{
    uint8_t *other = joined->at + message_by(joined, KIND_ONE, (own + 1 + random_below(servers - 1)) % servers);
    uint32_t which = 1 + random_below(3);
    if (which & 1)
        alter_element(other + R_AT);
    if (which & 2)
        alter_element(other + S_AT);
}

/* What a round must answer */

/* Whether the run has one message of each server, each of this kind and id and with elements below p. */
static bool each_once(const struct run *joined, uint32_t servers, uint8_t kind, uint32_t id)
{
    size_t each = round_bytes(kind);
    uint32_t came = 0; /* a bit for each server */
    if (joined->len != servers * each)
        return false;
    for (const uint8_t *m = joined->at; m < joined->at + joined->len; m += each) {
        if (m[0] != kind || get_u32(m + 1) != id || m[SERVER_AT] >= servers)
            return false;
        for (size_t at = D_AT; at < each; at += 4)
            if (get_u32(m + at) >= POOL_PRIME)
                return false;
        came |= UINT32_C(1) << m[SERVER_AT];
    }
    return came == (UINT32_C(1) << servers) - 1;
}

/* Whether a message of round one has the d, e, r and s of the first slot in which the id waits. */
static bool as_in_slot(const struct table *was, uint32_t id, const uint8_t *message)
{
    for (size_t k = 0; k < POOL_SLOTS; k++) {
        pool_slot slot = slot_of(was, k);
        if (slot.stage != POOL_FREE && slot.id == id)
            return slot.d == get_u32(message + D_AT) && slot.e == get_u32(message + E_AT) &&
                   slot.r == get_u32(message + R_AT) && slot.s == get_u32(message + S_AT);
    }
    return false;
}

/* Whether all messages of round one have the r and s of the first. */
static bool one_pair(const struct run *joined)
{
    for (size_t at = 0; at < joined->len; at += POOL_ROUND_ONE_BYTES)
        if (memcmp(joined->at + at + R_AT, joined->at + R_AT, POOL_ROUND_ONE_BYTES - R_AT) != 0)
            return false;
    return true;
}

void check_round_one(const struct table *was, uint32_t id, const struct run *joined, size_t room, uint32_t answer)
{
    if (answer == POOL_STAGE)
        return;
    const uint8_t *mine = joined->at + message_by(joined, KIND_ONE, was->bytes.at[OWN_AT]);
    if ((!each_once(joined, was->bytes.at[SERVERS_AT], KIND_ONE, id) || !as_in_slot(was, id, mine)) != (answer == POOL_JOINED))
        fail("messages with a fault are taken, or sound ones are refused 12");
    if (answer == POOL_JOINED)
        return;
    if (one_pair(joined) == (answer == POOL_UNEQUAL))
        fail("messages with different pairs are taken, or equal ones are refused 16");
    if (answer != POOL_UNEQUAL && (room < POOL_ROUND_TWO_BYTES) != (answer == POOL_ROOM))
        fail("the room of a round one");
}

void check_round_two(const struct table *was, uint32_t id, const struct run *joined, uint32_t answer)
{
    if (answer == POOL_DONE && !each_once(joined, was->bytes.at[SERVERS_AT], KIND_TWO, id))
        fail("messages are taken in which a server is twice or missing, or that are not sound");
}

/* The least count and the stages */

void check_opened(const struct table *now, uint32_t returns, uint32_t least)
{
    const uint8_t *at = now->bytes.at;
    if (least < 1 || least > returns)
        fail("a table is opened with a least count that is not from 1 to N");
    if (get_u16(at + RETURNS_AT) != returns || get_u16(at + LEAST_AT) != least)
        fail("another N or least count in a new table");
}

void check_limits(const struct table *was, uint32_t answer)
{
    const uint8_t *at = was->bytes.at;
    if (was->bytes.len < HEADER || answer == POOL_STAGE)
        return;
    uint32_t least = get_u16(at + LEAST_AT);
    if (least < 1 || least > get_u16(at + RETURNS_AT))
        fail("a table is taken whose least count is not from 1 to N");
    for (size_t k = 0; k < was->slots.len / SLOT_BYTES; k++)
        if (slot_of(was, k).stage > POOL_AWAITS_ENTRY)
            fail("a table is taken with a stage that there is not");
}

void check_close(const struct table *was, size_t room, uint32_t answer)
{
    const uint8_t *at = was->bytes.at;
    struct sheet_sizes sizes;
    uint32_t want = POOL_DONE;
    if (answer == POOL_STAGE)
        return;
    if (sizes_of(at + HEADER, get_u16(at + SHEET_LEN_AT), &sizes) != 0)
        fail("a table without a sheet was taken as sound");
    for (size_t k = 0; k < POOL_SLOTS; k++)
        if (slot_of(was, k).stage != POOL_FREE)
            fail("a close while a return waits that is not refused 11");
    if (get_u16(at + ENTERED_AT) < get_u16(at + LEAST_AT))
        want = POOL_FEW;
    else if (room < POOL_TOTALS_BYTES(sizes.published))
        want = POOL_ROOM;
    if (answer != want)
        fail("a close with fewer entered than the least count, or a refusal of one with enough");
}
