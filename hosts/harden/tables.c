/* tables.c: the calls on a table, and what each may change in its three parts. See calls.h. */
#include <string.h>

#include "parts.h"
#include "seeds.h"

/* A part that was opened: so many bytes are 0, and the rest is as it was. */
static void take_zeros(int k, uint32_t answer, size_t len, struct run *part)
{
    if (answer != 0) {
        kept(k);
        return;
    }
    if (len > lents[k].len || !all_zero(lents[k].at, len))
        fail("slots or elements of a new table that are not 0");
    kept_filler(k, len, 0);
    part->len = len;
    memset(part->at, 0, len);
}

uint32_t call_open(uint32_t servers, uint32_t own, const struct run *sheet, uint32_t returns, uint32_t least,
                   struct rooms rooms, struct table *table)
{
    start_call("pool_open");
    int s = lend(sheet);
    struct lent_table t = {lend_room(rooms.bytes), lend_room(SLOT_BYTES * rooms.slots), lend_room(4 * rooms.elements)};
    struct result_size w = RESULT_SIZE;
    struct sheet_sizes sizes = {0};
    uint32_t answer = pool_open(servers, own, LENT(s), returns, least, LENT_TABLE(t), &w.value);
    answered(answer, SHEET | MAY(POOL_WRAP) | MAY(POOL_ROOM));
    kept(s);
    if (answer == 0 && sizes_of(sheet->at, sheet->len, &sizes) != 0)
        fail("a table is opened without a sheet");
    take(t.bytes, &w, answer, &table->bytes);
    take_zeros(t.slots, answer, SLOTS_BYTES, &table->slots);
    take_zeros(t.elements, answer, answer == 0 ? 4 * POOL_ELEMENTS(sizes.share_bytes) : 0, &table->elements);
    if (answer == 0 && (table->bytes.at[STAGE_AT] != OPEN || rooms.slots != POOL_SLOTS ||
                        table->bytes.len != POOL_TABLE_BYTES(sheet->len, sizes.published, returns)))
        fail("a new table that is not open, or of another length");
    if (answer == 0)
        check_opened(table, returns, least);
    return end_call(answer);
}

/* After a share: the first free slot has the id, r, s, d and e, and its place the elements, those of a seed too. */
static void shared(struct lent_table t, const struct table *was, const struct run *message, uint64_t r, uint64_t s,
                   const struct run *out)
{
    size_t k = slot_with(was, NULL), place = place_bytes(was);
    pool_slot slot = lent_slot(t, k);
    kept_others(t, was, k);
    if (slot.id != get_u32(message->at + 1) || slot.stage != POOL_AWAITS_ONE || slot.r != r || slot.s != s ||
        slot.d != get_u32(out->at + D_AT) || slot.e != get_u32(out->at + E_AT))
        fail("the slot of a share");
    if (get_u32(out->at + R_AT) != r || get_u32(out->at + S_AT) != s)
        fail("a round-one message that tells another pair");
    if (memcmp(lents[t.elements].at + k * place, elements_of(message, place / 4 - 2), place - 8) != 0)
        fail("the elements of a share");
}

uint32_t call_share(struct table *table, size_t extra, const struct run *message, uint64_t r, uint64_t s, size_t room,
                    struct run *out)
{
    start_call("pool_share");
    struct lent_table t = lend_table(table, extra);
    int m = lend(message), o = lend_room(room);
    struct result_size w = RESULT_SIZE;
    uint32_t answer = pool_share(LENT_TABLE(t), LENT(m), r, s, LENT(o), &w.value);
    answered(answer, MAY(POOL_STAGE) | MAY(POOL_FULL) | MAY(POOL_SHARE) | MAY(POOL_ELEMENT) | MAY(POOL_DECIDED) |
                         MAY(POOL_PAIR) | MAY(POOL_ROOM));
    check_message(table, message, answer);
    kept(m);
    take(o, &w, answer, out);
    if (answer == 0 ? out->len != POOL_ROUND_ONE_BYTES : answer == POOL_ROOM && room >= POOL_ROUND_ONE_BYTES)
        fail("a length that the header does not give");
    if (answer == 0)
        shared(t, table, message, r, s, out);
    take_table(t, answer, SLOTS | ELEMENTS, table);
    return end_call(answer);
}

uint32_t call_round_one(struct table *table, size_t extra, uint32_t id, const struct run *joined, size_t room,
                        struct run *out)
{
    start_call("pool_round_one");
    struct lent_table t = lend_table(table, extra);
    int j = lend(joined), o = lend_room(room);
    struct result_size w = RESULT_SIZE;
    uint32_t answer = pool_round_one(LENT_TABLE(t), id, LENT(j), LENT(o), &w.value);
    answered(answer, MAY(POOL_STAGE) | MAY(POOL_JOINED) | MAY(POOL_UNEQUAL) | MAY(POOL_ROOM));
    check_round_one(table, id, joined, room, answer);
    kept(j);
    take(o, &w, answer, out);
    if (answer == 0) {
        check_moved(t, table, id, POOL_AWAITS_ONE, POOL_AWAITS_TWO);
        if (out->len != POOL_ROUND_TWO_BYTES)
            fail("a length that the header does not give");
    }
    take_table(t, answer, SLOTS, table);
    return end_call(answer);
}

uint32_t call_round_two(struct table *table, size_t extra, uint32_t id, const struct run *joined, uint32_t *accepted)
{
    start_call("pool_round_two");
    struct lent_table t = lend_table(table, extra);
    int j = lend(joined);
    struct result32 a = RESULT32;
    uint32_t answer = pool_round_two(LENT_TABLE(t), id, LENT(j), &a.value);
    answered(answer, MAY(POOL_STAGE) | MAY(POOL_JOINED));
    check_round_two(table, id, joined, answer);
    kept(j);
    check32(&a, answer);
    if (answer == 0) {
        if (a.value > 1)
            fail("a verdict that is neither 0 nor 1");
        if (slot_of(table, slot_with(table, &id)).stage != POOL_AWAITS_TWO)
            fail("a verdict before round one, or a second one");
        if (a.value)
            check_moved(t, table, id, POOL_AWAITS_TWO, POOL_AWAITS_ENTRY);
        else
            check_decided(t, table, id, false);
        *accepted = a.value;
    }
    /* an accepted return keeps its share, and nothing is added yet */
    take_table(t, answer, a.value == 1 ? SLOTS : BYTES | SLOTS | ELEMENTS, table);
    return end_call(answer);
}

uint32_t call_enter(struct table *table, size_t extra, uint32_t id)
{
    start_call("pool_enter");
    struct lent_table t = lend_table(table, extra);
    uint32_t answer = pool_enter(LENT_TABLE(t), id);
    answered(answer, MAY(POOL_STAGE));
    if (answer == 0) {
        if (slot_of(table, slot_with(table, &id)).stage != POOL_AWAITS_ENTRY)
            fail("a return is entered that has no accepted verdict");
        check_decided(t, table, id, true);
    }
    take_table(t, answer, BYTES | SLOTS | ELEMENTS, table);
    return end_call(answer);
}

uint32_t call_drop(struct table *table, size_t extra, uint32_t id)
{
    start_call("pool_drop");
    struct lent_table t = lend_table(table, extra);
    uint32_t answer = pool_drop(LENT_TABLE(t), id);
    answered(answer, MAY(POOL_STAGE));
    if (answer == 0)
        check_decided(t, table, id, false);
    take_table(t, answer, BYTES | SLOTS | ELEMENTS, table);
    return end_call(answer);
}

uint32_t call_close(struct table *table, size_t extra, size_t room, struct run *out)
{
    start_call("pool_close");
    struct lent_table t = lend_table(table, extra);
    int o = lend_room(room);
    struct result_size w = RESULT_SIZE;
    uint32_t answer = pool_close(LENT_TABLE(t), LENT(o), &w.value);
    answered(answer, MAY(POOL_STAGE) | MAY(POOL_FEW) | MAY(POOL_ROOM));
    check_close(table, lents[o].len, answer);
    take(o, &w, answer, out);
    if (answer == 0) {
        kept_around(t.bytes, STAGE_AT, 1);
        if (lents[t.bytes].at[STAGE_AT] != CLOSED)
            fail("a table that is closed and not marked so");
    }
    take_table(t, answer, BYTES, table);
    return end_call(answer);
}

/* The eight numbers are those of the table's bytes and slots, and nothing changes. */
uint32_t call_state(struct table *table, size_t extra)
{
    start_call("pool_state");
    struct lent_table t = lend_table(table, extra);
    struct result32 told[8] = {RESULT32, RESULT32, RESULT32, RESULT32, RESULT32, RESULT32, RESULT32, RESULT32};
    uint32_t answer =
        pool_state(LENT_TABLE(t), &told[0].value, &told[1].value, &told[2].value, &told[3].value, &told[4].value,
                   &told[5].value, &told[6].value, &told[7].value);
    answered(answer, MAY(POOL_STAGE));
    for (int k = 0; k < 8; k++)
        check32(&told[k], answer);
    if (answer == 0) {
        const uint8_t *at = table->bytes.at;
        uint32_t waiting = 0;
        for (size_t j = 0; j < POOL_SLOTS; j++)
            waiting += slot_of(table, j).stage != POOL_FREE;
        uint32_t want[8] = {at[SERVERS_AT], at[OWN_AT], get_u16(at + RETURNS_AT), get_u16(at + LEAST_AT), at[STAGE_AT] != OPEN,
                            get_u16(at + DECIDED_AT), get_u16(at + ENTERED_AT), waiting};
        for (int k = 0; k < 8; k++)
            if (told[k].value != want[k])
                fail("a table that tells another state");
    }
    take_table(t, answer, 0, table);
    return end_call(answer);
}
