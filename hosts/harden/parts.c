/* parts.c: see parts.h. */
#include "parts.h"

#include <string.h>

#include "runs.h"

struct lent_table lend_table(const struct table *table, size_t extra)
{
    if (table->slots.len % SLOT_BYTES != 0 || table->elements.len % 4 != 0)
        fail("half a slot or number");
    struct lent_table t = {lend_both(&table->bytes, extra), lend(&table->slots), lend_both(&table->elements, 4 * extra)};
    return t;
}

/* Looking into a table */

static pool_slot slot_at(const uint8_t *slots, size_t k)
{
    pool_slot slot;
    memcpy(&slot, slots + k * SLOT_BYTES, sizeof slot);
    return slot;
}

pool_slot slot_of(const struct table *table, size_t k) { return slot_at(table->slots.at, k); }

pool_slot lent_slot(struct lent_table t, size_t k) { return slot_at(lents[t.slots].at, k); }

bool all_zero(const uint8_t *at, size_t len)
{
    for (size_t k = 0; k < len; k++)
        if (at[k] != 0)
            return false;
    return true;
}

/* What the sheet of a table comes to; the table was taken as sound. */
static struct sheet_sizes sizes_in(const struct table *table)
{
    struct sheet_sizes sizes;
    if (sizes_of(table->bytes.at + HEADER, get_u16(table->bytes.at + SHEET_LEN_AT), &sizes) != 0)
        fail("a table without a sheet was taken as sound");
    return sizes;
}

size_t place_bytes(const struct table *table)
{
    return 4 * POOL_ELEMENTS(sizes_in(table).share_bytes) / POOL_SLOTS;
}

size_t slot_with(const struct table *table, const uint32_t *id)
{
    for (size_t k = 0; k < POOL_SLOTS; k++) {
        pool_slot slot = slot_of(table, k);
        if (id ? slot.stage != POOL_FREE && slot.id == *id : slot.stage == POOL_FREE)
            return k;
    }
    fail("a call is done on a return that does not wait, or without a free slot");
}

void check_free(const struct table *table)
{
    size_t place = place_bytes(table);
    for (size_t k = 0; k < POOL_SLOTS; k++)
        if (slot_of(table, k).stage == POOL_FREE && (!all_zero(table->slots.at + k * SLOT_BYTES, SLOT_BYTES) ||
                                                     !all_zero(table->elements.at + k * place, place)))
            fail("a slot that is free, or its place, is not all 0");
}

/* Checks of the lent parts against the table as it was */

void kept_around(int k, size_t from, size_t len)
{
    const struct lent *l = &lents[k];
    size_t own = l->was->len;
    if (from + len > own || memcmp(l->at, l->was->at, from) != 0 ||
        memcmp(l->at + from + len, l->was->at + from + len, own - from - len) != 0)
        fail("another return, or another part of the table, was changed");
}

void kept_others(struct lent_table t, const struct table *was, size_t k)
{
    size_t place = place_bytes(was);
    kept_around(t.slots, k * SLOT_BYTES, SLOT_BYTES);
    kept_around(t.elements, k * place, place);
}

void check_moved(struct lent_table t, const struct table *was, uint32_t id, uint32_t from, uint32_t to)
{
    size_t k = slot_with(was, &id);
    pool_slot before = slot_of(was, k), now = lent_slot(t, k);
    kept_around(t.slots, k * SLOT_BYTES, SLOT_BYTES);
    if (before.stage != from || now.stage != to || now.id != id || now.r != before.r || now.s != before.s)
        fail("the slot of a return after a round");
    if (to == POOL_AWAITS_ENTRY && (now.d != before.d || now.e != before.e))
        fail("d or e after an accepted verdict");
}

struct entries entries_at(const uint8_t *column)
{
    size_t bits = 0;
    switch (column[0]) {
    case POOL_CHOICE:
        return (struct entries){column[1], column[1], column + 2};
    case POOL_NUMBER:
        return (struct entries){1 + column[1], 1, column + 2};
    case POOL_TOP:
        while (get_u32(column + 1) >> bits != 0)
            bits++;
        return (struct entries){1 + 2 * bits, 1, column + 5};
    case POOL_POINT:
        return (struct entries){4 + 2 * (size_t)column[1], 4, column + 2};
    default:
        return (struct entries){1, 1, column + 1};
    }
}

/* The totals are those from before with the published entries of the share in slot k, or with nothing, added modulo p. */
static void check_added(const uint8_t *now, const struct table *was, size_t k, bool entered)
{
    const uint8_t *sheet = was->bytes.at + HEADER, *end = sheet + get_u16(was->bytes.at + SHEET_LEN_AT);
    const uint8_t *total = end, *entry = was->elements.at + k * place_bytes(was);
    for (struct entries e; sheet < end; sheet = e.next, entry += 4 * e.all) {
        e = entries_at(sheet);
        for (size_t j = 0; j < e.published; j++, total += 4) {
            uint64_t sum = get_u32(total) + (entered ? (uint64_t)get_u32(entry + 4 * j) : 0);
            if (get_u32(now + (total - was->bytes.at)) != sum % POOL_PRIME)
                fail("the totals after a return is decided");
        }
    }
}

void check_decided(struct lent_table t, const struct table *was, uint32_t id, bool entered)
{
    size_t k = slot_with(was, &id), place = place_bytes(was);
    const uint8_t *now = lents[t.bytes].at, *before = was->bytes.at;
    uint32_t count = get_u16(before + DECIDED_AT);
    size_t totals = HEADER + get_u16(before + SHEET_LEN_AT), ids = totals + 4 * sizes_in(was).published;
    kept_others(t, was, k);
    check_added(now, was, k, entered);
    if (!all_zero(lents[t.slots].at + k * SLOT_BYTES, SLOT_BYTES) || !all_zero(lents[t.elements].at + k * place, place))
        fail("something of a decided return stays in its slot or its place");
    if (get_u16(now + DECIDED_AT) != count + 1 || get_u32(now + ids + 4 * count) != id ||
        get_u16(now + ENTERED_AT) != get_u16(before + ENTERED_AT) + (entered ? 1u : 0u))
        fail("the counts, or the id that was decided");
    if (memcmp(now, before, DECIDED_AT) != 0 || memcmp(now + LEAST_AT, before + LEAST_AT, totals - LEAST_AT) != 0 ||
        memcmp(now + ids, before + ids, 4 * count) != 0 ||
        memcmp(now + ids + 4 * count + 4, before + ids + 4 * count + 4, was->bytes.len - ids - 4 * count - 4) != 0)
        fail("another part of the table was changed");
}

/* One part of a table after a call: changed by one that is done and may change it, else as it was. */
static void take_part(int k, bool changes, struct run *part)
{
    if (!changes) {
        kept(k);
        return;
    }
    kept_filler(k, part->len, part->len);
    if (part->len > 0)
        memcpy(part->at, lents[k].at, part->len);
}

void take_table(struct lent_table t, uint32_t answer, unsigned changes, struct table *table)
{
    check_limits(table, answer);
    take_part(t.bytes, answer == 0 && changes & BYTES, &table->bytes);
    take_part(t.slots, answer == 0 && changes & SLOTS, &table->slots);
    take_part(t.elements, answer == 0 && changes & ELEMENTS, &table->elements);
}
