/* forms.c: random sheets, and the calls that need no table. */
#include <string.h>

#include "driver.h"

static struct run a, b, c, out; /* for calls gone wild */

struct column column_at(const struct run *sheet, size_t at)
{
    const uint8_t *c = sheet->at + at;
    switch (c[0]) {
    case POOL_CHOICE:
        return (struct column){c[0], c[1], c[1], 0, at + 2};
    case POOL_NUMBER:
        return (struct column){c[0], UINT32_C(1) << c[1], 1, 0, at + 2};
    case POOL_TOP:
        return (struct column){c[0], get_u32(c + 1) + 1, 1, 0, at + 5};
    case POOL_POINT:
        return (struct column){c[0], UINT32_C(1) << 2 * c[1], 4, UINT32_C(1) << c[1], at + 2};
    default:
        return (struct column){c[0], 2, 1, 0, at + 1};
    }
}

/* A top of so many bits, now and then the least or the greatest. */
static void add_top(struct run *sheet, uint32_t bits)
{
    uint32_t least = UINT32_C(1) << (bits - 1), top = least + random_below(least);
    uint8_t column[5] = {POOL_TOP};
    if (random_below(4) == 0)
        top = random64() % 2 ? least : 2 * least - 1;
    put_u32(column + 1, top);
    append(sheet, column, sizeof column);
}

static void add_column(struct run *sheet, uint32_t budget)
{
    uint32_t kind = random_below(5), most;
    if (kind == 0 || budget < 2) {
        append(sheet, (const uint8_t[]){POOL_YES_NO}, 1);
        return;
    }
    if (kind == 3 && budget > 2) {
        add_top(sheet, 1 + random_below(budget < 49 ? (budget - 1) / 2 : 24));
        return;
    }
    if (kind == 4 && budget > 5) {
        append(sheet, (const uint8_t[]){POOL_POINT, (uint8_t)(1 + random_below(budget < 28 ? (budget - 4) / 2 : 12))}, 2);
        return;
    }
    most = kind == 1 ? (budget < 64 ? budget : 64) : (budget - 1 < 24 ? budget - 1 : 24);
    if (kind == 1)
        append(sheet, (const uint8_t[]){POOL_CHOICE, (uint8_t)(2 + random_below(most - 1))}, 2);
    else
        append(sheet, (const uint8_t[]){POOL_NUMBER, (uint8_t)(1 + random_below(most))}, 2);
}

void new_sheet(void)
{
    uint32_t budget = 1 + random_below(random_below(32) == 0 ? 256 : 12);
    if (random_below(64) == 0)
        budget = 256;
    pool.sheet.len = 0;
    pool.sizes.entries = 0;
    while (pool.sizes.entries < budget) {
        add_column(&pool.sheet, budget - pool.sizes.entries);
        must(call_sizes(&pool.sheet, &pool.sizes), "a sound sheet is refused");
    }
    if (pool.sizes.entries > budget)
        fail("more entries than the columns have");
}

/* More columns than any sheet may have, with a fault behind them or none. */
void long_sheet(void)
{
    struct sheet_sizes sizes;
    a.len = 65000 + random_below(5000);
    memset(a.at, POOL_YES_NO, a.len);
    uint32_t want = POOL_LIMIT;
    if (random64() % 2) {
        a.at[a.len - 1] = 99;
        want = POOL_KIND;
    }
    if (call_sizes(&a, &sizes) != want)
        fail("the refusal of a long sheet");
}

void odd_columns(void)
{
    static const struct {
        uint8_t len, at[5];
        uint32_t want;
    } columns[] = {
        {2, {POOL_CHOICE, 1}, POOL_LIMIT},         {2, {POOL_CHOICE, 65}, POOL_LIMIT},
        {2, {POOL_NUMBER, 0}, POOL_LIMIT},         {2, {POOL_NUMBER, 25}, POOL_LIMIT},
        {5, {POOL_TOP, 0, 0, 0, 0}, POOL_LIMIT},   {5, {POOL_TOP, 0, 0, 0, 1}, POOL_LIMIT},
        {2, {POOL_POINT, 0}, POOL_LIMIT},          {2, {POOL_POINT, 13}, POOL_LIMIT},
        {2, {POOL_POINT, 1}, POOL_DONE},           {2, {POOL_POINT, 12}, POOL_DONE},
        {1, {POOL_POINT}, POOL_KIND},              {2, {POOL_POINT + 1, 1}, POOL_KIND},
    };
    struct sheet_sizes sizes;
    for (size_t k = 0; k < sizeof columns / sizeof columns[0]; k++) {
        a.len = 0;
        append(&a, columns[k].at, columns[k].len);
        if (call_sizes(&a, &sizes) != columns[k].want)
            fail("a column at its limits");
    }
}

void circuits(void)
{
    struct circuit_counts counts;
    struct sheet_sizes sizes;
    size_t room = pool.sizes.circuit_bytes;
    must(call_circuit(&pool.sheet, room, &a), "the room of a circuit");
    if (a.len != room)
        fail("the length of a circuit");
    if (call_circuit(&pool.sheet, room - 1, &b) != POOL_ROOM)
        fail("a circuit in too little room");
    must(call_read_circuit(pool.sizes.entries, &a, &counts), "the circuit of a sheet is refused");
    if (counts.wires != pool.sizes.wires || counts.multiplications != pool.sizes.multiplications ||
        counts.tests != pool.sizes.tests)
        fail("the circuit's counts");
    for (int k = 0; k < 4; k++) {
        copy(&b, &a);
        wild(&b);
        call_read_circuit(wild32(pool.sizes.entries), &b, &counts);
        copy(&b, &pool.sheet);
        wild(&b);
        call_sizes(&b, &sizes);
        call_circuit(&b, wild_room(room), &c);
    }
}

/* Sound steps, each of them entry 0: too many wires, then too many bytes. */
void long_circuit(void)
{
    struct circuit_counts counts;
    a.len = 0;
    while (a.len < 17920) {
        append(&a, (const uint8_t[]){2, 0, 0}, 3);
        if (a.len % 1001 == 0 || a.len > 17900)
            if (call_read_circuit(1, &a, &counts) != POOL_LIMIT)
                fail("a circuit without multiplications, or too long");
    }
}

/* Every legal return */

/* How many values each column has; gives the number of lists, or a number above POOL_MAX_LISTS. */
static uint32_t bases(uint32_t *base)
{
    uint32_t lists = 1;
    for (size_t at = 0; at < pool.sheet.len;) {
        struct column column = column_at(&pool.sheet, at);
        at = column.next;
        *base = column.values;
        lists = lists > POOL_MAX_LISTS / *base ? POOL_MAX_LISTS + 1 : lists * *base;
        base++;
    }
    return lists;
}

/* The lists that were written are those of counting, the last column counting least. */
static void counted(const uint32_t *base, uint32_t lists)
{
    uint32_t columns = pool.sizes.columns, at = 0;
    for (uint32_t k = 0; k < lists; k++, at += columns)
        for (uint32_t j = columns, rest = k; j-- > 0; rest /= base[j])
            if (get_u32(a.at + 4 * (at + j)) != rest % base[j])
                fail("a list of values in another place");
}

void every_return(void)
{
    uint32_t base[POOL_MAX_ENTRIES], want = bases(base), lists = 0, ignored;
    size_t room = want > POOL_MAX_LISTS ? random_below(100) : POOL_EVERY_RETURN_BYTES(pool.sizes.columns, want);
    uint32_t answer = call_every_return(&pool.sheet, room, &lists, &a);
    if (answer != (want > POOL_MAX_LISTS ? POOL_MANY : 0))
        fail("whether there are too many lists");
    if (answer == 0) {
        if (lists != want || a.len != room)
            fail("the number of lists");
        counted(base, lists);
        if (call_every_return(&pool.sheet, room - 1, &lists, &b) != POOL_ROOM)
            fail("lists in too little room");
    }
    for (int k = 0; k < 2; k++) {
        copy(&c, &pool.sheet);
        wild(&c);
        call_every_return(&c, wild_room(room), &ignored, &out);
    }
}

/* As many lists as may be, and then 4,100; the same with tops, and then 4,097; the same with points, and then 16,384 and 8,192. */
void most_lists(void)
{
    static const struct {
        uint8_t len, at[10];
    } sheets[] = {
        {4, {POOL_CHOICE, 64, POOL_NUMBER, 6}},
        {5, {POOL_YES_NO, POOL_CHOICE, 41, POOL_CHOICE, 50}},
        {10, {POOL_TOP, 31, 0, 0, 0, POOL_TOP, 127, 0, 0, 0}},
        {5, {POOL_TOP, 0, 16, 0, 0}},
        {2, {POOL_POINT, 6}},
        {6, {POOL_POINT, 1, POOL_CHOICE, 64, POOL_POINT, 2}},
        {2, {POOL_POINT, 7}},
        {3, {POOL_YES_NO, POOL_POINT, 6}},
    };
    for (size_t k = 0; k < sizeof sheets / sizeof sheets[0]; k++) {
        pool.sheet.len = 0;
        append(&pool.sheet, sheets[k].at, sheets[k].len);
        must(call_sizes(&pool.sheet, &pool.sizes), "a sound sheet is refused");
        every_return();
    }
}

/* The shelf */

void shelve(uint32_t messages, uint32_t width, const struct run *run)
{
    must(call_shelve(messages, width, run, run->len, &b), "storing");
    for (size_t at = 0; at < b.len; at++)
        if (b.at[at] != run->at[at % messages * width + at / messages])
            fail("a byte in another place");
    must(call_unshelve(messages, width, &b, b.len, &c), "bringing back");
    if (c.len != run->len || memcmp(c.at, run->at, c.len) != 0)
        fail("messages do not come back");
    for (int k = 0; k < 2; k++) {
        copy(&a, run);
        if (random64() % 2)
            wild(&a);
        uint32_t r = wild32(messages), w = wild32(width);
        size_t room = wild_room(run->len);
        if (k == 0)
            call_shelve(r, w, &a, room, &out);
        else
            call_unshelve(r, w, &a, room, &out);
    }
}

/* Any bytes, as many messages and as long as may be now and then. */
void shelves(void)
{
    static struct run any;
    uint32_t messages = 1 + random_below(random_below(4) ? 8 : POOL_MAX_SHELF_MESSAGES);
    uint32_t width = 1 + random_below(random_below(16) ? 40 : POOL_MAX_SHELF_WIDTH);
    if (random_below(64) == 0) {
        messages = POOL_MAX_SHELF_MESSAGES;
        width = POOL_MAX_SHELF_WIDTH;
    }
    any.len = POOL_SHELF_BYTES(messages, width);
    random_fill(any.at, any.len);
    shelve(messages, width, &any);
}

/* A message too many, and a byte too many: each with a run that fits. */
void long_shelf(void)
{
    for (int wide = 0; wide < 2; wide++) {
        uint32_t messages = wide ? 1 : POOL_MAX_SHELF_MESSAGES + 1, width = wide ? POOL_MAX_SHELF_WIDTH + 1 : 1;
        a.len = POOL_SHELF_BYTES(messages, width);
        random_fill(a.at, a.len);
        if (call_shelve(messages, width, &a, a.len, &b) != POOL_LIMIT ||
            call_unshelve(messages, width, &a, a.len, &b) != POOL_LIMIT)
            fail("the refusal of a long shelf");
    }
}
