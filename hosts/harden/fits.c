/* fits.c: lines, of the pool's totals and of totals that no returns have. */
#include "driver.h"
#include "lines.h"

static struct run a, b, made; /* for calls gone wild, and totals messages that no server wrote */

static void wild_line(const struct run *joined)
{
    struct line line;
    copy(&a, joined);
    if (random64() % 2)
        wild(&a);
    copy(&b, &pool.sheet);
    if (random_below(4) == 0)
        wild(&b);
    call_line(wild32(pool.servers), &b, wild32(pool.returns), &a, wild32(1 + random_below(pool.sizes.columns + 1)), &line);
}

/* A total: any below p, or one at a limit. */
static uint32_t some_total(void)
{
    const uint32_t odd[] = {0, 1, 2, POOL_PRIME / 2, POOL_PRIME - 2, POOL_PRIME - 1};
    return random64() % 2 ? random_below(POOL_PRIME) : odd[random_below(sizeof odd / sizeof odd[0])];
}

/* The messages of servers that tell one count, and any totals or none: each column of points has the line of these, or none. */
static void any_totals(void)
{
    size_t each = POOL_TOTALS_BYTES(pool.sizes.published);
    uint32_t count = random64() % 2 ? pool.returns : random_below(pool.returns + 1);
    int zeros = random_below(4) == 0;
    struct line line;
    made.len = pool.servers * each;
    for (uint32_t i = 0; i < pool.servers; i++) {
        uint8_t *message = made.at + i * each;
        message[0] = KIND_TOTALS;
        message[1] = (uint8_t)i;
        put_u32(message + 2, count);
        for (uint32_t k = 0; k < pool.sizes.published; k++)
            put_u32(message + 6 + 4 * k, zeros ? 0 : some_total());
    }
    for (uint32_t column = 1; column <= pool.sizes.columns; column++)
        call_line(pool.servers, &pool.sheet, pool.returns, &made, column, &line);
}

/* What the line of a column must come to, by the plain sums that begin at `sums`. */
static void check_column(const struct run *joined, uint32_t column, uint8_t kind, const uint32_t *sums)
{
    static const uint32_t more[] = {512, 65536, 0x80000000}; /* past every column */
    struct line line = {0, 0, 0}, plain = kind == POOL_POINT ? line_of(pool.entered, sums) : line, none;
    uint32_t want = kind != POOL_POINT ? POOL_LIMIT : plain.determinant == 0 ? POOL_NO_LINE : POOL_DONE;
    if (call_line(pool.servers, &pool.sheet, pool.returns, joined, column, &line) != want)
        fail("the answer of a line");
    for (size_t k = 0; k < sizeof more / sizeof more[0]; k++)
        if (call_line(pool.servers, &pool.sheet, pool.returns, joined, column | more[k], &none) != POOL_LIMIT)
            fail("a column number is cut");
    if (want != POOL_DONE)
        return;
    if (line.determinant != plain.determinant || line.slope != plain.slope || line.intercept != plain.intercept)
        fail("a line is not that of the plain sums");
    if (line.determinant < 0)
        fail("a determinant below 0 of returns that keep their form");
}

void check_lines(const struct run *joined)
{
    const uint32_t *sums = pool.plain;
    uint32_t column = 1;
    for (size_t at = 0; at < pool.sheet.len; column++) {
        struct column c = column_at(&pool.sheet, at);
        check_column(joined, column, c.kind, sums);
        sums += c.published;
        at = c.next;
    }
    check_column(joined, 0, 0, NULL);
    check_column(joined, column, 0, NULL);
    check_column(joined, UINT32_MAX - random_below(2), 0, NULL);
    for (int k = 0; k < 4; k++) {
        wild_line(joined);
        any_totals();
    }
}

void many_lines(void)
{
    pool.servers = POOL_MIN_SERVERS + random_below(POOL_MAX_SERVERS - POOL_MIN_SERVERS + 1);
    pool.sheet.len = 0;
    append(&pool.sheet, (const uint8_t[]){POOL_YES_NO, POOL_POINT, 1, POOL_CHOICE, 4, POOL_POINT, 10}, 7);
    must(call_sizes(&pool.sheet, &pool.sizes), "a sound sheet is refused");
    for (int k = 0; k < 16; k++) {
        pool.returns = k % 2 ? POOL_MAX_RETURNS : 1 + random_below(3);
        any_totals();
        wild_line(&made);
    }
}
