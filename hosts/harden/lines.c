/* lines.c: see lines.h. */
#include "lines.h"

#include <stdbool.h>

#include "parts.h"

/* Sums are below p, and the count is 1,024 at most: no product is as large as 2^62. */
struct line line_of(uint32_t count, const uint32_t sums[4])
{
    int64_t n = count, x = sums[0], xx = sums[1], y = sums[2], xy = sums[3];
    return (struct line){n * xx - x * x, n * xy - x * y, xx * y - x * xy};
}

/* Where the totals of a column of points begin among those that are joined, in numbers; says whether it is one. The sheet is sound. */
static bool find_point(const struct run *sheet, uint32_t column, size_t *first)
{
    const uint8_t *at = sheet->at, *end = sheet->at + sheet->len;
    *first = 0;
    if (column == 0)
        return false;
    while (at < end && --column > 0) {
        *first += entries_at(at).published;
        at = entries_at(at).next;
    }
    return at < end && *at == POOL_POINT;
}

void check_line(uint32_t servers, const struct run *sheet, uint32_t returns, const struct run *joined, uint32_t column,
                uint32_t answer, const struct line *line)
{
    static uint8_t totals[POOL_MAX_JOIN_BYTES];
    uint32_t count = 0, sums[4];
    size_t written, first;
    uint32_t want = pool_join(servers, sheet->at, sheet->len, returns, joined->at, joined->len, totals, sizeof totals, &count, &written);
    if ((want == POOL_DONE || want == POOL_JOINED) && !find_point(sheet, column, &first))
        want = POOL_LIMIT;
    if (want == POOL_DONE) {
        for (size_t k = 0; k < 4; k++)
            sums[k] = get_u32(totals + 4 * (first + k));
        struct line is = line_of(count, sums);
        want = is.determinant == 0 ? POOL_NO_LINE : POOL_DONE;
        if (answer == POOL_DONE &&
            (line->determinant != is.determinant || line->slope != is.slope || line->intercept != is.intercept))
            fail("another line than that of the totals");
    }
    if (answer != want)
        fail("a line is given or refused wrongly");
}
