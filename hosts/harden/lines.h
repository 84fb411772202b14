/* lines.h: what pool_line must come to. */
#ifndef POOL_LINES_H
#define POOL_LINES_H

#include "calls.h"

/* The line of so many returns whose sums of x, x * x, y and x * y are these. */
struct line line_of(uint32_t count, const uint32_t sums[4]);

/*
 * Checks the answer of pool_line, and the line where it is done. It is refused as joining these totals is, but 2 before 12 where the
 * number names no column of points, and 18 where the determinant of what is joined is 0. A determinant below 0 is no refusal.
 */
void check_line(uint32_t servers, const struct run *sheet, uint32_t returns, const struct run *joined, uint32_t column,
                uint32_t answer, const struct line *line);

#endif
