/* calls.c: the calls that need no table. See calls.h. */
#include "lines.h"
#include "seeds.h"
#include "watch.h"

uint32_t call_sizes(const struct run *sheet, struct sheet_sizes *sizes)
{
    start_call("pool_sizes");
    int s = lend(sheet);
    struct result32 x[9] = {RESULT32, RESULT32, RESULT32, RESULT32, RESULT32, RESULT32, RESULT32, RESULT32, RESULT32};
    uint32_t answer = pool_sizes(LENT(s), &x[0].value, &x[1].value, &x[2].value, &x[3].value, &x[4].value,
                                 &x[5].value, &x[6].value, &x[7].value, &x[8].value);
    answered(answer, SHEET);
    kept(s);
    for (int k = 0; k < 9; k++)
        check32(&x[k], answer);
    if (answer == 0)
        *sizes = (struct sheet_sizes){x[0].value, x[1].value, x[2].value, x[3].value, x[4].value,
                                      x[5].value, x[6].value, x[7].value, x[8].value};
    return end_call(answer);
}

uint32_t call_circuit(const struct run *sheet, size_t room, struct run *out)
{
    start_call("pool_circuit");
    int s = lend(sheet), o = lend_room(room);
    struct result_size w = RESULT_SIZE;
    uint32_t answer = pool_circuit(LENT(s), LENT(o), &w.value);
    answered(answer, SHEET | MAY(POOL_ROOM));
    kept(s);
    take(o, &w, answer, out);
    return end_call(answer);
}

uint32_t call_read_circuit(uint32_t entries, const struct run *circuit, struct circuit_counts *counts)
{
    start_call("pool_read_circuit");
    int c = lend(circuit);
    struct result32 w = RESULT32, m = RESULT32, t = RESULT32;
    uint32_t answer = pool_read_circuit(entries, LENT(c), &w.value, &m.value, &t.value);
    answered(answer, SHEET | MAY(POOL_WIRE));
    kept(c);
    check32(&w, answer);
    check32(&m, answer);
    check32(&t, answer);
    if (answer == 0)
        *counts = (struct circuit_counts){w.value, m.value, t.value};
    return end_call(answer);
}

uint32_t call_every_return(const struct run *sheet, size_t room, uint32_t *lists, struct run *out)
{
    start_call("pool_every_return");
    int s = lend(sheet), o = lend_room(room);
    struct result32 l = RESULT32;
    struct result_size w = RESULT_SIZE;
    uint32_t answer = pool_every_return(LENT(s), LENT(o), &l.value, &w.value);
    answered(answer, SHEET | MAY(POOL_MANY) | MAY(POOL_ROOM));
    kept(s);
    check32(&l, answer);
    take(o, &w, answer, out);
    if (answer == 0)
        *lists = l.value;
    return end_call(answer);
}

uint32_t call_make(const struct run *sheet, uint32_t servers, uint32_t id, const struct run *values,
                   const struct run *random, size_t room, struct run *out)
{
    start_call("pool_make");
    int s = lend(sheet), v = lend(values), x = lend(random), o = lend_room(room);
    struct result_size w = RESULT_SIZE;
    uint32_t answer = pool_make(LENT(s), servers, id, LENT(v), LENT(x), LENT(o), &w.value);
    answered(answer, SHEET | MAY(POOL_VALUE) | MAY(POOL_RANDOM) | MAY(POOL_ROOM));
    kept(s);
    kept(v);
    kept(x);
    take(o, &w, answer, out);
    return end_call(answer);
}

uint32_t call_make_seeded(const struct run *sheet, uint32_t servers, uint32_t id, const struct run *values,
                          const struct run *random, const struct run *seeds, size_t room, struct run *out)
{
    start_call("pool_make_seeded");
    int s = lend(sheet), v = lend(values), x = lend(random), d = lend(seeds), o = lend_room(room);
    struct result_size w = RESULT_SIZE;
    uint32_t answer = pool_make_seeded(LENT(s), servers, id, LENT(v), LENT(x), LENT(d), LENT(o), &w.value);
    answered(answer, SHEET | MAY(POOL_VALUE) | MAY(POOL_RANDOM) | MAY(POOL_ROOM));
    kept(s);
    kept(v);
    kept(x);
    kept(d);
    take(o, &w, answer, out);
    check_seeded(sheet, servers, id, random, seeds, room, answer, out);
    return end_call(answer);
}

uint32_t call_join(uint32_t servers, const struct run *sheet, uint32_t returns, const struct run *joined, size_t room,
                   uint32_t *accepted, struct run *out)
{
    start_call("pool_join");
    int s = lend(sheet), j = lend(joined), o = lend_room(room);
    struct result32 a = RESULT32;
    struct result_size w = RESULT_SIZE;
    uint32_t answer = pool_join(servers, LENT(s), returns, LENT(j), LENT(o), &a.value, &w.value);
    answered(answer, SHEET | MAY(POOL_WRAP) | MAY(POOL_JOINED) | MAY(POOL_ROOM));
    kept(s);
    kept(j);
    check32(&a, answer);
    take(o, &w, answer, out);
    if (answer == 0)
        *accepted = a.value;
    return end_call(answer);
}

uint32_t call_line(uint32_t servers, const struct run *sheet, uint32_t returns, const struct run *joined, uint32_t column,
                   struct line *line)
{
    start_call("pool_line");
    int s = lend(sheet), j = lend(joined);
    struct result64 x[3] = {RESULT64, RESULT64, RESULT64};
    uint32_t answer = pool_line(servers, LENT(s), returns, LENT(j), column, &x[0].value, &x[1].value, &x[2].value);
    answered(answer, SHEET | MAY(POOL_WRAP) | MAY(POOL_JOINED) | MAY(POOL_NO_LINE));
    kept(s);
    kept(j);
    for (int k = 0; k < 3; k++)
        check64(&x[k], answer);
    struct line got = {x[0].value, x[1].value, x[2].value};
    check_line(servers, sheet, returns, joined, column, answer, &got);
    if (answer == 0)
        *line = got;
    return end_call(answer);
}

typedef uint32_t shelf_call(uint32_t, uint32_t, const uint8_t *, size_t, uint8_t *, size_t, size_t *);

static uint32_t shelf(const char *name, shelf_call *of, uint32_t messages, uint32_t width, const struct run *run,
                      size_t room, struct run *out)
{
    start_call(name);
    int r = lend(run), o = lend_room(room);
    struct result_size w = RESULT_SIZE;
    uint32_t answer = of(messages, width, LENT(r), LENT(o), &w.value);
    answered(answer, MAY(POOL_LIMIT) | MAY(POOL_RUN) | MAY(POOL_ROOM));
    kept(r);
    take(o, &w, answer, out);
    if (answer == 0 && out->len != POOL_SHELF_BYTES(messages, width))
        fail("a length that the header does not give");
    return end_call(answer);
}

uint32_t call_shelve(uint32_t messages, uint32_t width, const struct run *run, size_t room, struct run *out)
{
    return shelf("pool_shelve", pool_shelve, messages, width, run, room, out);
}

uint32_t call_unshelve(uint32_t messages, uint32_t width, const struct run *run, size_t room, struct run *out)
{
    return shelf("pool_unshelve", pool_unshelve, messages, width, run, room, out);
}
