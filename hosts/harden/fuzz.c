/*
 * fuzz.c: the C functions on arbitrary bytes, for libFuzzer. The input says what is called, and is the arguments.
 *
 * The library has no coverage counters of its own. What guides the fuzzer is which call followed which, on what kind of
 * table, with which answer: each such combination that is new makes an input interesting.
 */
#include <stdlib.h>
#include <string.h>

#include "input.h"
#include "seeds.h"

enum { SERVERS = 2, ANSWERS = POOL_RUN + 1, RETURNS = 10, IDS = 16 };

/* What can be done. In a pool an operation is told by its number; a table is altered by ALTER and the number after it. */
enum { MAKE, SHARE, ROUND_ONE, ROUND_TWO, DROP, CLOSE, JOIN, ENTER, ALTER, OPERATIONS = ALTER + 2, SHEETS = ALTER, SHELVES };
enum { LINES = OPERATIONS, NOTED }; /* lines follow each joining */

/* Kinds of tables: how many returns wait, with none of them for entry or with some; then those that are closed and the like. */
enum { SOME_ENTRY = POOL_SLOTS + 1, CLOSED_KIND = 2 * SOME_ENTRY, NOT_EIGHT, ARBITRARY, KINDS };

/* The fuzzer looks at these counters after each input. */
__attribute__((section("__libfuzzer_extra_counters"))) static uint8_t seen[NOTED][NOTED][KINDS][ANSWERS];

static struct table tables[SERVERS];
static struct run sheet, values, random_elements, seeds, shares[IDS], totals, message, out;
/* What the servers wrote for each return. */
static uint8_t ones[IDS][SERVERS * POOL_ROUND_ONE_BYTES], twos[IDS][SERVERS * POOL_ROUND_TWO_BYTES];
static struct sheet_sizes sizes;
static uint32_t before; /* the operation before */

static void note(uint32_t operation, uint32_t kind, uint32_t answer)
{
    seen[before][operation][kind % KINDS][answer % ANSWERS] = 1;
    before = operation;
}

static uint32_t kind_of(const struct table *table)
{
    uint32_t waiting = 0, entry = 0;
    if (table->slots.len != SLOTS_BYTES)
        return NOT_EIGHT;
    if (table->bytes.len > STAGE_AT && table->bytes.at[STAGE_AT] != 0)
        return CLOSED_KIND;
    for (size_t k = 0; k < POOL_SLOTS; k++) {
        waiting += slot_of(table, k).stage != POOL_FREE;
        entry |= slot_of(table, k).stage == POOL_AWAITS_ENTRY;
    }
    return waiting + entry * SOME_ENTRY;
}

/* A return is made from seeds where the top bit of its id is set. */
static void make_return(void)
{
    size_t each = sizes.share_bytes;
    uint8_t told = byte(), id = told % IDS;
    int seeded = told >> 7;
    values.len = POOL_VALUES_BYTES(sizes.columns);
    memset(values.at, 0, values.len);
    for (size_t k = 0; k < values.len; k += 4)
        values.at[k] = byte() & 1;
    alter(&values);
    random_elements.len = seeded ? POOL_SEEDED_RANDOM_BYTES : POOL_RANDOM_BYTES(SERVERS, each);
    for (size_t k = 0; k < random_elements.len; k += 4)
        put_u32(random_elements.at + k, (uint32_t)(k * 2654435761u) % POOL_PRIME);
    alter(&random_elements);
    if (!seeded) {
        note(MAKE, 0, call_make(&sheet, SERVERS, id, &values, &random_elements, POOL_MAKE_BYTES(SERVERS, each), &shares[id]));
        return;
    }
    seeds.len = POOL_SEEDS_BYTES(SERVERS);
    for (size_t k = 0; k < seeds.len; k++)
        seeds.at[k] = (uint8_t)(id * 29 + k * 7);
    alter(&seeds);
    note(MAKE, 1, call_make_seeded(&sheet, SERVERS, id, &values, &random_elements, &seeds, POOL_MAKE_SEEDED_BYTES(SERVERS, each),
                                   &shares[id]));
}

static void take_share(uint32_t own)
{
    size_t each = sizes.share_bytes;
    uint32_t id = byte() % IDS, r = sizes.multiplications + byte(), s = byte(), kind = kind_of(&tables[own]);
    message.len = shares[id].len == 0 ? 0 : own == 0 ? each : shares[id].len - each; /* the rest is a share or a seed message */
    memcpy(message.at, shares[id].at + own * each, message.len);
    alter(&message);
    uint32_t answer = call_share(&tables[own], 0, &message, r, s, POOL_ROUND_ONE_BYTES, &out);
    if (answer == 0)
        memcpy(ones[id] + own * POOL_ROUND_ONE_BYTES, out.at, out.len);
    note(SHARE, kind, answer);
}

/* Both messages of a round as the input has them arrive: in either order, one twice, with a server byte past S, one missing, altered. */
static void arrive(const uint8_t *messages, size_t each)
{
    const uint8_t past[] = {SERVERS, POOL_MAX_SERVERS, 255};
    uint8_t how = byte();
    message.len = 0;
    for (uint32_t k = 0; k < SERVERS; k++)
        append(&message, messages + ((k ^ how >> k) & 1) * each, each);
    if (how & 0x0c)
        message.at[(how >> 4 & 1) * each + SERVER_AT] = past[(how >> 2 & 3) - 1];
    if (how >> 5 == 7)
        message.len -= each;
    alter(&message);
}

static void take_round(uint32_t own, uint32_t round)
{
    uint32_t id = byte() % IDS, accepted, kind = kind_of(&tables[own]), answer;
    if (round == ROUND_TWO) {
        arrive(twos[id], POOL_ROUND_TWO_BYTES);
        answer = call_round_two(&tables[own], 0, id, &message, &accepted);
    } else {
        arrive(ones[id], POOL_ROUND_ONE_BYTES);
        answer = call_round_one(&tables[own], 0, id, &message, POOL_ROUND_TWO_BYTES, &out);
        if (answer == 0)
            memcpy(twos[id] + own * POOL_ROUND_TWO_BYTES, out.at, out.len);
    }
    note(round, kind, answer);
}

/* The return is entered or dropped. */
static void end_return(uint32_t own, uint32_t how)
{
    uint32_t kind = kind_of(&tables[own]), id = byte() % IDS;
    note(how, kind, how == ENTER ? call_enter(&tables[own], 0, id) : call_drop(&tables[own], 0, id));
}

static void close_table(uint32_t own, size_t short_by)
{
    uint32_t kind = kind_of(&tables[own]);
    uint32_t answer = call_close(&tables[own], 0, POOL_TOTALS_BYTES(sizes.published) - short_by, &out);
    if (answer == 0 && out.len <= POOL_MAX_TOTALS_BYTES)
        memcpy(totals.at + own * POOL_TOTALS_BYTES(sizes.published), out.at, out.len);
    note(CLOSE, kind, answer);
}

/* The totals are joined, and each column has its line or none; before the first and after the last there is none. */
static void join_totals(void)
{
    uint32_t accepted;
    struct line line;
    message.len = SERVERS * POOL_TOTALS_BYTES(sizes.published);
    memcpy(message.at, totals.at, message.len);
    alter(&message);
    note(JOIN, 0, call_join(SERVERS, &sheet, RETURNS, &message, POOL_JOIN_BYTES(sizes.published), &accepted, &out));
    for (uint32_t column = 0; column <= sizes.columns + 1; column++) {
        uint32_t answer = call_line(SERVERS, &sheet, RETURNS, &message, column, &line);
        note(LINES, answer == 0 && line.determinant < 0, answer);
    }
}

static void operate(void)
{
    uint8_t told = byte();
    uint32_t own = told >> 7, operation = told % OPERATIONS;
    switch (operation) {
    case MAKE:
        make_return();
        break;
    case SHARE:
        take_share(own);
        break;
    case ROUND_ONE:
    case ROUND_TWO:
        take_round(own, operation);
        break;
    case DROP:
    case ENTER:
        end_return(own, operation);
        break;
    case CLOSE:
        close_table(own, told >> 6 & 1);
        break;
    case JOIN:
        join_totals();
        break;
    default:
        alter_table(&tables[own]);
        break;
    }
}

/* A pool: its least count and its sheet, then what is done with it. N is RETURNS. */
static void play(void)
{
    const struct rooms most = {POOL_MAX_TABLE_BYTES, POOL_SLOTS, POOL_MAX_ELEMENTS};
    uint32_t least = byte() % (RETURNS + 2);
    int fits = 1 <= least && least <= RETURNS;
    bytes(&sheet, byte() % 16);
    if (call_sizes(&sheet, &sizes) != 0)
        return;
    for (uint32_t own = 0; own < SERVERS; own++)
        if (call_open(SERVERS, own, &sheet, RETURNS, least, most, &tables[own]) != (fits ? POOL_DONE : POOL_LIMIT))
            fail("the answer of opening");
    if (!fits)
        return;
    for (int k = 0; k < IDS; k++)
        shares[k].len = 0;
    memset(ones, 0, sizeof ones);
    memset(twos, 0, sizeof twos);
    memset(totals.at, 0, SERVERS * POOL_MAX_TOTALS_BYTES);
    while (input_left() > 0)
        operate();
}

/* A table of arbitrary bytes, slots and numbers takes every call. */
static void arbitrary_table(void)
{
    struct table *t = &tables[0], *u = &tables[1];
    uint32_t accepted, id;
    uint8_t length = byte();
    size_t slots = byte() % 10;
    bytes(&message, length);
    bytes(&t->slots, SLOT_BYTES * slots);
    t->slots.len -= t->slots.len % SLOT_BYTES;
    bytes(&t->bytes, two_bytes());
    bytes(&t->elements, 4 * POOL_MAX_ELEMENTS);
    t->elements.len -= t->elements.len % 4;
    id = t->slots.len >= SLOT_BYTES ? slot_of(t, 0).id : 0;
    copy_table(u, t);
    call_state(t, 0);
    note(SHARE, ARBITRARY, call_share(t, 0, &message, 1000, 5, POOL_ROUND_ONE_BYTES, &out));
    note(ROUND_ONE, ARBITRARY, call_round_one(u, 0, id, &message, POOL_ROUND_TWO_BYTES, &out));
    note(ROUND_TWO, ARBITRARY, call_round_two(u, 0, id, &message, &accepted));
    note(ENTER, ARBITRARY, call_enter(u, 0, id));
    note(DROP, ARBITRARY, call_drop(u, 0, id));
    note(CLOSE, ARBITRARY, call_close(u, 0, POOL_MAX_TOTALS_BYTES, &out));
}

/* Arbitrary bytes are stored by place and brought back, with a number and a length of messages that may not fit. */
static void shelve(void)
{
    uint32_t messages = byte(), width = two_bytes(), answer;
    bytes(&message, input_left());
    size_t room = messages % 4 == 3 ? message.len / 2 : message.len;
    answer = call_shelve(messages, width, &message, room, &out);
    note(SHELVES, 0, answer);
    if (answer == 0) {
        note(SHELVES, 1, call_unshelve(messages, width, &out, out.len, &shares[0]));
        if (shares[0].len != message.len || memcmp(shares[0].at, message.at, message.len) != 0)
            fail("messages do not come back");
    }
    note(SHELVES, 2, call_unshelve(messages, width, &message, room, &out));
}

int LLVMFuzzerInitialize(int *argc, char ***argv)
{
    (void)argc, (void)argv;
    calls_start(GUARDED);
    return 0;
}

int LLVMFuzzerTestOneInput(const uint8_t *data, size_t size)
{
    struct circuit_counts circuit;
    uint32_t lists, entries;
    start_input(data, size);
    before = SHELVES;
    seed_random(size);
    switch (byte() % 5) {
    case 0:
        bytes(&sheet, RUN_BYTES / 2);
        note(SHEETS, 0, call_sizes(&sheet, &sizes));
        note(SHEETS, 1, call_circuit(&sheet, POOL_MAX_CIRCUIT_BYTES, &out));
        note(SHEETS, 3, call_every_return(&sheet, POOL_MAX_EVERY_RETURN_BYTES, &lists, &out));
        break;
    case 1:
        entries = two_bytes();
        bytes(&message, RUN_BYTES / 2);
        note(SHEETS, 2, call_read_circuit(entries, &message, &circuit));
        break;
    case 2:
        arbitrary_table();
        break;
    case 3:
        play();
        break;
    default:
        shelve();
        break;
    }
    return 0;
}
