/*
 * stack.c: how much stack each function needs. Each is called, on the largest sheets, in a thread whose stack was
 * painted before; what is no longer painted afterwards was used. The header promises 64 KiB at most.
 */
#define _GNU_SOURCE
#include <pthread.h>
#include <stdio.h>
#include <stdlib.h>
#include <string.h>
#include <sys/mman.h>

#include "pool.h"

enum { STACK = 1024 * 1024, PROMISED = 64 * 1024, PAINT = 0xa7, SERVERS = 8, RETURNS = 64, SEEDED = 99 };

static uint8_t sheet[POOL_MAX_SHEET_BYTES], circuit[POOL_MAX_CIRCUIT_BYTES], values[POOL_MAX_VALUES_BYTES];
static uint8_t random_bytes[POOL_MAX_RANDOM_BYTES], shares[POOL_MAX_MAKE_BYTES];
static uint8_t seeds[POOL_MAX_SEEDS_BYTES], seeded[POOL_MAX_MAKE_SEEDED_BYTES];
static uint8_t joined[SERVERS * POOL_MAX_TOTALS_BYTES], other[sizeof joined];
static struct table {
    uint8_t bytes[POOL_MAX_TABLE_BYTES];
    size_t len;
    pool_slot slots[POOL_SLOTS];
    uint32_t elements[POOL_MAX_ELEMENTS];
} tables[SERVERS];
#define TABLE(t) (t)->bytes, (t)->len, (t)->slots, POOL_SLOTS, (t)->elements, POOL_MAX_ELEMENTS

static uint8_t every[POOL_MAX_EVERY_RETURN_BYTES], totals[POOL_MAX_JOIN_BYTES];
static uint8_t messages[POOL_MAX_SHELF_BYTES], stored[POOL_MAX_SHELF_BYTES];
static size_t sheet_len, circuit_len, joined_len, written;
static uint32_t columns, entries, published, wires, multiplications, tests, circuit_bytes, share_bytes, most;
static uint32_t lists, accepted, refused;
static int64_t determinant, slope, intercept;

static void tell_sizes(void)
{
    refused |= pool_sizes(sheet, sheet_len, &columns, &entries, &published, &wires, &multiplications, &tests,
                          &circuit_bytes, &share_bytes, &most);
}

static void write_circuit(void) { refused |= pool_circuit(sheet, sheet_len, circuit, sizeof circuit, &circuit_len); }

static void read_circuit(void)
{
    refused |= pool_read_circuit(entries, circuit, circuit_len, &wires, &multiplications, &tests);
}

/* As many lists as may be, whatever the sheet. */
static void every_return(void)
{
    static const uint8_t small[12] = {POOL_YES_NO, POOL_YES_NO, POOL_YES_NO, POOL_YES_NO, POOL_YES_NO, POOL_YES_NO,
                                      POOL_YES_NO, POOL_YES_NO, POOL_YES_NO, POOL_YES_NO, POOL_YES_NO, POOL_YES_NO};
    refused |= pool_every_return(small, sizeof small, every, sizeof every, &lists, &written);
    refused |= lists != POOL_MAX_LISTS;
}

static void make(void)
{
    refused |= pool_make(sheet, sheet_len, SERVERS, 1, values, POOL_VALUES_BYTES(columns), random_bytes,
                         POOL_RANDOM_BYTES(SERVERS, share_bytes), shares, sizeof shares, &written);
}

static void make_seeded(void)
{
    refused |= pool_make_seeded(sheet, sheet_len, SERVERS, SEEDED, values, POOL_VALUES_BYTES(columns), random_bytes,
                                POOL_SEEDED_RANDOM_BYTES, seeds, sizeof seeds, seeded, sizeof seeded, &written);
    refused |= written != POOL_MAKE_SEEDED_BYTES(SERVERS, share_bytes);
}

static void open_tables(void)
{
    for (uint32_t i = 0; i < SERVERS; i++) {
        struct table *t = &tables[i];
        refused |= pool_open(SERVERS, i, sheet, sheet_len, RETURNS, 1, t->bytes, sizeof t->bytes, t->slots, POOL_SLOTS,
                             t->elements, POOL_MAX_ELEMENTS, &t->len);
    }
}

/* Where the message of server i goes: round messages may stand in any order, and here it is the reverse one. */
static size_t place_of(size_t i, size_t bytes) { return (SERVERS - 1 - i) * bytes; }

/* The shares of the return, with the ids from `from` to `to`. The messages of the last one stay. */
static void take_ids(uint8_t from, uint8_t to)
{
    for (uint8_t id = from; id <= to; id++)
        for (size_t i = 0; i < SERVERS; i++) {
            shares[i * share_bytes + 1] = id;
            refused |= pool_share(TABLE(&tables[i]), shares + i * share_bytes, share_bytes, 123456789, 987654321,
                                  joined + place_of(i, POOL_ROUND_ONE_BYTES), POOL_ROUND_ONE_BYTES, &written);
        }
}

static void take_share(void) { take_ids(1, 1); }

static void take_seven_more(void) { take_ids(2, POOL_SLOTS); }

/* Where each table stands, while eight returns wait. */
static void tell_states(void)
{
    uint32_t told[8];
    for (size_t i = 0; i < SERVERS; i++) {
        refused |= pool_state(TABLE(&tables[i]), &told[0], &told[1], &told[2], &told[3], &told[4], &told[5], &told[6], &told[7]);
        refused |= told[0] != SERVERS || told[1] != i || told[7] != POOL_SLOTS;
    }
}

static void drop_seven(void)
{
    for (uint32_t id = 1; id < POOL_SLOTS; id++)
        for (size_t i = 0; i < SERVERS; i++)
            refused |= pool_drop(TABLE(&tables[i]), id);
}

/* All servers but the first take seeds, while seven returns wait, and drop the return. */
static void take_seeds(void)
{
    for (size_t i = 1; i < SERVERS; i++) {
        refused |= pool_share(TABLE(&tables[i]), seeded + share_bytes + (i - 1) * POOL_SEED_MESSAGE_BYTES, POOL_SEED_MESSAGE_BYTES,
                              123456789, 987654321, other, POOL_ROUND_ONE_BYTES, &written);
        refused |= pool_drop(TABLE(&tables[i]), SEEDED);
    }
}

static void round_one(void)
{
    for (size_t i = 0; i < SERVERS; i++)
        refused |= pool_round_one(TABLE(&tables[i]), POOL_SLOTS, joined, SERVERS * POOL_ROUND_ONE_BYTES,
                                  other + place_of(i, POOL_ROUND_TWO_BYTES), POOL_ROUND_TWO_BYTES, &written);
}

static void round_two(void)
{
    for (size_t i = 0; i < SERVERS; i++)
        refused |= pool_round_two(TABLE(&tables[i]), POOL_SLOTS, other, SERVERS * POOL_ROUND_TWO_BYTES, &accepted);
}

static void enter(void)
{
    for (size_t i = 0; i < SERVERS; i++)
        refused |= pool_enter(TABLE(&tables[i]), POOL_SLOTS);
}

static void close_tables(void)
{
    joined_len = 0;
    for (size_t i = 0; i < SERVERS; i++, joined_len += written)
        refused |= pool_close(TABLE(&tables[i]), joined + joined_len, sizeof joined - joined_len, &written);
}

static void join(void)
{
    refused |= pool_join(SERVERS, sheet, sheet_len, RETURNS, joined, joined_len, totals, sizeof totals, &accepted,
                         &written);
    refused |= accepted != 1;
}

/* The line of the first column, where it is one of points. A sum of x * x that is 1 more has it that there is one. */
static void line(void)
{
    uint32_t want = sheet[0] == POOL_POINT ? POOL_DONE : POOL_LIMIT;
    memcpy(other, joined, joined_len);
    other[10] += 1;
    refused |= pool_line(SERVERS, sheet, sheet_len, RETURNS, other, joined_len, 1, &determinant, &slope, &intercept) != want;
    refused |= want == POOL_DONE && determinant != 1;
}

static void shelve(void)
{
    refused |= pool_shelve(POOL_MAX_SHELF_MESSAGES, POOL_MAX_SHELF_WIDTH, messages, sizeof messages, stored,
                           sizeof stored, &written);
}

static void unshelve(void)
{
    refused |= pool_unshelve(POOL_MAX_SHELF_MESSAGES, POOL_MAX_SHELF_WIDTH, stored, sizeof stored, messages,
                             sizeof messages, &written);
}

static void nothing(void) {}

static void *in_thread(void *step)
{
    (*(void (**)(void))step)();
    return NULL;
}

/* The stack that a step uses, with what any thread uses. */
static size_t depth(void (*step)(void))
{
    pthread_t thread;
    pthread_attr_t attributes;
    size_t unused = 0;
    uint8_t *stack = mmap(NULL, STACK, PROT_READ | PROT_WRITE, MAP_PRIVATE | MAP_ANONYMOUS | MAP_STACK, -1, 0);
    if (stack == MAP_FAILED)
        exit(2);
    memset(stack, PAINT, STACK);
    pthread_attr_init(&attributes);
    if (pthread_attr_setstack(&attributes, stack, STACK) != 0 ||
        pthread_create(&thread, &attributes, in_thread, &step) != 0)
        exit(2);
    pthread_join(thread, NULL);
    while (unused < STACK && stack[unused] == PAINT)
        unused++;
    munmap(stack, STACK);
    return STACK - unused;
}

static const struct {
    const char *name;
    void (*step)(void);
} steps[] = {
    {"sizes", tell_sizes},        {"circuit", write_circuit}, {"read_circuit", read_circuit}, {"make", make},
    {"make_seeded", make_seeded}, {"open", open_tables},      {"share", take_share},          {"shares", take_seven_more},
    {"state", tell_states},       {"round_one", round_one},   {"round_two", round_two},       {"enter", enter},
    {"seeds", take_seeds},        {"drop", drop_seven},       {"close", close_tables},        {"join", join},
    {"line", line},               {"shelve", shelve},         {"unshelve", unshelve},         {"every_return", every_return},
};

/* Runs every step; gives the number of those that need more than was promised. */
static int measure(size_t plain)
{
    int deep = 0;
    for (size_t k = 0; k < sizeof steps / sizeof steps[0]; k++) {
        size_t used = depth(steps[k].step);
        used = used > plain ? used - plain : 0;
        printf(" %s %zu", steps[k].name, used);
        deep += used > PROMISED;
    }
    puts("");
    return deep;
}

/* So many columns of two bytes. */
static void pairs(size_t count, uint8_t kind, uint8_t bits)
{
    for (sheet_len = 0; sheet_len < 2 * count; sheet_len += 2)
        memcpy(sheet + sheet_len, (const uint8_t[]){kind, bits}, 2);
}

/* So many tops, of 24 bits or of 1. */
static void tops(size_t count, uint8_t byte)
{
    for (sheet_len = 0; sheet_len < 5 * count; sheet_len += 5)
        memcpy(sheet + sheet_len, (const uint8_t[]){POOL_TOP, byte | 1, byte, byte, 0}, 5);
}

int main(void)
{
    int deep;
    size_t plain = depth(nothing);
    memset(sheet, POOL_YES_NO, sizeof sheet);
    sheet_len = POOL_MAX_ENTRIES;
    printf("bytes of stack, 256 columns:");
    deep = measure(plain);
    pairs(10, POOL_NUMBER, 24);
    printf("bytes of stack, 10 numbers:");
    deep += measure(plain);
    tops(5, 0xff);
    printf("bytes of stack, 5 tops of 24 bits:");
    deep += measure(plain);
    pairs(9, POOL_POINT, 12);
    printf("bytes of stack, 9 points of 12 bits:");
    deep += measure(plain);
    tops(85, 0);
    sheet[sheet_len++] = POOL_YES_NO;
    printf("bytes of stack, the longest sheet:");
    deep += measure(plain);
    if (refused != 0 || accepted != 1)
        puts("a call was refused, or the one return was not accepted");
    return deep != 0 || refused != 0 || accepted != 1;
}
