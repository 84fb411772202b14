/*
 * A small host of the installed library, the same text in C and in C++: one return of one yes/no question goes through two servers,
 * from making to the joined totals, and every refusal is said in words. Prints the version, the count and the total.
 */
#include <pool.h>

#include <stdio.h>
#include <string.h>

enum { SERVERS = 2, RETURNS = 1, LEAST = 1, ID = 7, MOST_SHARE = 42 };

static const uint8_t sheet[] = {POOL_YES_NO};

static struct table {
    uint8_t bytes[POOL_MAX_TABLE_BYTES];
    size_t len;
    pool_slot slots[POOL_SLOTS];
    uint32_t elements[POOL_MAX_ELEMENTS];
} tables[SERVERS];

#define TABLE(t) (t)->bytes, (t)->len, (t)->slots, POOL_SLOTS, (t)->elements, POOL_MAX_ELEMENTS

static int done(const char *call, uint32_t answer)
{
    if (answer != POOL_DONE)
        printf("%s: refused %u, %s\n", call, (unsigned)answer, pool_words(answer));
    return answer == POOL_DONE;
}

/* One answer, yes, with random elements that are not random: this is a test. */
static int make(uint8_t *shares, size_t room)
{
    uint8_t values[4] = {1, 0, 0, 0}, random[POOL_RANDOM_BYTES(SERVERS, MOST_SHARE)];
    size_t written;
    for (size_t k = 0; k < sizeof random; k++)
        random[k] = (uint8_t)(k % 4 == 3 ? 1 : 7 * k + 3);
    return done("pool_make", pool_make(sheet, sizeof sheet, SERVERS, ID, values, sizeof values, random, sizeof random, shares, room,
                                       &written));
}

/* The return goes through both servers. */
static int judge(const uint8_t *shares)
{
    uint8_t ones[SERVERS * POOL_ROUND_ONE_BYTES], twos[SERVERS * POOL_ROUND_TWO_BYTES];
    uint32_t accepted = 0;
    size_t written;
    int good = 1;
    for (uint32_t i = 0; i < SERVERS; i++)
        good &= done("pool_open", pool_open(SERVERS, i, sheet, sizeof sheet, RETURNS, LEAST, tables[i].bytes, sizeof tables[i].bytes,
                                            tables[i].slots, POOL_SLOTS, tables[i].elements, POOL_MAX_ELEMENTS, &tables[i].len)) &&
                done("pool_share", pool_share(TABLE(&tables[i]), shares + i * MOST_SHARE, MOST_SHARE, 1000003, 17,
                                              ones + i * POOL_ROUND_ONE_BYTES, POOL_ROUND_ONE_BYTES, &written));
    for (uint32_t i = 0; i < SERVERS; i++)
        good &= done("pool_round_one", pool_round_one(TABLE(&tables[i]), ID, ones, sizeof ones, twos + i * POOL_ROUND_TWO_BYTES,
                                                      POOL_ROUND_TWO_BYTES, &written));
    for (uint32_t i = 0; i < SERVERS; i++)
        good &= done("pool_round_two", pool_round_two(TABLE(&tables[i]), ID, twos, sizeof twos, &accepted)) && accepted == 1 &&
                done("pool_enter", pool_enter(TABLE(&tables[i]), ID));
    return good;
}

/* Closes both servers, and joins. */
static int count(uint32_t *entered, uint8_t total[4])
{
    uint8_t joined[SERVERS * POOL_TOTALS_BYTES(1)];
    uint32_t servers, own, returns, least, closed, decided, in, waiting;
    size_t written;
    int good = 1;
    for (uint32_t i = 0; i < SERVERS; i++)
        good &= done("pool_close", pool_close(TABLE(&tables[i]), joined + i * POOL_TOTALS_BYTES(1), POOL_TOTALS_BYTES(1), &written)) &&
                done("pool_state", pool_state(TABLE(&tables[i]), &servers, &own, &returns, &least, &closed, &decided, &in, &waiting)) &&
                servers == SERVERS && own == i && returns == RETURNS && least == LEAST && closed == 1 && decided == 1 && in == 1 &&
                waiting == 0;
    return good && done("pool_join", pool_join(SERVERS, sheet, sizeof sheet, RETURNS, joined, sizeof joined, total, 4, entered,
                                               &written));
}

int main(void)
{
    uint8_t shares[SERVERS * MOST_SHARE], total[4] = {0, 0, 0, 0};
    uint32_t entered = 0;
    int good = make(shares, sizeof shares) && judge(shares) && count(&entered, total);
    for (uint32_t n = 0; n <= POOL_RUN; n++)
        good &= strcmp(pool_words(n), pool_words(POOL_RUN + 1)) != 0;
    printf("%s: %u entered, total %u\n", POOL_VERSION, (unsigned)entered, (unsigned)total[0]);
    return good && entered == 1 && total[0] == 1 ? 0 : 1;
}
