/*
 * driver.c: random pools from a seed. Each call that a pool needs is made soundly, and must be done; beside it
 * functions are called with arguments gone wild, on copies of the tables. Up to eight returns are under way in a table,
 * each server at its own pace; a share comes as elements or as a seed. What all have accepted is entered, or dropped by all. While too
 * few are entered to close, more returns are played. The totals at the end and their lines are held to the plain sums; a pool with N
 * decided and too few entered ends without.
 *
 *     driver guard|heap SEED POOLS SECONDS
 *
 * It stops after so many pools, or at the end of the pool in which the time is up. Pool k has the seed SEED + k.
 */
#include <stdio.h>
#include <stdlib.h>
#include <string.h>
#include <time.h>

#include "driver.h"

/* A least count: small, N, or any. */
static uint32_t some_least(void)
{
    switch (random_below(4)) {
    case 0:
        return pool.returns;
    case 1:
        return 1 + random_below(pool.returns);
    default:
        return 1 + random_below(pool.returns < 4 ? pool.returns : 4);
    }
}

/* While too few are entered, more returns, so many times at most. Says whether enough are entered. */
static int play_more(int times)
{
    while (pool.entered < pool.least) {
        uint32_t left = pool.returns - pool.decided;
        too_few();
        if (left == 0 || times-- == 0)
            return 0;
        play_returns(1 + random_below(left < MOST_RETURNS ? left : MOST_RETURNS));
    }
    return 1;
}

static void play_pool(void)
{
    uint32_t count = random_below(random_below(4) ? 5 : MOST_RETURNS + 1);
    memset(&pool.plain, 0, sizeof pool.plain);
    pool.entered = pool.decided = 0;
    pool.first_id = (uint32_t)random64();
    new_sheet();
    circuits();
    every_return();
    shelves();
    pool.servers = POOL_MIN_SERVERS + random_below(POOL_MAX_SERVERS - POOL_MIN_SERVERS + 1);
    pool.returns = count + !count + random_below(random_below(8) ? 2 : 100);
    pool.least = some_least();
    open_tables();
    play_returns(count);
    if (play_more(4))
        close_and_join();
}

int main(int argc, char **argv)
{
    if (argc != 5) {
        fputs("usage: driver guard|heap SEED POOLS SECONDS\n", stderr);
        return 2;
    }
    unsigned long long seed = strtoull(argv[2], NULL, 10);
    unsigned long pools = strtoul(argv[3], NULL, 10), seconds = strtoul(argv[4], NULL, 10), k;
    time_t start = time(NULL);
    calls_start(strcmp(argv[1], "heap") == 0 ? HEAP : GUARDED);
    for (k = 0; k < pools && (unsigned long)(time(NULL) - start) < seconds; k++) {
        snprintf(calls_note, sizeof calls_note, "seed %llu", seed + k);
        seed_random(seed + k);
        if (k % 64 == 0) {
            odd_columns();
            long_sheet();
            long_circuit();
            long_shelf();
            most_lists();
            wide_sheets();
            many_lines();
            odd_seeds();
        }
        play_pool();
    }
    printf("%lu random pools\n", k);
    return 0;
}
