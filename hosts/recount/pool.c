/*
 * A small pool for hosts/recount/check: three servers enter four returns and close. Writes their totals messages to the files
 * totals.0 to totals.2 and the sheet's bytes to the file sheet, all in the current folder, and prints what recount must print: the
 * plain sums, worked out from the values.
 */
#define _DEFAULT_SOURCE /* getrandom, of host.h */
#include "host.h"

enum { SERVERS = 3, COLUMNS = 4, RETURNS = 4, POINT_BITS = 6, POINT = 3 };

static const uint8_t sheet[] = {POOL_YES_NO, POOL_CHOICE, 3, POOL_TOP, 200, 0, 0, 0, POOL_POINT, POINT_BITS};
static const uint32_t values[RETURNS][COLUMNS + 1] = {{1, 0, 3, 28, 2}, {0, 2, 200, 34, 5}, {1, 2, 0, 30, 3}, {1, 0, 41, 63, 63}};

static struct host_sizes sizes;
static struct host_table tables[SERVERS];

static void make(uint32_t id, const uint32_t v[COLUMNS + 1], uint8_t *shares)
{
    static uint8_t random[POOL_MAX_RANDOM_BYTES];
    uint8_t bytes[POOL_VALUES_BYTES(COLUMNS)];
    size_t random_len = POOL_RANDOM_BYTES(SERVERS, sizes.share_bytes), written;
    for (int k = 0; k < COLUMNS; k++)
        host_put_u32(bytes + 4 * k, k == POINT ? host_point(POINT_BITS, v[k], v[k + 1]) : v[k]);
    host_elements(random, random_len);
    host_must("pool_make", pool_make(sheet, sizeof sheet, SERVERS, id, bytes, sizeof bytes, random, random_len, shares,
                                     POOL_MAX_MAKE_BYTES, &written));
}

static void enter(uint32_t id, const uint32_t v[COLUMNS + 1])
{
    static uint8_t shares[POOL_MAX_MAKE_BYTES];
    uint8_t ones[SERVERS * POOL_ROUND_ONE_BYTES], twos[SERVERS * POOL_ROUND_TWO_BYTES];
    uint32_t r = host_challenge(sizes.multiplications), s = host_element(), accepted = 0;
    size_t written;
    make(id, v, shares);
    for (size_t i = 0; i < SERVERS; i++)
        host_must("pool_share", pool_share(HOST_TABLE(&tables[i]), shares + i * sizes.share_bytes, sizes.share_bytes, r, s,
                                           ones + i * POOL_ROUND_ONE_BYTES, POOL_ROUND_ONE_BYTES, &written));
    for (size_t i = 0; i < SERVERS; i++)
        host_must("pool_round_one", pool_round_one(HOST_TABLE(&tables[i]), id, ones, sizeof ones, twos + i * POOL_ROUND_TWO_BYTES,
                                                   POOL_ROUND_TWO_BYTES, &written));
    for (size_t i = 0; i < SERVERS; i++) {
        host_must("pool_round_two", pool_round_two(HOST_TABLE(&tables[i]), id, twos, sizeof twos, &accepted));
        host_expect("the verdict", accepted, 1);
        host_must("pool_enter", pool_enter(HOST_TABLE(&tables[i]), id));
    }
}

static void write_file(const char *name, const uint8_t *bytes, size_t len)
{
    FILE *file = fopen(name, "wb");
    if (!file || fwrite(bytes, 1, len, file) != len || fclose(file) != 0) {
        perror(name);
        exit(1);
    }
}

static void close_tables(void)
{
    for (uint32_t i = 0; i < SERVERS; i++) {
        const char name[] = {'t', 'o', 't', 'a', 'l', 's', '.', (char)('0' + i), 0};
        uint8_t totals[POOL_MAX_TOTALS_BYTES];
        size_t written;
        host_must("pool_close", pool_close(HOST_TABLE(&tables[i]), totals, sizeof totals, &written));
        write_file(name, totals, written);
    }
}

static void print_sums(void)
{
    unsigned yes = 0, options[3] = {0}, hours = 0, point[4] = {0};
    for (int n = 0; n < RETURNS; n++) {
        const uint32_t *v = values[n], x = v[POINT], y = v[POINT + 1], products[] = {x, x * x, y, x * y};
        yes += v[0];
        options[v[1]]++;
        hours += v[2];
        for (int k = 0; k < 4; k++)
            point[k] += products[k];
    }
    printf("accepted %d\n1 0 %u\n", RETURNS, yes);
    for (int k = 0; k < 3; k++)
        printf("2 %d %u\n", k, options[k]);
    printf("3 0 %u\n", hours);
    for (int k = 0; k < 4; k++)
        printf("4 %d %u\n", k, point[k]);
}

int main(void)
{
    host_must("pool_sizes", host_sizes_of(sheet, sizeof sheet, &sizes));
    for (uint32_t i = 0; i < SERVERS; i++)
        host_must("pool_open", host_open(SERVERS, i, sheet, sizeof sheet, RETURNS, RETURNS, &tables[i]));
    for (uint32_t id = 0; id < RETURNS; id++)
        enter(id, values[id]);
    close_tables();
    write_file("sheet", sheet, sizeof sheet);
    print_sums();
    return 0;
}
