/* driver.h: what the files of the driver share. See driver.c. */
#ifndef POOL_DRIVER_H
#define POOL_DRIVER_H

#include "runs.h"

enum { MOST_RETURNS = 16 };

/* The pool that is being played. */
extern struct pool {
    struct run sheet;
    struct sheet_sizes sizes;
    uint32_t servers, returns, least;
    struct table tables[POOL_MAX_SERVERS];
    struct run values, random, shares; /* of the return that was made last */
    struct run seeds;                  /* for the same shares of servers 1 to S - 1; empty where there are none */
    uint32_t plain[POOL_MAX_ENTRIES], entered; /* of the returns that were played */
    uint32_t first_id, decided;                /* they have the ids from the first one on, and are decided everywhere */
} pool;

/* wild.c */

/* Fails the run unless the call was done. */
void must(uint32_t answer, const char *what);

/* Changes a run, or a part of a table, a little or a lot, or leaves it. */
void wild(struct run *run);
void wild_table(struct table *table);

/* A sound number, or another. */
uint32_t wild32(uint32_t sound);
uint64_t wild64(uint64_t sound);

/* A least count for a table that is damaged: outside 1 to N, or in its range. */
uint32_t wild_least(void);

/* Room around what is needed. */
size_t wild_room(size_t needed);

/* For bytes and numbers after a table: often none. */
size_t some_extra(void);

/* forms.c */

/* A column of a sheet that was read. */
struct column {
    uint8_t kind;
    uint32_t values;    /* how many it has: 0 to one less */
    uint32_t published; /* how many totals */
    uint32_t side;      /* of a point: how many numbers x and y can be */
    size_t next;        /* where the next one begins */
};
struct column column_at(const struct run *sheet, size_t at);

/* Chooses the pool's sheet: small, now and then large, now and then as large as may be. */
void new_sheet(void);
void circuits(void);
void every_return(void);

/* Stores a run by place and brings it back, then tries both with wild arguments. */
void shelve(uint32_t messages, uint32_t width, const struct run *run);
void shelves(void);

/* Columns at and past their limits. */
void odd_columns(void);

/* What is too long, and as many lists as may be. */
void long_sheet(void);
void long_circuit(void);
void long_shelf(void);
void most_lists(void);

/* making.c */

/* One random value for each column, added to `sums` in entry order of the published entries. */
void new_values(uint32_t *sums);

/* Random elements for a return: all drawn, or four drawn and the others those of seeds. */
void new_random(uint32_t id);

/* Makes the return of these values, after wild tries, into pool.shares; where there are seeds, from these too. */
void make_return(uint32_t id);

/* Seeds whose streams have a word that is p, or p with the top bit. */
void odd_seeds(void);

/*
 * Makes the return again by a sheet with the highest tops of as many bits, with these as the values: the shares have the
 * form of the pool's. Says whether there is a top that is lower, so that the servers must reject it.
 */
int make_with_higher_tops(uint32_t id, size_t room);

/* opening.c */

/* The limits of opening with numbers of 24 bits and with points of 12 bits, where N is 128 at most, and with points of 11, 512. */
void wide_sheets(void);

/* Opens the pool's tables. */
void open_tables(void);

/* orders.c */

/*
 * A round of a return at server i, whose messages are all there, in server order in `messages`. In every order it has this answer
 * and the same outcome; with a fault it is refused 12, and without, but with another's r or s in round one, 16.
 */
void check_orders(uint32_t i, uint32_t id, uint8_t kind, const uint8_t *messages, uint32_t answer);

/* The joined totals messages, given in server order, are refused 12 where one stands in another's place. */
void check_totals(const struct run *totals);

/* servers.c */

/* Plays so many returns more, several of them under way. */
void play_returns(uint32_t count);

/* How many returns server i has waiting, for entry too, decided and entered. */
struct counts {
    uint32_t waiting, decided, entered;
};
struct counts counts_at(uint32_t i);

/* tries.c */

/* A call on a copy of a table of server i, or of another, with arguments gone wild. */
void wild_call(uint32_t i);

/* fits.c */

/* The lines of the pool's joined totals, one for each column of points, and tries with other totals and wild arguments. */
void check_lines(const struct run *joined);

/* Lines of totals that no returns have. */
void many_lines(void);

/* closing.c */

/* What a close comes to at server i, as it stands and with another least count: on copies of its table. */
void try_close(uint32_t i);

/* Every server refuses to close, with too few entered. */
void too_few(void);

/* Closes the tables, with enough entered, joins the totals and fits the lines. */
void close_and_join(void);

#endif
