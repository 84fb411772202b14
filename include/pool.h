/*
 * pool.h: the figures pool.
 *
 * A return is one value for each column of a sheet. A workshop (client) splits it into shares for S servers; each server
 * sees one share, which alone says nothing. The servers check the form of a return together, in two rounds of short
 * messages, enter what they accept into their totals, and publish these.
 *
 *     every party       pool_sizes -----> what the sheet comes to, and so the length of every buffer
 *     an author         pool_every_return -> every legal return of a small sheet
 *     workshop          pool_make ------> S share messages, one for each server
 *                       pool_make_seeded -> one share message and S - 1 seed messages of 38 bytes, which stand for shares
 *     each server       pool_open         once: a table, in three parts
 *                       pool_share ------> its round-one message    } for each return: up to eight
 *                       pool_round_one --> its round-two message    } are under way at a time,
 *                       pool_round_two --> accepted or rejected     } each in its own stage
 *                       pool_enter         adds an accepted return to the totals, when all servers have accepted it
 *                       pool_drop          in place of a round or of entering, for a return that cannot be finished
 *                       pool_state ------> where the table stands, at any time
 *                       pool_close ------> its totals message, at the end, when enough returns are entered
 *     anyone            pool_join -------> the count of entered returns and the totals
 *                       pool_line -------> the line that fits the points of a column best
 *     a keeper          pool_shelve -----> share messages stored by place, and pool_unshelve brings them back
 *
 * The host's part: it draws the random numbers, carries the messages, stores the tables, and chooses r and s for each return: anew,
 * the same for every server, after the shares have been sent and in a way that no workshop can foretell. This page goes on with
 * calling, messages, tables, a keeper's loop, verdict and entry, dropping, slips, restarts, secrecy and small pools.
 *
 * CALLING
 *
 * Answers. Every function but pool_words returns 0 when it is done, and else the number of the refusal. The first refusal in
 * the order given at each function counts. A refusal changes nothing: buffers, all three parts of tables and results behind
 * pointers keep what they held. When a function is done, the bytes of a buffer past the written length keep what they held.
 *
 * Numbers. A number wider than a byte stands in a buffer of bytes lowest byte first. An element is a number below
 * p = 2147483647, in 4 bytes.
 *
 * Buffers. Each is a pointer with its length after it, which is the true length of the buffer and counts what the pointer
 * points to: bytes, slots or numbers. A length of 0 goes with any pointer, NULL included, and an output buffer of length 0 is
 * one that is too short. The buffers and results of one call must not overlap. Pointers to results must be valid: not NULL,
 * and aligned as C wants.
 *
 * Threads. Functions keep nothing between calls. Calls at the same time are allowed on separate buffers; calls on one table
 * come one after another, whichever returns they name. No function needs more than 64 KiB of stack; none allocates memory.
 *
 * MESSAGES
 *
 *     byte 0         bytes 1-4   byte 5      from byte 6 on                           length in bytes
 *     33 share       the id      the server  the elements of the share                share_bytes, 42 to 3,102
 *     38 seed        the id      the server  a seed of 32 bytes                       38, POOL_SEED_MESSAGE_BYTES
 *     34 round one   the id      the server  d at 6, e at 10, r at 14, s at 18        22, POOL_ROUND_ONE_BYTES
 *     35 round two   the id      the server  sigma at 6, tau at 10                    14, POOL_ROUND_TWO_BYTES
 *
 *     byte 0         byte 1      bytes 2-5   from byte 6 on
 *     36 totals      the server  the count   the server's share of each total         POOL_TOTALS_BYTES
 *
 * The server is the one that gets the share, or that wrote the message, counted from 0. Messages are not encrypted, have no checksum,
 * and can say any sender: connections that are encrypted and tell who is at the other end are the host's.
 *
 * Shares go from the workshop to one server each, in either form; server 0 gets a share message, the remainder. A seed stands for
 * (share_bytes - 6) / 4 elements: element k, from 0, is made of bytes 4k to 4k + 3 of the key stream of ChaCha20 (RFC 8439) with the
 * seed as its key, blocks counted from 0, and as its nonce bytes 1 to 4 of the message followed by eight zero bytes. These 4 bytes are
 * read as a number, its top bit is cleared, and it is taken modulo p: so 0x7fffffff and 0xffffffff give 0. A seed of 32 zero bytes
 * under the id 0 gives 769702006, 272495008, 1701469504, 683509331 and so on. Once a share is taken its form makes no difference.
 *
 * Round messages go from each server to every server. A server is handed the S messages of a round of one return one after another
 * as they arrived: in any order, which may be another at each server; one of each server, the own one, unaltered, among them. A server
 * twice or missing, or a byte 5 of S or more, is refused 12. A host takes one message of each server, told by the connection that it
 * came on, and hands them in when it has all S. Totals messages are joined in server order (pool_join).
 *
 * TABLES
 *
 * A table has three parts, which the host keeps and lends to every call on the table:
 *
 *     table       bytes, POOL_TABLE_BYTES           S, the own number, N, Q, the sheet, the counts, the totals, the ids decided
 *     slots       pool_slot, POOL_SLOTS of them     for each return that waits: its id, its stage, r, s, d and e
 *     elements    uint32_t, POOL_ELEMENTS of them   for each slot a place for the share of the return that waits in it
 *
 * Slots are aligned to 8 bytes and elements to 4, as C wants; the bytes may stand anywhere. Stored parts are copied back into
 * pool_slot and uint32_t arrays: a cast pointer into a byte buffer need not be aligned. There are exactly eight slots. The
 * bytes and the elements may stand at the start of longer buffers: what lies past them is never read nor written. Slots and
 * elements hold numbers as the machine does.
 *
 * What each part holds. The bytes: of a decided return its id and, if it was entered, what its share added to the totals; of a
 * return that waits nothing. A slot: stage POOL_FREE and zeros, or the return that waits in it (see pool_slot). The elements:
 * with E = (share_bytes - 6) / 4 elements to a share, the place of slot i, from 0, is the E + 2 numbers from i x (E + 2) on. It
 * holds the share of the return that waits there, for entry too, and two numbers worked out from it, r x h(r) and tau; zeros where
 * the slot is free. pool_share fills the first free slot and its place. When the return is decided (rejected by pool_round_two,
 * entered or dropped) both are erased: set to 0. pool_open sets all slots and places to 0.
 *
 * One writer, no checksum. Only the calls write to a table; a host may read the slots. One process has it at a time: take a lock on
 * what is stored. A table has no checksum: a call refuses 11 what cannot be a table, and takes other damage as it stands. Store a
 * checksum of the three parts beside them and test it before the first call after a restart.
 *
 * STORE TOGETHER, BEFORE ANYTHING IS SENT: the three parts, with the message that the call wrote, or the verdict, and which ids were
 * entered (the bytes tell which were decided, not how). Store them all or none: in a file written anew, flushed and renamed, say. A
 * message cannot be written a second time. Parts that were stored at different times are no table: calls cannot always tell, and the
 * totals can become wrong. Never go back to older copies of a table, nor of a part: a share judged twice with two pairs shows more
 * of the return than it may.
 *
 * Versions. A pool is finished by the version of the library that opened it. A table of an earlier layout is refused 11. Where the
 * layout is the same, the returns that wait go on, with one version at all servers: what an earlier one accepted is entered already;
 * round-one messages of an earlier length are refused 12, and the returns that await round one with them are dropped at every server.
 *
 * A KEEPER'S LOOP
 *
 * Each call names its return: a share by the id in its message, the other calls by an id. What becomes of a return that was taken does
 * not depend on the calls on others between its own, and returns may be finished in any order. A keeper takes what comes, in the order
 * in which it comes (T stands for the three parts with their lengths; out has POOL_ROUND_ONE_BYTES, enough for both rounds):
 *
 *     while (next(&m)) {                        // what is ready: a share with its r and s, all S messages of a round, an entry
 *         out_len = 0;                          // or a drop
 *         switch (m.what) {
 *         case A_SHARE:
 *             answer = pool_share(T, m.bytes, m.len, m.r, m.s, out, sizeof out, &out_len);
 *             if (answer == POOL_STAGE && eight_wait(slots)) {
 *                 put_back(&m);                 // it comes again before any later share, with the same r and s,
 *                 continue;                     // once a return is decided
 *             }
 *             break;
 *         case ALL_ROUND_ONE:                   // m.bytes: S messages, as they arrived
 *             answer = pool_round_one(T, m.id, m.bytes, m.len, out, sizeof out, &out_len);
 *             break;
 *         case ALL_ROUND_TWO:                   // likewise
 *             answer = pool_round_two(T, m.id, m.bytes, m.len, &accepted);
 *             if (answer == POOL_DONE)
 *                 out_len = put_verdict(out, accepted); // a message of the host's own (see Verdict and entry)
 *             break;
 *         case AN_ENTRY:                        // every server has said that it has accepted the return
 *             answer = pool_enter(T, m.id);
 *             break;
 *         case A_DROP:
 *             answer = pool_drop(T, m.id);
 *             break;
 *         }
 *         if (answer != POOL_DONE && m.what == A_SHARE && used(m.id))
 *             continue;                         // another return has or had this id: it goes on, this share is left
 *         if (answer != POOL_DONE && m.what == AN_ENTRY)
 *             break;                            // the table is damaged: stop; the others enter the return
 *         if (answer != POOL_DONE)
 *             tell_others(m.id, answer);        // all drop the return where it waits (see Dropping);
 *                                               // at a 16 the keepers look for the slip (see A slip in r or s)
 *         else if (store(T, out, out_len) && out_len > 0) // all together; a store that fails: stop, nothing more is sent
 *             send_others(m.id, out, out_len);  // only now
 *     }
 *
 * used: the id waits in a slot, or this table took it before. Such a share is refused 10, or 7, 8 or 13, which come before 10.
 * An entry is ready where its return awaits entry. A drop is ready where its return waits, after an accepted verdict only as said
 * under Dropping. A drop that comes before the share is kept until the share is taken. An entry or a drop of a return that was
 * refused or is decided here is left, and nothing is told.
 *
 * The servers take the shares of returns in the same order. Otherwise each could have its eight slots full of returns that
 * another has no slot for, and none could be finished.
 *
 * VERDICT AND ENTRY
 *
 * pool_round_two only gives the verdict, the same at every server where no message was altered. A rejected return is decided by it. An
 * accepted one waits in its slot, in no total, until pool_enter adds it, exactly once, or it is dropped. Entries, like drops, must reach
 * every server: a return that is entered at one server and dropped at another, whatever its verdict there, makes the totals wrong, and
 * joining notices only counts that differ. So:
 *     1. Each server stores its table with the verdict, and only then tells it to the others.
 *     2. It enters the return once all S servers have told an accepted verdict, its own included. Then none drops it any more.
 *     3. Where one has told a rejected verdict (a message was altered) or that it dropped the return, those that accepted it
 *        drop it.
 *
 * Dropping. A return that cannot be finished is dropped at every server, by its id; the others that wait go on. One that is
 * neither finished nor dropped keeps its slot, and counts towards N. Until a server has told an accepted verdict no other can have
 * entered the return, and it may drop it. After that it drops it only where another server says that it dropped or rejected it, or
 * where all agree to drop it and none has entered it. A return that was accepted and is dropped is in no total.
 *
 * A slip in r or s. Each round-one message says with which r and s its server took the share. Where they differ, each server
 * refuses round one 16 and nothing has changed: the return goes on awaiting round one, is accepted and rejected nowhere, and only
 * dropping ends it. The keepers compare the r and s that each server was given for the id: they stand in its slot and in its
 * message. Where the slots have one pair, a message was altered on its way. They drop the id at every server: none can have a
 * verdict, for round two needs a message of each. The id stays used, and the shares are never judged again: the workshop makes its
 * return anew, with new random elements and seeds and under a new id, and a new pair is given, the same at every server.
 *
 * RESTARTS
 *
 * A server that stops, wherever it stops, goes on from what it stored last. What was not stored was not sent either. It tests the
 * checksum and calls pool_state. Then, for each return:
 *     its share at hand    it is handed in again, with the same r and s; refused 10, the table has it already
 *     POOL_AWAITS_ONE      the stored round-one message is sent again, and the others are asked for theirs
 *     POOL_AWAITS_TWO      so is the round-two message
 *     POOL_AWAITS_ENTRY    the verdict was accepted: it is told again, and the others are asked for theirs; the return is entered or
 *                          dropped as they do or did, and the totals join with theirs
 *     decided              the others are told how, where they ask
 * and where the table is closed, the stored totals message is sent again. A call that may have been made before is made again: an
 * entry is done, or refused 11 with the id in no slot, for it was decided before.
 *
 * So that one of them can ask again, the servers keep what they have: a share message until the table that took it is stored; the round
 * messages of the others until the own verdict is stored; the own ones until all have told a verdict, or the return is dropped. Where a
 * round message is lost for good the return is dropped at every server. A table that is lost or damaged takes the totals with it, for
 * all S are needed: open a new pool, with returns made anew.
 *
 * SECRECY
 *
 *     what                                                          is wiped
 *     random elements and seeds, at the workshop                    once the messages are made
 *     share and seed messages                                       at the workshop once sent, at the server once the table is stored
 *     the elements of a table: the shares of the returns that wait  by the call that decides the return, in the parts that it is lent
 *     the totals in the bytes of a table: the server's share        with the table, by the host, once the totals are published
 *
 * These are secret, with all copies, swap and logs of them, and stored messages stay so in any order of their bytes (pool_shelve):
 * those of all S servers, added up, are the returns, and the totals of all S tables, closed or not, added up modulo p, are the totals.
 * Two copies of a table, from before and after one return is entered, show the published entries of its share. Older copies are the
 * host's to wipe. A seed is as secret as the share that it stands for, from the moment it is drawn; no part of a table holds it.
 * The slots, the rest of the bytes and the round messages hold what the servers agree on or tell one another: ids, counts, r, s, d, e,
 * sigma and tau. Of these r and s are kept from the workshop until its shares are sent.
 *
 * SMALL POOLS
 *
 * The totals of few returns show much of each. So a table opens with a least count Q, from 1 to N, the same at every server: with fewer
 * than Q returns entered pool_close is refused 15 and gives no totals. Nothing has changed then: the table takes more returns, up to N
 * decided, and is closed later. Returns that are rejected or dropped count towards N and not towards Q. A table with N decided and fewer
 * than Q entered never closes: its shares are refused 13 and its close 15. That is certain once more than N - Q returns are rejected or
 * dropped. Then open a new pool, for which the workshops make their returns anew (a share of the old one is never judged again), and
 * erase the old tables. Q counts returns, not workshops: who sends them, and how many each, is the host's to know. The four totals of a
 * column of points show more than the one of a number: those of two returns show both x, and both y where the x differ. So with points
 * take a Q well above 2.
 */
#ifndef POOL_H
#define POOL_H

#include <stddef.h>
#include <stdint.h>

#define POOL_VERSION "0.13.0" /* of this header and its library (CHANGELOG.md) */

#ifdef __cplusplus
extern "C" {
#endif

/* Refusals: each by its sentence in pool_refusals.def, which also says what to do. */
#define POOL_DONE 0
#define POOL_KIND 1     /* sheet or circuit: an unknown kind byte, or its body is cut off */
#define POOL_LIMIT 2    /* a number outside its limits, or a column that is not of points */
#define POOL_WIRE 3     /* circuit: a wire not yet made, or an entry that does not exist */
#define POOL_WRAP 4     /* N returns could make a total of p or more */
#define POOL_VALUE 5    /* not one value for each column, or a value outside its column */
#define POOL_RANDOM 6   /* not the right number of random elements or seeds, or an element not below p */
#define POOL_SHARE 7    /* share or seed message of the wrong kind, length or server, or a seed for server 0 */
#define POOL_ELEMENT 8  /* share element not below p */
#define POOL_PAIR 9     /* r or s outside its range */
#define POOL_DECIDED 10 /* the id was decided or waits */
#define POOL_STAGE 11   /* table unsound or closed, no return in that stage, eight wait, or a close while one waits */
#define POOL_JOINED 12  /* joined messages: one altered, cut, of another id or kind, twice, missing or out of order */
#define POOL_FULL 13    /* N returns are decided or wait */
#define POOL_ROOM 14    /* a buffer or a part of the table is too short, or slots_len is not POOL_SLOTS */
#define POOL_FEW 15     /* fewer than Q returns are entered */
#define POOL_UNEQUAL 16 /* r or s is not the same in all messages */
#define POOL_MANY 17    /* the sheet has more than 4,096 legal lists of values */
#define POOL_NO_LINE 18 /* all x are equal, or no return is entered: no one line fits */
#define POOL_RUN 19     /* the run is not R messages of W bytes */

/*
 * The refusal in a sentence and, after a semicolon, what to do; "done" for 0, "unknown refusal" for a number that is none. The text
 * stays and is not freed. It is in pool_words.c: the installed libraries hold it, another build compiles this file besides.
 */
const char *pool_words(uint32_t refusal);

/* Limits. */
#define POOL_PRIME UINT32_C(2147483647)
#define POOL_MIN_SERVERS 2
#define POOL_MAX_SERVERS 8
#define POOL_MAX_RETURNS 1024
#define POOL_MAX_ENTRIES 256
#define POOL_SLOTS 8 /* returns that wait in a table at a time */
#define POOL_MAX_LISTS 4096
#define POOL_MAX_SHELF_MESSAGES 64
#define POOL_MAX_SHELF_WIDTH 4096

/*
 * Columns of a sheet: the kind byte, then the body.
 *     POOL_YES_NO          no body; values 0 and 1; one entry, one published
 *     POOL_CHOICE, B       B options, 2 to 64; values 0 to B - 1; B entries, B published
 *     POOL_NUMBER, b       b bits, 1 to 24; values 0 to 2^b - 1; b + 1 entries, one published
 *     POOL_TOP, T          a number with a top of its own: T in 4 bytes, 1 to 16,777,215; values 0 to T; with b the bit length
 *                          of T, 2b + 1 entries, one published
 *     POOL_POINT, b        a point: two numbers x and y of b bits each, 1 to 12, for the line of y on x (pool_line). Its value is the
 *                          one number x + 2^b * y: x is its lowest b bits, y those above them; values 0 to 4^b - 1, all of them legal.
 *                          2b + 4 entries, the first four published, in this order: x, x * x, y, x * y. The servers reject a return
 *                          in which the products are not those of x and y
 * A sheet has 1 to 256 entries. M is the number of multiplications: 1 for yes/no, B for a choice, b for a number, 2b for a
 * number with a top, 2b + 2 for a point.
 *
 * N times the largest number in a published entry must stay below p, or opening is refused 4. This number is 1 for yes/no and
 * choices, 2^b - 1 for a number, T for one with a top, and the square of 2^b - 1 for a point: points of 12 bits open with N up to
 * 128, of 11 bits with N up to 512, and of 10 bits or fewer with every N (greatest_returns of pool_sizes tells it for a sheet).
 */
#define POOL_YES_NO 17
#define POOL_CHOICE 18
#define POOL_NUMBER 19
#define POOL_TOP 20
#define POOL_POINT 21

/*
 * A slot of a table. One that is free is all 0. For a return that waits it holds:
 *     id        of the return
 *     stage     POOL_AWAITS_ONE after its share, POOL_AWAITS_TWO after round one, POOL_AWAITS_ENTRY after an accepted verdict
 *     r, s      the challenges that its share was taken with
 *     d, e      awaiting round one those that this server sent, later the sums of all servers'
 * A slot has 40 bytes and no gaps.
 */
typedef struct {
    uint32_t id, stage;
    uint64_t r, s, d, e;
} pool_slot;

/* Stages of a slot. */
#define POOL_FREE 0
#define POOL_AWAITS_ONE 1
#define POOL_AWAITS_TWO 2
#define POOL_AWAITS_ENTRY 3

/*
 * Sizes of buffers, in bytes, from S (2 to 8), N and what pool_sizes tells of the sheet: its columns, published entries and
 * share_bytes. A circuit has circuit_bytes, a share message share_bytes. Of a table POOL_TABLE_BYTES is the length of its
 * bytes; POOL_ELEMENTS counts numbers, not bytes. slots_len is POOL_SLOTS, not sizeof slots. In memory and in storage the parts
 * take POOL_TABLE_BYTES, POOL_SLOTS * sizeof(pool_slot) and POOL_ELEMENTS * sizeof(uint32_t) bytes.
 */
#define POOL_VALUES_BYTES(columns) (4 * (size_t)(columns))
#define POOL_RANDOM_BYTES(servers, share_bytes) (((size_t)(servers) - 1) * ((size_t)(share_bytes) - 6) + 16)
#define POOL_MAKE_BYTES(servers, share_bytes) ((size_t)(servers) * (size_t)(share_bytes))
#define POOL_SEED_BYTES 32
#define POOL_SEED_MESSAGE_BYTES 38
#define POOL_SEEDED_RANDOM_BYTES 16
#define POOL_SEEDS_BYTES(servers) (((size_t)(servers) - 1) * POOL_SEED_BYTES)
#define POOL_MAKE_SEEDED_BYTES(servers, share_bytes) ((size_t)(share_bytes) + ((size_t)(servers) - 1) * POOL_SEED_MESSAGE_BYTES)
#define POOL_ROUND_ONE_BYTES 22
#define POOL_ROUND_TWO_BYTES 14
#define POOL_TOTALS_BYTES(published) (6 + 4 * (size_t)(published))
#define POOL_JOIN_BYTES(published) (4 * (size_t)(published))
#define POOL_TABLE_BYTES(sheet_len, published, returns) \
    (14 + (size_t)(sheet_len) + 4 * (size_t)(published) + 4 * (size_t)(returns))
#define POOL_ELEMENTS(share_bytes) (POOL_SLOTS * (((size_t)(share_bytes) - 6) / 4 + 2))

/* The size of every legal list of values of a small sheet, in bytes, from its columns and the number of lists. */
#define POOL_EVERY_RETURN_BYTES(columns, lists) ((size_t)(lists) * POOL_VALUES_BYTES(columns))

/* The size of a run of stored messages, in bytes, from R and W. */
#define POOL_SHELF_BYTES(messages, width) ((size_t)(messages) * (size_t)(width))

/* Sizes that are enough for every sheet and S. */
#define POOL_MAX_SHEET_BYTES 426
#define POOL_MAX_CIRCUIT_BYTES 7161
#define POOL_MAX_VALUES_BYTES 1024
#define POOL_MAX_RANDOM_BYTES 21688
#define POOL_MAX_SHARE_BYTES 3102
#define POOL_MAX_MAKE_BYTES 24816
#define POOL_MAX_SEEDS_BYTES 224
#define POOL_MAX_MAKE_SEEDED_BYTES 3368
#define POOL_MAX_TOTALS_BYTES 1030
#define POOL_MAX_JOIN_BYTES 1024
#define POOL_MAX_TABLE_BYTES 5390 /* N = 1,024; a sheet has at most 5 bytes for each entry, its total included, as 256 yes/no have */
#define POOL_MAX_ELEMENTS 6208    /* numbers: 256 entries and as many multiplications, 774 elements to a share */
#define POOL_MAX_EVERY_RETURN_BYTES 196608
#define POOL_MAX_SHELF_BYTES 262144 /* and for every R and W */

/*
 * Tells what a sheet comes to, from its bytes alone and without building its circuit. A host calls it once for a sheet: with
 * S and N the results give the length of every buffer (see above). An author learns what a new sheet will cost.
 *     columns            the questions: a return has one value for each
 *     entries            L, the numbers that a return is encoded as
 *     published          the entries whose totals are published
 *     wires              of the circuit that pool_circuit writes, wire 0 too
 *     multiplications    M of this circuit: r is above it
 *     tests              K of this circuit
 *     circuit_bytes      the length of this circuit
 *     share_bytes        the length of one share message
 *     greatest_returns   the greatest N that pool_open takes with this sheet: 1,024, or less where numbers can be large
 * Refusals: 1 or 2 by the first column at fault; 2 for no entries or more than 256.
 */
uint32_t pool_sizes(const uint8_t *sheet, size_t sheet_len,
                    uint32_t *columns, uint32_t *entries, uint32_t *published,
                    uint32_t *wires, uint32_t *multiplications, uint32_t *tests,
                    uint32_t *circuit_bytes, uint32_t *share_bytes, uint32_t *greatest_returns);

/*
 * Writes the circuit of a sheet, circuit_bytes.
 * Refusals: the sheet's, 14.
 */
uint32_t pool_circuit(const uint8_t *sheet, size_t sheet_len, uint8_t *out, size_t out_len, size_t *written);

/*
 * Reads a circuit over so many entries and counts its wires, multiplications and tests.
 * Refusals: 2 for entries outside 1 to 256, then for more than 17,920 bytes; 1, 2 or 3 by the first step at fault; 2 for
 * more than 2,048 wires, multiplications outside 1 to 256 or tests outside 1 to 512.
 */
uint32_t pool_read_circuit(uint32_t entries, const uint8_t *circuit, size_t circuit_len,
                           uint32_t *wires, uint32_t *multiplications, uint32_t *tests);

/*
 * Writes every legal list of values of a small sheet, each once: all fillings that an author reads the wording against.
 *     out       the lists one after another, each as pool_make takes it: 4 bytes for each column. They stand in rising order,
 *               the first column weighing most: from one list to the next the last column moves first. *written is
 *               POOL_EVERY_RETURN_BYTES; a sheet with at most 4,096 lists has at most 12 columns, so that
 *               POOL_MAX_EVERY_RETURN_BYTES are enough for every sheet
 *     lists     how many there are, 1 list for each choice of a value in every column: 2, B, 2^b, T + 1 or, for a point, 4^b values,
 *               multiplied
 * Refusals: the sheet's, 17 for more than 4,096 lists, 14.
 */
uint32_t pool_every_return(const uint8_t *sheet, size_t sheet_len, uint8_t *out, size_t out_len,
                           uint32_t *lists, size_t *written);

/*
 * Makes a return: writes the S share messages one after another in server order, share_bytes each: POOL_MAKE_BYTES.
 *     id        any number, given to one return only
 *     values    POOL_VALUES_BYTES: 4 bytes for each column, in the order of the sheet; those of a point hold x + 2^b * y
 *     random    POOL_RANDOM_BYTES of random elements, each drawn evenly below p, never used twice
 * Refusals: the sheet's, 2 for S, 5, 6, 14.
 */
uint32_t pool_make(const uint8_t *sheet, size_t sheet_len, uint32_t servers, uint32_t id,
                   const uint8_t *values, size_t values_len, const uint8_t *random, size_t random_len,
                   uint8_t *out, size_t out_len, size_t *written);

/*
 * Makes a return with seeds in place of the shares of servers 1 to S - 1. It writes server 0's share message, share_bytes, then the
 * seed messages of servers 1 to S - 1 in this order, POOL_SEED_MESSAGE_BYTES each: POOL_MAKE_SEEDED_BYTES in all. Server 0's message
 * begins at out, that of server i, from 1 on, at out + share_bytes + (i - 1) x POOL_SEED_MESSAGE_BYTES.
 *     id, values  as in pool_make
 *     random      POOL_SEEDED_RANDOM_BYTES: four random elements, each drawn evenly below p, never used twice
 *     seeds       POOL_SEEDS_BYTES: the seeds of servers 1 to S - 1 one after another. Each is 32 random bytes of the system, any
 *                 bytes, drawn by itself, used for one server of one return, and told to this server only
 * It is the return that pool_make makes of these four elements and the elements of the seeds, and a host may work out the elements of
 * a seed itself and send the share message instead. The id goes into the elements: a seed message is not renamed.
 *
 * Never use a seed twice. The elements depend on the seed and the id, not on the server: with one seed for two servers both have the
 * same share, and each knows the other's. With the same id and seeds for two returns server 0's shares differ by what these differ by.
 *
 * When it is worth it. The workshop sends less: with S = 8 and the largest sheet 3,368 bytes instead of 24,816, and draws 240 random
 * bytes instead of 21,688. In general (S - 1) x (share_bytes - 38) bytes are saved: next to nothing with one yes/no, whose
 * share_bytes are 42, and more with each entry and server. A server pays with the key stream, one block of 64 bytes for 16 elements.
 * Shares of random elements hide a return from all servers but one whatever these can compute; those of seeds hide it as well as
 * ChaCha20 keeps its key stream from being told from random bytes.
 * Refusals: the sheet's, 2 for S, 5, 6 for other than four elements, one not below p, or other than S - 1 seeds, 14.
 */
uint32_t pool_make_seeded(const uint8_t *sheet, size_t sheet_len, uint32_t servers, uint32_t id,
                          const uint8_t *values, size_t values_len, const uint8_t *random, size_t random_len,
                          const uint8_t *seeds, size_t seeds_len, uint8_t *out, size_t out_len, size_t *written);

/*
 * Opens a table of server `own` (0 to S - 1): writes its three parts. S, sheet, N and Q are the same at every server.
 *     returns   N, 1 to 1,024: how many returns it takes, decided and waiting together. One above the sheet's greatest_returns
 *               is refused
 *     least     Q, 1 to N: how many returns must be entered before it closes
 *     table     POOL_TABLE_BYTES; *written is this length
 *     slots     slots_len is POOL_SLOTS
 *     elements  POOL_ELEMENTS numbers
 * Refusals: 2 for S, 2 for the own number, the sheet's, 2 for N, 2 for Q, 4, 14 for too few bytes, other than eight slots or too
 * few numbers.
 */
uint32_t pool_open(uint32_t servers, uint32_t own, const uint8_t *sheet, size_t sheet_len, uint32_t returns, uint32_t least,
                   uint8_t *table, size_t table_len, pool_slot *slots, size_t slots_len,
                   uint32_t *elements, size_t elements_len, size_t *written);

/*
 * Takes a share into the first free slot and its place, and writes the server's round-one message, POOL_ROUND_ONE_BYTES, which
 * tells r and s. The bytes of the table stay as they are.
 *     message   a share message, share_bytes, or a seed message, POOL_SEED_MESSAGE_BYTES, told by byte 0 (see Messages). The place
 *               in the elements is filled with the elements of the share, whichever it is. Servers of one return may have either
 *     r         from M + 1 to p - 1; s from 0 to p - 1: the same at every server, or each refuses round one 16
 * Refusals: 11 for a table that is unsound (other than eight slots or too few numbers included) or closed, or in which eight
 * returns wait (see A keeper's loop); 13 for N returns that are decided or wait; 7 for a byte 0 other than 33 and 38, a length that is
 * not the one of this kind, another server than the own one, or a seed message at server 0; 8, for a share message only; 10 for an id
 * that was decided or waits; 9, 14. A seed that was altered on its way is no fault here: it gives other elements, and round two rejects
 * the return.
 */
uint32_t pool_share(const uint8_t *table, size_t table_len, pool_slot *slots, size_t slots_len,
                    uint32_t *elements, size_t elements_len, const uint8_t *message, size_t message_len,
                    uint64_t r, uint64_t s, uint8_t *out, size_t out_len, size_t *written);

/*
 * Takes the round-one messages of all servers for the return `id` and writes the server's round-two message,
 * POOL_ROUND_TWO_BYTES. Only the slot of this return changes: it awaits round two.
 *     joined    S x POOL_ROUND_ONE_BYTES: one message of each server, one after another in any order, the own one among them as
 *               pool_share wrote it
 * Refusals: 11 for a table that is unsound or closed, or where no return of this id awaits round one; 12 for another length, a
 * message of another round or id, a server twice, missing or not below S, an element, r and s too, not below p, or an own
 * message that was altered, wherever it stands; 16 for r or s not the same in all messages, another's r of 0 to M included (see A slip
 * in r or s); 14.
 */
uint32_t pool_round_one(const uint8_t *table, size_t table_len, pool_slot *slots, size_t slots_len,
                        const uint32_t *elements, size_t elements_len, uint32_t id,
                        const uint8_t *joined, size_t joined_len, uint8_t *out, size_t out_len, size_t *written);

/*
 * Takes the round-two messages of all servers for the return `id` and gives the verdict: *accepted is 1 or 0. A rejected return
 * is decided; its slot and its place in the elements are erased, and the slot is free again. An accepted one awaits entry, and
 * nothing but the stage in its slot changes.
 *     joined    S x POOL_ROUND_TWO_BYTES, as in pool_round_one, the own message as pool_round_one wrote it
 * Refusals: 11 for a table that is unsound or closed, or where no return of this id awaits round two; 12 as in pool_round_one.
 */
uint32_t pool_round_two(uint8_t *table, size_t table_len, pool_slot *slots, size_t slots_len,
                        uint32_t *elements, size_t elements_len, uint32_t id,
                        const uint8_t *joined, size_t joined_len, uint32_t *accepted);

/*
 * Enters the return `id`, which was accepted: adds the published entries of its share to the totals and counts it. It is decided;
 * its slot and its place in the elements are erased, and the slot is free again. When to enter: see Verdict and entry.
 * Refusals: 11 for a table that is unsound or closed, or where no return of this id awaits entry: it awaits a round, was rejected,
 * dropped or entered, or is unknown.
 */
uint32_t pool_enter(uint8_t *table, size_t table_len, pool_slot *slots, size_t slots_len,
                    uint32_t *elements, size_t elements_len, uint32_t id);

/*
 * Drops the return `id`, whether it awaits a round or entry. It is decided, its id stays used, and it is in no total; its slot and
 * its place in the elements are erased, and the slot is free again. When not to drop: see Dropping.
 * Refusals: 11 for a table that is unsound or closed, or where no return of this id waits.
 */
uint32_t pool_drop(uint8_t *table, size_t table_len, pool_slot *slots, size_t slots_len,
                   uint32_t *elements, size_t elements_len, uint32_t id);

/*
 * Tells where a table stands, open or closed, and changes nothing. Which ids wait, and for what, stands in the slots.
 *     servers   S; own the own number; returns N; least Q
 *     closed    1, or 0 while it is open
 *     decided   how many returns are decided: entered, rejected or dropped
 *     entered   how many of these are entered; decided + waiting are at most N, and with entered below Q it does not close
 *     waiting   how many wait, 0 to POOL_SLOTS
 * Refusals: 11 for a table that is unsound.
 */
uint32_t pool_state(const uint8_t *table, size_t table_len, const pool_slot *slots, size_t slots_len,
                    const uint32_t *elements, size_t elements_len,
                    uint32_t *servers, uint32_t *own, uint32_t *returns, uint32_t *least,
                    uint32_t *closed, uint32_t *decided, uint32_t *entered, uint32_t *waiting);

/*
 * Closes a table in which no return waits, not even for entry, and at least Q are entered; writes the server's totals message,
 * POOL_TOTALS_BYTES. Slots and elements stay as they are. A closed table takes no call but pool_state.
 * Store the closed table together with this message before the message is sent: an older copy, still open, could take a few more
 * returns, and the difference of two totals messages of every server shows the sums of those few.
 * Refusals: 11 for a table that is unsound or closed, or in which a return waits; 15 for fewer than Q entered (see Small pools); 14.
 */
uint32_t pool_close(uint8_t *table, size_t table_len, const pool_slot *slots, size_t slots_len,
                    const uint32_t *elements, size_t elements_len, uint8_t *out, size_t out_len, size_t *written);

/*
 * Joins the S totals messages, in server order, of tables opened with this S, sheet and N; Q is not asked for. *accepted is the
 * count of entered returns, and the totals of the published entries are written as elements in entry order, POOL_JOIN_BYTES: one
 * for a yes/no, a number or a number with a top, B for a choice, four for a point (the sums of x, x * x, y and x * y).
 * Refusals: 2 for S, the sheet's, 2 for N, 4, 12, for messages in another order too, 14.
 */
uint32_t pool_join(uint32_t servers, const uint8_t *sheet, size_t sheet_len, uint32_t returns,
                   const uint8_t *joined, size_t joined_len, uint8_t *out, size_t out_len,
                   uint32_t *accepted, size_t *written);

/*
 * Fits a line to the points of one column by least squares: of all lines the one for which the squares of the distances in y add up
 * to the least. It takes what pool_join takes, and a column number; nothing need be joined before. It gives three numbers, with n the
 * count of entered returns and Sx, Sxx, Sy, Sxy the column's four totals, in the order in which pool_join writes them:
 *     column       which column of the sheet, counted from 1: one of points
 *     determinant  D = n * Sxx - Sx * Sx
 *     slope        n * Sxy - Sx * Sy
 *     intercept    Sxx * Sy - Sx * Sxy
 * The line is y = intercept/D + slope/D * x. The three are whole numbers with a sign, and exact: n is at most 1,024 and a total
 * below 2^31, so each lies between -2^62 and 2^62 and none is ever cut. The host forms the quotients: as fractions they are exact,
 * as (double)slope / (double)determinant close. Slope and intercept can be negative. D is not 0 where the call is done, and above
 * 0 for totals of returns that keep their form. A D below 0 comes only of totals that keep no form: a totals message was altered,
 * or the servers did not enter the same returns. It is no refusal; the line then says nothing.
 * Refusals: 2 for S, the sheet's, 2 for N, 4, then
 *     2   no column has this number (it is 0, or past the last), or the one that has it is not of points
 *     12  as in pool_join
 *     18  D is 0: no return is entered, or all have one and the same x, as a single return has. Many lines fit equally well then.
 *         Publish the totals (pool_join) without a line; a line needs returns with different x
 * Refused, it leaves all three numbers as they were.
 */
uint32_t pool_line(uint32_t servers, const uint8_t *sheet, size_t sheet_len, uint32_t returns,
                   const uint8_t *joined, size_t joined_len, uint32_t column,
                   int64_t *determinant, int64_t *slope, int64_t *intercept);

/*
 * Stores messages by place: the first byte of each, then the second of each, and so on. So equal places in a season's shares
 * stand together: the kind bytes, the ids, each entry. The share messages that one server gets on one sheet are all share_bytes
 * long, its seed messages POOL_SEED_MESSAGE_BYTES; a keeper stores up to 64 of one length in one run, and notes R and W beside it. The
 * run is as secret as the messages.
 *     messages  R, 1 to 64
 *     width     W, the length of each message, 1 to 4,096
 *     run       the messages one after another, POOL_SHELF_BYTES: any bytes, sound shares or not
 *     out       as many bytes: byte k of message j, both from 0, stands at k x R + j
 * Refusals: 2 for R or W, 19, 14.
 */
uint32_t pool_shelve(uint32_t messages, uint32_t width, const uint8_t *run, size_t run_len,
                     uint8_t *out, size_t out_len, size_t *written);

/*
 * Brings the messages back, one after another, from the run that pool_shelve wrote for the same R and W: `run` is what was
 * stored, `out` what pool_shelve was given.
 * Refusals: 2 for R or W, 19, 14.
 */
uint32_t pool_unshelve(uint32_t messages, uint32_t width, const uint8_t *run, size_t run_len,
                       uint8_t *out, size_t out_len, size_t *written);

#ifdef __cplusplus
}
#endif

#endif
