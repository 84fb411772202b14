/* watch.c: see watch.h. */
#define _GNU_SOURCE
#include "watch.h"

#include <signal.h>
#include <stdio.h>
#include <stdlib.h>
#include <string.h>
#include <sys/mman.h>
#include <unistd.h>

enum { PAGE = 4096, PLACE_PAGES = RUN_BYTES / PAGE + 1 };

char calls_note[128];

static enum lending lending;
static uint8_t *places[MOST_LENT]; /* GUARDED: the first page that can be touched */
static uint8_t filler[RUN_BYTES];  /* what lies in output buffers and after tables */
static const char *call;

struct lent lents[MOST_LENT];
static int lent_count;

_Noreturn void fail(const char *why)
{
    fprintf(stderr, "harden: %s: %s (%s)\n", call ? call : "driver", why, calls_note);
    abort();
}

/* Random numbers: splitmix64. */

static uint64_t state;

void seed_random(uint64_t seed) { state = seed; }

uint64_t random64(void)
{
    uint64_t z = state += 0x9e3779b97f4a7c15u;
    z = (z ^ z >> 30) * 0xbf58476d1ce4e5b9u;
    z = (z ^ z >> 27) * 0x94d049bb133111ebu;
    return z ^ z >> 31;
}

uint32_t random_below(uint32_t limit) { return (uint32_t)(random64() % limit); }

void random_fill(uint8_t *at, size_t len)
{
    for (size_t k = 0; k < len; k++)
        at[k] = (uint8_t)random64();
}

void put_u32(uint8_t *at, uint32_t x)
{
    for (int k = 0; k < 4; k++)
        at[k] = (uint8_t)(x >> 8 * k);
}

uint32_t get_u32(const uint8_t *at)
{
    return at[0] | (uint32_t)at[1] << 8 | (uint32_t)at[2] << 16 | (uint32_t)at[3] << 24;
}

void put_u16(uint8_t *at, uint32_t x)
{
    at[0] = (uint8_t)x;
    at[1] = (uint8_t)(x >> 8);
}

uint32_t get_u16(const uint8_t *at) { return at[0] | (uint32_t)at[1] << 8; }

/* Lending */

static void touched(int signal_number)
{
    static const char said[] = "harden: memory outside the lent buffers was touched, or the stack ran out, in ";
    (void)signal_number;
    (void)!write(2, said, sizeof said - 1);
    (void)!write(2, call, strlen(call));
    (void)!write(2, " (", 2);
    (void)!write(2, calls_note, strlen(calls_note));
    (void)!write(2, ")\n", 2);
    _exit(1);
}

static void guard(void)
{
    for (int k = 0; k < MOST_LENT; k++) {
        uint8_t *map = mmap(NULL, (PLACE_PAGES + 2) * PAGE, PROT_NONE, MAP_PRIVATE | MAP_ANONYMOUS, -1, 0);
        if (map == MAP_FAILED || mprotect(map + PAGE, PLACE_PAGES * PAGE, PROT_READ | PROT_WRITE) != 0)
            fail("no memory");
        places[k] = map + PAGE;
    }
}

/* On a fault says in which call; the fuzzer and the sanitizers have handlers of their own. */
static void tell_faults(void)
{
    static uint8_t stack[64 * 1024];
    struct sigaction action = {.sa_handler = touched, .sa_flags = SA_ONSTACK};
    struct sigaction old;
    if (sigaction(SIGSEGV, NULL, &old) != 0 || old.sa_handler != SIG_DFL)
        return;
    sigaltstack(&(stack_t){.ss_sp = stack, .ss_size = sizeof stack}, NULL);
    sigaction(SIGSEGV, &action, NULL);
    sigaction(SIGBUS, &action, NULL);
}

void calls_start(enum lending how)
{
    lending = how;
    for (size_t k = 0; k < sizeof filler; k++)
        filler[k] = (uint8_t)(0xa5 ^ k * 31);
    if (how == GUARDED) {
        guard();
        tell_faults();
    }
}

/* A place for so many bytes. An empty buffer is sometimes no buffer at all. */
static uint8_t *place(int k, size_t len)
{
    if (len == 0 && random64() % 2)
        return NULL;
    if (len > PLACE_PAGES * PAGE)
        fail("a buffer too long for the driver");
    if (lending == GUARDED)
        return random64() % 4 == 0 ? places[k] : places[k] + PLACE_PAGES * PAGE - len;
    uint8_t *at = malloc(len);
    if (at == NULL && len > 0)
        fail("no memory");
    return at;
}

int lend_both(const struct run *run, size_t extra)
{
    size_t own = run ? run->len : 0;
    struct lent *l = &lents[lent_count];
    *l = (struct lent){.len = own + extra, .was = run, .extra = extra};
    l->at = place(lent_count, l->len);
    if (own > 0)
        memcpy(l->at, run->at, own);
    if (extra > 0)
        memcpy(l->at + own, filler, extra);
    return lent_count++;
}

int lend(const struct run *run) { return lend_both(run, 0); }

int lend_room(size_t room) { return lend_both(NULL, room < RUN_BYTES ? room : RUN_BYTES); }

void start_call(const char *name)
{
    call = name;
    lent_count = 0;
}

uint32_t end_call(uint32_t answer)
{
    for (int k = 0; lending == HEAP && k < lent_count; k++)
        free(lents[k].at);
    return answer;
}

/* Checks */

void kept_filler(int k, size_t from, size_t start)
{
    const struct lent *l = &lents[k];
    if (l->len > from && memcmp(l->at + from, filler + (from - start), l->len - from) != 0)
        fail("bytes were changed past what was written");
}

/* The whole buffer is as it was. */
void kept(int k)
{
    const struct lent *l = &lents[k];
    size_t own = l->len - l->extra;
    if (own > 0 && memcmp(l->at, l->was->at, own) != 0)
        fail("bytes were changed that the call may not change");
    kept_filler(k, own, own);
}

void check32(const struct result32 *x, uint32_t answer)
{
    if (x->before != UNSET32 || x->after != UNSET32 || (answer != 0 && x->value != UNSET32))
        fail("a result was written that may not be");
}

void check_size(const struct result_size *x, uint32_t answer)
{
    if (x->before != UNSET_SIZE || x->after != UNSET_SIZE || (answer != 0 && x->value != UNSET_SIZE))
        fail("a result was written that may not be");
}

void check64(const struct result64 *x, uint32_t answer)
{
    if (x->before != UNSET64 || x->after != UNSET64 || (answer != 0 && x->value != UNSET64))
        fail("a result was written that may not be");
}

void answered(uint32_t answer, uint32_t allowed)
{
    if (answer > POOL_RUN || (answer != 0 && !(allowed >> answer & 1)))
        fail("an answer that the header does not name");
}

/* An output buffer after a call: what was written, or all as it was. */
void take(int k, const struct result_size *written, uint32_t answer, struct run *out)
{
    const struct lent *l = &lents[k];
    check_size(written, answer);
    if (answer != 0) {
        kept(k);
        return;
    }
    if (written->value > l->len)
        fail("more written than there is room");
    kept_filler(k, written->value, 0);
    out->len = written->value;
    if (out->len > 0)
        memcpy(out->at, l->at, out->len);
}

uint32_t sizes_of(const uint8_t *sheet, size_t len, struct sheet_sizes *s)
{
    return pool_sizes(sheet, len, &s->columns, &s->entries, &s->published, &s->wires, &s->multiplications, &s->tests,
                      &s->circuit_bytes, &s->share_bytes, &s->greatest_returns);
}
