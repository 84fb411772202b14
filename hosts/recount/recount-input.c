/*
 * recount-input: writes what the program recount reads, from a sheet, S, N and the totals messages of all servers.
 *
 *     recount-input SHEET S N TOTALS.. >input && recount <input
 *
 *     SHEET     the sheet's bytes in decimal, as '17 18 3', or the name of a file that holds them (./17 where it is all digits)
 *     S, N      those that the tables were opened with
 *     TOTALS    S files, each with the totals message of one server, in any order: byte 1 of each says whose it is
 *
 * It writes nothing that recount would refuse: it says what is wrong on the standard error instead.
 *
 * Exit status: 0 where the input was written, 1 where it was not.
 */
#define _DEFAULT_SOURCE /* getrandom, of host.h */
#include <stdarg.h>
#include <string.h>

#include "host.h"

enum { TOTALS_KIND = 36, TOTALS_HEAD = 6 };

/* A totals message, and the file that it came from. */
struct totals {
    const char *file;
    uint8_t bytes[POOL_MAX_TOTALS_BYTES + 1]; /* one more, to tell a file that is longer */
};

static uint8_t sheet[POOL_MAX_SHEET_BYTES + 1];
static size_t sheet_len;
static struct host_sizes sizes;
static struct totals messages[POOL_MAX_SERVERS]; /* by server */

/* Says what is wrong, and ends. */
static _Noreturn void wrong(const char *form, ...)
{
    va_list what;
    va_start(what, form);
    fputs("recount-input: ", stderr);
    vfprintf(stderr, form, what);
    fputc('\n', stderr);
    va_end(what);
    exit(1);
}

/* Reads a file, so many bytes of it at most. */
static size_t read_file(const char *name, uint8_t *out, size_t room)
{
    FILE *file = fopen(name, "rb");
    size_t len = file ? fread(out, 1, room, file) : 0;
    if (!file || ferror(file))
        wrong("%s: %s", name, strerror(errno));
    fclose(file);
    return len;
}

/* A number of the command line, from `low` to `high`. */
static uint32_t number(const char *name, const char *text, unsigned long low, unsigned long high)
{
    unsigned long x = strtoul(text, NULL, 10);
    if (!*text || text[strspn(text, "0123456789")] || strlen(text) > 9 || x < low || x > high)
        wrong("%s is '%s', and must be a number from %lu to %lu", name, text, low, high);
    return (uint32_t)x;
}

/* The bytes that stand in a text in decimal. */
static void sheet_of_text(const char *text)
{
    for (const char *at = text + strspn(text, " "); *at && sheet_len < sizeof sheet; at += strspn(at, " ")) {
        size_t digits = strspn(at, "0123456789");
        unsigned long x = strtoul(at, NULL, 10);
        if (digits > 3 || x > UINT8_MAX)
            wrong("the sheet: %.*s is not a byte, a number from 0 to 255", (int)digits, at);
        sheet[sheet_len++] = (uint8_t)x;
        at += digits;
    }
}

static void read_sheet(const char *text)
{
    if (text[strspn(text, " 0123456789")])
        sheet_len = read_file(text, sheet, sizeof sheet);
    else
        sheet_of_text(text);
    if (sheet_len > POOL_MAX_SHEET_BYTES)
        wrong("the sheet has more than %d bytes, as none has", POOL_MAX_SHEET_BYTES);
    uint32_t answer = host_sizes_of(sheet, sheet_len, &sizes);
    if (answer != POOL_DONE)
        wrong("the sheet is refused %u: %s", (unsigned)answer, pool_words(answer));
}

/* Reads a totals message and puts it in the place of its server. */
static void read_totals(const char *name, uint32_t servers)
{
    static struct totals t;
    size_t len = read_file(name, t.bytes, sizeof t.bytes), whole = POOL_TOTALS_BYTES(sizes.published);
    unsigned server = t.bytes[1];
    t.file = name;
    if (len != whole)
        wrong("%s has %s%zu bytes, and a totals message on this sheet has %zu", name, len == sizeof t.bytes ? "at least " : "", len,
              whole);
    if (t.bytes[0] != TOTALS_KIND)
        wrong("%s begins with byte %u, and a totals message with %d", name, (unsigned)t.bytes[0], TOTALS_KIND);
    if (server >= servers)
        wrong("%s is of server %u, and the servers are 0 to %u", name, server, (unsigned)servers - 1);
    if (messages[server].file)
        wrong("%s and %s are both of server %u", messages[server].file, name, server);
    for (uint32_t k = 0; k < sizes.published; k++)
        if (host_u32(t.bytes + TOTALS_HEAD + 4 * k) >= POOL_PRIME)
            wrong("%s: total %u of %u is not below %u: the message was altered", name, (unsigned)k + 1, (unsigned)sizes.published,
                  (unsigned)POOL_PRIME);
    messages[server] = t;
}

/* Every server is there, all tell one count, and it is at most N. */
static void compare(uint32_t servers, uint32_t returns)
{
    for (uint32_t i = 0; i < servers; i++)
        if (!messages[i].file)
            wrong("the totals message of server %u is missing", (unsigned)i);
    unsigned first = host_u32(messages[0].bytes + 2);
    for (uint32_t i = 1; i < servers; i++) {
        unsigned count = host_u32(messages[i].bytes + 2);
        if (count != first)
            wrong("server 0 tells %u entered returns and server %u tells %u: they did not enter the same ones, or a message was altered",
                  first, (unsigned)i, count);
    }
    if (first > returns)
        wrong("the servers tell %u entered returns, more than N, which is %u", first, (unsigned)returns);
}

static void write_input(uint32_t servers, uint32_t returns)
{
    const uint8_t len[] = {(uint8_t)sheet_len, (uint8_t)(sheet_len >> 8)};
    const uint8_t counts[] = {(uint8_t)servers, (uint8_t)returns, (uint8_t)(returns >> 8)};
    fwrite(len, 1, sizeof len, stdout);
    fwrite(sheet, 1, sheet_len, stdout);
    fwrite(counts, 1, sizeof counts, stdout);
    for (uint32_t i = 0; i < servers; i++)
        fwrite(messages[i].bytes, 1, POOL_TOTALS_BYTES(sizes.published), stdout);
    if (fflush(stdout) != 0 || ferror(stdout))
        wrong("the input can not be written: %s", strerror(errno));
}

int main(int argc, char **argv)
{
    if (argc < 5) {
        fputs("usage: recount-input SHEET S N TOTALS.. >input && recount <input\n", stderr);
        return 1;
    }
    int files = argc - 4;
    read_sheet(argv[1]);
    uint32_t servers = number("S", argv[2], POOL_MIN_SERVERS, POOL_MAX_SERVERS);
    uint32_t returns = number("N", argv[3], 1, POOL_MAX_RETURNS);
    if (returns > sizes.greatest_returns)
        wrong("N is %u, and on this sheet it is %u at most", (unsigned)returns, (unsigned)sizes.greatest_returns);
    if ((uint32_t)files > servers)
        wrong("%d totals messages of %u servers", files, (unsigned)servers);
    for (int k = 0; k < files; k++)
        read_totals(argv[4 + k], servers);
    compare(servers, returns);
    write_input(servers, returns);
    return 0;
}
