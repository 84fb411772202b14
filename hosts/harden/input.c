/* input.c: see input.h. */
#include "input.h"

#include <string.h>

static struct {
    const uint8_t *at;
    size_t left;
} input;

void start_input(const uint8_t *data, size_t size)
{
    input.at = data;
    input.left = size;
}

size_t input_left(void) { return input.left; }

uint8_t byte(void)
{
    if (input.left == 0)
        return 0;
    input.left--;
    return *input.at++;
}

uint32_t two_bytes(void)
{
    uint32_t low = byte();
    return low | (uint32_t)byte() << 8;
}

void bytes(struct run *run, size_t most)
{
    run->len = input.left < most ? input.left : most;
    memcpy(run->at, input.at, run->len);
    input.at += run->len;
    input.left -= run->len;
}

void alter(struct run *run)
{
    uint8_t how = byte();
    if (how < 128 || run->len == 0)
        return;
    if (how < 224) {
        uint8_t *at = run->at + two_bytes() % run->len;
        *at = byte();
    } else if (how < 240) {
        run->len -= 1;
    } else {
        run->len = two_bytes() % (run->len + 1);
    }
}

void alter_table(struct table *table)
{
    switch (byte() % 3) {
    case 0:
        alter(&table->bytes);
        break;
    case 1:
        alter(&table->slots);
        table->slots.len -= table->slots.len % SLOT_BYTES;
        break;
    default:
        alter(&table->elements);
        table->elements.len -= table->elements.len % 4;
        break;
    }
}
