/* input.h: what an input of the fuzzer says, byte by byte. Past its end all is 0. */
#ifndef POOL_INPUT_H
#define POOL_INPUT_H

#include "runs.h"

void start_input(const uint8_t *data, size_t size);
size_t input_left(void);

uint8_t byte(void);
uint32_t two_bytes(void);

/* The next bytes of the input, so many or as many as are left. */
void bytes(struct run *run, size_t most);

/* Alters a run where the input asks for it: a byte, or the length. */
void alter(struct run *run);

/* Alters a part of a table; slots and numbers stay whole. */
void alter_table(struct table *table);

#endif
