/* stream.h: the elements that a seed stands for, worked out without the library. */
#ifndef POOL_STREAM_H
#define POOL_STREAM_H

#include <stddef.h>
#include <stdint.h>

/* Writes so many elements, 4 bytes each, of a seed of 32 bytes under an id of 4 bytes. */
void seed_elements(const uint8_t *seed, const uint8_t *id, size_t count, uint8_t *out);

#endif
