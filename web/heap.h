/* The heap of the module. */
#ifndef HEAP_H
#define HEAP_H

#include "numbers.h"

/* Memory that was added: its first byte, a multiple of 16, and how many bytes, 0 if none. */
struct span {
    unsigned char *from;
    uint64_t bytes;
};

/* Adds memory of at least so many bytes, or none. */
struct span heap_grow(uint64_t bytes);

/* A block of at least n bytes at a multiple of 16, or 0 if there is no memory. */
void *heap_take(uint64_t n);

/* Takes back a block that heap_take or heap_resize gave and that wasn't given back since. */
void heap_give(void *block);

/*
 * A block of at least n bytes that begins as the given one, as far as both its first `kept`
 * bytes and n go, and takes that one back; or 0 if there is no memory, and the given one stays.
 */
void *heap_resize(void *block, uint64_t kept, uint64_t n);

#endif
