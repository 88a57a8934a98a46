/*
 * The heap of the module, in place of a C library's: blocks of sizes that are 16, 32, 48 or 64
 * bytes, or four to each doubling above that, with a list of free blocks for each size. Each
 * block has a head of 16 bytes before it, which says its size, and begins at a multiple of 16.
 * Memory grows by `grow`, and is never given back. What is said here is tested
 * (web/test_heap.c) and not proved.
 */
#include "heap.h"

#define HEAD 16u /* the bytes before a block */
#define CLASSES 160u
#define LARGEST ((uint64_t)1 << 40) /* the greatest block */

/* What stands before a block. */
struct head {
    uint64_t class;
    uint64_t unused;
};

/* What stands in a free block: the next free one of its size. */
struct free_block {
    struct free_block *next;
};

static struct free_block *lists[CLASSES];
static unsigned char *top; /* the first byte that no block has */
static unsigned char *end; /* the byte after the memory there is */

/* The class of the least size that is at least n, which is at most LARGEST. */
static uint64_t class_of(uint64_t n)
{
    if (n <= 64)
        return n == 0 ? 1 : (n + 15) / 16;
    uint64_t power = 63 - (uint64_t)__builtin_clzll(n - 1); /* 2^power < n <= 2^(power + 1) */
    uint64_t quarter = ((n - 1) >> (power - 2)) & 3;
    return 5 + (power - 6) * 4 + quarter;
}

/* The size of the blocks of a class. */
static uint64_t size_of(uint64_t class)
{
    if (class <= 4)
        return class * 16;
    uint64_t power = (class - 5) / 4 + 6;
    uint64_t quarter = (class - 5) % 4;
    return ((uint64_t)1 << power) + ((quarter + 1) << (power - 2));
}

static struct head *head_of(void *block)
{
    return (struct head *)((unsigned char *)block - HEAD);
}

/* Makes room for so many bytes at `top`; 0 if there is no memory. */
static int has_room(uint64_t bytes)
{
    if ((uint64_t)(end - top) >= bytes)
        return 1;
    struct span more = heap_grow(bytes);
    if (more.bytes == 0)
        return 0;
    if (more.from != end)
        top = more.from;
    end = more.from + more.bytes;
    return (uint64_t)(end - top) >= bytes;
}

void *heap_take(uint64_t n)
{
    if (n > LARGEST)
        return 0;
    uint64_t class = class_of(n);
    struct free_block *block = lists[class];
    if (block) {
        lists[class] = block->next;
        return block;
    }
    uint64_t bytes = HEAD + size_of(class);
    if (!has_room(bytes))
        return 0;
    struct head *head = (struct head *)top;
    head->class = class;
    top += bytes;
    return (unsigned char *)head + HEAD;
}

void heap_give(void *block)
{
    if (!block)
        return;
    struct free_block *freed = block;
    uint64_t class = head_of(block)->class;
    freed->next = lists[class];
    lists[class] = freed;
}

void *heap_resize(void *block, uint64_t kept, uint64_t n)
{
    uint64_t size = size_of(head_of(block)->class);
    if (n <= size && n * 2 + 64 >= size)
        return block;
    void *moved = heap_take(n);
    if (moved) {
        __builtin_memcpy(moved, block, kept < n ? kept : n);
        heap_give(block);
    }
    return moved;
}
