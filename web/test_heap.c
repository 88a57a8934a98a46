/*
 * Tests of heap.c and builtins.c on this machine, under AddressSanitizer: gcc
 * -fsanitize=address -DTESTED test_heap.c heap.c builtins.c. Blocks are taken, resized and
 * given back in a random order; each is filled with bytes of its own, which must be there when
 * it is given back.
 */
#include "builtins.h"
#include "heap.h"

#include <stdio.h>
#include <stdint.h>
#include <stdlib.h>
#include <string.h>

#define BLOCKS 400
#define ROUNDS 200000
#define MOST ((uint64_t)1 << 26)

static unsigned char *memory;
static uint64_t grown;
static int refuses;

/* Memory in one piece of MOST bytes, in steps; the rest of it is poisoned by not being there. */
struct span heap_grow(uint64_t bytes)
{
    struct span more = {0, 0};
    uint64_t step = (bytes + 65535) / 65536 * 65536;
    if (refuses || step > MOST - grown)
        return more;
    more.from = memory + grown;
    more.bytes = step;
    grown += step;
    return more;
}

static void fail(const char *what)
{
    fprintf(stderr, "%s\n", what);
    exit(1);
}

static uint64_t state = 1;

/* A number below n, by a linear congruential generator. */
static uint64_t below(uint64_t n)
{
    state = state * 6364136223846793005u + 1442695040888963407u;
    return (state >> 33) % n;
}

struct block {
    unsigned char *bytes;
    uint64_t size;
    unsigned char mark;
};

static struct block blocks[BLOCKS];

static void fill(struct block *block, unsigned char mark)
{
    block->mark = mark;
    memset(block->bytes, mark, block->size);
}

static void check(const struct block *block)
{
    if ((uintptr_t)block->bytes % 16)
        fail("a block isn't at a multiple of 16");
    if (block->bytes < memory || block->bytes + block->size > memory + grown)
        fail("a block is outside the memory");
    for (uint64_t i = 0; i < block->size; i++)
        if (block->bytes[i] != block->mark)
            fail("a block was changed");
}

static uint64_t some_size(void)
{
    return below(8) ? below(200) : below(40000);
}

/* Takes, resizes or gives back one block. */
static void step(void)
{
    struct block *block = &blocks[below(BLOCKS)];
    if (!block->bytes) {
        block->size = some_size();
        block->bytes = heap_take(block->size);
        if (!block->bytes)
            fail("no memory");
        fill(block, (unsigned char)below(256));
    } else if (below(3)) {
        check(block);
        heap_give(block->bytes);
        block->bytes = 0;
    } else {
        uint64_t size = some_size();
        check(block);
        unsigned char *moved = heap_resize(block->bytes, block->size, size);
        if (!moved)
            fail("no memory to resize");
        block->bytes = moved;
        if (size < block->size)
            block->size = size;
        check(block);
        block->size = size;
        fill(block, (unsigned char)below(256));
    }
}

/* No two blocks have a byte in common, and each is as it was filled. */
static void check_all(void)
{
    for (int i = 0; i < BLOCKS; i++) {
        if (!blocks[i].bytes)
            continue;
        check(&blocks[i]);
        for (int k = 0; k < i; k++)
            if (blocks[k].bytes && blocks[i].bytes < blocks[k].bytes + blocks[k].size
                && blocks[k].bytes < blocks[i].bytes + blocks[i].size)
                fail("two blocks have a byte in common");
    }
}

static void test_blocks(void)
{
    for (int round = 0; round < ROUNDS; round++) {
        step();
        if (round % 5000 == 0)
            check_all();
    }
    check_all();
    if (grown > MOST / 4)
        fail("blocks that were given back aren't used again");
}

static void test_sizes(void)
{
    for (uint64_t n = 0; n < 5000; n++) {
        unsigned char *block = heap_take(n);
        if (!block)
            fail("no memory for a size");
        memset(block, 1, n);
        heap_give(block);
        if (heap_take(n) != block)
            fail("a free block isn't taken again");
        heap_give(block);
    }
}

static void test_refusal(void)
{
    unsigned char *kept = heap_take(100);
    memset(kept, 7, 100);
    refuses = 1;
    if (heap_take(MOST) || heap_resize(kept, 100, MOST))
        fail("there is memory that was refused");
    if (heap_take((uint64_t)1 << 50) || heap_take(UINT64_MAX))
        fail("there is a block above the greatest");
    for (int i = 0; i < 100; i++)
        if (kept[i] != 7)
            fail("a block that couldn't be resized was changed");
    refuses = 0;
    heap_give(kept);
    heap_give(0);
}

static u128 some_number(void)
{
    u128 number = 0;
    for (int i = 0; i < 8; i++)
        number = (number << 16) | below(65536);
    return below(4) ? number : number >> below(128);
}

static void test_numbers(void)
{
    for (int round = 0; round < 100000; round++) {
        u128 x = some_number(), y = some_number();
        int n = (int)below(128);
        if (tested___multi3(x, y) != x * y)
            fail("a product is wrong");
        if (tested___ashlti3(x, n) != x << n || tested___lshrti3(x, n) != x >> n)
            fail("a shift is wrong");
    }
}

static int sign(int n)
{
    return (n > 0) - (n < 0);
}

static void test_bytes(void)
{
    unsigned char a[64], b[64];
    for (int round = 0; round < 100000; round++) {
        for (int i = 0; i < 64; i++)
            a[i] = b[i] = (unsigned char)below(3);
        size_t from = below(32), to = below(32), n = below(32);
        tested_memmove(a + to, a + from, n);
        memmove(b + to, b + from, n);
        if (memcmp(a, b, 64))
            fail("memmove is wrong");
        tested_memset(a + to, (int)from, n);
        memset(b + to, (int)from, n);
        if (memcmp(a, b, 64))
            fail("memset is wrong");
        tested_memcpy(a, a + 32, n);
        memcpy(b, b + 32, n);
        if (memcmp(a, b, 64))
            fail("memcpy is wrong");
        if (sign(tested_memcmp(a + from, a + to, n)) != sign(memcmp(a + from, a + to, n)))
            fail("memcmp is wrong");
        if (!tested_bcmp(a + from, a + to, n) != !memcmp(a + from, a + to, n))
            fail("bcmp is wrong");
    }
}

int main(void)
{
    memory = aligned_alloc(65536, MOST);
    if (!memory)
        fail("no memory for the tests");
    test_blocks();
    test_sizes();
    test_refusal();
    test_numbers();
    test_bytes();
    free(memory);
    return 0;
}
