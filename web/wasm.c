/*
 * The calls by which Rattle's code takes memory from heap.c, and those by which a page does.
 * This is compiled for WebAssembly alone, and isn't proved.
 */
#include "heap.h"

#define PAGE 65536u
#define PAGES_AT_ONCE 64u

extern unsigned char __heap_base;

struct span heap_grow(uint64_t bytes)
{
    static unsigned char *end;
    struct span more = {0, 0};
    if (!end) { /* what is left of the memory that the module begins with */
        unsigned char *from = (unsigned char *)(((uintptr_t)&__heap_base + 15) & ~(uintptr_t)15);
        end = (unsigned char *)(__builtin_wasm_memory_size(0) * PAGE);
        if (from < end && (uint64_t)(end - from) >= bytes) {
            more.from = from;
            more.bytes = (uint64_t)(end - from);
            return more;
        }
    }
    uint64_t least = (bytes + PAGE - 1) / PAGE;
    uint64_t pages = least < PAGES_AT_ONCE ? PAGES_AT_ONCE : least;
    if (__builtin_wasm_memory_grow(0, pages) == (uint64_t)-1) {
        pages = least;
        if (__builtin_wasm_memory_grow(0, pages) == (uint64_t)-1)
            return more;
    }
    more.from = end;
    more.bytes = pages * PAGE;
    end += more.bytes;
    return more;
}

/* An address, or none. */
struct tried {
    uint64_t ok;
    void *address;
};

static struct tried tried(void *address)
{
    struct tried it = {address != 0, address};
    return it;
}

/* Every block is at a multiple of 16, the greatest alignment that Rattle asks for. */
struct tried rattle_alloc(uint64_t n, uint64_t alignment)
{
    (void)alignment;
    return tried(heap_take(n));
}

void rattle_dealloc(void *block)
{
    heap_give(block);
}

struct tried rattle_realloc(void *block, uint64_t kept, uint64_t n, uint64_t alignment)
{
    (void)alignment;
    return tried(heap_resize(block, kept, n));
}

__attribute__((export_name("host_alloc"))) void *host_alloc(uint64_t n)
{
    return heap_take(n);
}

__attribute__((export_name("host_free"))) void host_free(void *block)
{
    heap_give(block);
}
