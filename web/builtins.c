/*
 * What a compiler for WebAssembly takes to be there: copying, filling and comparing bytes, and
 * numbers of 128 bits. It is tested under names with a prefix (web/test_heap.c), and not
 * proved.
 */
#include "builtins.h"

/* Two halves of a number of 128 bits. */
union wide {
    struct {
        uint64_t low, high;
    } half;
    u128 whole;
};

static u128 wide(uint64_t low, uint64_t high)
{
    union wide it = {{low, high}};
    return it.whole;
}

void *NAME(memcpy)(void *to, const void *from, size_t n)
{
    unsigned char *a = to;
    const unsigned char *b = from;
    while (n--)
        *a++ = *b++;
    return to;
}

void *NAME(memmove)(void *to, const void *from, size_t n)
{
    unsigned char *a = to;
    const unsigned char *b = from;
    if ((uintptr_t)a < (uintptr_t)b)
        while (n--)
            *a++ = *b++;
    else
        while (n--)
            a[n] = b[n];
    return to;
}

void *NAME(memset)(void *to, int byte, size_t n)
{
    unsigned char *a = to;
    while (n--)
        *a++ = (unsigned char)byte;
    return to;
}

int NAME(memcmp)(const void *x, const void *y, size_t n)
{
    const unsigned char *a = x, *b = y;
    for (; n--; a++, b++)
        if (*a != *b)
            return *a - *b;
    return 0;
}

int NAME(bcmp)(const void *x, const void *y, size_t n)
{
    return NAME(memcmp)(x, y, n);
}

u128 NAME(__multi3)(u128 x, u128 y)
{
    union wide a = {.whole = x}, b = {.whole = y};
    uint64_t mask = 0xffffffffu;
    uint64_t a0 = a.half.low & mask, a1 = a.half.low >> 32;
    uint64_t b0 = b.half.low & mask, b1 = b.half.low >> 32;
    uint64_t low = a0 * b0, left = a1 * b0, right = a0 * b1, high = a1 * b1;
    uint64_t middle = (low >> 32) + (left & mask) + (right & mask);
    high += (left >> 32) + (right >> 32) + (middle >> 32);
    high += a.half.low * b.half.high + a.half.high * b.half.low;
    return wide((low & mask) | (middle << 32), high);
}

u128 NAME(__ashlti3)(u128 x, int n)
{
    union wide a = {.whole = x};
    n &= 127;
    if (n == 0)
        return x;
    if (n >= 64)
        return wide(0, a.half.low << (n - 64));
    return wide(a.half.low << n, (a.half.high << n) | (a.half.low >> (64 - n)));
}

u128 NAME(__lshrti3)(u128 x, int n)
{
    union wide a = {.whole = x};
    n &= 127;
    if (n == 0)
        return x;
    if (n >= 64)
        return wide(a.half.high >> (n - 64), 0);
    return wide((a.half.low >> n) | (a.half.high << (64 - n)), a.half.high >> n);
}
