/* What a compiler for WebAssembly takes to be there; under other names where it is tested. */
#ifndef BUILTINS_H
#define BUILTINS_H

#include "numbers.h"

#ifdef TESTED
#define NAME(name) tested_##name
#else
#define NAME(name) name
#endif

typedef unsigned __int128 u128;

void *NAME(memcpy)(void *to, const void *from, size_t n);
void *NAME(memmove)(void *to, const void *from, size_t n);
void *NAME(memset)(void *to, int byte, size_t n);
int NAME(memcmp)(const void *x, const void *y, size_t n);
int NAME(bcmp)(const void *x, const void *y, size_t n);
u128 NAME(__multi3)(u128 x, u128 y);
u128 NAME(__ashlti3)(u128 x, int n);
u128 NAME(__lshrti3)(u128 x, int n);

#endif
