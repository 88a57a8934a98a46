/* The names of numbers, for a compiler that has no headers. */
#ifndef NUMBERS_H
#define NUMBERS_H

typedef __SIZE_TYPE__ size_t;
typedef __UINTPTR_TYPE__ uintptr_t;
typedef __UINT64_TYPE__ uint64_t;

#endif
