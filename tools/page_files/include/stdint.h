/* Integers of a width, for a machine without a C library. */
#ifndef PAGE_STDINT_H
#define PAGE_STDINT_H

typedef __UINT8_TYPE__ uint8_t;
typedef __UINT16_TYPE__ uint16_t;
typedef __UINT32_TYPE__ uint32_t;
typedef __UINT64_TYPE__ uint64_t;
typedef __INT8_TYPE__ int8_t;
typedef __INT16_TYPE__ int16_t;
typedef __INT32_TYPE__ int32_t;
typedef __INT64_TYPE__ int64_t;
typedef __UINTPTR_TYPE__ uintptr_t;

#define UINT32_C(number) number##u
#define UINT64_C(number) number##ull
#define INT32_MAX 2147483647
#define UINT64_MAX UINT64_C(0xffffffffffffffff)
#define UINTPTR_MAX __UINTPTR_MAX__
#define SIZE_MAX __SIZE_MAX__

#endif
