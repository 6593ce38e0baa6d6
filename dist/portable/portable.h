/* What libptpm.c is written in: integers, and memory as a little-endian machine of 64 bits has it, on any machine. An address has
   64 bits also if the machine's has fewer. Octets are read and written one way whatever the order of the machine's own, and at any
   place, aligned or not. The compiler has two's complement and octets, and shifts a negative number with its sign. */
#ifndef PORTABLE_H
#define PORTABLE_H

#include <stddef.h>
#include <stdint.h>
#if __STDC_HOSTED__ || !defined(__GNUC__)
#include <string.h>
#else
/* With -ffreestanding there is no header of a C library. The host has these three. */
#define memcpy __builtin_memcpy
#define memmove __builtin_memmove
#define memset __builtin_memset
#endif

typedef uint8_t u8;
typedef uint16_t u16;
typedef uint32_t u32;
typedef uint64_t u64;
typedef int8_t i8;
typedef int16_t i16;
typedef int32_t i32;
typedef int64_t i64;

/* The address of an octet of the machine, or eight octets that are only copied. */
typedef uint64_t address;

/* What the heap answers: whether a block is given, and its address. */
struct pair { u64 m0, m1; };

#ifdef __GNUC__
#define UNREACHABLE __builtin_unreachable()
#define TRAP __builtin_trap()
#define SMALL __attribute__((__unused__)) static inline
#else
#define UNREACHABLE for (;;) ((void)0)
#define TRAP for (;;) ((void)0)
#define SMALL static inline
#endif

#if defined(__BYTE_ORDER__) && __BYTE_ORDER__ == __ORDER_LITTLE_ENDIAN__
#define IS_LITTLE_ENDIAN 1
#else
#define IS_LITTLE_ENDIAN 0
#endif

#define ADDRESS(at) ((address)(uintptr_t)(at))
#define AT(place) ((void *)(uintptr_t)(place))

/* An address among the octets of a constant, on a little-endian machine: with zeros after it if it has fewer than 64 bits. */
#if UINTPTR_MAX > 0xffffffffu
typedef const void *slot;
#define SLOT(at) (at)
#else
typedef struct { const void *at; u32 zeros; } slot;
#define SLOT(at) { (at), 0 }
#endif

SMALL u16 swap16(u16 x) { return (u16)((u32)x << 8 | x >> 8); }

SMALL u32 swap32(u32 x) {
#ifdef __GNUC__
    return __builtin_bswap32(x);
#else
    return x << 24 | (x & 0xff00u) << 8 | (x >> 8 & 0xff00u) | x >> 24;
#endif
}

SMALL u64 swap64(u64 x) {
#ifdef __GNUC__
    return __builtin_bswap64(x);
#else
    return (u64)swap32((u32)x) << 32 | swap32((u32)(x >> 32));
#endif
}

/* Between the order of memory and the machine's own, either way. */
#if IS_LITTLE_ENDIAN
#define ORDERED(bits, x) (x)
#else
#define ORDERED(bits, x) swap##bits(x)
#endif

SMALL u8 load8(address from) { return *(const u8 *)AT(from); }

SMALL u16 load16(address from) {
    u16 x;
    memcpy(&x, AT(from), sizeof x);
    return ORDERED(16, x);
}

SMALL u32 load32(address from) {
    u32 x;
    memcpy(&x, AT(from), sizeof x);
    return ORDERED(32, x);
}

SMALL u64 load64(address from) {
    u64 x;
    memcpy(&x, AT(from), sizeof x);
    return ORDERED(64, x);
}

SMALL address load_address(address from) { return load64(from); }

SMALL void store8(address to, u8 x) { *(u8 *)AT(to) = x; }

SMALL void store16(address to, u16 x) {
    x = ORDERED(16, x);
    memcpy(AT(to), &x, sizeof x);
}

SMALL void store32(address to, u32 x) {
    x = ORDERED(32, x);
    memcpy(AT(to), &x, sizeof x);
}

SMALL void store64(address to, u64 x) {
    x = ORDERED(64, x);
    memcpy(AT(to), &x, sizeof x);
}

SMALL void store_address(address to, address x) { store64(to, x); }

/* Of no octets the address may be any. */
SMALL void memory_cpy(address to, address from, u64 size) {
    if (size != 0) memcpy(AT(to), AT(from), (size_t)size);
}

SMALL void memory_move(address to, address from, u64 size) {
    if (size != 0) memmove(AT(to), AT(from), (size_t)size);
}

SMALL void memory_set(address to, u8 octet, u64 size) {
    if (size != 0) memset(AT(to), octet, (size_t)size);
}

/* A number with a fraction and its bits, which memory has in the order of an integer's octets. The library has no such number. So a
   compiler that may use no register for one, as gcc says by this macro, does without them. */
#if !defined(__GCC_IEC_559) || __GCC_IEC_559 > 0
SMALL double double_of(u64 bits) {
    double x;
    memcpy(&x, &bits, sizeof x);
    return x;
}

SMALL u64 bits_of(double x) {
    u64 bits;
    memcpy(&bits, &x, sizeof bits);
    return bits;
}
#endif

/* An integer of 128 bits. */
struct wide { u64 high, low; };

SMALL struct wide wide_of(u64 high, u64 low) {
    struct wide x;
    x.high = high;
    x.low = low;
    return x;
}

SMALL struct wide wide_add(struct wide x, struct wide y) {
    u64 low = x.low + y.low;
    return wide_of(x.high + y.high + (low < x.low), low);
}

SMALL struct wide wide_subtract(struct wide x, struct wide y) {
    return wide_of(x.high - y.high - (x.low < y.low), x.low - y.low);
}

/* By halves of 32 bits. */
SMALL struct wide wide_multiply(struct wide x, struct wide y) {
    u64 half = 0xffffffffu, x0 = x.low & half, x1 = x.low >> 32, y0 = y.low & half, y1 = y.low >> 32;
    u64 middle = (x0 * y0 >> 32) + (x0 * y1 & half) + (x1 * y0 & half);
    u64 high = x1 * y1 + (x0 * y1 >> 32) + (x1 * y0 >> 32) + (middle >> 32);
    return wide_of(high + x.high * y.low + x.low * y.high, x.low * y.low);
}

SMALL struct wide wide_and(struct wide x, struct wide y) { return wide_of(x.high & y.high, x.low & y.low); }

SMALL struct wide wide_or(struct wide x, struct wide y) { return wide_of(x.high | y.high, x.low | y.low); }

SMALL struct wide wide_xor(struct wide x, struct wide y) { return wide_of(x.high ^ y.high, x.low ^ y.low); }

SMALL struct wide wide_left(struct wide x, struct wide count) {
    u64 n = count.low & 127;
    if (n == 0) return x;
    return n >= 64 ? wide_of(x.low << (n - 64), 0) : wide_of(x.high << n | x.low >> (64 - n), x.low << n);
}

SMALL struct wide wide_right(struct wide x, struct wide count) {
    u64 n = count.low & 127;
    if (n == 0) return x;
    return n >= 64 ? wide_of(0, x.high >> (n - 64)) : wide_of(x.high >> n, x.low >> n | x.high << (64 - n));
}

SMALL int wide_is(struct wide x, struct wide y) { return x.high == y.high && x.low == y.low; }

SMALL int wide_is_less(struct wide x, struct wide y) { return x.high != y.high ? x.high < y.high : x.low < y.low; }

/* Bit by bit, the highest first. */
SMALL struct wide wide_divide(struct wide x, struct wide y) {
    struct wide one = wide_of(0, 1), quotient = wide_of(0, 0), rest = wide_of(0, 0);
    u64 bit;
    for (bit = 128; bit > 0; bit--) {
        rest = wide_or(wide_left(rest, one), wide_and(wide_right(x, wide_of(0, bit - 1)), one));
        quotient = wide_left(quotient, one);
        if (wide_is_less(rest, y)) continue;
        rest = wide_subtract(rest, y);
        quotient.low |= 1;
    }
    return quotient;
}

SMALL struct wide wide_rest(struct wide x, struct wide y) { return wide_subtract(x, wide_multiply(wide_divide(x, y), y)); }

/* Of numbers in two's complement: their order is that of the numbers with the other highest bit. */
SMALL int wide_is_below(struct wide x, struct wide y) {
    u64 top = (u64)1 << 63;
    return wide_is_less(wide_of(x.high ^ top, x.low), wide_of(y.high ^ top, y.low));
}

SMALL struct wide wide_signed(i64 x) { return wide_of(x < 0 ? ~(u64)0 : 0, (u64)x); }

/* How many bits are set. */
SMALL u32 ctpop(u64 x) {
    u32 count = 0;
    for (; x != 0; x &= x - 1) count++;
    return count;
}

/* How many zeros are below the lowest bit that is set. */
SMALL u32 cttz(u64 x, u32 width) {
    u32 count = 0;
    for (; count < width && (x & 1) == 0; x >>= 1) count++;
    return count;
}

/* How many zeros are above the highest bit that is set. */
SMALL u32 ctlz(u64 x, u32 width) {
    u32 count = width;
    for (; x != 0; x >>= 1) count--;
    return count;
}

#endif
