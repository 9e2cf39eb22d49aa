/* SPDX-License-Identifier: MIT */
/*
 * Implements the instructions of 64-bit WebAssembly that dist/calls.c uses: arithmetic, and loads and stores, which
 * access the memory of the process. An address is a pointer converted to 64 bits, even if pointers have 32 bits.
 * Numbers in memory are little-endian on every processor.
 *
 * This is C99, and uses memcpy, memmove, memset and abort of the C library.
 */
#ifndef MACHINE_H
#define MACHINE_H

#include <stddef.h>
#include <stdint.h>
#include <stdlib.h>
#include <string.h>

typedef uint8_t u8;
typedef uint32_t u32;
typedef uint64_t u64;

/* The allocation functions of calls.c, which allocation.c defines. The first two write two numbers to `grant`: whether
 * the allocation succeeded, and the address of the block. */
void machine_rattle_alloc(u64 grant, u64 len, u64 alignment);
void machine_rattle_realloc(u64 grant, u64 block, u64 old_len, u64 len, u64 alignment);
void machine_rattle_dealloc(u64 block);

/* Aligns data to a multiple of this many bytes. */
#if defined(__GNUC__) || defined(__TINYC__)
#define ALIGNED(bytes) __attribute__((aligned(bytes)))
#elif defined(_MSC_VER)
#define ALIGNED(bytes) __declspec(align(bytes))
#else
#define ALIGNED(bytes) _Alignas(bytes)
#endif

/* Declare the stack and the table of addresses of the WebAssembly code as local variables of the function that C calls.
 * Both begin at a multiple of 16, and the stack also ends at one. */
#define STACK(bytes) u64 stack_[(bytes) / 8 + 2]; const u64 sp = ((u64) (uintptr_t) stack_ + 15) / 16 * 16 + (bytes)
#define TABLE(bytes) u64 table_[(bytes) / 8 + 3]; const u64 table = ((u64) (uintptr_t) table_ + 15) / 16 * 16

static inline u64 address(const void *pointer)
{
    return (uintptr_t) pointer;
}

static inline u8 *at(u64 address)
{
    return (u8 *) (uintptr_t) address;
}

/* ---- Memory ---- */

/* IS_LITTLE_ENDIAN: the processor is little-endian. HAS_UNALIGNED_ACCESS: it also loads and stores numbers at any
 * address by one instruction. Without it, numbers are composed of single bytes, which works everywhere. */
#if defined(__BYTE_ORDER__) && __BYTE_ORDER__ == __ORDER_LITTLE_ENDIAN__
#define IS_LITTLE_ENDIAN 1
#else
#define IS_LITTLE_ENDIAN 0
#endif
#ifndef HAS_UNALIGNED_ACCESS
#if IS_LITTLE_ENDIAN && (defined(__x86_64__) || defined(__i386__) || defined(__aarch64__) || defined(__powerpc64__) \
                         || defined(__ARM_FEATURE_UNALIGNED))
#define HAS_UNALIGNED_ACCESS 1
#else
#define HAS_UNALIGNED_ACCESS 0
#endif
#endif

static inline u32 load8(u64 a)
{
    return *at(a);
}

static inline u32 load16(u64 a)
{
    return load8(a) | load8(a + 1) << 8;
}

#if HAS_UNALIGNED_ACCESS

static inline u32 load32(u64 a)
{
    u32 value;

    memcpy(&value, at(a), sizeof value);
    return value;
}

static inline u64 load64(u64 a)
{
    u64 value;

    memcpy(&value, at(a), sizeof value);
    return value;
}

#else

static inline u32 load32(u64 a)
{
    return load16(a) | load16(a + 2) << 16;
}

static inline u64 load64(u64 a)
{
    return load32(a) | (u64) load32(a + 4) << 32;
}

#endif

static inline void store8(u64 a, u64 value)
{
    *at(a) = (u8) value;
}

static inline void store16(u64 a, u64 value)
{
    store8(a, value);
    store8(a + 1, value >> 8);
}

#if HAS_UNALIGNED_ACCESS

static inline void store32(u64 a, u64 value)
{
    const u32 low = (u32) value;

    memcpy(at(a), &low, sizeof low);
}

static inline void store64(u64 a, u64 value)
{
    memcpy(at(a), &value, sizeof value);
}

#else

static inline void store32(u64 a, u64 value)
{
    store16(a, value);
    store16(a + 2, value >> 16);
}

static inline void store64(u64 a, u64 value)
{
    store32(a, value);
    store32(a + 4, value >> 32);
}

#endif

/* If len is 0, the addresses may be invalid, and memmove and memset must not get them. */
static inline void copy(u64 to, u64 from, u64 len)
{
    if (len != 0) {
        memmove(at(to), at(from), (size_t) len);
    }
}

static inline void fill(u64 to, u32 value, u64 len)
{
    if (len != 0) {
        memset(at(to), (int) (value & 0xff), (size_t) len);
    }
}

/* ---- Signs ---- */

/* Extend the sign of 8, 16 and 32 bits to 64 bits. */
static inline u64 sign8(u64 value)
{
    return ((value & 0xff) ^ 0x80) - 0x80;
}

static inline u64 sign16(u64 value)
{
    return ((value & 0xffff) ^ 0x8000) - 0x8000;
}

static inline u64 sign32(u64 value)
{
    return ((value & UINT64_C(0xffffffff)) ^ UINT64_C(0x80000000)) - UINT64_C(0x80000000);
}

/* Map signed numbers to unsigned numbers in the same order. */
static inline u32 order32(u32 value)
{
    return value ^ UINT32_C(0x80000000);
}

static inline u64 order64(u64 value)
{
    return value ^ UINT64_C(0x8000000000000000);
}

/* ---- Shifts ---- */

static inline u64 shr_s64(u64 value, u64 by)
{
    const u64 signs = 0 - (value >> 63);

    return (value ^ signs) >> (by & 63) ^ signs;
}

static inline u32 shr_s32(u32 value, u32 by)
{
    return (u32) shr_s64(sign32(value), by & 31);
}

static inline u32 rotl32(u32 value, u32 by)
{
    return value << (by & 31) | value >> ((0 - by) & 31);
}

static inline u64 rotl64(u64 value, u64 by)
{
    return value << (by & 63) | value >> ((0 - by) & 63);
}

static inline u32 rotr32(u32 value, u32 by)
{
    return value >> (by & 31) | value << ((0 - by) & 31);
}

static inline u64 rotr64(u64 value, u64 by)
{
    return value >> (by & 63) | value << ((0 - by) & 63);
}

/* ---- Counting bits ---- */

static inline u64 popcnt64(u64 x)
{
    x -= x >> 1 & UINT64_C(0x5555555555555555);
    x = (x & UINT64_C(0x3333333333333333)) + (x >> 2 & UINT64_C(0x3333333333333333));
    x = (x + (x >> 4)) & UINT64_C(0x0f0f0f0f0f0f0f0f);
    return x * UINT64_C(0x0101010101010101) >> 56;
}

static inline u32 popcnt32(u32 x)
{
    return (u32) popcnt64(x);
}

/* Count the zeros above the highest 1, and below the lowest 1. */
static inline u64 clz64(u64 x)
{
    x |= x >> 1;
    x |= x >> 2;
    x |= x >> 4;
    x |= x >> 8;
    x |= x >> 16;
    x |= x >> 32;
    return popcnt64(~x);
}

static inline u64 ctz64(u64 x)
{
    return popcnt64(~x & (x - 1));
}

static inline u32 clz32(u32 x)
{
    return (u32) clz64(x) - 32;
}

static inline u32 ctz32(u32 x)
{
    return (u32) ctz64(x | UINT64_C(0x100000000));
}

/* ---- Dividing ---- */

/* The trap instruction of WebAssembly. The proved calls never reach it. */
static inline void never(void)
{
    abort();
}

static inline u64 div_u64(u64 a, u64 b)
{
    if (b == 0) {
        never();
    }
    return a / b;
}

static inline u64 rem_u64(u64 a, u64 b)
{
    if (b == 0) {
        never();
    }
    return a % b;
}

static inline u32 div_u32(u32 a, u32 b)
{
    return (u32) div_u64(a, b);
}

static inline u32 rem_u32(u32 a, u32 b)
{
    return (u32) rem_u64(a, b);
}

/* Returns the absolute value. */
static inline u64 magnitude(u64 value)
{
    return value >> 63 ? 0 - value : value;
}

static inline u64 div_s64(u64 a, u64 b)
{
    const u64 quotient = div_u64(magnitude(a), magnitude(b)), has_sign = (a ^ b) >> 63;

    if (!has_sign && quotient >> 63) {
        never();
    }
    return has_sign ? 0 - quotient : quotient;
}

static inline u64 rem_s64(u64 a, u64 b)
{
    const u64 rest = rem_u64(magnitude(a), magnitude(b));

    return a >> 63 ? 0 - rest : rest;
}

static inline u32 div_s32(u32 a, u32 b)
{
    const u64 quotient = div_s64(sign32(a), sign32(b));

    if (quotient == UINT64_C(0x80000000)) {
        never();
    }
    return (u32) quotient;
}

static inline u32 rem_s32(u32 a, u32 b)
{
    return (u32) rem_s64(sign32(a), sign32(b));
}

#endif
