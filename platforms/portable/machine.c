/*
 * The machine of WebAssembly in C, for what tools/translate writes: its numbers, its memory and its operators. Nothing here is proved; tests run it.
 */
#include <stddef.h>
#include <stdint.h>
#include <stdlib.h>
#include <string.h>

#if defined(__GNUC__)
#pragma GCC diagnostic ignored "-Wunused-function"
#pragma GCC diagnostic ignored "-Wunused-parameter"
#pragma GCC diagnostic ignored "-Wunused-variable"
#pragma GCC diagnostic ignored "-Wunused-but-set-variable"
#endif

#if defined(__BYTE_ORDER__) && __BYTE_ORDER__ == __ORDER_BIG_ENDIAN__
#error "the machine has to keep the lowest byte of a number first"
#endif

typedef uint8_t u8;
typedef uint16_t u16;
typedef uint32_t u32;
typedef uint64_t u64;
typedef int8_t s8;
typedef int16_t s16;
typedef int32_t s32;
typedef int64_t s64;

#define U64(number) UINT64_C(number)

/* The stack is too small, or what made this file is wrong: no input leads here. */
#if defined(__GNUC__)
__attribute__((noreturn, cold))
#endif
static void trap(void) { abort(); }

/* An address is counted from the start of the memory, modulo 2^64: so it may be of any byte of the process. */
#define AT(address) ((void *)(base + (uintptr_t)(address)))
#define load8(address) read8(base, address)
#define load16(address) read16(base, address)
#define load32(address) read32(base, address)
#define load64(address) read64(base, address)
#define store8(address, value) write8(base, address, value)
#define store16(address, value) write16(base, address, value)
#define store32(address, value) write32(base, address, value)
#define store64(address, value) write64(base, address, value)

#define OF_WIDTH(bits)                                                                 \
    static inline u##bits read##bits(uintptr_t base, u64 address) {                    \
        u##bits value;                                                                 \
        memcpy(&value, AT(address), sizeof value);                                     \
        return value;                                                                  \
    }                                                                                  \
    static inline void write##bits(uintptr_t base, u64 address, u##bits value) {       \
        memcpy(AT(address), &value, sizeof value);                                     \
    }
OF_WIDTH(8)
OF_WIDTH(16)
OF_WIDTH(32)
OF_WIDTH(64)

#if defined(__GNUC__)
static inline u32 clz32(u32 x) { return x ? (u32)__builtin_clz(x) : 32; }
static inline u64 clz64(u64 x) { return x ? (u64)__builtin_clzll(x) : 64; }
static inline u32 ctz32(u32 x) { return x ? (u32)__builtin_ctz(x) : 32; }
static inline u64 ctz64(u64 x) { return x ? (u64)__builtin_ctzll(x) : 64; }
#else
static inline u64 popcnt64(u64 x);
static inline u64 ctz64(u64 x) { return popcnt64(~x & (x - 1)); }
static inline u64 clz64(u64 x) {
    for (int i = 1; i < 64; i *= 2) x |= x >> i;
    return popcnt64(~x);
}
static inline u32 ctz32(u32 x) { return x ? (u32)ctz64(x) : 32; }
static inline u32 clz32(u32 x) { return (u32)clz64(x) - 32; }
#endif

#if defined(__GNUC__) && (defined(__POPCNT__) || defined(__aarch64__))
static inline u64 popcnt64(u64 x) { return (u64)__builtin_popcountll(x); }
#else
static inline u64 popcnt64(u64 x) {
    x -= x >> 1 & U64(0x5555555555555555);
    x = (x & U64(0x3333333333333333)) + (x >> 2 & U64(0x3333333333333333));
    return ((x + (x >> 4)) & U64(0x0f0f0f0f0f0f0f0f)) * U64(0x0101010101010101) >> 56;
}
#endif
static inline u32 popcnt32(u32 x) { return (u32)popcnt64(x); }

#define OF_NUMBERS(bits, least)                                                        \
    static inline u##bits div_u##bits(u##bits a, u##bits b) {                          \
        if (!b) trap();                                                                \
        return a / b;                                                                  \
    }                                                                                  \
    static inline u##bits rem_u##bits(u##bits a, u##bits b) {                          \
        if (!b) trap();                                                                \
        return a % b;                                                                  \
    }                                                                                  \
    static inline u##bits div_s##bits(u##bits a, u##bits b) {                          \
        if (!b || (a == least && b + 1 == 0)) trap();                                  \
        return (u##bits)((s##bits)a / (s##bits)b);                                     \
    }                                                                                  \
    static inline u##bits rem_s##bits(u##bits a, u##bits b) {                          \
        if (!b) trap();                                                                \
        return b + 1 == 0 ? 0 : (u##bits)((s##bits)a % (s##bits)b);                    \
    }                                                                                  \
    static inline u##bits rotl##bits(u##bits x, u##bits n) {                           \
        n &= bits - 1;                                                                 \
        return x << n | x >> ((0 - n) & (bits - 1));                                   \
    }                                                                                  \
    static inline u##bits rotr##bits(u##bits x, u##bits n) {                           \
        n &= bits - 1;                                                                 \
        return x >> n | x << ((0 - n) & (bits - 1));                                   \
    }
OF_NUMBERS(32, 0x80000000u)
OF_NUMBERS(64, U64(0x8000000000000000))
