/* Numbers in bytes, most significant first, and copies of a few bytes without a call. For a little-endian machine. */
#ifndef BYTES_H
#define BYTES_H

#include <stdbool.h>
#include <stddef.h>
#include <stdint.h>
#include <string.h>

#define NOT_INLINE static __attribute__((noinline))
#define LIKELY(test) __builtin_expect(!!(test), 1)
#define UNLIKELY(test) __builtin_expect(!!(test), 0)

static inline uint32_t bytes_get4(const uint8_t *at)
{
    uint32_t value;

    memcpy(&value, at, sizeof value);
    return __builtin_bswap32(value);
}

static inline uint64_t bytes_get8(const uint8_t *at)
{
    uint64_t value;

    memcpy(&value, at, sizeof value);
    return __builtin_bswap64(value);
}

static inline void bytes_put2(uint8_t *at, uint16_t value)
{
    value = __builtin_bswap16(value);
    memcpy(at, &value, sizeof value);
}

static inline void bytes_put4(uint8_t *at, uint32_t value)
{
    value = __builtin_bswap32(value);
    memcpy(at, &value, sizeof value);
}

static inline void bytes_put8(uint8_t *at, uint64_t value)
{
    value = __builtin_bswap64(value);
    memcpy(at, &value, sizeof value);
}

/* Sixteen bytes in one register, at any address. */
typedef uint8_t bytes16 __attribute__((vector_size(16), aligned(1), may_alias));
typedef uint64_t bytes8 __attribute__((aligned(1), may_alias));
typedef uint32_t bytes4 __attribute__((aligned(1), may_alias));
typedef uint16_t bytes2 __attribute__((aligned(1), may_alias));

/* From one to two units: the first and the last, which may overlap. */
#define COPY_ENDS(unit)                                                            \
    do {                                                                           \
        unit first = *(const unit *)from;                                          \
        unit last = *(const unit *)(from + count - sizeof(unit));                  \
        *(unit *)to = first;                                                       \
        *(unit *)(to + count - sizeof(unit)) = last;                               \
    } while (0)

static inline void bytes_copy(uint8_t *to, const uint8_t *from, size_t count)
{
    if (count > 64) {
        memcpy(to, from, count);
    } else if (count > 32) {
        bytes16 second = *(const bytes16 *)(from + 16), third = *(const bytes16 *)(from + count - 32);

        COPY_ENDS(bytes16);
        *(bytes16 *)(to + 16) = second;
        *(bytes16 *)(to + count - 32) = third;
    } else if (count >= 16) {
        COPY_ENDS(bytes16);
    } else if (count >= 8) {
        COPY_ENDS(bytes8);
    } else if (count >= 4) {
        COPY_ENDS(bytes4);
    } else if (count >= 2) {
        COPY_ENDS(bytes2);
    } else if (count == 1) {
        *to = *from;
    }
}

#endif
