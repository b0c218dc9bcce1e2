/* The digest used wherever two programs compare many values by one number. */
#ifndef DIGEST_H
#define DIGEST_H

#include <stddef.h>
#include <stdint.h>

static inline uint64_t digest_add(uint64_t digest, uint64_t value)
{
    return (digest * 65599 + value) % 4294967291u;
}

static inline uint64_t digest_bytes(const uint8_t *bytes, size_t length)
{
    uint64_t digest = 0;
    for (size_t i = 0; i < length; i++)
        digest = digest_add(digest, bytes[i]);
    return digest;
}

#endif
