/* SipHash-2-4 with a tag of eight bytes, lowest byte first. It needs no working bytes: one of the two functions clears
   them all the same, since that is part of the product's service. */
#include <string.h>

#include "peers.h"

static inline uint64_t rotl(uint64_t x, int by)
{
    return (x << by) | (x >> (64 - by));
}

static inline uint64_t load(const uint8_t *at)
{
    uint64_t word = 0;
    for (int i = 0; i < 8; i++)
        word |= (uint64_t)at[i] << (8 * i);
    return word;
}

#define ROUND                \
    do {                     \
        v0 += v1;            \
        v1 = rotl(v1, 13);   \
        v1 ^= v0;            \
        v0 = rotl(v0, 32);   \
        v2 += v3;            \
        v3 = rotl(v3, 16);   \
        v3 ^= v2;            \
        v0 += v3;            \
        v3 = rotl(v3, 21);   \
        v3 ^= v0;            \
        v2 += v1;            \
        v1 = rotl(v1, 17);   \
        v1 ^= v2;            \
        v2 = rotl(v2, 32);   \
    } while (0)

static inline void siphash(const uint8_t *key, const uint8_t *text, size_t len, uint8_t *out)
{
    uint64_t k0 = load(key);
    uint64_t k1 = load(key + 8);
    uint64_t v0 = k0 ^ 0x736f6d6570736575;
    uint64_t v1 = k1 ^ 0x646f72616e646f6d;
    uint64_t v2 = k0 ^ 0x6c7967656e657261;
    uint64_t v3 = k1 ^ 0x7465646279746573;
    const uint8_t *end = text + (len & ~(size_t)7);
    for (; text != end; text += 8) {
        uint64_t m = load(text);
        v3 ^= m;
        ROUND;
        ROUND;
        v0 ^= m;
    }
    uint64_t m = (uint64_t)len << 56;
    for (size_t i = 0; i < (len & 7); i++)
        m |= (uint64_t)text[i] << (8 * i);
    v3 ^= m;
    ROUND;
    ROUND;
    v0 ^= m;
    v2 ^= 0xff;
    ROUND;
    ROUND;
    ROUND;
    ROUND;
    uint64_t tag = v0 ^ v1 ^ v2 ^ v3;
    for (int i = 0; i < 8; i++)
        out[i] = (uint8_t)(tag >> (8 * i));
}

uint32_t peer_siphash(const uint8_t *key, size_t key_len, const uint8_t *text, size_t text_len, uint8_t *out,
                      size_t out_len, uint8_t *work, size_t work_len)
{
    uint32_t fault = admit(key_len, text_len, out_len, work_len);
    if (fault == 0)
        siphash(key, text, text_len, out);
    memset(work, 0, work_len);
    return fault;
}

uint32_t peer_siphash_bare(const uint8_t *key, size_t key_len, const uint8_t *text, size_t text_len, uint8_t *out,
                           size_t out_len, uint8_t *work, size_t work_len)
{
    (void)work;
    uint32_t fault = admit(key_len, text_len, out_len, work_len);
    if (fault == 0)
        siphash(key, text, text_len, out);
    return fault;
}
