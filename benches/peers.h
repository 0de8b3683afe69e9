/* The C functions that the product's taggers are measured beside. Each has the product's arguments and does its
   service: it checks the lengths, writes eight bytes to `out` and answers 0 or a fault's number. */
#ifndef PEERS_H
#define PEERS_H

#include <stddef.h>
#include <stdint.h>

enum { KEY_BYTES = 16, TAG_BYTES = 8, TEXT_BYTES = 128, WORK_BYTES = 192 };
enum { SHORT_AREA = 5, BAD_SHAPE = 6, TOO_LONG = 8 };

typedef uint32_t tagger(const uint8_t *key, size_t key_len, const uint8_t *text, size_t text_len, uint8_t *out,
                        size_t out_len, uint8_t *work, size_t work_len);

/* The refusals, in the product's order. */
static inline uint32_t admit(size_t key_len, size_t text_len, size_t out_len, size_t work_len)
{
    if (key_len != KEY_BYTES)
        return BAD_SHAPE;
    if (work_len < WORK_BYTES || out_len < TAG_BYTES)
        return SHORT_AREA;
    if (text_len > TEXT_BYTES)
        return TOO_LONG;
    return 0;
}

/* With the working area cleared after the tag, as the product does, and with no use of it. */
tagger peer_siphash, peer_siphash_bare;
tagger peer_cmac, peer_cmac_bare;

#endif
