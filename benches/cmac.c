/* AES-128-CMAC, of which a tag is the first eight bytes: portable C, byte by byte, with the S-box in a table and the key
   schedule once for each tag. The round keys (176 bytes) and the state (16) fill the working area of one function, which
   clears it; the other has them on its stack and clears nothing. */
#include <string.h>

#include "peers.h"

static const uint8_t sbox[256] = {
    0x63, 0x7c, 0x77, 0x7b, 0xf2, 0x6b, 0x6f, 0xc5, 0x30, 0x01, 0x67, 0x2b, 0xfe, 0xd7, 0xab, 0x76,
    0xca, 0x82, 0xc9, 0x7d, 0xfa, 0x59, 0x47, 0xf0, 0xad, 0xd4, 0xa2, 0xaf, 0x9c, 0xa4, 0x72, 0xc0,
    0xb7, 0xfd, 0x93, 0x26, 0x36, 0x3f, 0xf7, 0xcc, 0x34, 0xa5, 0xe5, 0xf1, 0x71, 0xd8, 0x31, 0x15,
    0x04, 0xc7, 0x23, 0xc3, 0x18, 0x96, 0x05, 0x9a, 0x07, 0x12, 0x80, 0xe2, 0xeb, 0x27, 0xb2, 0x75,
    0x09, 0x83, 0x2c, 0x1a, 0x1b, 0x6e, 0x5a, 0xa0, 0x52, 0x3b, 0xd6, 0xb3, 0x29, 0xe3, 0x2f, 0x84,
    0x53, 0xd1, 0x00, 0xed, 0x20, 0xfc, 0xb1, 0x5b, 0x6a, 0xcb, 0xbe, 0x39, 0x4a, 0x4c, 0x58, 0xcf,
    0xd0, 0xef, 0xaa, 0xfb, 0x43, 0x4d, 0x33, 0x85, 0x45, 0xf9, 0x02, 0x7f, 0x50, 0x3c, 0x9f, 0xa8,
    0x51, 0xa3, 0x40, 0x8f, 0x92, 0x9d, 0x38, 0xf5, 0xbc, 0xb6, 0xda, 0x21, 0x10, 0xff, 0xf3, 0xd2,
    0xcd, 0x0c, 0x13, 0xec, 0x5f, 0x97, 0x44, 0x17, 0xc4, 0xa7, 0x7e, 0x3d, 0x64, 0x5d, 0x19, 0x73,
    0x60, 0x81, 0x4f, 0xdc, 0x22, 0x2a, 0x90, 0x88, 0x46, 0xee, 0xb8, 0x14, 0xde, 0x5e, 0x0b, 0xdb,
    0xe0, 0x32, 0x3a, 0x0a, 0x49, 0x06, 0x24, 0x5c, 0xc2, 0xd3, 0xac, 0x62, 0x91, 0x95, 0xe4, 0x79,
    0xe7, 0xc8, 0x37, 0x6d, 0x8d, 0xd5, 0x4e, 0xa9, 0x6c, 0x56, 0xf4, 0xea, 0x65, 0x7a, 0xae, 0x08,
    0xba, 0x78, 0x25, 0x2e, 0x1c, 0xa6, 0xb4, 0xc6, 0xe8, 0xdd, 0x74, 0x1f, 0x4b, 0xbd, 0x8b, 0x8a,
    0x70, 0x3e, 0xb5, 0x66, 0x48, 0x03, 0xf6, 0x0e, 0x61, 0x35, 0x57, 0xb9, 0x86, 0xc1, 0x1d, 0x9e,
    0xe1, 0xf8, 0x98, 0x11, 0x69, 0xd9, 0x8e, 0x94, 0x9b, 0x1e, 0x87, 0xe9, 0xce, 0x55, 0x28, 0xdf,
    0x8c, 0xa1, 0x89, 0x0d, 0xbf, 0xe6, 0x42, 0x68, 0x41, 0x99, 0x2d, 0x0f, 0xb0, 0x54, 0xbb, 0x16,
};

static inline uint8_t twice(uint8_t b)
{
    return (uint8_t)(b << 1) ^ (uint8_t)(-(b >> 7) & 0x1b);
}

static inline void expand(uint8_t *keys, const uint8_t *key)
{
    uint8_t constant = 1;
    memcpy(keys, key, 16);
    for (int i = 16; i < 176; i += 16) {
        const uint8_t *old = keys + i - 16;
        uint8_t *new = keys + i;
        new[0] = old[0] ^ sbox[old[13]] ^ constant;
        new[1] = old[1] ^ sbox[old[14]];
        new[2] = old[2] ^ sbox[old[15]];
        new[3] = old[3] ^ sbox[old[12]];
        for (int j = 4; j < 16; j++)
            new[j] = old[j] ^ new[j - 4];
        constant = twice(constant);
    }
}

/* Each round is SubBytes and ShiftRows, then MixColumns and the round key. */
static inline void encrypt(uint8_t *state, const uint8_t *keys)
{
    uint8_t s[16], t[16];
    for (int i = 0; i < 16; i++)
        s[i] = state[i] ^ keys[i];
    for (int round = 1; round < 10; round++) {
        const uint8_t *key = keys + 16 * round;
        for (int i = 0; i < 16; i++)
            t[i] = sbox[s[(5 * i) & 15]];
        for (int c = 0; c < 16; c += 4) {
            uint8_t all = t[c] ^ t[c + 1] ^ t[c + 2] ^ t[c + 3];
            s[c] = t[c] ^ all ^ twice(t[c] ^ t[c + 1]) ^ key[c];
            s[c + 1] = t[c + 1] ^ all ^ twice(t[c + 1] ^ t[c + 2]) ^ key[c + 1];
            s[c + 2] = t[c + 2] ^ all ^ twice(t[c + 2] ^ t[c + 3]) ^ key[c + 2];
            s[c + 3] = t[c + 3] ^ all ^ twice(t[c + 3] ^ t[c]) ^ key[c + 3];
        }
    }
    for (int i = 0; i < 16; i++)
        state[i] = sbox[s[(5 * i) & 15]] ^ keys[160 + i];
}

/* A subkey, or the next one. */
static inline void doubled(uint8_t *block)
{
    uint8_t high = block[0] >> 7;
    for (int i = 0; i < 15; i++)
        block[i] = (uint8_t)(block[i] << 1 | block[i + 1] >> 7);
    block[15] = (uint8_t)(block[15] << 1) ^ (uint8_t)(-high & 0x87);
}

static inline void cmac(const uint8_t *key, const uint8_t *text, size_t len, uint8_t *out, uint8_t *keys, uint8_t *state)
{
    uint8_t last[16] = {0};
    expand(keys, key);
    encrypt(last, keys);
    doubled(last);
    memset(state, 0, 16);
    for (; len > 16; text += 16, len -= 16) {
        for (int i = 0; i < 16; i++)
            state[i] ^= text[i];
        encrypt(state, keys);
    }
    if (len < 16) {
        doubled(last);
        last[len] ^= 0x80;
    }
    for (size_t i = 0; i < len; i++)
        last[i] ^= text[i];
    for (int i = 0; i < 16; i++)
        state[i] ^= last[i];
    encrypt(state, keys);
    memcpy(out, state, TAG_BYTES);
}

uint32_t peer_cmac(const uint8_t *key, size_t key_len, const uint8_t *text, size_t text_len, uint8_t *out, size_t out_len,
                   uint8_t *work, size_t work_len)
{
    uint32_t fault = admit(key_len, text_len, out_len, work_len);
    if (fault == 0)
        cmac(key, text, text_len, out, work, work + 176);
    memset(work, 0, work_len);
    return fault;
}

uint32_t peer_cmac_bare(const uint8_t *key, size_t key_len, const uint8_t *text, size_t text_len, uint8_t *out,
                        size_t out_len, uint8_t *work, size_t work_len)
{
    (void)work;
    uint8_t keys[176], state[16];
    uint32_t fault = admit(key_len, text_len, out_len, work_len);
    if (fault == 0)
        cmac(key, text, text_len, out, keys, state);
    return fault;
}
