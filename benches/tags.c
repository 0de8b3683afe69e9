/* Measures the product's taggers, out of its static library, beside C versions: see tags.sh. Every tag is of the tag
   before, so that no two calls overlap. The functions take turns, round after round, and the best round of each counts:
   what else the machine does only ever adds to a time. */
#include <stdio.h>
#include <stdlib.h>
#include <string.h>
#include <time.h>

#include "peers.h"

tagger neltobur_siphash, neltobur_cmac;

#ifdef WITH_OPENSSL
#include <openssl/core_names.h>
#include <openssl/evp.h>

static EVP_MAC_CTX *made(const char *name)
{
    EVP_MAC *mac = EVP_MAC_fetch(NULL, name, NULL);
    return mac ? EVP_MAC_CTX_new(mac) : NULL;
}

static uint32_t openssl_tag(EVP_MAC_CTX *mac, const OSSL_PARAM *params, const uint8_t *key, size_t key_len,
                            const uint8_t *text, size_t text_len, uint8_t *out, size_t out_len, size_t work_len)
{
    uint8_t tag[16];
    size_t len = 0;
    uint32_t fault = admit(key_len, text_len, out_len, work_len);
    if (fault)
        return fault;
    if (!mac || !EVP_MAC_init(mac, key, key_len, params) || !EVP_MAC_update(mac, text, text_len) ||
        !EVP_MAC_final(mac, tag, &len, sizeof tag))
        return 99;
    memcpy(out, tag, TAG_BYTES);
    return 0;
}

static uint32_t openssl_siphash(const uint8_t *key, size_t key_len, const uint8_t *text, size_t text_len, uint8_t *out,
                                size_t out_len, uint8_t *work, size_t work_len)
{
    static EVP_MAC_CTX *mac;
    static size_t size = TAG_BYTES;
    static OSSL_PARAM params[2];
    (void)work;
    if (!mac) {
        mac = made("SIPHASH");
        params[0] = OSSL_PARAM_construct_size_t(OSSL_MAC_PARAM_SIZE, &size);
        params[1] = OSSL_PARAM_construct_end();
    }
    return openssl_tag(mac, params, key, key_len, text, text_len, out, out_len, work_len);
}

static uint32_t openssl_cmac(const uint8_t *key, size_t key_len, const uint8_t *text, size_t text_len, uint8_t *out,
                             size_t out_len, uint8_t *work, size_t work_len)
{
    static EVP_MAC_CTX *mac;
    static char cipher[] = "AES-128-CBC";
    static OSSL_PARAM params[2];
    (void)work;
    if (!mac) {
        mac = made("CMAC");
        params[0] = OSSL_PARAM_construct_utf8_string(OSSL_MAC_PARAM_CIPHER, cipher, 0);
        params[1] = OSSL_PARAM_construct_end();
    }
    return openssl_tag(mac, params, key, key_len, text, text_len, out, out_len, work_len);
}
#endif

enum { ROUNDS = 101, SIZES = 3, PEERS = 4 };

struct group {
    const char *name;
    long calls; /* in one measurement */
    tagger *run[PEERS]; /* the product first */
};

static const size_t sizes[SIZES] = {41, 73, 128};

static const char *titles[PEERS] = {"product", "C, clearing", "C, no clearing", "OpenSSL"};

static struct group groups[] = {
    {"SipHash-2-4", 20000, {neltobur_siphash, peer_siphash, peer_siphash_bare}},
    {"AES-128-CMAC", 2000, {neltobur_cmac, peer_cmac, peer_cmac_bare}},
};

enum { GROUPS = sizeof groups / sizeof *groups };

static uint8_t key[KEY_BYTES], text[TEXT_BYTES], out[TAG_BYTES], work[WORK_BYTES];

static void fill(uint64_t start)
{
    uint64_t x = start * 2654435761u + 88172645463325252u;
    for (size_t i = 0; i < sizeof key + sizeof text; i++) {
        x ^= x << 13;
        x ^= x >> 7;
        x ^= x << 17;
        if (i < sizeof key)
            key[i] = (uint8_t)(x >> 32);
        else
            text[i - sizeof key] = (uint8_t)(x >> 32);
    }
}

/* The same tags from all of a group, over every length and some texts. */
static void agree(const struct group *g)
{
    uint8_t first[TAG_BYTES];
    for (size_t len = 0; len <= TEXT_BYTES; len++)
        for (int p = 0; p < PEERS && g->run[p]; p++) {
            fill(len);
            memset(work, 0xaa, sizeof work);
            uint32_t fault = g->run[p](key, sizeof key, text, len, out, sizeof out, work, sizeof work);
            if (p == 0)
                memcpy(first, out, sizeof out);
            if (fault || memcmp(first, out, sizeof out)) {
                fprintf(stderr, "%s: %s differs from the product at %zu bytes (answer %u)\n", g->name, titles[p], len,
                        fault);
                exit(1);
            }
            for (size_t i = 0; p < 2 && i < sizeof work; i++)
                if (work[i]) {
                    fprintf(stderr, "%s: %s leaves working bytes\n", g->name, titles[p]);
                    exit(1);
                }
        }
}

/* Nanoseconds for each tag. */
static double measure(tagger *run, size_t len, long calls)
{
    struct timespec from, to;
    fill(len);
    clock_gettime(CLOCK_MONOTONIC, &from);
    for (long i = 0; i < calls; i++) {
        if (run(key, sizeof key, text, len, out, sizeof out, work, sizeof work))
            exit(1);
        memcpy(text, out, sizeof out);
    }
    clock_gettime(CLOCK_MONOTONIC, &to);
    return ((double)(to.tv_sec - from.tv_sec) * 1e9 + (double)(to.tv_nsec - from.tv_nsec)) / (double)calls;
}

int main(void)
{
    double best[GROUPS][SIZES][PEERS] = {0};
#ifdef WITH_OPENSSL
    groups[0].run[3] = openssl_siphash;
    groups[1].run[3] = openssl_cmac;
#endif
    for (int g = 0; g < GROUPS; g++)
        agree(&groups[g]);
    for (int round = 0; round < ROUNDS; round++)
        for (int g = 0; g < GROUPS; g++)
            for (int s = 0; s < SIZES; s++)
                for (int p = 0; p < PEERS && groups[g].run[p]; p++) {
                    double t = measure(groups[g].run[p], sizes[s], groups[g].calls);
                    if (round == 0 || t < best[g][s][p])
                        best[g][s][p] = t;
                }
    for (int g = 0; g < GROUPS; g++) {
        printf("%s: ns per tag, the best of %d rounds, and that by the product's (1.00 or more: the product is at least as "
               "fast)\n",
               groups[g].name, ROUNDS);
        printf("  %-16s", "bytes of text");
        for (int s = 0; s < SIZES; s++)
            printf("%10zu        ", sizes[s]);
        printf("\n");
        for (int p = 0; p < PEERS; p++) {
            if (!groups[g].run[p])
                continue;
            printf("  %-16s", titles[p]);
            for (int s = 0; s < SIZES; s++)
                printf("%10.1f  %5.2f ", best[g][s][p], best[g][s][p] / best[g][s][0]);
            printf("\n");
        }
    }
    return 0;
}
