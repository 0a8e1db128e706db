/* ChaCha with 12 rounds (RFC 8439's block function), plain C, timed.
 *
 *   cc -O3 chacha.c -o chacha && ./chacha
 *
 * prints "stream chacha12 1048576 BYTES_PER_SECOND" for exclusive-oring one
 * mebibyte with the keystream: the best of ten runs of 200 repetitions.
 * `./chacha hex` prints the first 64 keystream bytes for the seed 00 .. 1f and
 * the nonce 00 .. 0b instead, to compare with another program.
 */
#define _POSIX_C_SOURCE 199309L
#include <stdint.h>
#include <stdio.h>
#include <stdlib.h>
#include <string.h>
#include <time.h>

#define ROUNDS 12
#define LENGTH 1048576
#define RUNS 10
#define REPEATS 200

#define ROTL(v, n) (((v) << (n)) | ((v) >> (32 - (n))))

#define QUARTERROUND(a, b, c, d) \
    a += b; d ^= a; d = ROTL(d, 16); \
    c += d; b ^= c; b = ROTL(b, 12); \
    a += b; d ^= a; d = ROTL(d, 8); \
    c += d; b ^= c; b = ROTL(b, 7)

static uint32_t load32(const uint8_t *p)
{
    return (uint32_t)p[0] | (uint32_t)p[1] << 8 | (uint32_t)p[2] << 16 | (uint32_t)p[3] << 24;
}

static void store32(uint8_t *p, uint32_t v)
{
    p[0] = (uint8_t)v;
    p[1] = (uint8_t)(v >> 8);
    p[2] = (uint8_t)(v >> 16);
    p[3] = (uint8_t)(v >> 24);
}

static void chacha_block(uint8_t out[64], const uint32_t state[16])
{
    uint32_t x[16];
    int i;
    memcpy(x, state, sizeof x);
    for (i = 0; i < ROUNDS; i += 2) {
        QUARTERROUND(x[0], x[4], x[8], x[12]);
        QUARTERROUND(x[1], x[5], x[9], x[13]);
        QUARTERROUND(x[2], x[6], x[10], x[14]);
        QUARTERROUND(x[3], x[7], x[11], x[15]);
        QUARTERROUND(x[0], x[5], x[10], x[15]);
        QUARTERROUND(x[1], x[6], x[11], x[12]);
        QUARTERROUND(x[2], x[7], x[8], x[13]);
        QUARTERROUND(x[3], x[4], x[9], x[14]);
    }
    for (i = 0; i < 16; i++)
        store32(out + 4 * i, x[i] + state[i]);
}

/* Exclusive-ors the buffer with the keystream from block 0 on. */
static void chacha_xor(uint8_t *buffer, size_t length, const uint8_t seed[32],
                       const uint8_t nonce[12])
{
    uint32_t state[16] = {0x61707865, 0x3320646e, 0x79622d32, 0x6b206574};
    uint8_t block[64];
    size_t i, n;
    for (i = 0; i < 8; i++)
        state[4 + i] = load32(seed + 4 * i);
    for (i = 0; i < 3; i++)
        state[13 + i] = load32(nonce + 4 * i);
    while (length > 0) {
        n = length < 64 ? length : 64;
        chacha_block(block, state);
        for (i = 0; i < n; i++)
            buffer[i] ^= block[i];
        state[12]++;
        buffer += n;
        length -= n;
    }
}

static double seconds(void)
{
    struct timespec t;
    clock_gettime(CLOCK_MONOTONIC, &t);
    return (double)t.tv_sec + 1e-9 * (double)t.tv_nsec;
}

int main(int argc, char **argv)
{
    uint8_t seed[32], nonce[12];
    uint8_t *buffer = calloc(LENGTH, 1);
    double best = 0;
    int i, run;
    if (buffer == NULL)
        return 1;
    for (i = 0; i < 32; i++)
        seed[i] = (uint8_t)i;
    for (i = 0; i < 12; i++)
        nonce[i] = (uint8_t)i;
    if (argc > 1 && strcmp(argv[1], "hex") == 0) {
        chacha_xor(buffer, 64, seed, nonce);
        for (i = 0; i < 64; i++)
            printf("%02x", buffer[i]);
        printf("\n");
        return 0;
    }
    for (run = 0; run < RUNS; run++) {
        double start = seconds(), rate;
        for (i = 0; i < REPEATS; i++)
            chacha_xor(buffer, LENGTH, seed, nonce);
        rate = (double)LENGTH * REPEATS / (seconds() - start);
        if (rate > best)
            best = rate;
    }
    /* An even number of repetitions has taken every byte back to zero. */
    for (i = 0; i < LENGTH; i++)
        if (buffer[i] != 0)
            return 1;
    printf("stream chacha12 %d %.0f\n", LENGTH, best);
    free(buffer);
    return 0;
}
