/* The SHA-256 digest (FIPS 180-4) of the three bytes "abc", whose value the standard's own example gives. */
#include "rsim.h"

enum { ROUNDS = 64, WORDS = 16, STATE = 8 };

/* The first 32 bits of the fractional parts of the cube roots of the first 64 primes. */
static const uint32_t round_constants[ROUNDS] = {
    0x428a2f98, 0x71374491, 0xb5c0fbcf, 0xe9b5dba5, 0x3956c25b, 0x59f111f1, 0x923f82a4, 0xab1c5ed5,
    0xd807aa98, 0x12835b01, 0x243185be, 0x550c7dc3, 0x72be5d74, 0x80deb1fe, 0x9bdc06a7, 0xc19bf174,
    0xe49b69c1, 0xefbe4786, 0x0fc19dc6, 0x240ca1cc, 0x2de92c6f, 0x4a7484aa, 0x5cb0a9dc, 0x76f988da,
    0x983e5152, 0xa831c66d, 0xb00327c8, 0xbf597fc7, 0xc6e00bf3, 0xd5a79147, 0x06ca6351, 0x14292967,
    0x27b70a85, 0x2e1b2138, 0x4d2c6dfc, 0x53380d13, 0x650a7354, 0x766a0abb, 0x81c2c92e, 0x92722c85,
    0xa2bfe8a1, 0xa81a664b, 0xc24b8b70, 0xc76c51a3, 0xd192e819, 0xd6990624, 0xf40e3585, 0x106aa070,
    0x19a4c116, 0x1e376c08, 0x2748774c, 0x34b0bcb5, 0x391c0cb3, 0x4ed8aa4a, 0x5b9cca4f, 0x682e6ff3,
    0x748f82ee, 0x78a5636f, 0x84c87814, 0x8cc70208, 0x90befffa, 0xa4506ceb, 0xbef9a3f7, 0xc67178f2,
};

/* The first 32 bits of the fractional parts of the square roots of the first 8 primes. */
static uint32_t state[STATE] = {
    0x6a09e667, 0xbb67ae85, 0x3c6ef372, 0xa54ff53a, 0x510e527f, 0x9b05688c, 0x1f83d9ab, 0x5be0cd19,
};

static uint32_t rotate_right(uint32_t word, int count) { return word >> count | word << (32 - count); }

/* The sixteen words of a block, and 48 more that are made from them. */
static void expand(uint32_t schedule[ROUNDS], const uint32_t block[WORDS])
{
    for (int i = 0; i < WORDS; i++)
        schedule[i] = block[i];
    for (int i = WORDS; i < ROUNDS; i++) {
        uint32_t far = schedule[i - 15], near = schedule[i - 2];
        uint32_t s0 = rotate_right(far, 7) ^ rotate_right(far, 18) ^ far >> 3;
        uint32_t s1 = rotate_right(near, 17) ^ rotate_right(near, 19) ^ near >> 10;
        schedule[i] = schedule[i - 16] + s0 + schedule[i - 7] + s1;
    }
}

/* One round on the eight working words. */
static void mix(uint32_t w[STATE], uint32_t constant, uint32_t word)
{
    uint32_t a = w[0], e = w[4];
    uint32_t big1 = rotate_right(e, 6) ^ rotate_right(e, 11) ^ rotate_right(e, 25);
    uint32_t choice = (e & w[5]) ^ (~e & w[6]);
    uint32_t t1 = w[7] + big1 + choice + constant + word;
    uint32_t big0 = rotate_right(a, 2) ^ rotate_right(a, 13) ^ rotate_right(a, 22);
    uint32_t majority = (a & w[1]) ^ (a & w[2]) ^ (w[1] & w[2]);

    for (int i = STATE - 1; i > 0; i--)
        w[i] = w[i - 1];
    w[4] += t1;
    w[0] = t1 + big0 + majority;
}

static void compress(const uint32_t block[WORDS])
{
    uint32_t schedule[ROUNDS], working[STATE];

    expand(schedule, block);
    for (int i = 0; i < STATE; i++)
        working[i] = state[i];
    for (int i = 0; i < ROUNDS; i++)
        mix(working, round_constants[i], schedule[i]);
    for (int i = 0; i < STATE; i++)
        state[i] += working[i];
}

static void put_hex(uint32_t word)
{
    for (int shift = 28; shift >= 0; shift -= 4)
        put_byte("0123456789abcdef"[word >> shift & 15]);
}

int main(void)
{
    /* "abc", a bit 1, zeros, and the message's length in bits. */
    static const uint32_t block[WORDS] = { 0x61626380, [WORDS - 1] = 24 };

    compress(block);
    for (int i = 0; i < STATE; i++)
        put_hex(state[i]);
    put_byte('\n');
    return 0;
}
