/* Writes the SHA-256 digests (FIPS 180-4) of the empty text, of "abc", and of 100,000 letters a. */
#include "host.h"

static const u32 K[64] = {
    0x428a2f98, 0x71374491, 0xb5c0fbcf, 0xe9b5dba5, 0x3956c25b, 0x59f111f1, 0x923f82a4, 0xab1c5ed5,
    0xd807aa98, 0x12835b01, 0x243185be, 0x550c7dc3, 0x72be5d74, 0x80deb1fe, 0x9bdc06a7, 0xc19bf174,
    0xe49b69c1, 0xefbe4786, 0x0fc19dc6, 0x240ca1cc, 0x2de92c6f, 0x4a7484aa, 0x5cb0a9dc, 0x76f988da,
    0x983e5152, 0xa831c66d, 0xb00327c8, 0xbf597fc7, 0xc6e00bf3, 0xd5a79147, 0x06ca6351, 0x14292967,
    0x27b70a85, 0x2e1b2138, 0x4d2c6dfc, 0x53380d13, 0x650a7354, 0x766a0abb, 0x81c2c92e, 0x92722c85,
    0xa2bfe8a1, 0xa81a664b, 0xc24b8b70, 0xc76c51a3, 0xd192e819, 0xd6990624, 0xf40e3585, 0x106aa070,
    0x19a4c116, 0x1e376c08, 0x2748774c, 0x34b0bcb5, 0x391c0cb3, 0x4ed8aa4a, 0x5b9cca4f, 0x682e6ff3,
    0x748f82ee, 0x78a5636f, 0x84c87814, 0x8cc70208, 0x90befffa, 0xa4506ceb, 0xbef9a3f7, 0xc67178f2,
};

struct digest {
    u32 state[8];
    u8 block[64];
    u64 length;
};

static u32 turned(u32 word, int count) {
    return word >> count | word << (32 - count);
}

static void take_block(struct digest *d) {
    u32 w[64];
    u32 v[8];
    for (int t = 0; t < 16; t++)
        w[t] = (u32)d->block[4 * t] << 24 | (u32)d->block[4 * t + 1] << 16 |
               (u32)d->block[4 * t + 2] << 8 | d->block[4 * t + 3];
    for (int t = 16; t < 64; t++) {
        u32 s0 = turned(w[t - 15], 7) ^ turned(w[t - 15], 18) ^ w[t - 15] >> 3;
        u32 s1 = turned(w[t - 2], 17) ^ turned(w[t - 2], 19) ^ w[t - 2] >> 10;
        w[t] = w[t - 16] + s0 + w[t - 7] + s1;
    }
    for (int k = 0; k < 8; k++)
        v[k] = d->state[k];
    for (int t = 0; t < 64; t++) {
        u32 s1 = turned(v[4], 6) ^ turned(v[4], 11) ^ turned(v[4], 25);
        u32 choice = (v[4] & v[5]) ^ (~v[4] & v[6]);
        u32 first = v[7] + s1 + choice + K[t] + w[t];
        u32 s0 = turned(v[0], 2) ^ turned(v[0], 13) ^ turned(v[0], 22);
        u32 majority = (v[0] & v[1]) ^ (v[0] & v[2]) ^ (v[1] & v[2]);
        for (int k = 7; k > 0; k--)
            v[k] = v[k - 1];
        v[4] += first;
        v[0] = first + s0 + majority;
    }
    for (int k = 0; k < 8; k++)
        d->state[k] += v[k];
}

static void start(struct digest *d) {
    static const u32 first[8] = {
        0x6a09e667, 0xbb67ae85, 0x3c6ef372, 0xa54ff53a, 0x510e527f, 0x9b05688c, 0x1f83d9ab, 0x5be0cd19,
    };
    for (int k = 0; k < 8; k++)
        d->state[k] = first[k];
    d->length = 0;
}

static void take_byte(struct digest *d, u8 byte) {
    d->block[d->length++ % 64] = byte;
    if (d->length % 64 == 0)
        take_block(d);
}

static void finish(struct digest *d) {
    u64 bits = 8 * d->length;
    take_byte(d, 0x80);
    while (d->length % 64 != 56)
        take_byte(d, 0);
    for (int k = 7; k >= 0; k--)
        take_byte(d, (u8)(bits >> 8 * k));
}

static void put_digest(const struct digest *d) {
    char text[65];
    for (int k = 0; k < 64; k++)
        text[k] = "0123456789abcdef"[d->state[k / 8] >> (28 - 4 * (k % 8)) & 15];
    text[64] = '\n';
    host_write(text, 65);
}

static struct digest digest;

int main(void) {
    start(&digest);
    finish(&digest);
    put_digest(&digest);
    start(&digest);
    for (const char *text = "abc"; *text; text++)
        take_byte(&digest, (u8)*text);
    finish(&digest);
    put_digest(&digest);
    start(&digest);
    for (u32 k = 0; k < 100000; k++)
        take_byte(&digest, 'a');
    finish(&digest);
    put_digest(&digest);
    return (int)(digest.state[7] & 255);
}
