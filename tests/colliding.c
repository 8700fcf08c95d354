// Writes texts that fall into one group of an index, with one tag but for its upper bits. colliding.py builds it.
//
//     colliding fold COUNT               texts as long as a digest, under the hash of the kit's maps
//     colliding sip COUNT                the same under that of DigestIndex with the seed 0
//     colliding sent COUNT SIGNATURE     disclosures whose digests do so under that of DigestIndex, where the seed is
//                                        drawn from this signature alone
//
// An index of 12,000 texts has 2,048 groups: the lowest 11 of 32 bits choose one, and the highest 8 are the tag, whose
// lowest 5 say whether a search goes on to the next group. One of 3,000 texts has 512 groups.
#include <stdint.h>
#include <stdio.h>
#include <stdlib.h>
#include <string.h>

#define LENGTH 43
#define FIXED 32

static const char letters[] = "ABCDEFGHIJKLMNOPQRSTUVWXYZabcdefghijklmnopqrstuvwxyz0123456789-_";
static const uint64_t multiplier = 0x9e3779b97f4a7c15;

static uint64_t word(const char *bytes) {
    uint64_t w;
    memcpy(&w, bytes, 8);
    return w;
}

static uint64_t folded(uint64_t a, uint64_t b) {
    unsigned __int128 product = (unsigned __int128)a * b;
    return (uint64_t)product ^ (uint64_t)(product >> 64);
}

// What a hash knows behind the part of a text that stays.
struct start {
    uint64_t state[4];
};

static struct start fold_start(const char *text) {
    uint64_t state = 0x243f6a8885a308d3 + LENGTH;
    for (int at = 0; at < FIXED; at += 16) state = folded(word(text + at) ^ state, word(text + at + 8) ^ multiplier);
    return (struct start){{state}};
}

static uint64_t fold_end(const struct start *start, const char *text) {
    uint64_t state = start->state[0];
    state = folded(word(text + LENGTH - 16) ^ state, word(text + LENGTH - 8) ^ multiplier);
    return folded(state ^ 0xffffff, multiplier ^ 2);
}

static uint64_t turned(uint64_t x, int by) {
    return x << by | x >> (64 - by);
}

static void mix(uint64_t v[4]) {
    v[0] += v[1];
    v[2] += v[3];
    v[1] = turned(v[1], 13) ^ v[0];
    v[3] = turned(v[3], 16) ^ v[2];
    v[0] = turned(v[0], 32);
    v[2] += v[1];
    v[0] += v[3];
    v[1] = turned(v[1], 17) ^ v[2];
    v[3] = turned(v[3], 21) ^ v[0];
    v[2] = turned(v[2], 32);
}

static void take(uint64_t v[4], uint64_t w) {
    v[3] ^= w;
    mix(v);
    v[0] ^= w;
}

static const struct start empty = {{0x736f6d6570736575, 0x646f72616e646f6d, 0x6c7967656e657261, 0x7465646279746573}};

static uint64_t sip_finish(uint64_t v[4], uint64_t tail) {
    take(v, tail);
    v[2] ^= 0xff;
    for (int i = 0; i < 3; i++) mix(v);
    return v[0] ^ v[1] ^ v[2] ^ v[3];
}

// SipHash-1-3 of a text.
static uint64_t sip(const char *text) {
    struct start start = empty;
    size_t length = strlen(text), at = 0;
    for (; at + 8 <= length; at += 8) take(start.state, word(text + at));
    uint64_t tail = (uint64_t)length << 56;
    memcpy(&tail, text + at, length - at);
    return sip_finish(start.state, tail);
}

static struct start sip_start(uint64_t seed, const char *text) {
    struct start start = empty;
    take(start.state, seed);
    for (int at = 0; at < FIXED; at += 8) take(start.state, word(text + at));
    return start;
}

static uint64_t sip_end(const struct start *start, const char *text) {
    uint64_t v[4];
    memcpy(v, start->state, sizeof v);
    uint64_t tail = 0xff000000 | (uint64_t)(8 + LENGTH + 1) << 56;
    memcpy(&tail, text + FIXED + 8, 3);
    take(v, word(text + FIXED));
    return sip_finish(v, tail);
}

// The block of a text of fewer than 56 bytes, hashed by SHA-256 (FIPS 180-4).
static const uint32_t sha_constants[64] = {
    0x428a2f98, 0x71374491, 0xb5c0fbcf, 0xe9b5dba5, 0x3956c25b, 0x59f111f1, 0x923f82a4, 0xab1c5ed5,
    0xd807aa98, 0x12835b01, 0x243185be, 0x550c7dc3, 0x72be5d74, 0x80deb1fe, 0x9bdc06a7, 0xc19bf174,
    0xe49b69c1, 0xefbe4786, 0x0fc19dc6, 0x240ca1cc, 0x2de92c6f, 0x4a7484aa, 0x5cb0a9dc, 0x76f988da,
    0x983e5152, 0xa831c66d, 0xb00327c8, 0xbf597fc7, 0xc6e00bf3, 0xd5a79147, 0x06ca6351, 0x14292967,
    0x27b70a85, 0x2e1b2138, 0x4d2c6dfc, 0x53380d13, 0x650a7354, 0x766a0abb, 0x81c2c92e, 0x92722c85,
    0xa2bfe8a1, 0xa81a664b, 0xc24b8b70, 0xc76c51a3, 0xd192e819, 0xd6990624, 0xf40e3585, 0x106aa070,
    0x19a4c116, 0x1e376c08, 0x2748774c, 0x34b0bcb5, 0x391c0cb3, 0x4ed8aa4a, 0x5b9cca4f, 0x682e6ff3,
    0x748f82ee, 0x78a5636f, 0x84c87814, 0x8cc70208, 0x90befffa, 0xa4506ceb, 0xbef9a3f7, 0xc67178f2,
};

static uint32_t rotated(uint32_t x, int by) {
    return x >> by | x << (32 - by);
}

static void sha_words(uint32_t w[64], const char *text, size_t length) {
    unsigned char block[64] = {0};
    memcpy(block, text, length);
    block[length] = 0x80;
    block[62] = (unsigned char)(length >> 5);
    block[63] = (unsigned char)(length << 3);
    for (int i = 0; i < 16; i++)
        w[i] = (uint32_t)block[4 * i] << 24 | block[4 * i + 1] << 16 | block[4 * i + 2] << 8 | block[4 * i + 3];
    for (int i = 16; i < 64; i++) {
        uint32_t a = rotated(w[i - 15], 7) ^ rotated(w[i - 15], 18) ^ w[i - 15] >> 3;
        uint32_t b = rotated(w[i - 2], 17) ^ rotated(w[i - 2], 19) ^ w[i - 2] >> 10;
        w[i] = w[i - 16] + a + w[i - 7] + b;
    }
}

static void sha256(unsigned char digest[32], const char *text, size_t length) {
    static const uint32_t first[8] = {
        0x6a09e667, 0xbb67ae85, 0x3c6ef372, 0xa54ff53a, 0x510e527f, 0x9b05688c, 0x1f83d9ab, 0x5be0cd19};
    uint32_t w[64], s[8];
    sha_words(w, text, length);
    memcpy(s, first, sizeof s);
    for (int i = 0; i < 64; i++) {
        uint32_t e = rotated(s[4], 6) ^ rotated(s[4], 11) ^ rotated(s[4], 25);
        uint32_t a = rotated(s[0], 2) ^ rotated(s[0], 13) ^ rotated(s[0], 22);
        uint32_t one = s[7] + e + ((s[4] & s[5]) ^ (~s[4] & s[6])) + sha_constants[i] + w[i];
        uint32_t two = a + ((s[0] & s[1]) ^ (s[0] & s[2]) ^ (s[1] & s[2]));
        memmove(s + 1, s, 7 * sizeof *s);
        s[4] += one;
        s[0] = one + two;
    }
    for (int i = 0; i < 8; i++)
        for (int k = 0; k < 4; k++) digest[4 * i + k] = (unsigned char)((s[i] + first[i]) >> (24 - 8 * k));
}

// The base64url text of some bytes, without filling.
static void encode(char *text, const unsigned char *bytes, size_t length) {
    for (; length > 0; bytes += 3, length -= length < 3 ? length : 3) {
        uint32_t group = (uint32_t)bytes[0] << 16;
        if (length > 1) group |= (uint32_t)bytes[1] << 8;
        if (length > 2) group |= bytes[2];
        for (size_t k = 0; k < (length < 3 ? length + 1 : 4); k++) *text++ = letters[group >> (18 - 6 * k) & 63];
    }
    *text = 0;
}

// Writes disclosures of an element, each with another salt, whose digests fall together under this seed.
static void write_sent(long count, uint64_t seed) {
    for (uint64_t salt = 0; count > 0; salt++) {
        char json[40], text[64], digest[LENGTH + 1];
        unsigned char bytes[32];
        int length = snprintf(json, sizeof json, "[\"AAAAAA%016llx\",1]", (unsigned long long)salt);
        encode(text, (unsigned char *)json, (size_t)length);
        sha256(bytes, text, strlen(text));
        encode(digest, bytes, sizeof bytes);
        struct start start = sip_start(seed, digest);
        uint64_t h = sip_end(&start, digest);
        if (((h ^ h >> 32) & 0x1f0001ff) == 0) {
            puts(text);
            count--;
        }
    }
}

// The next text, by the letters behind the part that stays.
static void next(char *text, unsigned char *digits) {
    for (int i = 0;; i++) {
        digits[i] = (digits[i] + 1) & 63;
        text[FIXED + i] = letters[digits[i]];
        if (digits[i] != 0) return;
    }
}

int main(int argc, char **argv) {
    if (argc == 4 && strcmp(argv[1], "sent") == 0) {
        write_sent(atol(argv[2]), sip(argv[3]));
        return 0;
    }
    if (argc != 3) return 2;
    int is_sip = strcmp(argv[1], "sip") == 0;
    char text[LENGTH + 1];
    unsigned char digits[LENGTH - FIXED] = {0};
    memset(text, 'A', LENGTH);
    text[LENGTH] = 0;
    struct start start = is_sip ? sip_start(0, text) : fold_start(text);
    for (long count = atol(argv[2]); count > 0; next(text, digits)) {
        uint64_t h = is_sip ? sip_end(&start, text) : fold_end(&start, text);
        if (((h ^ h >> 32) & 0x1f0007ff) == 0) {
            puts(text);
            count--;
        }
    }
    return 0;
}
