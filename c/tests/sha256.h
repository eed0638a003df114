/* SHA-256 (FIPS 180-4), so that a test needs no digest of what it tests. For one thread. */
#include <stdint.h>
#include <string.h>

static uint32_t turned(uint32_t word, int by) {
    return word >> by | word << (32 - by);
}

/* The first 32 bits of the fractional part of a root of each of the first primes. */
static void constants(uint32_t *square, uint32_t *cube) {
    int count = 0;
    for (unsigned prime = 2; count < 64; prime++) {
        unsigned divisor = 2;
        while (divisor < prime && prime % divisor != 0)
            divisor++;
        if (divisor < prime)
            continue;
        /* The greatest number whose power is at most the prime's, with 32 bits behind the point. */
        unsigned __int128 root = 0, third = 0;
        for (int bit = 36; bit >= 0; bit--) {
            unsigned __int128 more = root | (unsigned __int128)1 << bit;
            if (more * more <= (unsigned __int128)prime << 64)
                root = more;
            more = third | (unsigned __int128)1 << bit;
            if (more * more * more <= (unsigned __int128)prime << 96)
                third = more;
        }
        if (count < 8)
            square[count] = (uint32_t)root;
        cube[count++] = (uint32_t)third;
    }
}

static void digest_block(uint32_t *state, const uint32_t *cube, const uint8_t *block) {
    uint32_t words[64], now[8];
    for (int n = 0; n < 64; n++)
        if (n < 16)
            words[n] = (uint32_t)block[4 * n] << 24 | (uint32_t)block[4 * n + 1] << 16 | (uint32_t)block[4 * n + 2] << 8 | block[4 * n + 3];
        else
            words[n] = words[n - 16] + words[n - 7] + (turned(words[n - 15], 7) ^ turned(words[n - 15], 18) ^ words[n - 15] >> 3)
                + (turned(words[n - 2], 17) ^ turned(words[n - 2], 19) ^ words[n - 2] >> 10);
    memcpy(now, state, sizeof now);
    for (int n = 0; n < 64; n++) {
        uint32_t e = now[4], a = now[0];
        uint32_t one = now[7] + (turned(e, 6) ^ turned(e, 11) ^ turned(e, 25)) + ((e & now[5]) ^ (~e & now[6])) + cube[n] + words[n];
        uint32_t two = (turned(a, 2) ^ turned(a, 13) ^ turned(a, 22)) + ((a & now[1]) ^ (a & now[2]) ^ (now[1] & now[2]));
        memmove(now + 1, now, 7 * sizeof *now);
        now[4] += one;
        now[0] = one + two;
    }
    for (int n = 0; n < 8; n++)
        state[n] += now[n];
}

static void digest(const uint8_t *bytes, size_t count, uint8_t *into) {
    static uint32_t first[8], cube[64];
    uint32_t state[8];
    uint8_t end[128] = {0};
    size_t whole = count / 64 * 64, rest = count - whole, last = rest < 56 ? 64 : 128;
    if (first[0] == 0)
        constants(first, cube);
    memcpy(state, first, sizeof state);
    for (size_t at = 0; at < whole; at += 64)
        digest_block(state, cube, bytes + at);
    memcpy(end, bytes + whole, rest);
    end[rest] = 0x80;
    for (int n = 0; n < 8; n++)
        end[last - 1 - n] = (uint8_t)((uint64_t)count * 8 >> (8 * n));
    for (size_t at = 0; at < last; at += 64)
        digest_block(state, cube, end + at);
    for (int n = 0; n < 32; n++)
        into[n] = (uint8_t)(state[n / 4] >> (24 - 8 * (n % 4)));
}
