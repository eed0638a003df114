/* Numbers of docs/PROTOCOL.md: little-endian, and at any place. */
#ifndef MSGQ_NUMBERS_H
#define MSGQ_NUMBERS_H

#include <stdint.h>

static inline uint32_t get_u32(const uint8_t *at) {
    return (uint32_t)at[0] | (uint32_t)at[1] << 8 | (uint32_t)at[2] << 16 | (uint32_t)at[3] << 24;
}

static inline void put_u32(uint8_t *at, uint32_t number) {
    for (int byte = 0; byte < 4; byte++)
        at[byte] = (uint8_t)(number >> (8 * byte));
}

static inline void put_u64(uint8_t *at, uint64_t number) {
    put_u32(at, (uint32_t)number);
    put_u32(at + 4, (uint32_t)(number >> 32));
}

#endif
