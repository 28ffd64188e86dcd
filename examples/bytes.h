/* Bytes, for every part of the demo. */
#ifndef BYTES_H
#define BYTES_H

#include <stdbool.h>
#include <stddef.h>
#include <stdint.h>

/* numbers of 32 bits have their low byte first */
static inline uint32_t word(const uint8_t *bytes) {
    return bytes[0] | (uint32_t)bytes[1] << 8 | (uint32_t)bytes[2] << 16 | (uint32_t)bytes[3] << 24;
}

static inline void put_word(uint8_t *bytes, uint32_t value) {
    for (int i = 0; i < 4; i++)
        bytes[i] = (uint8_t)(value >> 8 * i);
}

static inline bool all(const uint8_t *bytes, size_t length, uint8_t value) {
    size_t i = 0;
    while (i < length && bytes[i] == value)
        i++;
    return i == length;
}

/* bytes that look like nothing in particular, the same ones for each seed */
static inline void noise(uint8_t *bytes, size_t length, uint32_t seed) {
    for (size_t i = 0; i < length; i++) {
        seed = seed * 1664525 + 1013904223;
        bytes[i] = (uint8_t)(seed >> 24);
    }
}

#endif
