// Numbers in the order of the network, for the bounds of bench/events.
#pragma once
#include <cstdint>
#include <cstring>

// As the machine has it, from an address that needs no alignment.
template <class Number> Number load(const uint8_t *from) {
    Number value;
    std::memcpy(&value, from, sizeof value);
    return value;
}

inline uint16_t get16(const uint8_t *from) { return __builtin_bswap16(load<uint16_t>(from)); }

inline uint32_t get32(const uint8_t *from) { return __builtin_bswap32(load<uint32_t>(from)); }

inline void set16(uint8_t *to, uint16_t value) {
    value = __builtin_bswap16(value);
    std::memcpy(to, &value, 2);
}

// Writes one number behind the other.
struct Writer {
    uint8_t *at;

    void put8(uint8_t value) { *at++ = value; }

    void put16(uint16_t value) {
        set16(at, value);
        at += 2;
    }

    void put32(uint32_t value) {
        value = __builtin_bswap32(value);
        std::memcpy(at, &value, 4);
        at += 4;
    }

    void put(const uint8_t *bytes, size_t length) {
        std::memcpy(at, bytes, length);
        at += length;
    }
};
