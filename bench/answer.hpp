// What a question answers.
#pragma once
#include <cstdint>

constexpr uint16_t NONE = 65535;

struct Answer {
    uint16_t nca, to_x, to_y;
    int32_t distance_x, distance_y;
    uint16_t label;
};

inline uint64_t mixed(uint64_t sum, const Answer &a) {
    uint64_t v = (uint64_t(a.nca) << 48) ^ (uint64_t(a.to_x) << 32) ^ (uint64_t(a.to_y) << 16) ^ (uint64_t(uint32_t(a.distance_x)) << 8) ^
                 uint64_t(uint32_t(a.distance_y)) ^ (uint64_t(a.label) << 24);
    return (sum ^ v) * 1099511628211ull + (sum >> 29);
}
