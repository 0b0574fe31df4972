// The engine's log reader, over its C interface, and the same reader in C++, without a proof, with four tests for a byte of filler that is not zero.
// Both say what stands at a place of a log: 0 and the kind and values of a field, or a refusal from 6 to 9.
#pragma once
#include "../include/vundreli.h"
#include <cstring>

struct EngineReader {
    static uint16_t field(const uint8_t *log, size_t length, size_t at, uint16_t out[4]) { return nca_log_field(log, length, at, out, 4); }
    static size_t next(const uint8_t *log, size_t length, size_t at) { return nca_log_next(log, length, at); }
};

inline uint64_t word_at(const uint8_t *bytes) {
    uint64_t word;
    std::memcpy(&word, bytes, sizeof word);
    return word;
}

// Byte by byte.
struct ByBytes {
    static bool all_zero(const uint8_t *bytes, size_t n) {
        for (size_t i = 0; i < n; i++)
            if (bytes[i] != 0) return false;
        return true;
    }
};

// Eight bytes as one word, the last few singly.
struct ByWords {
    static bool all_zero(const uint8_t *bytes, size_t n) {
        size_t i = 0;
        for (; i + 8 <= n; i += 8)
            if (word_at(bytes + i) != 0) return false;
        return ByBytes::all_zero(bytes + i, n - i);
    }
};

// As C libraries write memchr in C: singly to a place that is a multiple of eight, then four words a turn.
struct LikeMemchr {
    static bool all_zero(const uint8_t *bytes, size_t n) {
        size_t i = 0;
        for (; i < n && (reinterpret_cast<uintptr_t>(bytes + i) & 7) != 0; i++)
            if (bytes[i] != 0) return false;
        for (; i + 32 <= n; i += 32)
            if ((word_at(bytes + i) | word_at(bytes + i + 8) | word_at(bytes + i + 16) | word_at(bytes + i + 24)) != 0) return false;
        return ByWords::all_zero(bytes + i, n - i);
    }
};

// The C library's own comparison, which is vector code written by hand: all bytes equal the one before, and the first is zero.
struct ByLibrary {
    static bool all_zero(const uint8_t *bytes, size_t n) { return n == 0 || (bytes[0] == 0 && std::memcmp(bytes, bytes + 1, n - 1) == 0); }
};

// Its functions are calls, as the engine's are.
template <class Zeros> struct Reader {
    [[gnu::noinline]] static uint16_t field(const uint8_t *log, size_t length, size_t at, uint16_t out[4]) {
        out[0] = out[1] = out[2] = out[3] = 0;
        if (at >= length) return 0;
        const uint8_t *body = log + at + 3;
        size_t left = length - at;
        if (left < 3 || left - 3 < number_at(log + at + 1)) return 8;
        size_t n = number_at(log + at + 1);
        out[0] = log[at];
        switch (log[at]) {
        case 2:
            if (n == 0) return 0;
            if (n != 2) return 7;
            out[1] = 1;
            out[2] = number_at(body);
            return 0;
        case 9:
            return Zeros::all_zero(body, n) ? 0 : 9;
        case 1:
        case 3:
        case 4:
            if (n != 4) return 7;
            out[1] = number_at(body);
            out[2] = number_at(body + 2);
            return 0;
        case 5:
            if (n != 5) return 7;
            out[0] = 1;
            out[1] = number_at(body);
            out[2] = number_at(body + 2);
            out[3] = body[4];
            return 0;
        default:
            return 6;
        }
    }

    [[gnu::noinline]] static size_t next(const uint8_t *log, size_t length, size_t at) {
        if (at >= length || length - at < 3) return at;
        size_t n = number_at(log + at + 1);
        return length - at - 3 < n ? at : at + 3 + n;
    }

private:
    static uint16_t number_at(const uint8_t *bytes) { return uint16_t(256 * bytes[0] + bytes[1]); }
};
