// Logs that are mostly filler, read from their first field to their last: bytes a nanosecond.
#pragma once
#include "log_reader.hpp"
#include "timing.hpp"
#include <algorithm>
#include <limits>
#include <string>
#include <vector>

using Log = std::vector<uint8_t>;

inline void put_field(Log &log, uint8_t tag, const Log &body) {
    log.insert(log.end(), {tag, uint8_t(body.size() / 256), uint8_t(body.size() % 256)});
    log.insert(log.end(), body.begin(), body.end());
}

// Filler of one length, again and again.
inline Log filler_log(size_t bytes, size_t length) {
    Log log;
    while (log.size() < bytes) put_field(log, 9, Log(length));
    return log;
}

// Blocks of 512 bytes: ten fields, then filler to the block's end.
inline Log quiet_log(size_t bytes) {
    Log log;
    while (log.size() < bytes) {
        size_t end = log.size() + 512;
        for (int i = 0; i < 10; i++) put_field(log, i % 3 == 0 ? 1 : 3, {0, 0, 0, 1});
        put_field(log, 9, Log(end - log.size() - 3));
    }
    return log;
}

// All fields of a log, mixed to one number.
template <class R> uint64_t read_all(const Log &log) {
    uint64_t sum = 0;
    uint16_t out[4];
    for (size_t at = 0, next;; at = next) {
        uint16_t refusal = R::field(log.data(), log.size(), at, out);
        sum = sum * 31 + (refusal == 0 ? 1 + out[0] + 7 * out[1] + 11 * out[2] + 13 * out[3] : 5 * refusal);
        next = R::next(log.data(), log.size(), at);
        if (next == at) return sum;
    }
}

template <class R> void time_reading(double &least, uint64_t &sum, const Log &log, int times) {
    least = std::min(least, timed([&] {
                                for (int i = 0; i < times; i++) sum = read_all<R>(log);
                            }) / double(times) / double(log.size()));
}

inline void measure_filler(const std::string &name, const Log &log) {
    double t[5];
    uint64_t sums[5];
    std::fill(t, t + 5, std::numeric_limits<double>::infinity());
    for (int i = 0; i < 25; i++) {
        time_reading<EngineReader>(t[0], sums[0], log, 4);
        time_reading<Reader<ByBytes>>(t[1], sums[1], log, 4);
        time_reading<Reader<ByWords>>(t[2], sums[2], log, 4);
        time_reading<Reader<LikeMemchr>>(t[3], sums[3], log, 4);
        time_reading<Reader<ByLibrary>>(t[4], sums[4], log, 4);
    }
    same(std::all_of(sums, sums + 5, [&](uint64_t s) { return s == sums[0]; }), "fields of a log");
    std::printf("| %s |", name.c_str());
    for (double each : t) std::printf(" %.1f |", 1 / each);
    for (int i = 1; i < 5; i++) std::printf(" %.2f |", t[0] / t[i]);
    std::printf("\n");
    std::fflush(stdout);
}

inline void measure_fillers() {
    const size_t bytes = 256 * 1024;
    std::printf("\n| log | engine, bytes/ns | C++ by bytes | C++ by words | like memchr | C library | time to C++ by bytes | to C++ by words | to like memchr | to C "
                "library |\n|---|---|---|---|---|---|---|---|---|---|\n");
    for (size_t length : {7, 8, 9, 64, 512, 4096, 16381, 65535}) measure_filler("filler of " + std::to_string(length), filler_log(bytes, length));
    measure_filler("blocks of 512, ten fields each", quiet_log(bytes));
}
