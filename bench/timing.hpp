// Processor time of a piece of work, and the end of a run where two structures differ.
#pragma once
#include <cstdio>
#include <cstdlib>
#include <functional>
#include <time.h>

// Processor time: other work on the machine does not count.
inline double seconds() {
    timespec now{};
    clock_gettime(CLOCK_THREAD_CPUTIME_ID, &now);
    return double(now.tv_sec) + double(now.tv_nsec) * 1e-9;
}

// Nanoseconds of one run. Of several the least counts: what disturbs a run only makes it longer.
inline double timed(const std::function<void()> &work) {
    double from = seconds();
    work();
    return (seconds() - from) * 1e9;
}

inline void same(bool equal, const char *what) {
    if (equal) return;
    std::fprintf(stderr, "difference: %s\n", what);
    std::exit(1);
}
