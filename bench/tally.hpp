// A tally of labels, as the engine keeps it: how many nodes carry each label, and the label that most carry, found anew from all counts at each growth.
#pragma once
#include <algorithm>
#include <cstdint>
#include <vector>

// Straightforward: one pass that compares. Tuned: the greatest count, in a loop that compiles to vector code, then the first label that has it.
template <bool TUNED> class Tally {
public:
    void count(uint16_t label) {
        counts[label]++;
        most = most_of(counts);
    }

    uint16_t most_label() const { return most; }

    // Whether it is the full count of these rows.
    template <class Rows> bool holds(const Rows &rows) const {
        std::vector<uint16_t> full(LABELS);
        for (auto &row : rows) full[row.label]++;
        return full == counts && most_of(full) == most;
    }

private:
    static constexpr size_t LABELS = 10000;

    static uint16_t most_of(const std::vector<uint16_t> &counts) {
        if constexpr (TUNED) {
            uint16_t greatest = 0;
            for (uint16_t count : counts) greatest = greatest < count ? count : greatest;
            return uint16_t(std::find(counts.begin(), counts.end(), greatest) - counts.begin());
        } else {
            return uint16_t(std::max_element(counts.begin(), counts.end()) - counts.begin());
        }
    }

    std::vector<uint16_t> counts = std::vector<uint16_t>(LABELS);
    uint16_t most = 0;
};
