// The proved engine, over its C interface.
#pragma once
#include "../include/vundreli.h"
#include "answer.hpp"
#include <cstdio>
#include <cstdlib>
#include <vector>

class Engine {
public:
    static constexpr const char *name = "engine";
    static constexpr double bytes_per_row = 288;

    explicit Engine(uint32_t capacity)
        : fields(12 * capacity), numbers(2 * capacity), levels(capacity), ancestors(122 * capacity), tally(NCA_TALLY_LEN), scratch(capacity),
          growth_scratch(NCA_GROWTH_SCRATCH_LEN) {
        served(nca_table_set_up(fields.data(), fields.size(), numbers.data(), numbers.size(), levels.data(), levels.size(), ancestors.data(),
                                ancestors.size(), tally.data(), tally.size(), &count, 1));
    }

    uint16_t add_first() {
        uint16_t out[4];
        served(nca_table_add_first(fields.data(), fields.size(), numbers.data(), numbers.size(), levels.data(), levels.size(), ancestors.data(),
                                   ancestors.size(), tally.data(), tally.size(), growth_scratch.data(), growth_scratch.size(), count, out, 4));
        return grown(out);
    }

    // A leaf in front, as the baselines' are.
    uint16_t add_leaf(uint16_t parent, uint16_t label) {
        uint16_t out[4];
        served(nca_table_add_leaf(fields.data(), fields.size(), numbers.data(), numbers.size(), levels.data(), levels.size(), ancestors.data(),
                                  ancestors.size(), tally.data(), tally.size(), growth_scratch.data(), growth_scratch.size(), count,
                                  parent, label, 0, out, 4));
        return grown(out);
    }

    // A new root over the last one, or the first node. It names no opening, as the baselines' name none.
    uint16_t add_root() {
        if (count == 0) {
            root = 0;
            return add_first();
        }
        uint16_t out[4];
        served(nca_table_add_root(fields.data(), fields.size(), numbers.data(), numbers.size(), levels.data(), levels.size(), ancestors.data(),
                                  ancestors.size(), tally.data(), tally.size(), growth_scratch.data(), growth_scratch.size(), count,
                                  root, 0, 0, out, 4));
        root = out[1];
        return grown(out);
    }

    // The tree of root x under v: the rows renumbered.
    uint32_t link(uint16_t x, uint16_t v, uint16_t label) {
        uint32_t out[2];
        served(nca_table_link(fields.data(), fields.size(), numbers.data(), numbers.size(), levels.data(), levels.size(), ancestors.data(),
                              ancestors.size(), tally.data(), tally.size(), scratch.data(), scratch.size(), count, x, v, label, out, 2));
        return out[0];
    }

    Answer query(uint16_t x, uint16_t y) const {
        int32_t out[6];
        served(nca_table_query(fields.data(), fields.size(), numbers.data(), numbers.size(), levels.data(), levels.size(), ancestors.data(),
                               ancestors.size(), count, x, y, out, 6));
        return {uint16_t(out[0]), uint16_t(out[1]), uint16_t(out[2]), out[3], out[4], uint16_t(out[5])};
    }

    bool inspect() {
        uint16_t out[1];
        served(nca_table_inspect(fields.data(), fields.size(), numbers.data(), numbers.size(), levels.data(), levels.size(), ancestors.data(),
                                 ancestors.size(), tally.data(), tally.size(), scratch.data(), scratch.size(), count, out, 1));
        return out[0] == 1;
    }

    uint16_t most_label() const { return tally[NCA_TALLY_LEN - 1]; }

    // One pass over the four parts and the tally by words.
    uint64_t pass() const {
        return words(fields.data(), fields.size() * 2) + words(numbers.data(), numbers.size() * 8) + words(levels.data(), levels.size() * 4) +
               words(ancestors.data(), ancestors.size() * 2) + words(tally.data(), tally.size() * 2);
    }

private:
    static void served(uint16_t refusal) {
        if (refusal == 0) return;
        std::fprintf(stderr, "refusal %u\n", unsigned(refusal));
        std::exit(1);
    }

    uint16_t grown(const uint16_t *out) {
        count = out[0];
        return out[2];
    }

    static uint64_t words(const void *data, size_t bytes) {
        const uint64_t *w = static_cast<const uint64_t *>(data);
        uint64_t sum = 0;
        for (size_t i = 0; i < bytes / 8; i++) sum += w[i];
        return sum;
    }

    std::vector<uint16_t> fields;
    std::vector<uint64_t> numbers;
    std::vector<int32_t> levels;
    std::vector<uint16_t> ancestors, tally;
    std::vector<uint16_t> scratch, growth_scratch; // of links and inspections, and of growths
    uint16_t count = 0, root = NONE;
};
