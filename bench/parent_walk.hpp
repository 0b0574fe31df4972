// Baseline (b): each node's parent, level and label; a question walks up from both nodes.
#pragma once
#include "answer.hpp"
#include <vector>

class ParentWalk {
public:
    static constexpr const char *name = "parent walk";
    static constexpr double bytes_per_row = 8;

    explicit ParentWalk(uint32_t capacity) { rows.reserve(capacity); }

    void add_leaf(uint16_t parent, uint16_t label) { rows.push_back({rows[parent].level + 1, parent, label}); }

    void add_root() {
        uint16_t x = uint16_t(rows.size());
        rows.push_back({rows.empty() ? 0 : rows[root].level - 1, NONE, 0});
        if (x != 0) rows[root].parent = x;
        root = x;
    }

    Answer query(uint16_t x, uint16_t y) const {
        uint16_t a = x, b = y, to_x = x, to_y = y;
        while (a != b) {
            if (rows[a].level >= rows[b].level) {
                to_x = a;
                a = rows[a].parent;
            } else {
                to_y = b;
                b = rows[b].parent;
            }
        }
        return {a, a == x ? a : to_x, a == y ? a : to_y, rows[x].level - rows[a].level, rows[y].level - rows[a].level, rows[a].label};
    }

private:
    struct Row {
        int32_t level;
        uint16_t parent, label;
    };
    std::vector<Row> rows;
    uint16_t root = NONE;
};
