// Baseline (c): skew-binary jump pointers over the stored tree, one jump to a node.
#pragma once
#include "answer.hpp"
#include "rerooted.hpp"
#include <utility>
#include <vector>

class JumpPointers {
public:
    static constexpr const char *name = "jump pointers";
    static constexpr double bytes_per_row = 12;

    explicit JumpPointers(uint32_t capacity) { rows.reserve(capacity); }

    void add_leaf(uint16_t parent, uint16_t label) { add(parent, label, rows[parent].level + 1); }

    void add_root() {
        uint16_t x = uint16_t(rows.size());
        if (x == 0)
            rows.push_back({0, 0, 0, 0, 0});
        else
            add(root, 0, rows[root].level - 1);
        root = x;
    }

    Answer query(uint16_t x, uint16_t y) const {
        Fork f = two_answers(*this, x, y);
        int32_t level = rows[f.nca].level;
        return {f.nca, f.to_x, f.to_y, rows[x].level - level, rows[y].level - level, rows[f.nca].label};
    }

    Fork stored(uint16_t x, uint16_t y) const {
        if (x == y) return {x, x, x};
        if (rows[x].depth < rows[y].depth) {
            Fork f = stored(y, x);
            return {f.nca, f.to_y, f.to_x};
        }
        uint16_t u = x, v = y;
        if (rows[u].depth > rows[v].depth) {
            u = climbed(u, rows[v].depth + 1);
            if (rows[u].parent == v) return {v, u, v};
            u = rows[u].parent;
        }
        while (rows[u].parent != rows[v].parent) {
            bool far = rows[u].jump != rows[v].jump;
            u = far ? rows[u].jump : rows[u].parent;
            v = far ? rows[v].jump : rows[v].parent;
        }
        return {rows[u].parent, u, v};
    }

    uint16_t parent(uint16_t v) const { return rows[v].parent; }
    bool on_line(uint16_t v) const { return rows[v].level == -int32_t(rows[v].depth); }

    uint16_t root = NONE;

private:
    struct Row {
        int32_t level;
        uint16_t parent, jump, depth, label;
    };

    void add(uint16_t parent, uint16_t label, int32_t level) {
        const Row &p = rows[parent];
        const Row &j = rows[p.jump];
        bool even = p.depth - j.depth == j.depth - rows[j.jump].depth;
        rows.push_back({level, parent, even ? j.jump : parent, uint16_t(p.depth + 1), label});
    }

    uint16_t climbed(uint16_t v, uint16_t depth) const {
        while (rows[v].depth > depth) v = rows[rows[v].jump].depth >= depth ? rows[v].jump : rows[v].parent;
        return v;
    }

    std::vector<Row> rows;
};
