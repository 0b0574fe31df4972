// From answers in the stored tree, where a new root is a leaf below the old one, to the plain tree.
#pragma once
#include "answer.hpp"

struct Fork {
    uint16_t nca, to_x, to_y;
};

// Three stored answers: x and y, x and the root, y and the root.
template <class Tree> Fork three_answers(const Tree &t, uint16_t x, uint16_t y) {
    Fork xy = t.stored(x, y), xr = t.stored(x, t.root), yr = t.stored(y, t.root);
    if (xr.nca == yr.nca) return xy;
    if (xr.nca == xy.nca) return {yr.nca, t.parent(yr.nca), yr.to_x};
    return {xr.nca, xr.to_x, t.parent(xr.nca)};
}

// One stored answer, and a second one only where a branch goes on along the line from node 0 to the root.
template <class Tree> Fork two_answers(const Tree &t, uint16_t x, uint16_t y) {
    Fork xy = t.stored(x, y);
    if (xy.to_x != xy.nca && t.on_line(xy.to_x)) {
        Fork xr = t.stored(x, t.root);
        return {xr.nca, xr.to_x, t.parent(xr.nca)};
    }
    if (xy.to_y != xy.nca && t.on_line(xy.to_y)) {
        Fork yr = t.stored(y, t.root);
        return {yr.nca, t.parent(yr.nca), yr.to_x};
    }
    return xy;
}
