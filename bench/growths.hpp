// The trees that are measured, as lists of growths: a leaf below a node, or a new root.
#pragma once
#include <cstdint>
#include <queue>
#include <string>
#include <vector>

struct Growth {
    bool root;
    uint16_t parent;
};

// A small generator, so that every run measures the same trees.
class Random {
public:
    explicit Random(uint64_t seed) : state(seed * 2685821657736338717ull + 1) {}
    uint64_t next() {
        state ^= state >> 12;
        state ^= state << 25;
        state ^= state >> 27;
        return state * 2685821657736338717ull;
    }
    uint32_t below(uint32_t n) { return uint32_t((next() >> 32) * n >> 32); }

private:
    uint64_t state;
};

// The parents of a tree in order of arrival; parents[0] is not used.
using Parents = std::vector<uint32_t>;

inline Parents random_recursive(uint32_t n, Random &random) {
    Parents parents(n);
    for (uint32_t i = 1; i < n; i++) parents[i] = random.below(i);
    return parents;
}

inline Parents chain(uint32_t n) {
    Parents parents(n);
    for (uint32_t i = 1; i < n; i++) parents[i] = i - 1;
    return parents;
}

// A chain of the odd nodes, each with one leaf.
inline Parents caterpillar(uint32_t n) {
    Parents parents(n);
    for (uint32_t i = 1; i < n; i++) parents[i] = i % 2 == 0 ? i - 1 : i == 1 ? 0 : i - 2;
    return parents;
}

inline Parents star(uint32_t n) { return Parents(n, 0); }

inline Parents binary(uint32_t n) {
    Parents parents(n);
    for (uint32_t i = 1; i < n; i++) parents[i] = (i - 1) / 2;
    return parents;
}

// A chain of so many nodes, and the rest as leaves below random nodes of it.
inline Parents comb(uint32_t n, uint32_t spine, Random &random) {
    Parents parents(n);
    for (uint32_t i = 1; i < n; i++) parents[i] = i < spine ? i - 1 : random.below(spine);
    return parents;
}

// A uniform labelled tree from a random Prüfer sequence, hung up at node 0, in breadth-first order.
inline Parents pruefer(uint32_t n, Random &random) {
    std::vector<uint32_t> sequence(n - 2), degree(n, 1);
    for (auto &s : sequence) degree[s = random.below(n)]++;
    std::vector<std::vector<uint32_t>> neighbours(n);
    auto join = [&](uint32_t a, uint32_t b) {
        neighbours[a].push_back(b);
        neighbours[b].push_back(a);
    };
    std::priority_queue<uint32_t, std::vector<uint32_t>, std::greater<uint32_t>> leaves;
    for (uint32_t v = 0; v < n; v++)
        if (degree[v] == 1) leaves.push(v);
    for (uint32_t s : sequence) {
        join(leaves.top(), s);
        leaves.pop();
        if (--degree[s] == 1) leaves.push(s);
    }
    uint32_t last = leaves.top();
    leaves.pop();
    join(last, leaves.top());
    Parents parents(n);
    std::vector<uint32_t> order{0}, rank(n, n);
    rank[0] = 0;
    for (uint32_t i = 0; i < order.size(); i++)
        for (uint32_t w : neighbours[order[i]])
            if (rank[w] == n) {
                rank[w] = uint32_t(order.size());
                parents[rank[w]] = i;
                order.push_back(w);
            }
    return parents;
}

// The growths of a tree, n of them, so many in a hundred new roots.
inline std::vector<Growth> growths(const Parents &parents, uint32_t roots, Random &random) {
    uint32_t n = uint32_t(parents.size());
    std::vector<Growth> list{{true, 0}};
    std::vector<uint16_t> node{0};
    while (list.size() < n) {
        if (random.below(100) < roots) {
            list.push_back({true, 0});
        } else {
            uint32_t i = uint32_t(node.size());
            node.push_back(uint16_t(list.size()));
            list.push_back({false, node[parents[i]]});
        }
    }
    return list;
}
