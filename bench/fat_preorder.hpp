// Baseline (a): the engine's structure without checks: fat preorder numbers, heavy paths, 122 ancestor entries to a row, a tally of labels, a face to a row.
#pragma once
#include "answer.hpp"
#include "rerooted.hpp"
#include "tally.hpp"
#include <algorithm>
#include <array>
#include <numeric>
#include <vector>

// Straightforward: each of the 122 entries by its rule. Tuned: the upper row's entries and the row itself from one index on, in loops that compile to
// vector code.
template <bool TUNED> class FatPreorder {
public:
    static constexpr const char *name = "C++";
    static constexpr double bytes_per_row = 285;
    static constexpr int ENTRIES = 122;

    explicit FatPreorder(uint32_t capacity) : entries(capacity) {
        rows.reserve(capacity);
        faces.reserve(capacity);
        for (int i = 0; i < 125; i++) powers[i] = power(i);
    }

    uint16_t add_leaf(uint16_t parent, uint16_t label, uint8_t face = 0) { return grow(parent, label, face, rows[parent].level + 1); }

    uint16_t add_root() {
        uint16_t x = uint16_t(rows.size());
        uint16_t given = x == 0 ? grow(NONE, 0, 0, 0) : grow(root, 0, 0, rows[root].level - 1);
        root = x;
        return given;
    }

    Answer query(uint16_t x, uint16_t y) const { return answer(x, y, three_answers(*this, x, y)); }
    Answer short_query(uint16_t x, uint16_t y) const { return answer(x, y, two_answers(*this, x, y)); }

    Fork stored(uint16_t x, uint16_t y) const {
        if (x == y) return {x, x, x};
        uint64_t px = p(x), py = p(y), d = px < py ? py - px : px - py;
        int i = int(std::upper_bound(powers.begin(), powers.end(), d) - powers.begin()) - 1;
        Side c = side(x, py, d, i), k = side(y, px, d, i);
        uint16_t b = path_row(c), e = path_row(k);
        uint16_t a = rows[b].depth <= rows[e].depth ? b : e;
        return {a, a == b ? c.below : rows[a].path, a == e ? k.below : rows[a].path};
    }

    uint16_t parent(uint16_t v) const { return rows[v].parent; }
    bool on_line(uint16_t v) const { return rows[v].level == -int32_t(rows[v].depth); }

    uint16_t most_label() const { return tally.most_label(); }

    // The six rules, and the tally.
    bool inspect() {
        uint32_t n = uint32_t(rows.size());
        return (n == 0 || (tree_holds(n) && paths_hold(n) && spans_hold(n) && entries_hold(n))) && tally.holds(rows);
    }

    uint16_t root = NONE;

private:
    struct Row {
        uint16_t parent, first, last, next, upper, path, size, set_size, depth, label;
        int32_t level;
        uint64_t start, next_free;
    };
    struct Side {
        uint16_t row, below;
    };

    static uint64_t fourth(uint64_t s) { return s * s * s * s; }
    uint64_t p(uint16_t v) const { return rows[v].start + fourth(rows[v].set_size); }
    uint64_t end(uint16_t v) const { return rows[v].start + 5 * fourth(rows[v].set_size); }
    bool is_apex(uint16_t v) const { return rows[v].parent == NONE || rows[rows[v].parent].path != v; }

    // The least whole number not below (10/7)^i, in long division by 7 a digit at a time.
    static uint64_t power(int i) {
        std::vector<uint32_t> digits{1};
        auto times_ten = [&] { digits.insert(digits.begin(), 0); };
        for (int k = 0; k < i; k++) times_ten();
        bool rest = false;
        for (int k = 0; k < i; k++) {
            uint32_t carry = 0;
            for (size_t j = digits.size(); j-- > 0;) {
                uint32_t v = carry * 10 + digits[j];
                digits[j] = v / 7;
                carry = v % 7;
            }
            rest |= carry != 0;
        }
        uint64_t value = 0;
        for (size_t j = digits.size(); j-- > 0;) value = value * 10 + digits[j];
        return value + rest;
    }

    Side side(uint16_t z, uint64_t other, uint64_t d, int i) const {
        uint16_t v = entries[z][i], below = z, w = z;
        if (v != NONE) {
            below = v;
            w = rows[v].upper;
        }
        if (3 * fourth(rows[w].set_size) <= d) {
            below = w;
            w = rows[w].upper;
        }
        uint64_t one = fourth(rows[w].set_size), start = rows[w].start;
        if (other < start + one || start + 4 * one <= other) {
            below = w;
            w = rows[w].upper;
        }
        return {w, below};
    }

    uint16_t path_row(Side s) const {
        if (s.row == s.below) return s.row;
        uint16_t u = rows[s.below].parent;
        return rows[u].path == s.below ? s.below : u;
    }

    Answer answer(uint16_t x, uint16_t y, Fork f) const {
        int32_t level = rows[f.nca].level;
        return {f.nca, f.to_x, f.to_y, rows[x].level - level, rows[y].level - level, rows[f.nca].label};
    }

    uint16_t grow(uint16_t parent, uint16_t label, uint8_t face, int32_t level) {
        uint16_t x = uint16_t(rows.size());
        rows.push_back({parent, NONE, NONE, NONE, NONE, NONE, 1, 0, 0, label, level, 0, 0});
        faces.push_back(face);
        tally.count(label);
        if (parent != NONE) {
            Row &above = rows[parent];
            rows[x].depth = above.depth + 1;
            rows[x].upper = is_apex(parent) ? parent : above.upper;
            if (above.first == NONE)
                above.first = x;
            else
                rows[above.last].next = x;
            above.last = x;
        }
        uint16_t head = x;
        for (uint16_t u = rows[x].upper; u != NONE; u = rows[u].upper) {
            rows[u].size++;
            if (5 * rows[u].size >= 6 * rows[u].set_size) head = u;
        }
        return renumber(head);
    }

    uint16_t renumber(uint16_t head) {
        order.clear();
        order.push_back(head);
        for (size_t i = 0; i < order.size(); i++)
            for (uint16_t c = rows[order[i]].first; c != NONE; c = rows[c].next) order.push_back(c);
        size.resize(rows.size());
        for (size_t i = order.size(); i-- > 0;) {
            uint16_t v = order[i], total = 1;
            for (uint16_t c = rows[v].first; c != NONE; c = rows[c].next) total += size[c];
            size[v] = total;
            rows[v].path = NONE;
            for (uint16_t c = rows[v].first; c != NONE; c = rows[c].next)
                if (2 * size[c] > total) rows[v].path = c;
        }
        uint16_t given = 0;
        place(head, rows[head].upper, size[head], given);
        apexes.assign(1, head);
        while (!apexes.empty()) {
            uint16_t apex = apexes.back();
            apexes.pop_back();
            for (uint16_t r = apex; r != NONE; r = rows[r].path) {
                if (r != apex) place(r, apex, 1, given);
                for (uint16_t c = rows[r].first; c != NONE; c = rows[c].next) {
                    if (c == rows[r].path) continue;
                    place(c, apex, size[c], given);
                    apexes.push_back(c);
                }
            }
        }
        return given;
    }

    // Sizes, start and entries of row x below its upper row u.
    void place(uint16_t x, uint16_t u, uint16_t s, uint16_t &given) {
        Row &row = rows[x];
        row.upper = u;
        row.size = row.set_size = s;
        row.start = u == NONE ? 0 : rows[u].next_free;
        row.next_free = p(x);
        if (u != NONE) rows[u].next_free = end(x);
        fill(x, u);
        given++;
    }

    // The first index whose power lies above the reach of this set size.
    int own_from(uint64_t set_size) const {
        return std::min(ENTRIES, int(std::upper_bound(powers.begin(), powers.end(), 3 * fourth(set_size)) - powers.begin()));
    }

    // The entries of the upper row, and x itself where there is none and its reach lies below the power.
    void fill(uint16_t x, uint16_t u) {
        auto &to = entries[x];
        if constexpr (TUNED) {
            if (u == NONE)
                to.fill(NONE);
            else
                to = entries[u];
            for (int i = own_from(rows[x].set_size); i < ENTRIES; i++) to[i] = to[i] == NONE ? x : to[i];
        } else {
            uint64_t reach = 3 * fourth(rows[x].set_size);
            for (int i = 0; i < ENTRIES; i++) {
                uint16_t e = u == NONE ? NONE : entries[u][i];
                to[i] = e == NONE && reach < powers[i] ? x : e;
            }
        }
    }

    bool tree_holds(uint32_t n) {
        if (root >= n || rows[0].parent != NONE || rows[0].next != NONE || rows[0].level != 0 || rows[0].depth != 0) return false;
        std::vector<char> line(n);
        std::vector<uint16_t> last(n, NONE);
        for (uint16_t z = root; z != NONE; z = rows[z].parent) line[z] = 1;
        for (uint32_t v = 1; v < n; v++) {
            const Row &row = rows[v];
            if (row.parent >= v) return false;
            const Row &above = rows[row.parent];
            uint16_t before = last[row.parent];
            if ((before == NONE ? above.first : rows[before].next) != v) return false;
            last[row.parent] = uint16_t(v);
            if (row.depth != above.depth + 1 || row.level != above.level + (line[v] ? -1 : 1)) return false;
        }
        for (uint32_t v = 0; v < n; v++) {
            if (rows[v].last != last[v] || (last[v] == NONE ? rows[v].first != NONE : rows[last[v]].next != NONE)) return false;
            if (line[v] ? rows[v].label != 0 : rows[v].label < 1 || rows[v].label > 9999) return false;
            if (faces[v] > 1) return false;
        }
        return faces[root] == 0;
    }

    bool paths_hold(uint32_t n) {
        std::vector<uint16_t> count(n, 1);
        for (uint32_t v = 0; v < n; v++)
            if (rows[v].path != NONE && (rows[v].path >= n || rows[rows[v].path].parent != v)) return false;
        for (uint32_t v = 1; v < n; v++) {
            uint16_t u = rows[v].parent;
            if (rows[v].upper != (is_apex(u) ? u : rows[u].upper)) return false;
        }
        for (uint32_t v = n; v-- > 1;) count[rows[v].upper] += count[v];
        for (uint32_t v = 0; v < n; v++) {
            const Row &row = rows[v];
            if (row.size != count[v] || row.set_size < 1 || row.set_size > row.size || 5 * row.size >= 6 * row.set_size) return false;
            if (v != 0 && 2 * row.size + rows[row.upper].set_size > 2 * rows[row.upper].size) return false;
        }
        return rows[0].upper == NONE;
    }

    bool spans_hold(uint32_t n) {
        std::vector<uint16_t> sorted(n);
        std::iota(sorted.begin(), sorted.end(), 0);
        std::sort(sorted.begin() + 1, sorted.end(), [&](uint16_t a, uint16_t b) {
            return rows[a].upper != rows[b].upper ? rows[a].upper < rows[b].upper : rows[a].start < rows[b].start;
        });
        std::vector<uint64_t> sum(n), low(n);
        for (uint32_t v = 0; v < n; v++) low[v] = p(uint16_t(v));
        for (uint32_t i = 1; i < n; i++) {
            uint16_t w = sorted[i], u = rows[w].upper;
            if (rows[w].start < low[u]) return false;
            low[u] = end(w);
            sum[u] += fourth(rows[w].set_size);
        }
        for (uint32_t v = 0; v < n; v++) {
            uint64_t one = fourth(rows[v].set_size), free = rows[v].next_free;
            if (free < low[v] || free > rows[v].start + 4 * one) return false;
            if (__uint128_t(671) * (free - p(uint16_t(v))) > __uint128_t(6480) * sum[v]) return false;
        }
        return rows[0].start == 0;
    }

    // With no branch in the loops, so that many entries are compared at a time.
    bool entries_hold(uint32_t n) const {
        std::array<uint16_t, ENTRIES> none;
        none.fill(NONE);
        for (uint32_t v = 0; v < n; v++)
            if (!row_holds(uint16_t(v), entries[v], rows[v].upper == NONE ? none : entries[rows[v].upper])) return false;
        return true;
    }

    bool row_holds(uint16_t x, const std::array<uint16_t, ENTRIES> &row, const std::array<uint16_t, ENTRIES> &above) const {
        if constexpr (TUNED) {
            int from = own_from(rows[x].set_size);
            uint16_t odd = 0;
            for (int i = 0; i < from; i++) odd |= row[i] ^ above[i];
            for (int i = from; i < ENTRIES; i++) odd |= row[i] ^ (above[i] == NONE ? x : above[i]);
            return odd == 0;
        } else {
            uint64_t reach = 3 * fourth(rows[x].set_size);
            for (int i = 0; i < ENTRIES; i++)
                if (row[i] != (above[i] == NONE && reach < powers[i] ? x : above[i])) return false;
            return true;
        }
    }

    std::vector<Row> rows;
    std::vector<uint8_t> faces;
    std::vector<std::array<uint16_t, ENTRIES>> entries;
    std::array<uint64_t, 125> powers{};
    std::vector<uint16_t> order, size, apexes;
    Tally<TUNED> tally;
};
