// Times the proved engine against three baselines in one run, and prints a table of ratios; with a file name, the cost against depth for the picture.
// Every answer of every structure is compared: a difference ends the run.
#include "engine.hpp"
#include "fat_preorder.hpp"
#include "filler.hpp"
#include "growths.hpp"
#include "jump_pointers.hpp"
#include "parent_walk.hpp"
#include "timing.hpp"
#include <functional>
#include <limits>

static uint16_t label_of(size_t i) { return uint16_t(i % 9999 + 1); }

template <class Tree> void grow(Tree &tree, const std::vector<Growth> &list) {
    for (size_t i = 0; i < list.size(); i++)
        if (list[i].root)
            tree.add_root();
        else
            tree.add_leaf(list[i].parent, label_of(i));
}

struct Pair {
    uint16_t x, y;
};

static std::vector<Pair> pairs(uint32_t n, size_t count, Random &random) {
    std::vector<Pair> list(count);
    for (auto &p : list) p = {uint16_t(random.below(n)), uint16_t(random.below(n))};
    return list;
}

// One pass over the pairs: the least time to a question so far, and a sum over all answers.
template <class Ask> void asked(double &least, uint64_t &sum, const std::vector<Pair> &list, Ask ask) {
    least = std::min(least, timed([&] {
                                sum = 0;
                                for (auto &p : list) sum = mixed(sum, ask(p.x, p.y));
                            }) / double(list.size()));
}

using Plain = FatPreorder<false>;
using Tuned = FatPreorder<true>;

struct Questions {
    double engine, three, two, walk, jump;
};

// All structures by turns, so that each meets the same state of the machine.
static Questions ask_all(const Engine &engine, const Plain &fat, const ParentWalk &walk, const JumpPointers &jump, uint32_t n, Random &random) {
    const double none = std::numeric_limits<double>::infinity();
    Questions q{none, none, none, none, none};
    uint64_t sums[6];
    auto many = pairs(n, 20000, random);
    // the walk is slow on deep trees: fewer pairs
    std::vector<Pair> few(many.begin(), many.begin() + 1000);
    double unused = none;
    for (int i = 0; i < 25; i++) {
        asked(q.engine, sums[0], many, [&](uint16_t x, uint16_t y) { return engine.query(x, y); });
        asked(q.three, sums[1], many, [&](uint16_t x, uint16_t y) { return fat.query(x, y); });
        asked(q.two, sums[2], many, [&](uint16_t x, uint16_t y) { return fat.short_query(x, y); });
        asked(q.jump, sums[3], many, [&](uint16_t x, uint16_t y) { return jump.query(x, y); });
        if (i < 3) asked(q.walk, sums[4], few, [&](uint16_t x, uint16_t y) { return walk.query(x, y); });
    }
    asked(unused, sums[5], few, [&](uint16_t x, uint16_t y) { return engine.query(x, y); });
    same(sums[0] == sums[1] && sums[1] == sums[2] && sums[2] == sums[3] && sums[4] == sums[5], "answers");
    return q;
}

// Nanoseconds to a growth, for each structure the best of several runs by turns.
struct Growing {
    double engine, plain, tuned;
};

template <class Tree> void time_growth(double &least, uint32_t n, const std::vector<Growth> &list) {
    Tree tree(n);
    least = std::min(least, timed([&] { grow(tree, list); }) / n);
}

static Growing grow_all(uint32_t n, const std::vector<Growth> &list) {
    double none = std::numeric_limits<double>::infinity();
    Growing g{none, none, none};
    for (int i = 0; i < (n <= 1000 ? 25 : 5); i++) {
        time_growth<Engine>(g.engine, n, list);
        time_growth<Plain>(g.plain, n, list);
        time_growth<Tuned>(g.tuned, n, list);
    }
    return g;
}

struct Shape {
    const char *name;
    std::function<Parents(uint32_t, Random &)> parents;
    std::vector<uint32_t> sizes;
};

static void measure(const Shape &shape, uint32_t n, uint32_t roots) {
    Random random(n * 7 + roots + shape.name[0]);
    auto list = growths(shape.parents(n, random), roots, random);
    Growing g = grow_all(n, list);
    Engine engine(n);
    Plain plain(n);
    Tuned tuned(n);
    ParentWalk walk(n);
    JumpPointers jump(n);
    grow(tuned, list);
    grow(walk, list);
    grow(jump, list);
    uint64_t total = 0, most = 0;
    for (size_t i = 0; i < list.size(); i++) {
        uint16_t a = list[i].root ? engine.add_root() : engine.add_leaf(list[i].parent, label_of(i));
        uint16_t b = list[i].root ? plain.add_root() : plain.add_leaf(list[i].parent, label_of(i));
        same(a == b, "rows renumbered");
        same(engine.most_label() == plain.most_label(), "the label that most nodes carry");
        total += a;
        most = std::max(most, total * 1000 / (i + 1));
    }
    Questions q = ask_all(engine, plain, walk, jump, n, random);
    bool yes = true;
    volatile uint64_t sink = 0;
    double none = std::numeric_limits<double>::infinity(), inspect = none, inspect_plain = none, inspect_tuned = none, pass = none;
    for (int i = 0; i < 15; i++) {
        inspect = std::min(inspect, timed([&] { yes = yes && engine.inspect(); }));
        inspect_plain = std::min(inspect_plain, timed([&] { yes = yes && plain.inspect(); }));
        inspect_tuned = std::min(inspect_tuned, timed([&] { yes = yes && tuned.inspect(); }));
        pass = std::min(pass, timed([&] { sink = sink + engine.pass(); }));
    }
    same(yes, "inspection");
    std::printf("| %s | %u | %u %% | %.0f | %.2f | %.2f | %.3f | %.2f | %.0f | %.2f | %.2f | %.2f | %.2f | %.2f | %.0f | %.1f | %.1f |\n", shape.name, n, roots, q.engine,
                q.engine / q.three, q.engine / q.two, q.engine / q.walk, q.engine / q.jump, g.engine, g.engine / g.plain, g.engine / g.tuned, inspect / 1e6,
                inspect / inspect_plain, inspect / inspect_tuned, inspect / pass, double(total) / n, double(most) / 1000);
    std::fflush(stdout);
}

// A link of half of the nodes under the last node of the other half, and the same joinings as leaves: by the engine, and by the baseline, which knows no
// link. The rows renumbered are the same.
struct Joining {
    uint16_t parent, label;
};

// The rows of a tree that joins, level by level, by rising number; node n + i of the parents is i. Parents are those of the grown tree.
static std::vector<Joining> joinings(const Parents &parents, uint32_t n, uint16_t under) {
    std::vector<uint32_t> depth(n, 0), order(n), place(n);
    for (uint32_t i = 1; i < n; i++) depth[i] = depth[parents[i]] + 1;
    std::iota(order.begin(), order.end(), 0);
    std::stable_sort(order.begin(), order.end(), [&](uint32_t a, uint32_t b) { return depth[a] < depth[b]; });
    for (uint32_t i = 0; i < n; i++) place[order[i]] = i;
    std::vector<Joining> list;
    for (uint32_t w : order) list.push_back({w == 0 ? under : uint16_t(n + place[parents[w]]), label_of(w)});
    return list;
}

template <class Tree> uint64_t join_leaves(double &least, uint32_t n, const std::vector<Growth> &half, const std::vector<Joining> &list) {
    Tree tree(2 * n);
    grow(tree, half);
    uint64_t rows = 0;
    least = std::min(least, timed([&] {
                                for (auto &j : list) rows += tree.add_leaf(j.parent, j.label);
                            }) / n);
    return rows;
}

static void measure_link(const Shape &shape, uint32_t n) {
    Random random(n + shape.name[0]);
    auto parents = shape.parents(n, random);
    auto half = growths(parents, 0, random);
    uint16_t under = uint16_t(n - 1);
    auto list = joinings(parents, n, under);
    double none = std::numeric_limits<double>::infinity(), link = none, leaves = none, plain = none, tuned = none;
    uint64_t rows = 0;
    for (int i = 0; i < 5; i++) {
        Engine engine(2 * n);
        grow(engine, half);
        engine.add_first();
        for (uint32_t w = 1; w < n; w++) engine.add_leaf(uint16_t(n + parents[w]), label_of(w));
        link = std::min(link, timed([&] { rows = engine.link(uint16_t(n), under, 1); }) / n);
        same(join_leaves<Engine>(leaves, n, half, list) == rows, "rows renumbered by a link and by leaves");
        same(join_leaves<Plain>(plain, n, half, list) == rows, "rows renumbered by a link and by the baseline");
        same(join_leaves<Tuned>(tuned, n, half, list) == rows, "rows renumbered by a link and by the tuned baseline");
    }
    std::printf("| %s | %u | %.0f | %.2f | %.2f | %.2f | %.1f |\n", shape.name, n, link, link / leaves, link / plain, link / tuned, double(rows) / n);
    std::fflush(stdout);
}

static void depths(const char *file) {
    std::FILE *out = std::fopen(file, "w");
    if (out == nullptr) std::exit(1);
    std::fprintf(out, "depth,engine,C++,parent walk,jump pointers\n");
    const uint32_t n = 32768;
    for (uint32_t spine = 8; spine <= n; spine *= 4) {
        Random random(spine);
        auto list = growths(comb(n, spine, random), 0, random);
        Engine engine(n);
        Plain fat(n);
        ParentWalk walk(n);
        JumpPointers jump(n);
        grow(engine, list);
        grow(fat, list);
        grow(walk, list);
        grow(jump, list);
        Questions q = ask_all(engine, fat, walk, jump, n, random);
        std::fprintf(out, "%u,%.1f,%.1f,%.1f,%.1f\n", spine, q.engine, q.three, q.walk, q.jump);
    }
    std::fclose(out);
}

int main(int argc, char **argv) {
    const std::vector<uint32_t> all{1000, 10000, 32768};
    const std::vector<Shape> shapes{
        {"Prüfer", [](uint32_t n, Random &r) { return pruefer(n, r); }, {10000}},
        {"random recursive", [](uint32_t n, Random &r) { return random_recursive(n, r); }, all},
        {"chain", [](uint32_t n, Random &) { return chain(n); }, all},
        {"caterpillar", [](uint32_t n, Random &) { return caterpillar(n); }, all},
        {"star", [](uint32_t n, Random &) { return star(n); }, all},
        {"binary", [](uint32_t n, Random &) { return binary(n); }, all},
    };
    std::printf("| tree | nodes | new roots | question, ns | to C++, three answers | to C++, two answers | to walk | to jump | growth, ns | to C++ | to C++, tuned | "
                "inspection, ms | to C++ | to C++, tuned | to one pass | rows a node | worst |\n|---|---|---|---|---|---|---|---|---|---|---|---|---|---|---|---|---|\n");
    for (auto &shape : shapes)
        for (uint32_t n : shape.sizes)
            for (uint32_t roots : {0u, 5u}) measure(shape, n, roots);
    std::printf("\n| tree linked | nodes | a joined node, ns | to leaves | to C++ leaves | to C++ leaves, tuned | rows a node |\n|---|---|---|---|---|---|---|\n");
    for (auto &shape : shapes) measure_link(shape, 16384);
    std::printf("\nBytes a row: engine %.0f (and 2 of scratch for links and inspection; growth has 64 bytes at any capacity), C++ %.0f, parent walk %.0f, jump pointers %.0f; beside the rows 20,002 for a tally, in the engine and in C++.\n", Engine::bytes_per_row, Plain::bytes_per_row,
                ParentWalk::bytes_per_row, JumpPointers::bytes_per_row);
    measure_fillers();
    if (argc > 1) depths(argv[1]);
    return 0;
}
