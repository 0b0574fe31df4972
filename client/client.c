/* A C host of the library: plays logs through the table form and through byte trees, prints what each call gave, and checks the refusals of a host and of
 * the log reader. What it writes is held against client/expected. */
#include "vundreli.h"

#include <stdio.h>
#include <string.h>

enum { CAPACITY = 128 };

/* The log of the requirements: its new roots name no opening. */
static const uint8_t OLDER[] = {
    2, 0, 0,
    1, 0, 4, 0, 0, 0, 7,
    1, 0, 4, 0, 1, 0, 9,
    3, 0, 4, 0, 1, 0, 2,
    1, 0, 4, 0, 5, 0, 7,
    2, 0, 0,
    3, 0, 4, 0, 2, 0, 3,
};

/* New roots through openings, 0 and 10,000 among them, which are refused, and one that names none. The first node has no use for its opening. */
static const uint8_t OPENINGS[] = {
    2, 0, 2, 0, 0,
    2, 0, 2, 0, 9,
    3, 0, 4, 0, 0, 0, 0,
    1, 0, 4, 0, 0, 0, 7,
    2, 0, 2, 0, 12,
    1, 0, 4, 0, 2, 0, 12,
    2, 0, 2, 39, 16,
    2, 0, 0,
    2, 0, 2, 39, 15,
    3, 0, 4, 0, 0, 0, 1,
    3, 0, 4, 0, 1, 0, 3,
    3, 0, 4, 0, 3, 0, 4,
};

/* Leaves of both faces, with tags 1 and 5, a face of 2, which is refused, and a new root through an opening, which is in front. */
static const uint8_t FACES[] = {
    2, 0, 0,
    1, 0, 4, 0, 0, 0, 7,
    5, 0, 5, 0, 0, 0, 7, 1,
    5, 0, 5, 0, 0, 0, 7, 0,
    5, 0, 5, 0, 0, 0, 7, 2,
    4, 0, 4, 0, 1, 0, 2,
    4, 0, 4, 0, 1, 0, 3,
    2, 0, 2, 0, 12,
    5, 0, 5, 0, 4, 0, 12, 1,
    1, 0, 4, 0, 4, 0, 12,
    4, 0, 4, 0, 0, 0, 5,
    4, 0, 4, 0, 0, 0, 6,
    3, 0, 4, 0, 1, 0, 5,
};

static int failures = 0;

static void expect(int holds, const char *what) {
    if (!holds) {
        failures++;
        printf("FAILED: %s\n", what);
    }
}

/* A growth and a question as any form answers them. */
struct growth {
    unsigned node, rows, head;
    int level;
};

struct answer {
    long values[6];
};

/* ---- the table form */

static struct table {
    uint16_t fields[12 * CAPACITY];
    uint64_t numbers[2 * CAPACITY];
    int32_t levels[CAPACITY];
    uint16_t ancestors[122 * CAPACITY];
    uint16_t tally[NCA_TALLY_LEN];
    uint16_t count, root; /* the root is that of the log's tree: the last node that a new root gave */
} table;

/* Growth has one of its own, which is as short at any capacity; links and inspection need as much as there are rows. */
static uint16_t growth_scratch[NCA_GROWTH_SCRATCH_LEN];
static uint16_t scratch[CAPACITY];

/* The parts of a table of capacity c, which is not above 128. */
#define PARTS_AT(c) table.fields, 12 * (c), table.numbers, 2 * (c), table.levels, (c), table.ancestors, 122 * (c)
#define PARTS PARTS_AT(CAPACITY)
#define COUNTS table.tally, NCA_TALLY_LEN
#define GROWTH_SCRATCH growth_scratch, NCA_GROWTH_SCRATCH_LEN
#define SCRATCH scratch, CAPACITY

static unsigned table_set_up(void) {
    uint16_t out[1];
    unsigned refusal = nca_table_set_up(PARTS, COUNTS, out, 1);
    if (refusal == 0)
        table.count = out[0];
    return refusal;
}

/* Keeps the count. */
static unsigned table_grown(unsigned refusal, const uint16_t out[4], struct growth *g) {
    if (refusal == 0) {
        table.count = out[0];
        g->node = out[1];
        g->rows = out[2];
        g->head = out[3];
        g->level = table.levels[out[1]];
    }
    return refusal;
}

static unsigned table_add_first(struct growth *g) {
    uint16_t out[4];
    return table_grown(nca_table_add_first(PARTS, COUNTS, GROWTH_SCRATCH, table.count, out, 4), out, g);
}

static unsigned table_add_leaf(unsigned parent, unsigned label, unsigned face, struct growth *g) {
    uint16_t out[4];
    return table_grown(
        nca_table_add_leaf(PARTS, COUNTS, GROWTH_SCRATCH, table.count, (uint16_t)parent, (uint16_t)label, (uint16_t)face, out, 4), out, g);
}

static unsigned table_add_root_over(unsigned x, unsigned named, unsigned opening, struct growth *g) {
    uint16_t out[4];
    return table_grown(
        nca_table_add_root(PARTS, COUNTS, GROWTH_SCRATCH, table.count, (uint16_t)x, (uint16_t)named, (uint16_t)opening, out, 4), out, g);
}

/* The first node of a log: an opening is checked, though it has no use. */
static unsigned table_add_log_first(unsigned named, unsigned opening, struct growth *g) {
    return named != 0 && (opening < 1 || opening > 9999) ? NCA_BAD_LABEL : table_add_first(g);
}

/* The new root of a log: it does not say over which root it goes. */
static unsigned table_add_root(unsigned named, unsigned opening, struct growth *g) {
    unsigned refusal = table.count == 0 ? table_add_log_first(named, opening, g) : table_add_root_over(table.root, named, opening, g);
    if (refusal == 0)
        table.root = (uint16_t)g->node;
    return refusal;
}

static unsigned table_link(unsigned x, unsigned v, unsigned label, uint32_t out[2]) {
    return nca_table_link(PARTS, COUNTS, SCRATCH, table.count, (uint16_t)x, (uint16_t)v, (uint16_t)label, out, 2);
}

static unsigned table_query(unsigned x, unsigned y, struct answer *a) {
    int32_t out[6];
    unsigned refusal = nca_table_query(PARTS, table.count, (uint16_t)x, (uint16_t)y, out, 6);
    if (refusal == 0)
        for (int i = 0; i < 6; i++)
            a->values[i] = out[i];
    return refusal;
}

static unsigned table_alike(unsigned x, unsigned y, uint16_t *yes) { return nca_table_alike(PARTS, table.count, (uint16_t)x, (uint16_t)y, yes, 1); }

/* ---- byte trees */

static uint8_t tree[NCA_TREE_BYTES];

/* The places of the columns. */
enum { FIELDS = 2, NUMBERS = 3074, LEVELS = 5122, ANCESTORS = 5634, TALLY = 36866 };

static unsigned little_endian(const uint8_t *b) { return b[0] + 256u * b[1]; }

/* 4 bytes in two's complement. */
static long signed_at(const uint8_t *b) {
    long x = (long)(little_endian(b) + 65536ul * little_endian(b + 2));
    return x < 2147483648l ? x : x - 4294967296l;
}

static unsigned tree_set_up(void) { return nca_set_up(tree, NCA_TREE_BYTES); }

static void tree_grown(const uint8_t out[6], struct growth *g) {
    g->node = little_endian(out);
    g->rows = little_endian(out + 2);
    g->head = little_endian(out + 4);
    g->level = (int)signed_at(tree + LEVELS + 4 * g->node);
}

static unsigned tree_add_leaf(unsigned parent, unsigned label, unsigned face, struct growth *g) {
    uint8_t out[6];
    unsigned refusal = nca_add_leaf(tree, NCA_TREE_BYTES, (uint16_t)parent, (uint16_t)label, (uint16_t)face, out, 6);
    if (refusal == 0)
        tree_grown(out, g);
    return refusal;
}

static unsigned tree_add_root(unsigned named, unsigned opening, struct growth *g) {
    uint8_t out[6];
    unsigned refusal = nca_add_root(tree, NCA_TREE_BYTES, (uint16_t)named, (uint16_t)opening, out, 6);
    if (refusal == 0)
        tree_grown(out, g);
    return refusal;
}

static unsigned tree_query(unsigned x, unsigned y, struct answer *a) {
    uint8_t out[16];
    unsigned refusal = nca_query(tree, NCA_TREE_BYTES, (uint16_t)x, (uint16_t)y, out, 16);
    if (refusal == 0) {
        for (int i = 0; i < 3; i++)
            a->values[i] = (long)little_endian(out + 2 * i);
        a->values[3] = signed_at(out + 6);
        a->values[4] = signed_at(out + 10);
        a->values[5] = (long)little_endian(out + 14);
    }
    return refusal;
}

/* ---- any form */

/* The last entry of a tally, which names a label. */
enum { MOST = NCA_TALLY_LEN - 1 };

static unsigned table_tally(unsigned i) { return table.tally[i]; }

static unsigned tree_tally(unsigned i) { return little_endian(tree + TALLY + 2 * i); }

/* The place of a face among the fields of a row. */
enum { FACE = 11 };

static unsigned table_face(unsigned x) { return table.fields[12 * x + FACE]; }

static unsigned tree_face(unsigned x) { return little_endian(tree + FIELDS + 2 * (12 * x + FACE)); }

struct form {
    unsigned (*set_up)(void);
    unsigned (*add_leaf)(unsigned parent, unsigned label, unsigned face, struct growth *g);
    unsigned (*add_root)(unsigned named, unsigned opening, struct growth *g);
    unsigned (*query)(unsigned x, unsigned y, struct answer *a);
    unsigned (*alike)(unsigned x, unsigned y, uint16_t *yes); /* byte trees have no such call */
    unsigned (*tally)(unsigned i);
    unsigned (*face)(unsigned x);
};

static const struct form TABLE = {table_set_up, table_add_leaf, table_add_root, table_query, table_alike, table_tally, table_face};
static const struct form TREE = {tree_set_up, tree_add_leaf, tree_add_root, tree_query, NULL, tree_tally, tree_face};

/* A form without alike prints nothing for it. */
static void play_alike(const struct form *f, unsigned ordinal, unsigned x, unsigned y) {
    uint16_t yes = 9;
    unsigned refusal;
    if (f->alike == NULL)
        return;
    refusal = f->alike(x, y, &yes);
    printf("%u %c %u\n", ordinal, refusal != 0 ? 'R' : 'A', refusal != 0 ? refusal : yes);
}

/* One field, its kind and three values; the rows that it renumbered. */
static unsigned play_field(const struct form *f, unsigned ordinal, const uint16_t field[4]) {
    unsigned refusal;
    struct growth g = {0, 0, 0, 0};
    struct answer a = {{0}};
    if (field[0] == NCA_ALIKE) {
        play_alike(f, ordinal, field[1], field[2]);
        return 0;
    }
    if (field[0] == NCA_QUESTION)
        refusal = f->query(field[1], field[2], &a);
    else if (field[0] == NCA_LEAF)
        refusal = f->add_leaf(field[1], field[2], field[3], &g);
    else
        refusal = f->add_root(field[1], field[2], &g);
    if (refusal != 0)
        printf("%u R %u\n", ordinal, refusal);
    else if (field[0] == NCA_QUESTION)
        printf("%u Q %ld %ld %ld %ld %ld %ld\n", ordinal, a.values[0], a.values[1], a.values[2], a.values[3], a.values[4], a.values[5]);
    else
        printf("%u %c %u %d %u %u\n", ordinal, field[0] == NCA_LEAF ? 'L' : 'T', g.node, g.level, g.rows, g.head);
    return g.rows;
}

static void play(const struct form *f, const uint8_t *log, size_t log_len, unsigned (*count)(void)) {
    unsigned ordinal = 0, total = 0;
    uint16_t field[4];
    expect(f->set_up() == 0, "set-up is served");
    printf("echo %d\n", CAPACITY);
    for (size_t at = 0; nca_log_field(log, log_len, at, field, 4) == 0 && field[0] != NCA_END; at = nca_log_next(log, log_len, at))
        total += play_field(f, ++ordinal, field);
    printf("end %u %u\n", count(), total);
    printf("most %u %u\n", f->tally(MOST), f->tally(f->tally(MOST)));
    printf("faces");
    for (unsigned x = 0; x < count(); x++)
        printf(" %u", f->face(x));
    printf("\n");
}

/* Whether the field at a place of a log is read, with this kind and these values. */
static int reads(const uint8_t *log, size_t log_len, size_t at, unsigned kind, unsigned first, unsigned second, unsigned third) {
    uint16_t field[4] = {9, 9, 9, 9};
    return nca_log_field(log, log_len, at, field, 4) == 0 && field[0] == kind && field[1] == first && field[2] == second && field[3] == third;
}

/* A log with fields that are refused: the reader goes on past each, but stays at one that is cut short. */
static void log_calls(void) {
    static const uint8_t log[] = {
        6, 0, 1, 0,
        2, 0, 1, 0,
        2, 0, 3, 0, 7, 0,
        5, 0, 4, 0, 0, 0, 7,
        9, 0, 9, 0, 0, 0, 0, 0, 0, 0, 0, 1,
        9, 0, 9, 0, 0, 0, 0, 0, 0, 0, 0, 0,
        4, 0, 4, 0, 1, 1, 0,
        1, 0, 4, 0,
    };
    static const uint16_t refusals[] = {NCA_BAD_TAG, NCA_BAD_LENGTH, NCA_BAD_LENGTH, NCA_BAD_LENGTH, NCA_DIRTY_FILLER, 0, 0, NCA_CUT_SHORT};
    static const uint8_t roots[] = {2, 0, 0, 2, 0, 2, 39, 16};
    static const uint8_t leaves[] = {1, 0, 4, 1, 2, 3, 4, 5, 0, 5, 1, 2, 3, 4, 255};
    uint16_t field[5] = {0, 0, 0, 0, 0};
    size_t at = 0;
    for (size_t i = 0; i < sizeof refusals / sizeof *refusals; i++) {
        expect(nca_log_field(log, sizeof log, at, field, 4) == refusals[i], "a field is read or refused");
        if (i + 1 < sizeof refusals / sizeof *refusals)
            at = nca_log_next(log, sizeof log, at);
    }
    expect(field[0] == NCA_ALIKE && field[1] == 1 && field[2] == 256 && field[3] == 0, "a refusal leaves the out slice as it was");
    expect(nca_log_next(log, sizeof log, at) == at, "the reader stays where a field is cut short");
    expect(nca_log_field(log, sizeof log, 0, field, 3) == NCA_MISFIT && nca_log_field(log, sizeof log, 0, field, 5) == NCA_MISFIT, "an out slice of three or five places is a misfit");
    expect(reads(log, sizeof log, sizeof log, NCA_END, 0, 0, 0), "past the last byte is the end");
    expect(reads(roots, sizeof roots, 0, NCA_ROOT, 0, 0, 0), "a new root may name no opening");
    expect(reads(roots, sizeof roots, 3, NCA_ROOT, 1, 10000, 0), "the reader tells any opening");
    expect(nca_log_field(roots, sizeof roots - 1, 3, field, 4) == NCA_CUT_SHORT, "an opening that is cut short is refused");
    expect(reads(leaves, sizeof leaves, 0, NCA_LEAF, 258, 772, 0), "a leaf of tag 1 is in front");
    expect(reads(leaves, sizeof leaves, 7, NCA_LEAF, 258, 772, 255), "one of tag 5 has any face");
    expect(nca_log_field(leaves, sizeof leaves - 1, 7, field, 4) == NCA_CUT_SHORT, "a face that is cut short is refused");
}

/* A path of as many nodes as there is room for, and one more. */
static void fill(const struct form *f) {
    struct growth g = {0, 0, 0, 0};
    struct answer a = {{0}};
    unsigned served = 0;
    expect(f->set_up() == 0, "set-up is served");
    expect(f->add_root(0, 0, &g) == 0, "the first node is served");
    while (served < CAPACITY - 1 && f->add_leaf(served, 1 + served, served % 2, &g) == 0)
        expect(g.node == ++served, "a leaf has the next number");
    expect(served == CAPACITY - 1, "128 nodes are served");
    expect(f->add_leaf(0, 1, 1, &g) == NCA_FULL, "the 129th node is refused");
    expect(f->add_leaf(0, 1, 2, &g) == NCA_BAD_FACE && f->add_leaf(0, 1, 65535, &g) == NCA_BAD_FACE, "a face is looked at before that");
    expect(f->add_leaf(0, 0, 2, &g) == NCA_BAD_LABEL, "and after the label");
    expect(f->add_root(0, 0, &g) == NCA_FULL && f->add_root(1, 7, &g) == NCA_FULL, "so is a root");
    expect(f->add_root(1, 0, &g) == NCA_BAD_LABEL && f->add_root(2, 10000, &g) == NCA_BAD_LABEL, "an opening is looked at before that");
    expect(f->add_root(0, 10000, &g) == NCA_FULL, "but not where none is named");
    expect(f->query(CAPACITY - 1, 64, &a) == 0 && a.values[0] == 64 && a.values[1] == 65 && a.values[3] == 63 && a.values[5] == 64, "a question on the full tree");
    expect(f->query(CAPACITY, 0, &a) == NCA_UNKNOWN_NODE, "an unknown node is refused");
    expect(f->add_leaf(0, 10000, 0, &g) == NCA_BAD_LABEL, "a label of 10,000 is refused");
    expect(f->face(0) == 0 && f->face(1) == 0 && f->face(2) == 1 && f->face(CAPACITY - 1) == 0, "each node has its face");
    expect(f->tally(0) == 1 && f->tally(1) == 1 && f->tally(CAPACITY - 1) == 1 && f->tally(CAPACITY) == 0, "each label is counted once");
    expect(f->tally(MOST) == 0, "of labels that are carried alike the smallest is named");
}

static unsigned table_count(void) { return table.count; }

static unsigned tree_count(void) { return little_endian(tree); }

static void table_calls(void) {
    uint16_t out[4] = {9, 9, 9, 9}, yes = 9;
    struct table before = table;
    expect(nca_table_add_root(PARTS, COUNTS, GROWTH_SCRATCH, table.count, table.root, 0, 0, out, 3) == NCA_MISFIT, "a short out slice is a misfit");
    expect(nca_table_add_root(PARTS, COUNTS, growth_scratch, NCA_GROWTH_SCRATCH_LEN - 1, table.count, table.root, 1, 7, out, 4) == NCA_MISFIT, "a short scratch is a misfit");
    expect(nca_table_add_root(PARTS, table.tally, NCA_TALLY_LEN - 1, GROWTH_SCRATCH, table.count, table.root, 1, 0, out, 4) == NCA_MISFIT, "a short tally is a misfit");
    expect(nca_table_add_root(PARTS, COUNTS, GROWTH_SCRATCH, table.count, table.root, 1, 0, out, 4) == NCA_BAD_LABEL, "an opening of 0 is refused");
    expect(nca_table_add_root(PARTS, COUNTS, GROWTH_SCRATCH, table.count, table.root, 2, 10000, out, 4) == NCA_BAD_LABEL, "so is one of 10,000");
    expect(out[0] == 9 && out[3] == 9 && memcmp(&before, &table, sizeof table) == 0, "a refusal changes nothing");
    expect(table_alike(1, 1, &yes) == 0 && yes == 1, "a node is alike to itself");
    expect(table_alike(1, 2, &yes) == 0 && yes == 0, "other labels are not alike");
    expect(nca_table_inspect(PARTS, COUNTS, SCRATCH, table.count, &yes, 1) == 0 && yes == 1, "the table passes inspection");
    table.levels[1] += 1;
    expect(nca_table_inspect(PARTS, COUNTS, SCRATCH, table.count, &yes, 1) == 0 && yes == 0, "a false level does not pass");
    table.levels[1] -= 1;
    table.tally[7] += 1;
    expect(nca_table_inspect(PARTS, COUNTS, SCRATCH, table.count, &yes, 1) == 0 && yes == 0, "nor does a false tally");
    table.tally[7] = CAPACITY;
    expect(nca_table_add_leaf(PARTS, COUNTS, GROWTH_SCRATCH, table.count, 0, 7, 1, out, 4) == NCA_CORRUPT, "a label that would be carried too often is refused");
    table.tally[7] = 1;
}

/* A root that a new one goes over takes the opening: it is alike with a leaf of that label. Without an opening it keeps its label. */
static void openings(void) {
    struct growth g = {0, 0, 0, 0};
    struct answer a = {{0}};
    uint16_t yes = 9;
    expect(table_set_up() == 0, "set-up is served");
    expect(table_add_root_over(0, 1, 0, &g) == NCA_UNKNOWN_NODE, "a root goes over a node");
    expect(table_add_first(&g) == 0 && g.node == 0, "a first node is served");
    expect(table_add_root_over(0, 1, 7, &g) == 0 && g.node == 1 && table.tally[0] == 1 && table.tally[7] == 1, "a new root through 7 is served");
    expect(table_add_leaf(1, 7, 0, &g) == 0 && g.node == 2, "a leaf of label 7 is served");
    expect(table_alike(0, 2, &yes) == 0 && yes == 1, "the old root and the leaf are alike");
    expect(table.tally[7] == 2 && table.tally[MOST] == 7, "and are counted alike");
    expect(table_add_root_over(0, 1, 10000, &g) == NCA_BAD_LABEL, "an opening is looked at before the root");
    expect(table_add_root_over(0, 1, 5, &g) == NCA_NOT_ROOT && table_add_root_over(0, 0, 10000, &g) == NCA_NOT_ROOT, "a new root goes over a root");
    expect(table_add_root_over(1, 0, 10000, &g) == 0 && g.node == 3 && table.tally[0] == 2, "a new root that names none is served");
    expect(table_query(1, 2, &a) == 0 && a.values[0] == 1 && a.values[5] == 0, "its old root keeps its label");
    expect(table_add_root_over(3, 65535, 9999, &g) == 0 && g.node == 4, "any number but 0 is a yes");
    expect(table_query(0, 3, &a) == 0 && a.values[0] == 3 && a.values[5] == 9999, "the old root answers by its opening");
    expect(nca_table_inspect(PARTS, COUNTS, SCRATCH, table.count, &yes, 1) == 0 && yes == 1, "the table passes inspection");
    table.tally[7] = CAPACITY;
    expect(table_add_root_over(4, 1, 7, &g) == NCA_CORRUPT, "an opening that would be carried too often is refused");
    table.tally[7] = 2;
    table.tally[0] = CAPACITY;
    expect(table_add_root_over(4, 0, 7, &g) == NCA_CORRUPT && table_add_root_over(4, 1, 7, &g) == 0, "label 0 is not counted where an opening is");
}

/* Nodes that differ by a face only are not alike, nor are their children. Old roots that take an opening and linked roots are in front. */
static void faces(void) {
    struct growth g = {0, 0, 0, 0};
    uint16_t yes = 9;
    uint32_t out[2];
    expect(table_set_up() == 0 && table_add_first(&g) == 0 && table_face(0) == 0, "a first node is in front");
    expect(table_add_leaf(0, 7, 0, &g) == 0 && table_add_leaf(0, 7, 1, &g) == 0 && table_face(1) == 0 && table_face(2) == 1, "leaves of both faces are served");
    expect(table_add_leaf(0, 7, 2, &g) == NCA_BAD_FACE && table_add_leaf(0, 7, 256, &g) == NCA_BAD_FACE && table.count == 3, "any other is refused");
    expect(table_add_leaf(0, 10000, 2, &g) == NCA_BAD_LABEL && table_add_leaf(3, 0, 2, &g) == NCA_UNKNOWN_NODE, "after label and parent");
    expect(table_alike(1, 2, &yes) == 0 && yes == 0, "nodes that differ by a face are not alike");
    expect(table_add_leaf(1, 4, 1, &g) == 0 && table_add_leaf(2, 4, 1, &g) == 0 && table_alike(3, 4, &yes) == 0 && yes == 0, "nor are children of these");
    expect(table_add_leaf(2, 4, 1, &g) == 0 && table_alike(4, 5, &yes) == 0 && yes == 1, "children of one node are");
    expect(table_add_root_over(0, 1, 9, &g) == 0 && table_add_leaf(6, 9, 1, &g) == 0 && table_add_leaf(6, 9, 0, &g) == 0, "a new root through 9 is served");
    expect(table_alike(0, 7, &yes) == 0 && yes == 0 && table_alike(0, 8, &yes) == 0 && yes == 1, "its old root is in front");
    expect(table_add_first(&g) == 0 && table_link(6, 9, 5, out) == 0 && table_add_leaf(9, 5, 0, &g) == 0 && table_alike(6, 10, &yes) == 0 && yes == 1, "so is a linked root");
    expect(table_face(2) == 1 && table_face(4) == 1 && table_face(7) == 1, "the rows that it brings keep their faces");
    expect(nca_table_inspect(PARTS, COUNTS, SCRATCH, table.count, &yes, 1) == 0 && yes == 1, "the table passes inspection");
    table.fields[12 * 9 + FACE] = 1;
    expect(nca_table_inspect(PARTS, COUNTS, SCRATCH, table.count, &yes, 1) == 0 && yes == 0, "a root of face 1 does not pass");
    table.fields[12 * 9 + FACE] = 0;
    table.fields[12 * 6 + FACE] = 1;
    expect(nca_table_inspect(PARTS, COUNTS, SCRATCH, table.count, &yes, 1) == 0 && yes == 1, "one that is a root no more does");
    table.fields[12 * 6 + FACE] = 2;
    expect(nca_table_inspect(PARTS, COUNTS, SCRATCH, table.count, &yes, 1) == 0 && yes == 0, "but not with face 2");
}

/* Two trees in one table, and the second linked under a node of the first. */
static void several_trees(void) {
    struct growth g = {0, 0, 0, 0};
    struct answer a = {{0}};
    uint16_t yes = 9;
    uint32_t out[2] = {9, 9};
    expect(table_set_up() == 0, "set-up is served");
    expect(table_add_first(&g) == 0 && g.node == 0 && g.rows == 1, "a first node is served");
    expect(table_add_leaf(0, 7, 0, &g) == 0 && g.node == 1, "a leaf of the first tree is served");
    expect(table_add_first(&g) == 0 && g.node == 2 && g.rows == 1 && g.head == 2 && g.level == 0, "a second tree is begun");
    expect(table_query(1, 2, &a) == NCA_OTHER_TREE, "nodes of two trees share none");
    expect(table_alike(1, 2, &yes) == NCA_OTHER_TREE && yes == 9, "nor are they compared");
    expect(table_add_root_over(1, 0, 0, &g) == NCA_NOT_ROOT, "a new root goes over a root");
    expect(table_add_root_over(2, 0, 0, &g) == 0 && g.node == 3 && g.level == -1, "also that of the second tree");
    expect(table_query(2, 3, &a) == 0 && a.values[0] == 3, "which then answers");
    expect(table_link(2, 1, 5, out) == NCA_NOT_ROOT, "a node that is no root is not linked");
    expect(table_link(3, 2, 5, out) == NCA_SAME_TREE, "nor is a root under its own tree");
    expect(table_link(3, 1, 0, out) == NCA_BAD_LABEL && out[0] == 9 && out[1] == 9, "a link has a label");
    expect(table_link(3, 1, 5, out) == 0 && out[0] == 7 && out[1] == 0, "the second tree is linked");
    expect(table.levels[3] == 2 && table.levels[2] == 3, "its levels shift");
    expect(table_query(2, 0, &a) == 0 && a.values[0] == 0 && a.values[1] == 1 && a.values[3] == 3, "and both answer together");
    expect(table.tally[0] == 2 && table.tally[5] == 1 && table.tally[7] == 1 && table.tally[MOST] == 0, "the linked root is counted by its label");
    expect(table_add_first(&g) == 0 && g.node == 4, "a third tree is begun");
    expect(table_link(0, 4, 6, out) == 0 && out[1] == 4, "the head of a link is the first row of the receiving tree");
    expect(table_add_leaf(4, 6, 0, &g) == 0 && table.tally[0] == 2 && table.tally[6] == 2 && table.tally[MOST] == 0, "two labels are carried by two nodes each");
    expect(table_add_leaf(4, 6, 0, &g) == 0 && table.tally[6] == 3 && table.tally[MOST] == 6, "and one by the most");
    expect(nca_table_inspect(PARTS, COUNTS, SCRATCH, table.count, &yes, 1) == 0 && yes == 1, "the table passes inspection");
}

/* Scratches of several lengths, lent to a table of capacity c: the refusals of a first node, a leaf, a new root, a link and an inspection. Growth takes 32
 * numbers or more, the others as many as there are rows. */
static void scratches(size_t c) {
    static const size_t lengths[] = {8, NCA_GROWTH_SCRATCH_LEN - 1, NCA_GROWTH_SCRATCH_LEN, CAPACITY};
    struct growth g = {0, 0, 0, 0};
    uint16_t out[4], kept[CAPACITY];
    uint32_t linked[2];
    expect(nca_table_set_up(PARTS_AT(c), COUNTS, &table.count, 1) == 0, "set-up is served");
    for (int i = 0; i < 2; i++)
        expect(table_grown(nca_table_add_first(PARTS_AT(c), COUNTS, GROWTH_SCRATCH, table.count, out, 4), out, &g) == 0, "a first node is served");
    table.root = 0;
    for (size_t i = 0; i < sizeof lengths / sizeof *lengths; i++) {
        size_t len = lengths[i];
        unsigned first, leaf, root;
        memset(scratch, (int)len, sizeof scratch);
        memcpy(kept, scratch, sizeof scratch);
        first = table_grown(nca_table_add_first(PARTS_AT(c), COUNTS, scratch, len, table.count, out, 4), out, &g);
        leaf = table_grown(nca_table_add_leaf(PARTS_AT(c), COUNTS, scratch, len, table.count, 0, 7, 0, out, 4), out, &g);
        root = table_grown(nca_table_add_root(PARTS_AT(c), COUNTS, scratch, len, table.count, table.root, 1, 7, out, 4), out, &g);
        if (root == 0)
            table.root = (uint16_t)g.node;
        expect(memcmp(kept, scratch, sizeof scratch) == 0, "growth leaves the scratch as it was");
        printf("scratch %u at %u: %u %u %u", (unsigned)len, (unsigned)c, first, leaf, root);
        printf(" %u", nca_table_link(PARTS_AT(c), COUNTS, scratch, len, table.count, 1, 0, 5, linked, 2));
        printf(" %u\n", nca_table_inspect(PARTS_AT(c), COUNTS, scratch, len, table.count, out, 1));
    }
}

static void tree_calls(void) {
    static uint8_t before[NCA_TREE_BYTES];
    uint8_t out[16];
    memset(out, 9, sizeof out);
    memcpy(before, tree, sizeof tree);
    expect(nca_set_up(tree, NCA_TREE_BYTES - 1) == NCA_MISFIT, "a short tree is a misfit");
    expect(nca_add_leaf(tree, NCA_TREE_BYTES - 1, 0, 1, 2, out, 6) == NCA_MISFIT, "a short tree is a misfit of a leaf");
    expect(nca_add_leaf(tree, NCA_TREE_BYTES, 0, 1, 2, out, 5) == NCA_MISFIT, "a short out slice is a misfit");
    expect(nca_add_leaf(tree, NCA_TREE_BYTES, 0, 0, 2, out, 6) == NCA_BAD_LABEL, "a label of 0 is refused");
    expect(nca_add_leaf(tree, NCA_TREE_BYTES, 0, 1, 2, out, 6) == NCA_BAD_FACE, "so is a face of 2");
    expect(nca_add_root(tree, NCA_TREE_BYTES - 1, 1, 0, out, 6) == NCA_MISFIT, "a short tree is a misfit of a root");
    expect(nca_add_root(tree, NCA_TREE_BYTES, 1, 0, out, 5) == NCA_MISFIT, "a short out slice is a misfit of a root");
    expect(nca_add_root(tree, NCA_TREE_BYTES, 1, 0, out, 6) == NCA_BAD_LABEL, "an opening of 0 is refused");
    expect(nca_add_root(tree, NCA_TREE_BYTES, 2, 10000, out, 6) == NCA_BAD_LABEL, "so is one of 10,000");
    expect(nca_query(tree, NCA_TREE_BYTES, 0, NCA_NONE, out, 16) == NCA_UNKNOWN_NODE, "an unknown node is refused");
    expect(out[0] == 9 && out[15] == 9 && memcmp(before, tree, sizeof tree) == 0, "a refusal changes nothing");
    tree[FIELDS + 2 * 10] = 200; /* a root that is no node, in row 0 */
    expect(nca_query(tree, NCA_TREE_BYTES, 0, 1, out, 16) == NCA_CORRUPT, "a tree that these calls did not leave is refused");
    tree[FIELDS + 2 * 10] = before[FIELDS + 2 * 10];
    tree[TALLY + 2 * 7] = CAPACITY;
    expect(nca_add_leaf(tree, NCA_TREE_BYTES, 0, 7, 1, out, 6) == NCA_CORRUPT, "so is a label that would be carried too often");
    expect(nca_add_root(tree, NCA_TREE_BYTES, 1, 7, out, 6) == NCA_CORRUPT, "and such an opening");
    tree[TALLY + 2 * 7] = before[TALLY + 2 * 7];
}

/* Both forms grow and answer alike, to the last node, and the tree holds what the table holds. */
static void compare(void) {
    struct growth g = {0, 0, 0, 0}, h = {0, 0, 0, 0};
    struct answer a = {{0}}, b = {{0}};
    unsigned seed = 1;
    expect(table_set_up() == 0 && tree_set_up() == 0, "set-up is served");
    for (unsigned n = 0; n < CAPACITY + 2; n++) {
        unsigned parent, label, named, face, x, y, r, q;
        seed = seed * 1103515245u + 12345u;
        parent = seed / 65536u % (n + 1);
        label = seed / 256u % 10002u;
        named = seed / 512u % 3u;
        face = seed / 8192u % 9u < 8 ? seed / 8192u % 2u : 2;
        r = n % 7 == 0 ? table_add_root(named, label, &g) : table_add_leaf(parent, label, face, &g);
        q = n % 7 == 0 ? tree_add_root(named, label, &h) : tree_add_leaf(parent, label, face, &h);
        expect(r == q && memcmp(&g, &h, sizeof g) == 0, "both forms grow alike");
        x = seed / 4096u % (n + 1);
        y = seed / 1024u % (n + 1);
        r = table_query(x, y, &a);
        q = tree_query(x, y, &b);
        expect(r == q && memcmp(&a, &b, sizeof a) == 0, "both forms answer alike");
        expect(tree_count() == table.count, "the count is the same");
    }
    for (unsigned i = 0; i < 12 * CAPACITY; i++)
        expect(little_endian(tree + FIELDS + 2 * i) == table.fields[i], "the fields are the same");
    for (unsigned i = 0; i < 8 * 2 * CAPACITY; i++)
        expect(tree[NUMBERS + i] == (table.numbers[i / 8] >> 8 * (i % 8)) % 256, "the numbers are the same");
    for (unsigned i = 0; i < CAPACITY; i++)
        expect(signed_at(tree + LEVELS + 4 * i) == table.levels[i], "the levels are the same");
    for (unsigned i = 0; i < 122 * CAPACITY; i++)
        expect(little_endian(tree + ANCESTORS + 2 * i) == table.ancestors[i], "the ancestor entries are the same");
    for (unsigned i = 0; i < NCA_TALLY_LEN; i++)
        expect(tree_tally(i) == table_tally(i), "the tallies are the same");
}

int main(void) {
    play(&TABLE, FACES, sizeof FACES, table_count);
    play(&TABLE, OPENINGS, sizeof OPENINGS, table_count);
    play(&TABLE, OLDER, sizeof OLDER, table_count);
    table_calls();
    fill(&TABLE);
    openings();
    faces();
    several_trees();
    scratches(8);
    scratches(CAPACITY);
    play(&TREE, FACES, sizeof FACES, tree_count);
    play(&TREE, OPENINGS, sizeof OPENINGS, tree_count);
    play(&TREE, OLDER, sizeof OLDER, tree_count);
    tree_calls();
    fill(&TREE);
    compare();
    log_calls();
    printf("%d failed\n", failures);
    return failures != 0;
}
