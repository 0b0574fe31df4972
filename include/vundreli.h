/* Vundreli: nearest common ancestors in trees that grow, and are linked, while they are asked.
 *
 * Each call but nca_log_next answers 0, or the number of the refusal. A refusal changes no slice that was lent.
 * A slice is a pointer and a count of elements. An out slice must have exactly the count that stands at its call; else the call is a misfit.
 * A pointer names memory for all its elements, aligned for them, and no two slices of one call overlap where one of them is written.
 * docs/FORMAT.md has the places of all numbers. */
#ifndef VUNDRELI_H
#define VUNDRELI_H

#include <stddef.h>
#include <stdint.h>

#ifdef __cplusplus
extern "C" {
#endif

/* No node: where a link leads nowhere. */
#define NCA_NONE 65535

enum nca_refusal {
    NCA_UNKNOWN_NODE = 1, /* a named node is not below the count */
    NCA_FULL = 2,         /* growth with as many nodes as there is room for */
    NCA_MISFIT = 3,       /* the slices do not fit one capacity from 1 to 32,768, a tally or an out slice is of another length, or growth's scratch is shorter than 32 */
    NCA_CORRUPT = 4,      /* the table or the tally is none that these calls left */
    NCA_BAD_LABEL = 5,    /* a label, or an opening that is named, outside 1 to 9,999 */
    NCA_BAD_TAG = 6,      /* of a log's field: no such tag */
    NCA_BAD_LENGTH = 7,   /* a length that the tag does not have */
    NCA_CUT_SHORT = 8,    /* the log ends within the field */
    NCA_DIRTY_FILLER = 9, /* filler with a byte that is not zero */
    NCA_NOT_ROOT = 10,    /* a new root over, or a link of, a node that is not the root of its tree */
    NCA_SAME_TREE = 11,   /* a link under a node of the same tree */
    NCA_OTHER_TREE = 12,  /* a question to nodes of two trees */
    NCA_BAD_FACE = 13     /* a face above 1 */
};

/* The table form. A table of capacity c is lent as four slices: fields (12 c), numbers (2 c), levels (c), ancestors (122 c).
 * It holds several trees, each begun by a first node. The count goes in by value, and the caller keeps the one that a growth writes to its out slice.
 * The tally (NCA_TALLY_LEN) is lent beside it to each call that makes, changes or inspects it: for each label from 0 to 9,999 how many nodes carry it, and
 * last the label that most nodes carry, the smallest of several. First nodes and new roots carry 0; an old root takes the opening that the new
 * one names. Set-up clears the tally; growths and links keep it.
 * Each node has a face beside its label, 0 for front and 1 for back. A leaf names it; a first node, a new root, an old root that takes an opening
 * and a linked root have 0.
 * scratch is memory apart from the table. Growth takes one of NCA_GROWTH_SCRATCH_LEN numbers or more at any capacity, looks at its length only and leaves it
 * as it was; inspection and a link take one of exactly c numbers, and may leave anything in it where they are served.
 * The head of a growth is the row that headed the renumbering, that of a link the first row of the receiving stored tree. */

#define NCA_TALLY_LEN 10001

/* The shortest scratch that growth takes. */
#define NCA_GROWTH_SCRATCH_LEN 32

/* An empty table. out (1): count. */
uint16_t nca_table_set_up(uint16_t *fields, size_t fields_len, uint64_t *numbers, size_t numbers_len,
                          int32_t *levels, size_t levels_len, uint16_t *ancestors, size_t ancestors_len,
                          uint16_t *tally, size_t tally_len,
                          uint16_t *out, size_t out_len);

/* The first node of a new tree, its root. scratch (32 or more). out (4): count, the new node, rows renumbered, head. */
uint16_t nca_table_add_first(uint16_t *fields, size_t fields_len, uint64_t *numbers, size_t numbers_len,
                             int32_t *levels, size_t levels_len, uint16_t *ancestors, size_t ancestors_len,
                             uint16_t *tally, size_t tally_len,
                             const uint16_t *scratch, size_t scratch_len,
                             uint16_t count,
                             uint16_t *out, size_t out_len);

/* A new leaf. scratch (32 or more). out (4): count, the new node, rows renumbered, head. The refusals in their order: 3, 1, 5, 13, 2, 4. */
uint16_t nca_table_add_leaf(uint16_t *fields, size_t fields_len, uint64_t *numbers, size_t numbers_len,
                            int32_t *levels, size_t levels_len, uint16_t *ancestors, size_t ancestors_len,
                            uint16_t *tally, size_t tally_len,
                            const uint16_t *scratch, size_t scratch_len,
                            uint16_t count, uint16_t parent, uint16_t label, uint16_t face,
                            uint16_t *out, size_t out_len);

/* A new root over x, the root of a tree. scratch (32 or more). out (4): count, the new node, rows renumbered, head.
 * named: whether an opening is named, 0 for no, any other number for yes. Where it is, the opening becomes the label of x, with face 0, and one outside
 * 1 to 9,999 is refused; where not, x keeps its label and face and the opening's number is not looked at. The refusals in their order: 3, 1, 5, 10, 2, 4. */
uint16_t nca_table_add_root(uint16_t *fields, size_t fields_len, uint64_t *numbers, size_t numbers_len,
                            int32_t *levels, size_t levels_len, uint16_t *ancestors, size_t ancestors_len,
                            uint16_t *tally, size_t tally_len,
                            const uint16_t *scratch, size_t scratch_len,
                            uint16_t count, uint16_t x, uint16_t named, uint16_t opening,
                            uint16_t *out, size_t out_len);

/* The whole tree of root x under v, a node of another tree; x takes the label, with face 0. scratch (c). out (2): rows renumbered, head. */
uint16_t nca_table_link(uint16_t *fields, size_t fields_len, uint64_t *numbers, size_t numbers_len,
                        int32_t *levels, size_t levels_len, uint16_t *ancestors, size_t ancestors_len,
                        uint16_t *tally, size_t tally_len,
                        uint16_t *scratch, size_t scratch_len,
                        uint16_t count, uint16_t x, uint16_t v, uint16_t label,
                        uint32_t *out, size_t out_len);

/* out (6): the nearest common ancestor of x and y, nodes of one tree, the branches towards x and y, the distances of x and y from it, its label. */
uint16_t nca_table_query(const uint16_t *fields, size_t fields_len, const uint64_t *numbers, size_t numbers_len,
                         const int32_t *levels, size_t levels_len, const uint16_t *ancestors, size_t ancestors_len,
                         uint16_t count, uint16_t x, uint16_t y,
                         int32_t *out, size_t out_len);

/* out (1): 1 where the labels and faces from the root's child down to x and down to y, nodes of one tree, are the same, else 0. */
uint16_t nca_table_alike(const uint16_t *fields, size_t fields_len, const uint64_t *numbers, size_t numbers_len,
                         const int32_t *levels, size_t levels_len, const uint16_t *ancestors, size_t ancestors_len,
                         uint16_t count, uint16_t x, uint16_t y,
                         uint16_t *out, size_t out_len);

/* scratch (c). out (1): 1 where the table follows all rules and the tally is right, else 0. */
uint16_t nca_table_inspect(const uint16_t *fields, size_t fields_len, const uint64_t *numbers, size_t numbers_len,
                           const int32_t *levels, size_t levels_len, const uint16_t *ancestors, size_t ancestors_len,
                           const uint16_t *tally, size_t tally_len,
                           uint16_t *scratch, size_t scratch_len,
                           uint16_t count,
                           uint16_t *out, size_t out_len);

/* Byte trees. A tree of capacity 128 is one run of NCA_TREE_BYTES bytes, with its count and its tally in it; 16-bit numbers low byte first.
 * It keeps to one tree. The outcomes are those of the table form. A tree or an out slice of another length is a misfit. */
#define NCA_TREE_BYTES 56868

/* An empty tree. */
uint16_t nca_set_up(uint8_t *tree, size_t tree_len);

/* A new leaf. out (6 bytes): the new node (2), rows renumbered (2), head (2). The refusals in their order: 3, 1, 5, 13, 2, 4. */
uint16_t nca_add_leaf(uint8_t *tree, size_t tree_len, uint16_t parent, uint16_t label, uint16_t face, uint8_t *out, size_t out_len);

/* A new root over the present one, or the first node. out (6 bytes): the new node (2), rows renumbered (2), head (2).
 * named and opening: as in the table form; on an empty tree an opening that is named is checked and otherwise unused. The refusals in their order:
 * 3, 5, 2, 4. */
uint16_t nca_add_root(uint8_t *tree, size_t tree_len, uint16_t named, uint16_t opening, uint8_t *out, size_t out_len);

/* out (16 bytes): the nearest common ancestor (2), the branches towards x (2) and y (2), the distances of x (4) and y (4) from it, its label (2). */
uint16_t nca_query(const uint8_t *tree, size_t tree_len, uint16_t x, uint16_t y, uint8_t *out, size_t out_len);

/* Logs. A log is a run of fields: a tag (1 byte), a length (2 bytes, high byte first) and a body of that length. The reader needs no table. */

/* What a field is: its tag, but that a leaf with a face, tag 5, is a leaf too. */
enum nca_kind {
    NCA_END = 0,  /* no field: the log ends there */
    NCA_LEAF = 1, /* of tag 1, whose face is 0, and of tag 5 */
    NCA_ROOT = 2,
    NCA_QUESTION = 3,
    NCA_ALIKE = 4,
    NCA_FILLER = 9
};

/* The field at a place of a log. out (4): its kind, and three values: parent, label and face of a leaf; named and opening of a new root, which are 1 and the
 * opening where the field has length 2, 0 and 0 where it has length 0; x and y of a question and of alike. A value that a field does not have is 0. Labels,
 * openings and faces are told as they stand: it is a growth that refuses them. At the log's end, and at a place past it, all four are 0. */
uint16_t nca_log_field(const uint8_t *log, size_t log_len, size_t at, uint16_t *out, size_t out_len);

/* The place past the field at a place, which it has on a refusal too; the same place where the log ends there or the field is cut short. */
size_t nca_log_next(const uint8_t *log, size_t log_len, size_t at);

#ifdef __cplusplus
}
#endif

#endif
