//! Byte trees of capacity 128 (docs/FORMAT.md): every call has the outcome of the table form on the decoded tree, good or damaged. A byte tree's new root
//! names no root: it goes over the first tree's.

use crate::checks::{check, equal};
use crate::engine::{Grown, Opening, Reply, Table, NONE, ROOT};
use crate::faces;
use crate::lent::Lent;
use crate::marks::{self, Marks};
use crate::random::Random;
use crate::reading::Reading;
use crate::tally::{self, LABELS};

pub const CAPACITY: usize = 128;
const BYTES: usize = 56_868;
/// The places of the numbers and of the tally.
const NUMBERS: usize = 3_074;
const TALLY: usize = 36_866;
/// The bytes that a growth answers.
const GROWN: usize = 6;
const LISTS: usize = 12;
const DAMAGED: usize = 10_000;

mod raw {
    extern "C" {
        pub fn nca_set_up(tree: *mut u8, tree_len: usize) -> u16;
        pub fn nca_add_leaf(tree: *mut u8, tree_len: usize, parent: u16, label: u16, face: u16, out: *mut u8, out_len: usize) -> u16;
        pub fn nca_add_root(tree: *mut u8, tree_len: usize, named: u16, opening: u16, out: *mut u8, out_len: usize) -> u16;
        pub fn nca_query(tree: *const u8, tree_len: usize, x: u16, y: u16, out: *mut u8, out_len: usize) -> u16;
    }
}

/// A tree's bytes: count, fields, numbers, levels, ancestor entries and tally, low byte first.
fn encode(t: &Table) -> Vec<u8> {
    let mut bytes = Vec::with_capacity(BYTES);
    bytes.extend(t.count.to_le_bytes());
    t.fields.part().iter().for_each(|c| bytes.extend(c.to_le_bytes()));
    t.numbers.part().iter().for_each(|c| bytes.extend(c.to_le_bytes()));
    t.levels.part().iter().for_each(|c| bytes.extend(c.to_le_bytes()));
    t.ancestors.part().iter().for_each(|c| bytes.extend(c.to_le_bytes()));
    t.tally.part().iter().for_each(|c| bytes.extend(c.to_le_bytes()));
    bytes
}

/// The next N bytes.
fn take<const N: usize>(bytes: &mut &[u8]) -> [u8; N] {
    let (word, rest) = bytes.split_at(N);
    *bytes = rest;
    word.try_into().expect("a word")
}

fn decode(mut bytes: &[u8]) -> Table {
    let (mut t, b) = (Table::new(CAPACITY, false), &mut bytes);
    t.count = u16::from_le_bytes(take(b));
    t.fields.part_mut().iter_mut().for_each(|c| *c = u16::from_le_bytes(take(b)));
    t.numbers.part_mut().iter_mut().for_each(|c| *c = u64::from_le_bytes(take(b)));
    t.levels.part_mut().iter_mut().for_each(|c| *c = i32::from_le_bytes(take(b)));
    t.ancestors.part_mut().iter_mut().for_each(|c| *c = u16::from_le_bytes(take(b)));
    t.tally.part_mut().iter_mut().for_each(|c| *c = u16::from_le_bytes(take(b)));
    t
}

struct Tree {
    bytes: Lent<u8>,
}

impl Tree {
    fn of(bytes: &[u8]) -> Tree {
        let mut lent = Lent::new(bytes.len(), 0);
        lent.part_mut().copy_from_slice(bytes);
        Tree { bytes: lent }
    }

    /// Guards as they were; on a refusal the answer too.
    fn after(&self, call: &str, code: u16, out: &Lent<u8>) {
        check(self.bytes.is_guarded() && out.is_guarded(), || format!("{call} on bytes touched a guard"));
        check(code == 0 || out.part() == Lent::<u8>::marked(out.part().len()).part(), || format!("{call} on bytes refused and answered"));
    }

    fn set_up(&mut self) -> Reply<()> {
        let tree = self.bytes.part_mut();
        let code = unsafe { raw::nca_set_up(tree.as_mut_ptr(), tree.len()) };
        self.after("set-up", code, &Lent::marked(0));
        if code == 0 {
            Ok(())
        } else {
            Err(code)
        }
    }

    fn add_leaf(&mut self, parent: u16, label: u16, face: u16, len: usize) -> Reply<Grown> {
        let (mut out, tree) = (Lent::<u8>::marked(len), self.bytes.part_mut());
        let o = out.part_mut();
        let code = unsafe { raw::nca_add_leaf(tree.as_mut_ptr(), tree.len(), parent, label, face, o.as_mut_ptr(), o.len()) };
        self.after("leaf", code, &out);
        if code == 0 {
            Ok(grown(out.part()))
        } else {
            Err(code)
        }
    }

    fn add_root(&mut self, opening: Opening, len: usize) -> Reply<Grown> {
        let (mut out, tree) = (Lent::<u8>::marked(len), self.bytes.part_mut());
        let o = out.part_mut();
        let Opening { named, number } = opening;
        let code = unsafe { raw::nca_add_root(tree.as_mut_ptr(), tree.len(), named, number, o.as_mut_ptr(), o.len()) };
        self.after("new root", code, &out);
        if code == 0 {
            Ok(grown(out.part()))
        } else {
            Err(code)
        }
    }

    fn query(&self, x: u16, y: u16, len: usize) -> Reply<[i32; 6]> {
        let (mut out, tree) = (Lent::<u8>::marked(len), self.bytes.part());
        let o = out.part_mut();
        let code = unsafe { raw::nca_query(tree.as_ptr(), tree.len(), x, y, o.as_mut_ptr(), o.len()) };
        self.after("question", code, &out);
        if code != 0 {
            return Err(code);
        }
        let o = out.part();
        let short = |i: usize| i32::from(u16::from_le_bytes([o[i], o[i + 1]]));
        let long = |i: usize| i32::from_le_bytes(o[i..i + 4].try_into().unwrap());
        Ok([short(0), short(2), short(4), long(6), long(10), short(14)])
    }
}

/// Node, rows and head, low byte first.
fn grown(out: &[u8]) -> Grown {
    let number = |i: usize| u16::from_le_bytes([out[i], out[i + 1]]);
    Grown { node: number(0), rows: number(2), head: number(4) }
}

/// What a new root over the first tree's gives; a first node has no use for an opening.
fn given(table: &Table, opening: Opening) -> Marks {
    if table.count == 0 {
        Marks::FIRST
    } else {
        Marks::over(table.root_of(0), opening)
    }
}

/// Document 01's new root on a table of capacity 128, kept as bytes.
pub fn add_root_to(table: &Table, opening: Opening) -> Reply<Grown> {
    let bytes = encode(table);
    let mut tree = Tree::of(&bytes);
    let reply = tree.add_root(opening, GROWN);
    check(reply.is_ok() || tree.bytes.part() == bytes, || format!("new root on bytes gave {reply:?} and stored"));
    let left = |after: Table| given(table, opening).are_left(table, &after);
    check(reply.is_err() || left(decode(tree.bytes.part())), || "labels, faces and tally after a new root on bytes".into());
    reply
}

/// The new root of the table form over the first tree's, which a byte tree does not name; none where the table form has no such call, since what row 0
/// records is no root of its own tree.
fn add_root(table: &mut Table, opening: Opening) -> Option<Reply<Grown>> {
    if opening.label().is_some_and(|label| !(1..=9999).contains(&label)) {
        return Some(Err(5));
    }
    if table.count == 0 {
        return Some(table.add_first());
    }
    if table.count as usize == CAPACITY {
        return Some(Err(2));
    }
    let root = if table.count as usize > CAPACITY { NONE } else { table.root_of(0) };
    if root >= table.count {
        return Some(Err(4));
    }
    Some(table.add_root(root, opening)).filter(|reply| *reply != Err(10))
}

/// One growth and one question on both forms; the tree after it is the table after it.
fn step(tree: &mut Tree, random: &mut Random) {
    let mut table = decode(tree.bytes.part());
    let count = (table.count as usize).clamp(1, CAPACITY);
    let node = |random: &mut Random| if random.one_in(24) { random.word() as u16 } else { random.below(count) as u16 };
    let (parent, label) = (node(random), if random.one_in(24) { [0, 9999, 10000][random.below(3)] } else { 1 + random.below(3) as u16 });
    let (found, expected) = if table.count == 0 || random.one_in(10) {
        let opening = Opening::any(label, random);
        let found = tree.add_root(opening, GROWN);
        let Some(expected) = add_root(&mut table, opening) else {
            let read = Reading::of(&table).add_root_first_tree(opening.label());
            equal(found, read, || format!("new root of a damaged byte tree of {count} nodes"));
            return;
        };
        (found, expected)
    } else {
        let face = faces::any(random);
        (tree.add_leaf(parent, label, face, GROWN), table.add_leaf(parent, label, face))
    };
    equal(found, expected, || format!("growth of a byte tree of {count} nodes"));
    check(tree.bytes.part() == encode(&table), || format!("a byte tree after growth to {count} nodes"));
    for _ in 0..2 {
        let (x, y) = (node(random), node(random));
        equal(tree.query(x, y, 16), table.query(x, y), || format!("question {x} {y} of a byte tree"));
    }
    check(tree.bytes.part() == encode(&table), || "a byte tree after a question".into());
}

/// Lists of calls to the 128th node and past it.
pub fn lists() -> String {
    let mut random = Random::new(6);
    for _ in 0..LISTS {
        let filling: Vec<u8> = (0..BYTES).map(|_| random.word() as u8).collect();
        let mut tree = Tree::of(&filling);
        equal(tree.set_up(), Ok(()), || "set-up of a byte tree".into());
        let mut empty = Table::new(CAPACITY, false);
        equal(empty.set_up(), Ok(()), || "set-up".into());
        check(tree.bytes.part() == encode(&empty), || "an empty byte tree".into());
        for _ in 0..CAPACITY + 12 {
            step(&mut tree, &mut random);
            let table = decode(tree.bytes.part());
            check(tally::of(&table).as_deref() == Some(table.tally.part()), || {
                format!("the tally of a byte tree of {} nodes", table.count)
            });
        }
    }
    format!("{LISTS} lists")
}

/// Bytes overwritten anywhere, more often where rows are.
pub fn damaged() -> String {
    let mut random = Random::new(7);
    let mut good = Tree::of(&vec![0; BYTES]);
    equal(good.set_up(), Ok(()), || "set-up of a byte tree".into());
    for round in 0..DAMAGED {
        if round % 24 == 0 {
            step(&mut good, &mut random);
        }
        let mut tree = Tree { bytes: good.bytes.clone() };
        for _ in 0..1 + random.below(4) {
            let rows = (1 + round / 24).min(CAPACITY);
            let place = match random.below(5) {
                0 => random.below(BYTES),
                1 => random.below(2),
                2 => 2 + random.below(24 * rows),
                3 => NUMBERS + random.below(16 * rows),
                _ => TALLY + [0, 2, 4, 6, 2 * LABELS][random.below(5)] + random.below(2),
            };
            tree.bytes.part_mut()[place] = if random.one_in(2) { random.word() as u8 } else { random.below(4) as u8 };
        }
        step(&mut tree, &mut random);
    }
    format!("{DAMAGED} trees")
}

/// Trees and answers one byte short or long, and empty ones.
pub fn misfits() -> String {
    for len in [0, 1, TALLY, BYTES - 2, BYTES - 1, BYTES + 1, BYTES + 2] {
        let mut tree = Tree::of(&vec![0; len]);
        let what = || format!("a byte tree of {len} bytes");
        equal(tree.set_up(), Err(3), what);
        (0..3).for_each(|face| equal(tree.add_leaf(0, 1, face, GROWN), Err(3), what));
        equal(tree.add_root(Opening::NONE, GROWN), Err(3), what);
        equal(tree.add_root(Opening::of(0), GROWN), Err(3), what);
        equal(tree.query(0, 0, 16), Err(3), what);
        check(tree.bytes.part().iter().all(|b| *b == 0), || format!("{} was stored to", what()));
    }
    let mut tree = Tree::of(&vec![0; BYTES]);
    equal(tree.set_up(), Ok(()), || "set-up of a byte tree".into());
    let before = tree.bytes.part().to_vec();
    for len in [0, 4, 5, 7, 15, 17] {
        (0..3).for_each(|face| equal(tree.add_leaf(0, 1, face, len), Err(3), || format!("leaf with an answer of {len} bytes")));
        equal(tree.add_root(Opening::NONE, len), Err(3), || format!("new root with an answer of {len} bytes"));
        equal(tree.add_root(Opening::of(0), len), Err(3), || format!("new root through 0 with an answer of {len} bytes"));
        equal(tree.query(0, 0, len), Err(3), || format!("question with an answer of {len} bytes"));
    }
    check(tree.bytes.part() == before, || "a misfit was stored".into());
    "8 trees".into()
}

/// The labels and faces of a tree's rows in use.
fn marks(tree: &Tree) -> Vec<(u16, u16)> {
    let table = decode(tree.bytes.part());
    marks::column(&table)[..table.count as usize].to_vec()
}

/// The labels of a tree's rows in use, and whether its tally is the full count of them.
fn labels(tree: &Tree) -> (Vec<u16>, bool) {
    let labels: Vec<u16> = marks(tree).into_iter().map(|(label, _)| label).collect();
    let counted = decode(tree.bytes.part()).tally.part() == tally::count(&labels);
    (labels, counted)
}

/// An empty tree checks an opening that is named and has no other use for it; later ones go to the old root. On a full tree 5 comes before 2.
pub fn openings() -> String {
    let mut tree = Tree::of(&vec![0; BYTES]);
    equal(tree.set_up(), Ok(()), || "set-up of a byte tree".into());
    for number in [0, 10000, 65535] {
        equal(tree.add_root(Opening::of(number), GROWN), Err(5), || format!("the first node of a byte tree through {number}"));
    }
    equal(tree.add_root(Opening::of(9999), GROWN), Ok(Grown { node: 0, rows: 1, head: 0 }), || "a first node through 9,999".into());
    equal(labels(&tree), (vec![0], true), || "a first node has no use for an opening".into());
    equal(tree.add_root(Opening::of(12), GROWN), Ok(Grown { node: 1, rows: 2, head: 0 }), || "a new root through 12".into());
    equal(labels(&tree), (vec![12, 0], true), || "the opening at the old root".into());
    equal(tree.add_root(Opening { named: 0, number: 65535 }, GROWN).map(|g| g.node), Ok(2), || "a new root that names none".into());
    equal(tree.add_root(Opening { named: 256, number: 9999 }, GROWN).map(|g| g.node), Ok(3), || "a new root through 9,999".into());
    equal(labels(&tree), (vec![12, 0, 9999, 0], true), || "an old root that kept 0, and one that did not".into());
    equal(tree.query(0, 2, 16), Ok([2, 1, 2, 2, 0, 9999]), || "a question that an old root answers".into());
    (4..CAPACITY as u16).for_each(|x| equal(tree.add_leaf(0, 1, 0, GROWN).map(|g| g.node), Ok(x), || "a leaf".into()));
    let before = tree.bytes.part().to_vec();
    for (opening, refusal) in [(Opening::NONE, 2), (Opening::of(7), 2), (Opening::of(0), 5), (Opening::of(10000), 5)] {
        equal(tree.add_root(opening, GROWN), Err(refusal), || format!("{opening:?} on a full byte tree"));
    }
    equal(tree.add_root(Opening { named: 0, number: 10000 }, GROWN), Err(2), || "a number that is not looked at".into());
    check(tree.bytes.part() == before, || "a refused opening was stored".into());
    "1 tree".into()
}

/// A tree with a first node and a leaf of each face; and how many leaves more.
fn grown_by(leaves: usize) -> Tree {
    let mut tree = Tree::of(&vec![0; BYTES]);
    equal(tree.set_up(), Ok(()), || "set-up of a byte tree".into());
    equal(tree.add_root(Opening::NONE, GROWN).map(|g| g.node), Ok(0), || "a first node".into());
    for x in 1..=2 + leaves as u16 {
        equal(tree.add_leaf(0, 7, (x + 1) % 2, GROWN).map(|g| g.node), Ok(x), || "a leaf".into());
    }
    tree
}

/// Every set of the refusals of a leaf at once, by each face that is none: the first in the order 3, 1, 5, 13, 2, 4 is given, and nothing is stored.
fn leaf_refusals() {
    let trees = [grown_by(0), grown_by(CAPACITY - 3)];
    for (set, face) in (0..64).flat_map(|set| faces::ODD.map(|face| (set, face))) {
        let at = |refusal: u16| faces::has(set, refusal);
        let mut tree = Tree { bytes: trees[at(2) as usize].bytes.clone() };
        if at(4) {
            tree.bytes.part_mut()[2 + 2 * ROOT] = 200;
        }
        let before = tree.bytes.part().to_vec();
        let (parent, label, face) = (if at(1) { 200 } else { 0 }, if at(5) { 0 } else { 7 }, if at(13) { face } else { 1 });
        let found = tree.add_leaf(parent, label, face, if at(3) { GROWN - 1 } else { GROWN });
        equal(found.map(|_| ()), faces::first_of(set), || format!("a leaf {parent} {label} {face} of a byte tree, refusals {set:b}"));
        check(found.is_ok() || tree.bytes.part() == before, || "a refused leaf of a byte tree was stored".into());
    }
}

/// Faces of a byte tree: leaves of both, new roots through an opening and without one, and faces that are none.
pub fn faces() -> String {
    let mut tree = grown_by(0);
    equal(marks(&tree), vec![(0, 0), (7, 0), (7, 1)], || "a leaf of each face".into());
    equal(tree.add_root(Opening::of(12), GROWN).map(|g| g.node), Ok(3), || "a new root through 12".into());
    equal(tree.add_root(Opening::NONE, GROWN).map(|g| g.node), Ok(4), || "a new root that names none".into());
    equal(tree.add_leaf(2, 12, 1, GROWN).map(|g| g.node), Ok(5), || "a leaf of face 1".into());
    equal(marks(&tree), vec![(12, 0), (7, 0), (7, 1), (0, 0), (0, 0), (12, 1)], || "faces after new roots".into());
    for face in faces::ODD {
        equal(tree.add_leaf(0, 1, face, GROWN), Err(13), || format!("a leaf of face {face}"));
    }
    equal(marks(&tree).len(), 6, || "nodes after odd faces".into());
    leaf_refusals();
    "257 trees".into()
}
