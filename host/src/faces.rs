//! Faces (document 02, M-105): by hand, with every set of a leaf's refusals, in lists of calls beside the same lists without faces, and at every row under
//! inspection.

use crate::checks::{check, equal};
use crate::engine::{Grown, Opening, Reply, Table, FACE, FIELDS, GROWTH_SCRATCH, TREE};
use crate::hand::{column, empty, two_trees};
use crate::lent::Lent;
use crate::lists::{List, MIXES, SHAPES};
use crate::plain::Plain;
use crate::random::Random;
use crate::rules;

/// Numbers that are no face.
pub const ODD: [u16; 4] = [2, 255, 256, 65535];

/// Every face that is tried.
const TRIED: [u16; 6] = [0, 1, ODD[0], ODD[1], ODD[2], ODD[3]];

/// The refusals of a leaf, in their order.
const ORDER: [u16; 6] = [3, 1, 5, 13, 2, 4];

const LISTS: usize = 240;
const POOL: usize = 60;

/// A face, now and then a number that is none.
pub fn any(random: &mut Random) -> u16 {
    if random.one_in(24) {
        ODD[random.below(ODD.len())]
    } else {
        random.below(2) as u16
    }
}

/// The faces of the rows in use.
pub fn of(t: &Table) -> Vec<u16> {
    column(t, FACE)
}

fn put(t: &mut Table, row: usize, face: u16) {
    t.fields.part_mut()[FIELDS * row + FACE] = face;
}

/// Whether a set of refusals, a bit to each in their order, has this one.
pub fn has(set: usize, refusal: u16) -> bool {
    ORDER.iter().position(|r| *r == refusal).is_some_and(|i| set >> i & 1 == 1)
}

/// What a leaf answers that a set of refusals applies to.
pub fn first_of(set: usize) -> Reply<()> {
    ORDER.into_iter().find(|refusal| has(set, *refusal)).map_or(Ok(()), Err)
}

fn leaf(table: &mut Table, (parent, label, face): (u16, u16, u16), node: u16) {
    let found = table.add_leaf(parent, label, face);
    equal(found.map(|g| g.node), Ok(node), || format!("a leaf of label {label} and face {face}"));
}

/// A first node, and these leaves.
fn tree(capacity: usize, leaves: &[(u16, u16, u16)]) -> (Table, Lent<u16>) {
    let (mut table, scratch) = empty(capacity);
    equal(table.add_first().map(|g| g.node), Ok(0), || "a first node".into());
    leaves.iter().zip(1..).for_each(|(given, node)| leaf(&mut table, *given, node));
    (table, scratch)
}

fn alike(table: &Table, pairs: &[(u16, u16, u16)]) {
    for (x, y, expected) in pairs {
        equal(table.alike(*x, *y), Ok(*expected), || format!("alike {x} {y} with faces {:?}", of(table)));
        equal(table.alike(*y, *x), Ok(*expected), || format!("alike {y} {x} with faces {:?}", of(table)));
    }
}

/// Leaves of one label on both faces are not alike, nor are their children of equal labels and faces.
fn both_faces() {
    let leaves = [(0, 7, 0), (0, 7, 1), (0, 7, 1), (0, 8, 1), (1, 4, 1), (2, 4, 1), (3, 4, 1), (3, 4, 0)];
    let (table, mut scratch) = tree(9, &leaves);
    equal(of(&table), vec![0, 0, 1, 1, 1, 1, 1, 1, 0], || "faces of leaves".into());
    alike(&table, &[(1, 2, 0), (2, 3, 1), (3, 4, 0), (1, 1, 1), (2, 2, 1), (5, 6, 0), (6, 7, 1), (7, 8, 0), (5, 8, 0), (0, 2, 0)]);
    equal(table.query(5, 6), Ok([0, 1, 2, 2, 2, 0]), || "a question does not tell faces".into());
    equal(table.inspect(&mut scratch), Ok(1), || "inspection of both faces".into());
}

/// Two paths of 40 nodes with the same labels and faces, and the same with one face of the second turned, at each place of it.
fn whole_list() {
    const LENGTH: u16 = 40;
    let face = |i: u16| (i % 3 == 0) as u16;
    for turned in 0..=LENGTH {
        let way = |first: u16| (0..LENGTH).map(move |i| (if i == 0 { 0 } else { first + i - 1 }, 1 + i % 2));
        let one = way(1).zip(0..).map(|((parent, label), i)| (parent, label, face(i)));
        let two = way(1 + LENGTH).zip(0..).map(|((parent, label), i)| (parent, label, face(i) ^ (i == turned) as u16));
        let (table, _) = tree(2 * LENGTH as usize + 1, &one.chain(two).collect::<Vec<_>>());
        for i in 0..LENGTH {
            alike(&table, &[(1 + i, 1 + LENGTH + i, (i < turned) as u16)]);
        }
    }
}

/// An old root that took an opening is in front: it is alike with a leaf of that label in front, and not with one on the back.
fn through_opening() {
    let (mut table, mut scratch) = tree(8, &[]);
    equal(table.add_root(0, Opening::of(7)), Ok(Grown { node: 1, rows: 2, head: 0 }), || "a new root through 7".into());
    leaf(&mut table, (1, 7, 1), 2);
    leaf(&mut table, (1, 7, 0), 3);
    alike(&table, &[(0, 2, 0), (0, 3, 1), (2, 3, 0)]);
    equal(table.add_root(1, Opening::NONE).map(|g| g.node), Ok(4), || "a new root that names none".into());
    equal(table.add_root(4, Opening::of(7)).map(|g| g.node), Ok(5), || "another through 7".into());
    leaf(&mut table, (5, 7, 1), 6);
    leaf(&mut table, (5, 7, 0), 7);
    alike(&table, &[(0, 2, 0), (0, 3, 1), (4, 6, 0), (4, 7, 1), (1, 6, 0)]);
    equal(of(&table), vec![0, 0, 1, 0, 0, 0, 1, 0], || "faces after new roots".into());
    equal(table.inspect(&mut scratch), Ok(1), || "inspection after new roots".into());
}

/// A linked root is in front; the rows below it keep their faces, and so do those of a tree that is turned round.
fn through_door() {
    let (mut table, mut scratch) = tree(12, &[(0, 7, 0), (0, 7, 1), (1, 4, 1), (2, 4, 1)]);
    equal(table.add_root(0, Opening::of(3)).map(|g| g.node), Ok(5), || "a new root through 3".into());
    leaf(&mut table, (5, 3, 1), 6);
    equal(table.add_first().map(|g| g.node), Ok(7), || "a second first node".into());
    equal(table.link(&mut scratch, 5, 7, 9).map(|l| l.head), Ok(7), || "a link by door 9".into());
    equal(of(&table), vec![0, 0, 1, 1, 1, 0, 1, 0], || "faces after a link".into());
    leaf(&mut table, (7, 9, 1), 8);
    leaf(&mut table, (7, 9, 0), 9);
    alike(&table, &[(5, 8, 0), (5, 9, 1), (0, 6, 0), (1, 2, 0), (3, 4, 0)]);
    leaf(&mut table, (9, 3, 0), 10);
    leaf(&mut table, (9, 3, 1), 11);
    alike(&table, &[(0, 10, 1), (0, 11, 0), (6, 11, 1), (6, 10, 0)]);
    equal(table.inspect(&mut scratch), Ok(1), || "inspection after a link".into());
}

/// Each growth stores the face of its row, whatever stood there, and of no other.
fn over_anything() {
    for stood in TRIED {
        let (mut table, mut scratch) = empty(6);
        (0..6).for_each(|row| put(&mut table, row, stood));
        equal(table.add_first().map(|g| g.node), Ok(0), || "a first node".into());
        leaf(&mut table, (0, 7, 0), 1);
        leaf(&mut table, (0, 7, 1), 2);
        equal(table.add_root(0, Opening::NONE).map(|g| g.node), Ok(3), || "a new root that names none".into());
        equal(table.add_root(3, Opening::of(5)).map(|g| g.node), Ok(4), || "a new root through 5".into());
        table.count = 6;
        equal(of(&table), vec![0, 0, 1, 0, 0, stood], || format!("faces where {stood} stood"));
        table.count = 5;
        equal(table.inspect(&mut scratch), Ok(1), || format!("inspection where {stood} stood"));
    }
}

/// A root's face is not looked at by a growth: the opening's 0 takes its place; a new root that names none leaves it, and an old root's 1 passes. A table with
/// such a root is not linked.
fn root_with_face() {
    for face in &TRIED[1..] {
        let (mut table, mut scratch) = two_trees();
        put(&mut table, 0, *face);
        let mut kept = table.clone();
        equal(table.inspect(&mut scratch.clone()), Ok(0), || format!("inspection of a root of face {face}"));
        equal(table.link(&mut scratch, 1, 2, 5), Err(10), || "10 comes before 4".into());
        equal(table.link(&mut scratch, 0, 1, 5), Err(11), || "11 comes before 4".into());
        equal(table.link(&mut scratch, 0, 2, 5), Err(4), || format!("a link of a root of face {face}"));
        equal(table.link(&mut scratch, 2, 0, 5), Err(4), || format!("a link under a root of face {face}"));
        equal(table.add_root(0, Opening::of(0)), Err(5), || "an opening that is none".into());
        equal(of(&table), vec![*face, 0, 0], || format!("{face} after refusals"));
        equal(table.add_root(0, Opening::of(5)).map(|g| g.node), Ok(3), || format!("a new root over one of face {face}"));
        equal(of(&table), vec![0, 0, 0, 0], || format!("the opening's face in place of {face}"));
        equal(table.inspect(&mut scratch), Ok(1), || "inspection".into());
        equal(kept.add_root(0, Opening { named: 0, number: 5 }).map(|g| g.node), Ok(3), || "a new root that names none".into());
        equal(of(&kept), vec![*face, 0, 0, 0], || format!("{face} kept"));
        equal(kept.inspect(&mut scratch), Ok((*face == 1) as u16), || format!("inspection of an old root of face {face}"));
    }
}

/// A linked root's 1 passes inspection too, and the face is compared as an old root's or a leaf's is.
fn linked_root_turned() {
    let (mut table, mut scratch) = two_trees();
    equal(table.link(&mut scratch, 2, 0, 3).map(|l| l.head), Ok(0), || "a link by door 3".into());
    alike(&table, &[(1, 2, 1)]);
    put(&mut table, 2, 1);
    alike(&table, &[(1, 2, 0)]);
    equal(table.inspect(&mut scratch), Ok(1), || "inspection of a linked root of face 1".into());
    put(&mut table, 1, 1);
    alike(&table, &[(1, 2, 1)]);
}

/// Numbers that are no face are compared as they stand; the face of the root, and of a node that is reached from both, is not.
fn odd_alike() {
    let (table, _) = tree(6, &[(0, 7, 0), (0, 7, 0), (1, 4, 1), (1, 4, 1)]);
    for (one, two) in TRIED.into_iter().flat_map(|one| TRIED.map(|two| (one, two))) {
        let mut odd = table.clone();
        put(&mut odd, 1, one);
        put(&mut odd, 2, two);
        alike(&odd, &[(1, 2, (one == two) as u16), (3, 4, 1)]);
        let mut odd = table.clone();
        put(&mut odd, 3, one);
        put(&mut odd, 4, two);
        put(&mut odd, 0, one);
        alike(&odd, &[(3, 4, (one == two) as u16), (1, 2, 1), (0, 0, 1)]);
    }
}

pub fn cases() -> String {
    both_faces();
    whole_list();
    through_opening();
    through_door();
    over_anything();
    root_with_face();
    linked_root_turned();
    odd_alike();
    "133 tables".into()
}

/// A leaf of a table with room or without, by a set of refusals: what stands at the parent, in the tally, and what is given.
fn refused(tables: &[Table; 2], set: usize, odd: (u16, u16), by_tally: bool) {
    let at = |refusal: u16| has(set, refusal);
    let mut table = tables[at(2) as usize].clone();
    if at(4) && by_tally {
        table.tally.part_mut()[3] = 4;
    } else if at(4) {
        table.ancestors.part_mut()[TREE] = 60000;
    }
    let given = (if at(1) { 4 } else { 0 }, if at(5) { odd.0 } else { 3 }, if at(13) { odd.1 } else { 1 });
    for (scratch, out) in [(GROWTH_SCRATCH - 1, 4), (GROWTH_SCRATCH, 3), (GROWTH_SCRATCH + 1, 5), (4, 4)] {
        let (scratch, out) = if at(3) { (scratch, out) } else { (GROWTH_SCRATCH, 4) };
        let mut table = Table { growth_scratch: Lent::new(scratch, 7), ..table.clone() };
        let found = table.add_leaf_to(Lent::marked(out), given);
        equal(found.map(|_| ()), first_of(set), || format!("a leaf {given:?}, refusals {set:b}"));
        check(found.is_err() || of(&table).last() == Some(&1), || "the face of a leaf that was served".into());
    }
}

/// Every set of the refusals of a leaf at once, with every label and face that is none: the first in the order 3, 1, 5, 13, 2, 4 is given.
pub fn refusals() -> String {
    let (good, _) = two_trees();
    let mut full = good.clone();
    leaf(&mut full, (0, 3, 1), 3);
    let tables = [good, full];
    let mut sets = 0;
    for set in 0..1 << ORDER.len() {
        for (label, face) in [0, 10000, 65535].into_iter().flat_map(|label| ODD.map(|face| (label, face))) {
            [false, true].iter().for_each(|by_tally| refused(&tables, set, (label, face), *by_tally));
        }
        sets += 1;
    }
    format!("{sets} sets")
}

/// Two tables under the same calls, one with faces and one where every face is 0.
struct Twins {
    faced: Table,
    front: Table,
    plain: Plain,
    scratch: Lent<u16>,
}

impl Twins {
    fn new(capacity: usize) -> Twins {
        let (faced, scratch) = empty(capacity);
        Twins { front: faced.clone(), faced, plain: Plain::new(capacity), scratch }
    }

    /// A growth of both; the call is told whether faces are meant.
    fn grow(&mut self, expected: Reply<u16>, call: impl Fn(&mut Table, bool) -> Reply<Grown>) {
        let found = call(&mut self.faced, true);
        equal(found, call(&mut self.front, false), || "a growth with faces and without".into());
        equal(found.map(|g| g.node), expected, || "a growth with faces".into());
    }

    fn link(&mut self, x: u16, v: u16, label: u16) {
        let (expected, scratch) = (self.plain.link(self.scratch.part().len(), x, v, label), &mut self.scratch);
        let found = self.faced.link(scratch, x, v, label);
        equal(found, self.front.link(scratch, x, v, label), || "a link with faces and without".into());
        equal(found.map(|_| ()), expected.map(|_| ()), || "a link with faces".into());
    }

    /// One growth or link of both.
    fn call(&mut self, random: &mut Random) {
        let count = self.plain.count();
        if count == 0 || random.one_in(10) {
            let expected = self.plain.add_first(GROWTH_SCRATCH);
            return self.grow(expected, |table, _| table.add_first());
        }
        let (x, v, label) = (random.below(count) as u16, random.below(count) as u16, 1 + random.below(2) as u16);
        let (root, opening, face) = (self.plain.root_of(v), Opening::any(label, random), any(random));
        match random.below(9) {
            0 | 1 => {
                let expected = self.plain.add_root(GROWTH_SCRATCH, root, opening.label());
                self.grow(expected, |table, _| table.add_root(root, opening));
            }
            2 => self.link(root, x, label),
            _ => {
                let expected = self.plain.add_leaf(GROWTH_SCRATCH, x, label, face);
                self.grow(expected, |table, faced| table.add_leaf(x, label, if faced || face > 1 { face } else { 0 }));
            }
        }
    }

    /// All but the faces is the same, and those of the one are the plain list's.
    fn compare(&self) {
        equal(of(&self.faced), self.plain.all_faces().to_vec(), || "the faces that calls set".into());
        let mut bare = self.faced.clone();
        (0..self.plain.count()).for_each(|row| put(&mut bare, row, 0));
        check(bare.same_parts(&self.front) && bare.count == self.front.count, || "parts with faces and without".into());
    }

    /// Of all pairs how many are alike with faces, and how many without only. None is with faces only.
    fn pairs(&self) -> (usize, usize) {
        let (mut both, mut without) = (0, 0);
        for (x, y) in (0..self.faced.count).flat_map(|x| (0..self.faced.count).map(move |y| (x, y))) {
            equal(self.faced.query(x, y), self.front.query(x, y), || format!("question {x} {y} with faces and without"));
            let (one, two) = (self.faced.alike(x, y), self.front.alike(x, y));
            equal(one, self.plain.alike(x, y), || format!("alike {x} {y}"));
            check(one != Ok(1) || two == Ok(1), || format!("alike {x} {y} with faces only"));
            equal(one.is_err(), two.is_err(), || format!("alike {x} {y} refused"));
            both += (one == Ok(1)) as usize;
            without += (one == Ok(0) && two == Ok(1)) as usize;
        }
        (both, without)
    }
}

/// Lists of calls with faces, and the same with every face 0: all outcomes and parts but for the faces are the same; every pair that is alike with faces is
/// alike without.
pub fn without() -> String {
    let (mut random, mut both, mut without) = (Random::new(105), 0, 0);
    for round in 0..LISTS {
        let mut twins = Twins::new(4 + round % 17);
        for _ in 0..8 + 2 * (round % 17) {
            twins.call(&mut random);
            twins.compare();
        }
        let (more, fewer) = twins.pairs();
        (both, without) = (both + more, without + fewer);
    }
    check(without > 0, || "no pair was alike without faces only".into());
    format!("{LISTS} lists, {both} pairs alike, {without} no longer")
}

/// Inspection of a table with each face at each row, in use or not: it wants 0 or 1, and 0 of a root.
fn inspect_each(table: &Table) {
    let (capacity, count) = (table.levels.part().len(), table.count);
    for (row, face) in (0..capacity as u16).flat_map(|row| TRIED.map(|face| (row, face))) {
        let mut turned = table.clone();
        put(&mut turned, row as usize, face);
        let passes = row >= count || face == 0 || face == 1 && table.root_of(row) != row;
        equal(turned.inspect(&mut Lent::new(capacity, 7)), Ok(passes as u16), || format!("face {face} at row {row} of {count}"));
        equal(rules::passes(&turned), passes, || format!("the naive rules on face {face} at row {row} of {count}"));
    }
}

pub fn inspected() -> String {
    let mut random = Random::new(106);
    for i in 0..POOL {
        let capacity = 1 + i % 20;
        let mut list = List::new(capacity, SHAPES[i % 6], MIXES[i / 6 % 4], &mut random);
        (0..capacity + random.below(capacity)).for_each(|_| list.grow(&mut random));
        inspect_each(&list.table);
    }
    format!("{POOL} tables")
}
