//! Several trees in a table, by hand: links of small tables and of two paths, trees that are not shared, and records that lead nowhere; tallies, with their
//! ties; and new roots through openings.

use crate::checks::equal;
use crate::engine::{Grown, Linked, Opening, Table, FIELDS, LABEL, NONE, PARENT, ROOT};
use crate::lent::Lent;
use crate::tally::LABELS;

fn field(t: &Table, row: usize, place: usize) -> u16 {
    t.fields.part()[FIELDS * row + place]
}

/// A field of the rows in use.
pub fn column(t: &Table, place: usize) -> Vec<u16> {
    (0..t.count as usize).map(|row| field(t, row, place)).collect()
}

/// A table, and a scratch with a pattern for its links and inspections.
pub fn empty(capacity: usize) -> (Table, Lent<u16>) {
    let (mut table, mut scratch) = (Table::new(capacity, true), Lent::new(capacity, 0));
    scratch.part_mut().iter_mut().enumerate().for_each(|(i, c)| *c = 777 + 3 * i as u16);
    equal(table.set_up(), Ok(()), || "set-up".into());
    (table, scratch)
}

/// A first node, a leaf under it, and the first node of another tree, at capacity 4.
pub fn two_trees() -> (Table, Lent<u16>) {
    two_trees_at(4)
}

pub fn two_trees_at(capacity: usize) -> (Table, Lent<u16>) {
    let (mut table, scratch) = empty(capacity);
    equal(table.add_first().map(|g| g.node), Ok(0), || "a first node".into());
    equal(table.add_leaf(0, 3, 0).map(|g| g.node), Ok(1), || "a leaf".into());
    equal(table.add_first().map(|g| g.node), Ok(2), || "a second first node".into());
    (table, scratch)
}

/// Questions across trees, and new roots over nodes that are none.
fn trees_apart() {
    let (mut table, mut scratch) = two_trees();
    equal(table.query(0, 2), Err(12), || "a question across trees".into());
    equal(table.alike(2, 1), Err(12), || "alike across trees".into());
    equal(table.query(1, 3), Err(1), || "an unknown node comes before 12".into());
    equal(table.query(2, 2), Ok([2, 2, 2, 0, 0, 0]), || "a node of the second tree with itself".into());
    equal(table.add_root(1, Opening::NONE).map(|_| ()), Err(10), || "a new root over a leaf".into());
    equal(table.add_root(2, Opening::NONE), Ok(Grown { node: 3, rows: 2, head: 2 }), || "a new root of the second tree".into());
    equal((field(&table, 0, ROOT), field(&table, 2, ROOT)), (0, 3), || "the roots".into());
    equal(table.add_root(2, Opening::NONE).map(|_| ()), Err(10), || "a new root over an old one".into());
    equal(table.add_root(3, Opening::NONE).map(|_| ()), Err(2), || "a new root of a full table".into());
    equal(table.inspect(&mut scratch), Ok(1), || "inspection".into());
}

/// A root record that leads past the count.
fn root_astray() {
    let (mut table, mut scratch) = two_trees();
    table.fields.part_mut()[ROOT] = 60000;
    equal(table.add_leaf(0, 1, 0).map(|_| ()), Err(4), || "a leaf of a tree without root".into());
    equal(table.add_root(0, Opening::NONE).map(|_| ()), Err(4), || "a new root of a tree without root".into());
    equal(table.query(0, 1), Err(4), || "a question to a tree without root".into());
    equal(table.alike(0, 1), Err(4), || "alike of a tree without root".into());
    equal(table.query(0, 2), Err(12), || "another tree comes before the root".into());
    equal(table.link(&mut scratch, 0, 2, 5), Err(4), || "a link of a tree without root".into());
    equal(table.inspect(&mut scratch), Ok(0), || "inspection of a tree without root".into());
}

/// Two first nodes that fill a table, one linked under the other.
fn full_table() {
    let (mut table, mut scratch) = empty(2);
    (0..2).for_each(|x| equal(table.add_first().map(|g| g.node), Ok(x), || "a first node".into()));
    equal(table.link(&mut scratch, 0, 1, 7), Ok(Linked { rows: 2, head: 1 }), || "a link in a full table".into());
    equal(table.levels.part(), &[1, 0], || "levels after a link in a full table".into());
    equal(table.query(0, 1), Ok([1, 0, 1, 1, 0, 0]), || "a question after a link".into());
    equal(table.inspect(&mut scratch), Ok(1), || "inspection after a link".into());
}

/// A tree with new roots is turned round by its link.
fn turned_tree() {
    let (mut table, mut scratch) = empty(4);
    equal(table.add_first().map(|g| g.node), Ok(0), || "a first node".into());
    (0..2).for_each(|x| equal(table.add_root(x, Opening::NONE).map(|g| g.node), Ok(x + 1), || "a new root".into()));
    equal(table.add_first().map(|g| g.node), Ok(3), || "a first node".into());
    equal(table.link(&mut scratch, 1, 3, 9), Err(10), || "a link of a node that is no root".into());
    equal(table.link(&mut scratch, 2, 2, 9), Err(11), || "a link of a root under itself".into());
    equal(table.link(&mut scratch, 2, 0, 9), Err(11), || "a link under a node of the same tree".into());
    equal(table.link(&mut scratch, 0, 1, 9), Err(10), || "10 comes before 11".into());
    equal(table.link(&mut scratch, 2, 3, 0), Err(5), || "a link with label 0".into());
    equal(table.link(&mut scratch, 1, 3, 10000), Err(5), || "5 comes before 10".into());
    equal(table.link(&mut scratch, 2, 4, 0), Err(1), || "1 comes before 5".into());
    equal(table.link(&mut scratch, 2, 3, 9), Ok(Linked { rows: 9, head: 3 }), || "a link of a tree with new roots".into());
    equal(column(&table, PARENT), vec![1, 2, 3, NONE], || "stored parents after a link".into());
    equal(column(&table, LABEL), vec![0, 0, 9, 0], || "labels after a link".into());
    equal(table.levels.part(), &[3, 2, 1, 0], || "levels after a link".into());
    equal(column(&table, ROOT), vec![NONE, NONE, NONE, 3], || "roots after a link".into());
    equal(table.inspect(&mut scratch), Ok(1), || "inspection after a link".into());
}

/// A table that does not pass: 10 and 11 come before 4, and the scratch keeps its pattern, as `Table::link` checks.
fn not_ours() {
    let (mut table, mut scratch) = two_trees();
    table.fields.part_mut()[LABEL] = 7;
    equal(table.inspect(&mut scratch.clone()), Ok(0), || "inspection of a root with a label".into());
    equal(table.link(&mut scratch, 1, 2, 5), Err(10), || "10 comes before 4".into());
    equal(table.link(&mut scratch, 0, 1, 5), Err(11), || "11 comes before 4".into());
    equal(table.link(&mut scratch, 0, 2, 5), Err(4), || "a link of a root with a label".into());
    equal(table.link(&mut scratch, 2, 0, 5), Err(4), || "a link under a root with a label".into());
}

/// Two paths of 128 nodes, the first linked under a node of the second.
fn paths(under: u16, rows: u32) {
    let (mut table, mut scratch) = empty(256);
    let mut total = 0;
    for first in [0, 128] {
        total += table.add_first().map_or(0, |g| u32::from(g.rows));
        (first..first + 127).for_each(|x| total += table.add_leaf(x, 1, 0).map_or(0, |g| u32::from(g.rows)));
    }
    equal((table.count, total), (256, 2340), || "two paths".into());
    equal(table.link(&mut scratch, 0, under, 3), Ok(Linked { rows, head: 128 }), || format!("a path linked under {under}"));
    equal(table.query(127, 255).map(|a| a[0]), Ok(i32::from(under)), || "the node where two paths part".into());
    equal(table.inspect(&mut scratch), Ok(1), || "inspection of two paths".into());
}

/// The entries of a tally that are not 0, each with its label, and the last.
fn tally(t: &Table) -> (Vec<(usize, u16)>, u16) {
    let entries = t.tally.part()[..LABELS].iter().copied().enumerate().filter(|(_, entry)| *entry != 0);
    (entries.collect(), t.tally.part()[LABELS])
}

/// Two first nodes and two leaves of label 5, which tie; a link by door 9 leaves 5 alone at the top, so that one entry down changes the last.
fn tie_ended() {
    let (mut table, mut scratch) = empty(6);
    equal(tally(&table), (vec![], 0), || "the tally of no nodes".into());
    (0..2).for_each(|x| equal(table.add_first().map(|g| g.node), Ok(x), || "a first node".into()));
    (2..4).for_each(|x| equal(table.add_leaf(0, 5, 0).map(|g| g.node), Ok(x), || "a leaf".into()));
    equal(tally(&table), (vec![(0, 2), (5, 2)], 0), || "a tie of labels 0 and 5".into());
    equal(table.link(&mut scratch, 1, 0, 9).map(|l| l.head), Ok(0), || "a link by door 9".into());
    equal(tally(&table), (vec![(0, 1), (5, 2), (9, 1)], 5), || "the tally after a link".into());
    equal(table.add_leaf(1, 9, 0).map(|g| g.node), Ok(4), || "a leaf".into());
    equal(tally(&table), (vec![(0, 1), (5, 2), (9, 2)], 5), || "a tie of labels 5 and 9".into());
    equal(table.add_leaf(1, 9, 0).map(|g| g.node), Ok(5), || "a leaf".into());
    equal(tally(&table), (vec![(0, 1), (5, 2), (9, 3)], 9), || "label 9 at the top".into());
    equal(table.add_leaf(0, 5, 0).map(|g| g.node), Err(2), || "a leaf of a full table".into());
    equal(tally(&table), (vec![(0, 1), (5, 2), (9, 3)], 9), || "the tally after a refusal".into());
    equal(table.inspect(&mut scratch), Ok(1), || "inspection".into());
}

/// A smaller label comes to a tie from below, and the last label of all is counted; a new root counts for label 0.
fn tie_reached() {
    let (mut table, mut scratch) = empty(7);
    equal(table.add_first().map(|g| g.node), Ok(0), || "a first node".into());
    equal(tally(&table), (vec![(0, 1)], 0), || "one node".into());
    (1..3).for_each(|x| equal(table.add_leaf(0, 9999, 0).map(|g| g.node), Ok(x), || "a leaf".into()));
    equal(tally(&table), (vec![(0, 1), (9999, 2)], 9999), || "label 9,999 at the top".into());
    (3..5).for_each(|x| equal(table.add_leaf(0, 1, 0).map(|g| g.node), Ok(x), || "a leaf".into()));
    equal(tally(&table), (vec![(0, 1), (1, 2), (9999, 2)], 1), || "a tie of labels 1 and 9,999".into());
    equal(table.add_root(0, Opening::NONE).map(|g| g.node), Ok(5), || "a new root".into());
    equal(tally(&table), (vec![(0, 2), (1, 2), (9999, 2)], 0), || "a tie of three".into());
    equal(table.inspect(&mut scratch), Ok(1), || "inspection".into());
}

/// Inspection says no of an entry or a last that is not true, at count 0 too; a link is then refused by 4.
fn false_tally() {
    for (label, entry) in [(0, 1), (0, 3), (3, 0), (4, 1), (9999, 1), (LABELS, 3), (LABELS, 65535)] {
        let (mut table, mut scratch) = two_trees();
        table.tally.part_mut()[label] = entry;
        equal(table.inspect(&mut scratch.clone()), Ok(0), || format!("inspection of {entry} at {label}"));
        equal(table.link(&mut scratch, 2, 0, 5), Err(4), || format!("a link with {entry} at {label}"));
        let (mut table, mut scratch) = empty(4);
        table.tally.part_mut()[label] = entry.max(1);
        equal(table.inspect(&mut scratch), Ok(0), || format!("inspection of no nodes, {} at {label}", entry.max(1)));
    }
}

/// An entry at the capacity: refusal 4, last of all; those of other labels may stand past it.
fn full_entry() {
    let (good, _) = two_trees();
    for (label, entry) in [(0, 4), (3, 4), (3, 5), (9999, 65535)] {
        let mut table = good.clone();
        table.tally.part_mut()[label] = entry;
        let refused = |label_of: usize| if label == label_of { Err(4) } else { Ok(3) };
        for new in [3, 9999] {
            equal(table.clone().add_leaf(0, new, 0).map(|g| g.node), refused(new as usize), || format!("a leaf of label {new}"));
        }
        equal(table.clone().add_first().map(|g| g.node), refused(0), || "a first node".into());
        equal(table.clone().add_root(0, Opening::NONE).map(|g| g.node), refused(0), || "a new root".into());
        equal(table.add_root(1, Opening::NONE).map(|_| ()), Err(10), || "10 comes before the tally".into());
        equal(table.add_leaf(0, 0, 0).map(|_| ()), Err(5), || "5 comes before the tally".into());
        equal(table.add_leaf(3, label as u16, 0).map(|_| ()), Err(1), || "1 comes before the tally".into());
        table.tally.part_mut()[label] = 3;
        if label == 0 {
            equal(table.add_first().map(|g| g.node), Ok(3), || "an entry one below the capacity".into());
            equal(table.add_first().map(|_| ()), Err(2), || "2 comes before the tally".into());
        }
    }
}

pub fn cases() -> String {
    trees_apart();
    root_astray();
    full_table();
    turned_tree();
    not_ours();
    paths(255, 1618);
    paths(128, 1831);
    tie_ended();
    tie_reached();
    false_tally();
    full_entry();
    "27 tables".into()
}

/// A first node, a new root through 7 and a leaf of label 7 under it: the old root and the leaf are alike. A new root that names none leaves them so.
fn seen_alike() {
    let (mut table, mut scratch) = empty(5);
    equal(table.add_first().map(|g| g.node), Ok(0), || "a first node".into());
    equal(table.add_root(0, Opening::of(7)), Ok(Grown { node: 1, rows: 2, head: 0 }), || "a new root through 7".into());
    equal(column(&table, LABEL), vec![7, 0], || "labels after a new root through 7".into());
    equal(tally(&table), (vec![(0, 1), (7, 1)], 0), || "the tally after a new root through 7".into());
    equal(table.add_leaf(1, 7, 0).map(|g| g.node), Ok(2), || "a leaf".into());
    equal(table.alike(0, 2), Ok(1), || "an old root and a leaf of its label".into());
    equal(table.query(0, 2), Ok([1, 0, 2, 1, 1, 0]), || "where both part".into());
    equal(tally(&table), (vec![(0, 1), (7, 2)], 7), || "label 7 at the top".into());
    let unnamed = Opening { named: 0, number: 8 };
    equal(table.add_root(1, unnamed).map(|g| g.node), Ok(3), || "a new root that names none".into());
    equal(column(&table, LABEL), vec![7, 0, 7, 0], || "labels after a new root that names none".into());
    equal(tally(&table), (vec![(0, 2), (7, 2)], 0), || "a tie of labels 0 and 7".into());
    equal(table.alike(0, 2), Ok(1), || "alike below two roots".into());
    equal(table.add_root(3, Opening::of(9999)).map(|g| g.node), Ok(4), || "a new root through 9,999".into());
    equal(column(&table, LABEL), vec![7, 0, 7, 9999, 0], || "labels after a new root through 9,999".into());
    equal(table.query(0, 3), Ok([3, 1, 3, 2, 0, 9999]), || "a question that an old root answers".into());
    equal(table.inspect(&mut scratch), Ok(1), || "inspection".into());
}

/// Without an opening the old root keeps 0, and is not alike with a leaf.
fn seen_apart() {
    let (mut table, _) = empty(3);
    equal(table.add_first().map(|g| g.node), Ok(0), || "a first node".into());
    equal(table.add_root(0, Opening { named: 0, number: 7 }).map(|g| g.node), Ok(1), || "a new root that names none".into());
    equal(table.add_leaf(1, 7, 0).map(|g| g.node), Ok(2), || "a leaf".into());
    equal(table.alike(0, 2), Ok(0), || "an old root without label and a leaf".into());
    equal(column(&table, LABEL), vec![0, 0, 7], || "labels".into());
}

/// The old root of the second tree, which is neither row 0 nor in the head, takes the opening.
fn second_tree() {
    let (mut table, mut scratch) = empty(9);
    equal(table.add_first().map(|g| g.node), Ok(0), || "a first node".into());
    equal(table.add_first().map(|g| g.node), Ok(1), || "a second first node".into());
    (2..7).for_each(|x| equal(table.add_leaf(1, 3, 0).map(|g| g.node), Ok(x), || "a leaf".into()));
    equal(table.add_root(1, Opening::of(5)), Ok(Grown { node: 7, rows: 1, head: 7 }), || "a new root that heads itself".into());
    equal(column(&table, LABEL), vec![0, 5, 3, 3, 3, 3, 3, 0], || "labels of two trees".into());
    equal(tally(&table), (vec![(0, 2), (3, 5), (5, 1)], 3), || "the tally of two trees".into());
    equal(table.inspect(&mut scratch), Ok(1), || "inspection".into());
}

/// Two openings bring a smaller label to a tie with the one that most nodes carry, so that it is named last.
fn tie_by_openings() {
    let (mut table, mut scratch) = empty(5);
    equal(table.add_first().map(|g| g.node), Ok(0), || "a first node".into());
    (1..3).for_each(|x| equal(table.add_leaf(0, 9, 0).map(|g| g.node), Ok(x), || "a leaf".into()));
    equal(table.add_root(0, Opening::of(5)).map(|g| g.node), Ok(3), || "a new root through 5".into());
    equal(tally(&table), (vec![(0, 1), (5, 1), (9, 2)], 9), || "label 9 at the top".into());
    equal(table.add_root(3, Opening::of(5)).map(|g| g.node), Ok(4), || "another new root through 5".into());
    equal(tally(&table), (vec![(0, 1), (5, 2), (9, 2)], 5), || "a tie of labels 5 and 9".into());
    equal(table.inspect(&mut scratch), Ok(1), || "inspection".into());
}

/// Openings that are none, by any yes: refusal 5, after 1 and before 10 and 2. Where none is named the number is not looked at.
fn no_openings() {
    let (good, _) = two_trees();
    let mut full = good.clone();
    equal(full.add_first().map(|g| g.node), Ok(3), || "the fourth node of four".into());
    for number in [0, 10000, 65535] {
        for named in [1, 2, 256, 65535] {
            let (mut table, odd) = (good.clone(), Opening { named, number });
            equal(table.add_root(0, odd), Err(5), || format!("{odd:?}"));
            equal(table.add_root(1, odd), Err(5), || format!("5 comes before 10, {odd:?}"));
            equal(table.add_root(3, odd), Err(1), || format!("1 comes before 5, {odd:?}"));
            equal(full.add_root(0, odd), Err(5), || format!("5 comes before 2, {odd:?}"));
            equal(full.add_root(1, odd), Err(5), || format!("5 comes before 10 and 2, {odd:?}"));
            table.count = 5;
            equal(table.add_root(0, odd), Err(5), || format!("5 comes before 4, {odd:?}"));
        }
        let (mut table, unnamed) = (good.clone(), Opening { named: 0, number });
        equal(full.add_root(0, unnamed), Err(2), || format!("a full table, {unnamed:?}"));
        equal(table.add_root(1, unnamed), Err(10), || format!("a new root over a leaf, {unnamed:?}"));
        equal(table.add_root(0, unnamed).map(|g| g.node), Ok(3), || format!("{unnamed:?}"));
        equal(column(&table, LABEL), vec![0, 3, 0, 0], || format!("labels after {unnamed:?}"));
    }
    for named in [1, 2, 256, 65535] {
        let (mut table, opening) = (good.clone(), Opening { named, number: 9999 });
        equal(table.add_root(0, opening).map(|g| g.node), Ok(3), || format!("{opening:?}"));
        equal(column(&table, LABEL), vec![9999, 3, 0, 0], || format!("labels after {opening:?}"));
    }
    equal(full.add_root(1, Opening::of(7)), Err(10), || "10 comes before 2".into());
    equal(full.add_root(0, Opening::of(7)), Err(2), || "a full table, through 7".into());
}

/// A root record that leads past the count is 4 in the place of 10: after 5, before 2.
fn opening_astray() {
    let (mut table, _) = two_trees();
    table.fields.part_mut()[ROOT] = 60000;
    equal(table.add_root(0, Opening::of(0)), Err(5), || "5 comes before a root astray".into());
    equal(table.add_root(0, Opening::of(7)), Err(4), || "a root astray".into());
    equal(table.add_first().map(|g| g.node), Ok(3), || "the fourth node of four".into());
    equal(table.add_root(0, Opening::of(7)), Err(4), || "a root astray comes before 2".into());
}

/// The opening's entry at the capacity is refusal 4, and that of 0 is not looked at; where none is named it is the other way round.
fn full_opening() {
    let (good, _) = two_trees();
    for (label, entry) in [(0, 4), (0, 65535), (3, 4), (3, 5), (9999, 65535)] {
        let mut table = good.clone();
        table.tally.part_mut()[label as usize] = entry;
        for opening in [3, 9999, 1] {
            let mut over = table.clone();
            let refused = if opening == label { Err(4) } else { Ok(3) };
            let found = over.add_root(0, Opening::of(opening));
            equal(found.map(|g| g.node), refused, || format!("a new root through {opening}, {entry} at {label}"));
            equal(over.tally.part()[label as usize], entry, || format!("the entry of {label} after a new root through {opening}"));
        }
        let refused = if label == 0 { Err(4) } else { Ok(3) };
        equal(table.add_root(0, Opening::NONE).map(|g| g.node), refused, || format!("a new root, {entry} at {label}"));
    }
    let mut table = good.clone();
    table.tally.part_mut()[3] = 3;
    equal(table.add_root(0, Opening::of(3)).map(|g| g.node), Ok(3), || "an entry one below the capacity".into());
    equal(tally(&table), (vec![(0, 2), (3, 4)], 3), || "the entry at the capacity".into());
    equal(table.add_root(3, Opening::of(3)).map(|_| ()), Err(2), || "2 comes before the tally".into());
}

/// A root's label is not looked at, whatever it is: the opening takes its place, after which the table passes inspection; a new root that names none leaves it.
fn root_with_label() {
    for label in [7, 9999, 10000, 65535] {
        let (mut table, mut scratch) = two_trees();
        table.fields.part_mut()[LABEL] = label;
        let mut kept = table.clone();
        equal(table.add_root(0, Opening::of(5)).map(|g| g.node), Ok(3), || format!("a new root over one with label {label}"));
        equal(column(&table, LABEL), vec![5, 3, 0, 0], || format!("the opening in place of {label}"));
        equal(tally(&table), (vec![(0, 2), (3, 1), (5, 1)], 0), || "the tally does not count a root's label".into());
        equal(table.inspect(&mut scratch), Ok(1), || "inspection".into());
        equal(kept.add_root(0, Opening::NONE).map(|g| g.node), Ok(3), || format!("a new root over one with label {label}"));
        equal(column(&kept, LABEL), vec![label, 3, 0, 0], || format!("{label} kept"));
        equal(kept.inspect(&mut scratch), Ok(0), || "inspection of a label that is not counted".into());
    }
}

pub fn openings() -> String {
    seen_alike();
    seen_apart();
    second_tree();
    tie_by_openings();
    no_openings();
    opening_astray();
    full_opening();
    root_with_label();
    "54 tables".into()
}
