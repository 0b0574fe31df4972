//! Document 01's cases that are not starred, and parts that do not fit.

use crate::checks::{check, equal};
use crate::engine::{Opening, Table, ENTRIES, FIELDS, GROWTH_SCRATCH, NUMBERS};
use crate::lent::Lent;
use crate::tally;

/// Capacities 0, 1, 32,768 and 32,769.
pub fn capacities() -> String {
    for (capacity, expected) in [(0, Err(3)), (1, Ok(())), (32768, Ok(())), (32769, Err(3))] {
        let mut table = Table::new(capacity, true);
        equal(table.set_up(), expected, || format!("set-up at capacity {capacity}"));
        let mut scratch = Lent::new(capacity, 0);
        equal(table.inspect(&mut scratch), expected.map(|_| 1), || format!("inspection at capacity {capacity}"));
        equal(table.add_first().map(|_| ()), expected, || format!("first node at capacity {capacity}"));
        let asked = table.query(0, 0).map(|_| ());
        equal(asked, expected, || format!("question at capacity {capacity}"));
        equal(table.alike(0, 0).map(|_| ()), expected, || format!("alike at capacity {capacity}"));
    }
    "4 tables".into()
}

/// Refusal 3 by every call that is lent a tally, whatever else it is given; the scratch is that of links and inspections.
pub fn refused(table: &mut Table, scratch: &mut Lent<u16>, (x, v, label): (u16, u16, u16), what: impl Fn() -> String) {
    for face in [0, 1, 2] {
        equal(table.add_leaf(v, label, face).map(|_| ()), Err(3), || format!("a leaf with {}", what()));
    }
    equal(table.add_first().map(|_| ()), Err(3), || format!("a first node with {}", what()));
    for opening in [Opening::NONE, Opening::of(label)] {
        equal(table.add_root(x, opening).map(|_| ()), Err(3), || format!("a new root with {}", what()));
    }
    equal(table.link(scratch, x, v, label), Err(3), || format!("a link with {}", what()));
    equal(table.inspect(scratch).map(|_| ()), Err(3), || format!("inspection with {}", what()));
    equal(table.set_up(), Err(3), || format!("set-up with {}", what()));
}

/// Each part in turn one element short or long; the tally too, or empty, which questions are not lent.
pub fn misfits() -> String {
    let good = {
        let mut table = Table::new(8, true);
        equal(table.set_up(), Ok(()), || "set-up".into());
        equal(table.add_first().map(|g| g.node), Ok(0), || "first node".into());
        table
    };
    for part in 0..4 {
        for change in [-1, 1] {
            let mut table = good.clone();
            let len = |n: usize| (n as i64 + change) as usize;
            match part {
                0 => table.fields = Lent::new(len(8 * FIELDS), 0),
                1 => table.numbers = Lent::new(len(8 * NUMBERS), 0),
                2 => table.levels = Lent::new(len(8), 0),
                _ => table.ancestors = Lent::new(len(8 * ENTRIES), 0),
            }
            let what = || format!("part {part} by {change}");
            equal(table.query(9, 9).map(|_| ()), Err(3), what);
            equal(table.alike(9, 9).map(|_| ()), Err(3), what);
            refused(&mut table, &mut Lent::new(8, 0), (9, 9, 0), what);
        }
    }
    for length in tally::MISFITS {
        let (mut table, what) = (good.clone(), || format!("a tally of {length} numbers"));
        table.tally = Lent::new(length, 0);
        equal(table.query(0, 0), Ok([0; 6]), what);
        equal(table.alike(0, 0), Ok(1), what);
        for given in [(0, 0, 1), (9, 9, 0), (0, 9, 10000)] {
            for (growth, scratch) in [(GROWTH_SCRATCH, 8), (GROWTH_SCRATCH - 1, 9)] {
                table.growth_scratch = Lent::new(growth, 0);
                refused(&mut table, &mut Lent::new(scratch, 0), given, what);
            }
        }
        table.count = 9;
        refused(&mut table, &mut Lent::new(8, 0), (0, 0, 1), what);
    }
    "11 tables".into()
}

/// Out slices of growths and links of another length, with nothing else to refuse.
pub fn answers() -> String {
    let (mut table, mut scratch) = (Table::new(8, true), Lent::new(8, 0));
    equal(table.set_up(), Ok(()), || "set-up".into());
    (0..2).for_each(|x| equal(table.add_first().map(|g| g.node), Ok(x), || "first node".into()));
    let lengths = [0, 1, 2, 3, 4, 5, 8];
    for len in lengths {
        let what = || format!("an answer of {len} places");
        if len != 4 {
            equal(table.add_first_to(Lent::marked(len)).map(|_| ()), Err(3), what);
            for face in [0, 1, 2] {
                equal(table.add_leaf_to(Lent::marked(len), (0, 1, face)).map(|_| ()), Err(3), what);
            }
            for opening in [Opening::NONE, Opening::of(7), Opening::of(0)] {
                equal(table.add_root_to(Lent::marked(len), 0, opening).map(|_| ()), Err(3), what);
            }
        }
        if len != 2 {
            equal(table.link_to(Lent::marked(len), &mut scratch, 0, 1, 1).map(|_| ()), Err(3), what);
        }
    }
    format!("{} lengths", lengths.len())
}

/// Labels and openings 9,999 and 10,000; faces 1 and 2; the 128th and 129th node.
pub fn limits() -> String {
    let mut table = Table::new(128, true);
    equal(table.set_up(), Ok(()), || "set-up".into());
    equal(table.add_leaf(0, 1, 0).map(|g| g.node), Err(1), || "leaf of an empty tree".into());
    equal(table.add_root(0, Opening::NONE).map(|g| g.node), Err(1), || "new root of an empty tree".into());
    equal(table.add_root(0, Opening::of(0)).map(|g| g.node), Err(1), || "opening 0 in an empty tree".into());
    equal(table.add_first().map(|g| g.node), Ok(0), || "first node".into());
    equal(table.add_leaf(0, 9999, 1).map(|g| g.node), Ok(1), || "label 9,999, face 1".into());
    equal(table.add_leaf(0, 10000, 0).map(|g| g.node), Err(5), || "label 10,000".into());
    equal(table.add_leaf(0, 0, 0).map(|g| g.node), Err(5), || "label 0".into());
    equal(table.add_leaf(0, 9999, 2).map(|g| g.node), Err(13), || "face 2".into());
    equal(table.add_root(0, Opening::of(10000)).map(|g| g.node), Err(5), || "opening 10,000".into());
    equal(table.add_root(0, Opening::of(0)).map(|g| g.node), Err(5), || "opening 0".into());
    equal(table.add_root(0, Opening::of(9999)).map(|g| g.node), Ok(2), || "opening 9,999".into());
    for node in 3..128 {
        equal(table.add_leaf(node / 2, 1, node % 2).map(|g| g.node), Ok(node), || format!("node {node}"));
    }
    equal(table.add_leaf(0, 1, 1).map(|g| g.node), Err(2), || "129th node".into());
    equal(table.add_leaf(0, 1, 2).map(|g| g.node), Err(13), || "face 2, before full".into());
    equal(table.add_leaf(0, 0, 2).map(|g| g.node), Err(5), || "label 0, before face 2".into());
    equal(table.add_root(2, Opening::NONE).map(|g| g.node), Err(2), || "129th node as root".into());
    equal(table.add_root(2, Opening::of(1)).map(|g| g.node), Err(2), || "129th node as root through an opening".into());
    equal(table.add_root(2, Opening::of(10000)).map(|g| g.node), Err(5), || "opening 10,000, before full".into());
    equal(table.add_first().map(|g| g.node), Err(2), || "129th node as a first node".into());
    equal(table.add_root(1, Opening::of(1)).map(|g| g.node), Err(10), || "a new root over a leaf, before full".into());
    check(table.count == 128, || "count".into());
    equal(table.query(5, 5), Ok([5, 5, 5, 0, 0, 1]), || "a node with itself".into());
    "1 table".into()
}
