//! Damaged tables: every call ends, touches no guard, and on a refusal stores nothing (`engine` checks this at every call);
//! inspection says what the naive rules say, questions and growths what the naive reading says; a table that passes answers as its plain tree does.

use crate::checks::{check, equal};
use crate::engine::{Grown, Opening, Reply, Table, ENTRIES, FACE, FIELDS, GROWTH_SCRATCH, NONE, NUMBERS, ROOT, TREE};
use crate::faces;
use crate::lent::Lent;
use crate::lists::{List, MIXES, SHAPES};
use crate::marks::Marks;
use crate::places;
use crate::random::Random;
use crate::reading::Reading;
use crate::rules;
use crate::tally;
use crate::variants;

const DAMAGED: usize = 200_000;
const VARIANTS: usize = 50_000;
const POOL: usize = 400;

/// Good tables of up to 16 rows, to be damaged.
fn pool(random: &mut Random) -> Vec<Table> {
    (0..POOL)
        .map(|i| {
            let capacity = 1 + i % 16;
            let mut list = List::new(capacity, SHAPES[i % 6], MIXES[i / 6 % 4], random);
            (0..capacity + random.below(capacity)).for_each(|_| list.grow(random));
            list.table
        })
        .collect()
}

/// A number near what a table holds, or any.
fn number(count: u16, random: &mut Random) -> u64 {
    match random.below(5) {
        0 => random.below(count as usize + 2) as u64,
        1 => u64::from(NONE),
        2 => 5 * (1 << 60) - random.below(3) as u64 + 1,
        3 => random.below(4000) as u64,
        _ => random.word(),
    }
}

/// One number of a part changed: by one, or to any.
fn change(table: &mut Table, random: &mut Random) {
    let (count, new, up) = (table.count, number(table.count, random), random.one_in(2));
    let by_one = random.one_in(3);
    let rows = (count as usize).clamp(1, table.levels.part().len());
    let step = |old: u64| {
        if !by_one {
            new
        } else if up {
            old.wrapping_add(1)
        } else {
            old.wrapping_sub(1)
        }
    };
    match random.below(8) {
        0..=3 => {
            let i = random.below(rows * FIELDS);
            let c = &mut table.fields.part_mut()[i];
            *c = step(u64::from(*c)) as u16;
        }
        4 | 5 => {
            let i = random.below(rows * NUMBERS);
            let c = &mut table.numbers.part_mut()[i];
            *c = step(*c);
        }
        6 => {
            let i = random.below(rows);
            let c = &mut table.levels.part_mut()[i];
            *c = step(*c as u64) as i32;
        }
        _ => {
            let i = random.below(rows * ENTRIES);
            let c = &mut table.ancestors.part_mut()[i];
            *c = step(u64::from(*c)) as u16;
        }
    }
}

/// A tree's record changed: the root of a row, or the entry that names a row's tree.
fn change_tree(table: &mut Table, random: &mut Random) {
    let rows = (table.count as usize).clamp(1, table.levels.part().len());
    let (row, new) = (random.below(rows), [NONE, 0, table.count, random.below(rows) as u16, random.word() as u16][random.below(5)]);
    if random.one_in(2) {
        table.fields.part_mut()[FIELDS * row + ROOT] = new;
    } else {
        table.ancestors.part_mut()[ENTRIES * row + TREE] = new;
    }
}

/// A face changed, of any row or of a root: to the other one, or to none.
fn change_face(table: &mut Table, random: &mut Random) {
    let rows = (table.count as usize).clamp(1, table.levels.part().len());
    let row = root(table, random) as usize;
    let row = if row < rows && random.one_in(2) { row } else { random.below(rows) };
    table.fields.part_mut()[FIELDS * row + FACE] = if random.one_in(2) { 1 } else { faces::ODD[random.below(4)] };
}

/// A table filled with anything; links often lie below the count, so that calls go on.
fn filled(capacity: usize, random: &mut Random) -> Table {
    let mut table = Table::new(capacity, true);
    table.count = random.below(capacity + 1) as u16;
    let count = table.count;
    table.fields.part_mut().iter_mut().for_each(|c| *c = number(count, random) as u16);
    table.numbers.part_mut().iter_mut().for_each(|c| *c = number(count, random) % (1 << (8 + random.below(56))));
    table.levels.part_mut().iter_mut().for_each(|c| *c = random.below(9) as i32 - 4);
    table.ancestors.part_mut().iter_mut().for_each(|c| *c = number(count, random) as u16);
    table.tally.part_mut().iter_mut().for_each(|c| *c = random.below(capacity + 2) as u16);
    table
}

fn damaged(pool: &[Table], random: &mut Random) -> Table {
    if random.one_in(10) {
        return filled(1 + random.below(12), random);
    }
    let mut table = pool[random.below(pool.len())].clone();
    match random.below(10) {
        0 => table.count = [table.count.wrapping_sub(1), table.count + 1, 0, 65535, random.word() as u16][random.below(5)],
        1 => change_tree(&mut table, random),
        2 => (0..20).for_each(|_| change(&mut table, random)),
        3 => (0..4).for_each(|_| change(&mut table, random)),
        4..=7 => change(&mut table, random),
        8 => change_face(&mut table, random),
        _ => (),
    }
    recount(&mut table, random);
    table
}

/// The tally mostly true of what the rows hold now, so that other damage is told; else damaged too, or as it was.
fn recount(table: &mut Table, random: &mut Random) {
    match (random.below(4), tally::of(table)) {
        (0, _) => places::change_tally(table, random),
        (1..=2, Some(tally)) => table.tally.part_mut().copy_from_slice(&tally),
        _ => (),
    }
}

fn node(count: u16, random: &mut Random) -> u16 {
    if random.one_in(12) {
        random.word() as u16
    } else {
        random.below((count as usize).clamp(1, 40)) as u16
    }
}

/// A node that mostly is the root of its tree, where that can be told.
fn root(t: &Table, random: &mut Random) -> u16 {
    let x = node(t.count, random);
    let told = x < t.count && t.count as usize <= t.levels.part().len() && !random.one_in(6);
    if told {
        t.root_of(x)
    } else {
        x
    }
}

/// A growth that is as it was read, and on a table that passes is served or refused as the plain list does it.
fn grown(call: &str, marks: Marks, tables: (&Table, &Table), good: Option<Reply<u16>>, found: Reply<Grown>, read: Reply<Grown>) {
    let (before, after) = tables;
    equal(found, read, || format!("{call} on a damaged table"));
    check(found.is_err() || marks.are_left(before, after), || format!("labels, faces and tally after {call} on a damaged table"));
    if let Some(expected) = good {
        equal(found.map(|g| g.node), expected, || format!("{call} on a table that passes"));
        check(found.is_err() || rules::passes(after), || format!("{call} broke the rules"));
    }
}

fn grow(table: &Table, good: bool, random: &mut Random) {
    let length = if random.one_in(12) { GROWTH_SCRATCH - 1 } else { GROWTH_SCRATCH };
    let table = &Table { growth_scratch: Lent::new(length, random.word() as u16), ..table.clone() };
    let plain = good.then(|| rules::plain(table));

    let (mut leaf, parent, label) = (table.clone(), node(table.count, random), [1, 7, 9999, 10000][random.below(4)]);
    let face = faces::any(random);
    let found = leaf.add_leaf(parent, label, face);
    let expected = plain.clone().map(|mut p| p.add_leaf(length, parent, label, face));
    let read = Reading::of(table).add_leaf(parent, label, face);
    grown("leaf", Marks::leaf(label, face), (table, &leaf), expected, found, read);

    let mut first = table.clone();
    let found = first.add_first();
    let expected = plain.clone().map(|mut p| p.add_first(length));
    grown("first node", Marks::FIRST, (table, &first), expected, found, Reading::of(table).add_first());

    let (mut over, x, opening) = (table.clone(), root(table, random), Opening::any([1, 7, 9999, 10000][random.below(4)], random));
    let found = over.add_root(x, opening);
    let expected = plain.clone().map(|mut p| p.add_root(length, x, opening.label()));
    let read = Reading::of(table).add_root(x, opening.label());
    grown(&format!("new root with {opening:?}"), Marks::over(x, opening), (table, &over), expected, found, read);
}

/// A link is served exactly where nothing else refuses it and inspection passes.
fn link(table: &Table, good: bool, random: &mut Random) {
    let capacity = table.levels.part().len();
    let length = if random.one_in(12) { capacity + 1 } else { capacity };
    let mut scratch = Lent::new(length, random.word() as u16);
    let (mut linked, x, v, label) = (table.clone(), root(table, random), node(table.count, random), [1, 9, 9999, 0][random.below(4)]);
    let found = linked.link(&mut scratch, x, v, label);
    let read = Reading::of(table).link(length, x, v, label);
    let expected = if good { read } else { read.and(Err(4)) };
    equal(found.map(|l| l.head), expected.map(u32::from), || format!("link {x} {v}"));
    if good {
        let mut plain = rules::plain(table);
        let expected = plain.link(length, x, v, label);
        equal(found.map(|_| ()), expected.map(|_| ()), || format!("link {x} {v} on a table that passes"));
        check(rules::passes(&linked), || "a link broke the rules".into());
        check(rules::plain(&linked).same_trees(&plain), || format!("the plain trees after link {x} {v}"));
    }
}

fn ask(table: &Table, good: bool, random: &mut Random) {
    let (x, y) = (node(table.count, random), node(table.count, random));
    let (query, alike) = (table.query(x, y), table.alike(x, y));
    equal(query, Reading::of(table).question(x, y), || format!("question {x} {y} on a damaged table"));
    equal(alike, Reading::of(table).alike(x, y), || format!("alike {x} {y} on a damaged table"));
    if good {
        let plain = rules::plain(table);
        equal(query, plain.query(x, y), || format!("question {x} {y} on a table that passes"));
        equal(alike, plain.alike(x, y), || format!("alike {x} {y} on a table that passes"));
    }
}

/// Runs all calls on a table; whether it passes inspection.
fn run(table: &Table, random: &mut Random) -> bool {
    let good = rules::passes(table);
    let mut scratch = Lent::new(table.levels.part().len(), random.word() as u16);
    equal(table.inspect(&mut scratch), Ok(good as u16), || format!("inspection of {} rows", table.count));
    (0..2).for_each(|_| ask(table, good, random));
    grow(table, good, random);
    link(table, good, random);
    good
}

pub fn tables() -> String {
    let mut random = Random::new(4);
    let pool = pool(&mut random);
    let good = (0..DAMAGED).filter(|_| run(&damaged(&pool, &mut random), &mut random)).count();
    format!("{DAMAGED} tables, {good} of which still pass inspection")
}

pub fn unreachable() -> String {
    let mut random = Random::new(5);
    let pool = pool(&mut random);
    let good = (0..VARIANTS).filter(|_| run(&variants::of(&pool[random.below(POOL)], &mut random), &mut random)).count();
    format!("{VARIANTS} tables, {good} of which pass inspection")
}
