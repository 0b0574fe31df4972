//! Refusal 4 where a row that must be read asks for it, and nowhere else: calls on damaged tables against the naive reading, which says of each whether it
//! is served, with what answer, or else its refusal. What stands in rows that were not read changes nothing.

use std::collections::BTreeMap;

use crate::checks::{check, equal};
use crate::engine::{Grown, Opening, Reply, Table, ENTRIES, FIELDS, GROWTH_SCRATCH, NONE, NUMBERS, TREE};
use crate::faces;
use crate::lent::Lent;
use crate::lists::{List, MIXES, SHAPES};
use crate::marks::Marks;
use crate::places::damaged;
use crate::random::Random;
use crate::reading::{Cause, Reading};
use crate::trees;

const POOL: usize = 240;
const DAMAGED: usize = 20_000;
const UNDAMAGED: usize = 120;

/// The most rows that a question reads.
const MOST: usize = 26;

/// Refusals that each kind of call must have met, 0 where it was served.
const KINDS: [(&str, &[u16]); 8] = [
    ("question", &[0, 1, 3, 4, 12]),
    ("alike", &[0, 1, 3, 4, 12]),
    ("first node", &[0, 2, 3, 4]),
    ("leaf", &[0, 1, 2, 3, 4, 5, 13]),
    ("new root", &[0, 1, 2, 3, 4, 10]),
    ("new root of the first tree", &[0, 2, 4]),
    ("new root through an opening", &[0, 1, 2, 3, 4, 5, 10]),
    ("new root of the first tree through an opening", &[0, 2, 4, 5]),
];

#[derive(Clone, Copy, Debug)]
enum Call {
    Question(u16, u16),
    Alike(u16, u16),
    First,
    Leaf(u16, u16, u16),
    Root(u16, Opening),
    RootOfFirstTree(Opening),
}

/// The values that a call answers.
type Values = Vec<i32>;

fn grown(g: Grown) -> Values {
    vec![g.node.into(), g.rows.into(), g.head.into()]
}

impl Call {
    fn kind(self) -> &'static str {
        let place = match self {
            Call::Question(..) => 0,
            Call::Alike(..) => 1,
            Call::First => 2,
            Call::Leaf(..) => 3,
            Call::Root(_, opening) => 4 + 2 * opening.label().is_some() as usize,
            Call::RootOfFirstTree(opening) => 5 + 2 * opening.label().is_some() as usize,
        };
        KINDS[place].0
    }

    /// What the engine says; the table stays as it is. Document 01's new root has only the form of bytes. A growth that is served leaves the labels, the
    /// faces and the tally that the rules give.
    fn found(self, before: &Table) -> Reply<Values> {
        let mut table = before.clone();
        let (marks, found) = match self {
            Call::Question(x, y) => return table.query(x, y).map(Vec::from),
            Call::Alike(x, y) => return table.alike(x, y).map(|same| vec![same.into()]),
            Call::RootOfFirstTree(opening) => return trees::add_root_to(&table, opening).map(grown),
            Call::First => (Marks::FIRST, table.add_first()),
            Call::Leaf(parent, label, face) => (Marks::leaf(label, face), table.add_leaf(parent, label, face)),
            Call::Root(x, opening) => (Marks::over(x, opening), table.add_root(x, opening)),
        };
        check(found.is_err() || marks.are_left(before, &table), || format!("labels, faces and tally after {self:?}"));
        found.map(grown)
    }

    /// What the naive reading says.
    fn expected(self, reading: &mut Reading) -> Reply<Values> {
        match self {
            Call::Question(x, y) => reading.question(x, y).map(Vec::from),
            Call::Alike(x, y) => reading.alike(x, y).map(|same| vec![same.into()]),
            Call::First => reading.add_first().map(grown),
            Call::Leaf(parent, label, face) => reading.add_leaf(parent, label, face).map(grown),
            Call::Root(x, opening) => reading.add_root(x, opening.label()).map(grown),
            Call::RootOfFirstTree(opening) => reading.add_root_first_tree(opening.label()).map(grown),
        }
    }
}

/// What was met: how often each outcome of a kind, each cause of refusal 4, and answers other than those of the table before it was damaged.
#[derive(Default)]
struct Met {
    outcomes: BTreeMap<(&'static str, u16), usize>,
    causes: BTreeMap<Cause, usize>,
    changed: usize,
}

impl Met {
    fn add(&mut self, call: Call, expected: &Reply<Values>, cause: Option<Cause>, good: Reply<Values>) {
        *self.outcomes.entry((call.kind(), expected.as_ref().err().copied().unwrap_or(0))).or_default() += 1;
        self.changed += (expected.is_ok() && good.is_ok() && *expected != good) as usize;
        if let Some(cause) = cause {
            *self.causes.entry(cause).or_default() += 1;
        }
    }

    fn of(&self, code: u16) -> usize {
        self.outcomes.iter().filter(|((_, c), _)| *c == code).map(|(_, n)| n).sum()
    }

    /// Every kind of call met every outcome that it has, every cause was met, and damage changed answers.
    fn is_whole(&self) -> bool {
        let kinds = KINDS.iter().all(|(kind, codes)| codes.iter().all(|code| self.outcomes.contains_key(&(*kind, *code))));
        kinds && self.causes.len() == Cause::Tally as usize + 1 && self.changed > 0
    }
}

/// Good tables, to be damaged.
fn pool(random: &mut Random) -> Vec<Table> {
    (0..POOL)
        .map(|i| {
            let capacity = if i % 60 == 0 { 700 } else { [1 + random.below(20), 128, 20 + random.below(40), 128][i % 4] };
            let mut list = List::new(capacity, SHAPES[i % 6], MIXES[i / 6 % 4], random);
            (0..random.below(capacity + capacity / 4 + 2)).for_each(|_| list.grow(random));
            Table { watched: true, ..list.table }
        })
        .collect()
}

fn node(count: u16, random: &mut Random) -> u16 {
    if count == 0 || random.one_in(40) {
        [count, count.wrapping_add(1), NONE, random.word() as u16][random.below(4)]
    } else {
        random.below(count as usize) as u16
    }
}

/// Another node, mostly of x's tree, and of its level too where a peer is wanted.
fn other(table: &Table, x: u16, peer: bool, random: &mut Random) -> u16 {
    let (level, tree) = (|x: u16| table.levels.part()[x as usize], |x: u16| table.ancestors.part()[ENTRIES * x as usize + TREE]);
    let kindred = !random.one_in(8);
    let mut y = node(table.count, random);
    for _ in 0..16 {
        let known = x < table.count && y < table.count;
        if known && (kindred && tree(x) != tree(y) || peer && (x == y || level(x) != level(y))) {
            y = node(table.count, random);
        }
    }
    y
}

/// A label whose entry of the tally damage often reaches, now and then one that is refused.
fn label(random: &mut Random) -> u16 {
    if random.one_in(24) {
        [0, 10000][random.below(2)]
    } else {
        [1, 9999][random.below(2)]
    }
}

/// Calls on a table and on what damage makes of it.
fn calls(table: &Table, random: &mut Random) -> Vec<Call> {
    let mut calls = vec![Call::First];
    for _ in 0..3 {
        let x = node(table.count, random);
        calls.push(Call::Question(x, other(table, x, random.one_in(4), random)));
    }
    for _ in 0..2 {
        calls.push(Call::Leaf(node(table.count, random), label(random), faces::any(random)));
    }
    let x = node(table.count, random);
    calls.push(Call::Alike(x, other(table, x, !random.one_in(4), random)));
    let over = if x < table.count && !random.one_in(8) { table.root_of(x) } else { x };
    calls.push(Call::Root(over, Opening::any(label(random), random)));
    if table.levels.part().len() == trees::CAPACITY {
        calls.push(Call::RootOfFirstTree(Opening::any(label(random), random)));
    }
    calls
}

/// A table that has anything in the rows that were not read, and in all entries of the tally but the one that was.
fn scrambled(table: &Table, reading: &Reading, random: &mut Random) -> Table {
    let mut t = table.clone();
    for v in (0..table.levels.part().len()).filter(|v| !reading.has_read(*v as u16)) {
        t.fields.part_mut()[FIELDS * v..][..FIELDS].iter_mut().for_each(|c| *c = random.word() as u16);
        t.numbers.part_mut()[NUMBERS * v..][..NUMBERS].iter_mut().for_each(|c| *c = random.word());
        t.levels.part_mut()[v] = random.word() as i32;
        t.ancestors.part_mut()[ENTRIES * v..][..ENTRIES].iter_mut().for_each(|c| *c = random.word() as u16);
    }
    for (label, entry) in t.tally.part_mut().iter_mut().enumerate() {
        if reading.label != Some(label as u16) {
            *entry = random.word() as u16;
        }
    }
    t
}

/// One call on a damaged table, and on one that differs from it only in rows that are not read.
fn run(call: Call, good: &Table, table: &mut Table, met: &mut Met, random: &mut Random) {
    if matches!(call, Call::RootOfFirstTree(_)) && Reading::of(table).fits() != Ok(trees::CAPACITY) {
        return;
    }
    let shorter = random.one_in(60) && !matches!(call, Call::RootOfFirstTree(_));
    table.growth_scratch = Lent::new(GROWTH_SCRATCH - shorter as usize, random.word() as u16);
    let mut reading = Reading::of(table);
    let expected = call.expected(&mut reading);
    let what = || format!("{call:?} on {} nodes, {:?}", table.count, reading.cause);
    equal(call.found(table), expected.clone(), what);
    if random.one_in(6) && reading.capacity().is_ok() {
        let other = scrambled(table, &reading, random);
        equal(call.found(&other), expected.clone(), || format!("{}, with other rows that it does not read", what()));
    }
    if let Call::Question(..) = call {
        check(reading.rows.len() <= MOST, || format!("{} reads {} rows", what(), reading.rows.len()));
    }
    met.add(call, &expected, reading.cause, call.expected(&mut Reading::of(good)));
}

pub fn damage() -> String {
    let (mut random, mut met, mut asked) = (Random::new(10), Met::default(), 0);
    let pool = pool(&mut random);
    for _ in 0..DAMAGED {
        let good = &pool[random.below(POOL)];
        let calls = calls(good, &mut random);
        let mut reading = Reading::of(good);
        let _ = calls[random.below(calls.len())].expected(&mut reading);
        let mut table = damaged(good, &reading.rows, &mut random);
        asked += calls.len();
        calls.into_iter().for_each(|call| run(call, good, &mut table, &mut met, &mut random));
    }
    check(met.is_whole(), || format!("not all was met: {:?}, {:?}, {} answers changed", met.outcomes, met.causes, met.changed));
    format!(
        "{DAMAGED} tables, {asked} calls, {} served, {} of these with another answer than before, {} refused by 4 for {} causes",
        met.of(0),
        met.changed,
        met.of(4),
        met.causes.len()
    )
}

/// No opening, one that is a label, and two that are none.
const OPENINGS: [Option<u16>; 4] = [None, Some(2), Some(0), Some(10000)];

/// On good tables the naive reading says what the plain list says, of every node and every two.
pub fn undamaged() -> String {
    let mut random = Random::new(11);
    for round in 0..UNDAMAGED {
        let capacity = [1 + round % 20, 40, 128][round % 3];
        let mut list = List::new(capacity, SHAPES[round % 6], MIXES[round / 6 % 4], &mut random);
        (0..random.below(capacity + capacity / 4 + 2)).for_each(|_| list.grow(&mut random));
        let (table, plain) = (&list.table, &list.plain);
        let node = |found: Reply<Grown>| found.map(|g| g.node);
        equal(node(Reading::of(table).add_first()), plain.clone().add_first(GROWTH_SCRATCH), || "first node".into());
        for opening in OPENINGS {
            let over = node(Reading::of(table).add_root_first_tree(opening));
            equal(over, plain.clone().add_root_first_tree(GROWTH_SCRATCH, opening), || format!("new root of the first tree, {opening:?}"));
        }
        for x in 0..=table.count {
            for (label, face) in [(1, 0), (1, 1), (1, 2), (0, 2)] {
                let leaf = node(Reading::of(table).add_leaf(x, label, face));
                equal(leaf, plain.clone().add_leaf(GROWTH_SCRATCH, x, label, face), || format!("leaf {label} {face} under {x}"));
            }
            for opening in OPENINGS {
                let over = node(Reading::of(table).add_root(x, opening));
                equal(over, plain.clone().add_root(GROWTH_SCRATCH, x, opening), || format!("new root over {x}, {opening:?}"));
            }
            for y in 0..=table.count {
                equal(Reading::of(table).question(x, y), plain.query(x, y), || format!("question {x} {y}"));
                equal(Reading::of(table).alike(x, y), plain.alike(x, y), || format!("alike {x} {y}"));
            }
        }
    }
    format!("{UNDAMAGED} tables")
}
