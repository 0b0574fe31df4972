//! What stays as it was (document 02, M-101). After a served growth every row other than the head and those below it is unchanged in every number, but for
//! eight named exceptions; after a served link so is every row of other trees; after a refused call all is. Of labels and faces a growth changes the new
//! row's and, where it names an opening, the old root's, and a link the linked root's; of the tally a growth changes one entry and a link two, and the last
//! is found anew. The parts are compared over their whole length, the rows not in use among them, which hold anything here. The head answered is the one
//! that document 01's rule gives.
//! At capacities to 1,024 every call is looked at, above that each link and one growth in so many, since a look goes over the whole table.

use crate::checks::{check, equal};
use crate::engine::{Grown, Linked, Opening, Table, FACE, FIELDS};
use crate::faces;
use crate::lent::Lent;
use crate::lists::{Mix, Shape, MIXES, SHAPES};
use crate::marks;
use crate::outside::{below, capacity, changed, first_row, Exception, Growth, Served, EXCEPTIONS};
use crate::random::Random;
use crate::rules;
use crate::tally;
use crate::variants;

const POOL: usize = 120;
const VARIANTS: usize = 20_000;

/// The exceptions that growths of lists of calls meet: a row without children is an apex with s = σ = 1, so the head lies at or above it and no *first* link
/// changes outside the head; and a root's face is 0 already.
const OF_LISTS: [bool; EXCEPTIONS] = [true, true, true, false, true, true, true, false];

/// What was looked at, and what was met there.
#[derive(Default)]
struct Met {
    growths: usize,
    links: usize,
    refused: usize,
    /// Rows in use outside the head, over all growths.
    outside: usize,
    /// Heads that are neither the new row nor row 0.
    between: usize,
    /// Changes outside the head, by exception.
    exceptions: [usize; EXCEPTIONS],
    /// New roots that name no opening and have their old root outside the head, which keeps its label and face.
    kept: usize,
}

impl Met {
    /// A served growth: the new row, the head, and every number of every row outside it.
    fn growth(&mut self, growth: Growth, before: &Table, after: &Table, grown: Grown) {
        let what = |say: String| format!("{growth:?} on {} rows at capacity {}: {say}", before.count, capacity(before));
        equal((grown.node, after.count), (before.count, before.count + 1), || what("the new row".into()));
        equal(grown.head, growth.head(before), || what("the head".into()));
        check(growth.marks().are_left(before, after), || what("labels, faces and tally".into()));
        let (below, served) = (below(after, grown.head), Served::of(growth, after, grown));
        check(below[grown.node as usize], || what("the new row is not below the head".into()));
        equal(below.iter().filter(|b| **b).count(), grown.rows as usize, || what("rows below the head".into()));
        for v in (0..capacity(before)).filter(|v| !below[*v]) {
            self.outside += (v < before.count as usize) as usize;
            for place in changed(before, after, v) {
                match served.exception(v as u16, place) {
                    Some(exception) => self.exceptions[exception as usize] += 1,
                    None => check(false, || what(format!("{place:?} of row {v} changed outside the head {}", grown.head))),
                }
            }
        }
        self.growths += 1;
        self.between += (grown.head != grown.node && grown.head != 0) as usize;
        self.kept += (growth.is_root() && !growth.names_opening() && !below[growth.parent() as usize]) as usize;
    }

    /// A served link: the head, and every number of every row outside the two trees.
    fn link(&mut self, (x, v, label): (u16, u16, u16), before: &Table, after: &Table, linked: Linked) {
        let what = |say: String| format!("link {x} {v} of {} rows at capacity {}: {say}", before.count, capacity(before));
        let (moved, receiving) = (first_row(before, x), first_row(before, v));
        equal(linked.head, u32::from(receiving), || what("the head".into()));
        equal(after.count, before.count, || what("the count".into()));
        check(after.tally.part() == tally::linked(before.tally.part(), label), || what("the tally".into()));
        let mut left = marks::column(before);
        left[x as usize] = (label, 0);
        check(marks::column(after) == left, || what("labels and faces".into()));
        let trees: Vec<bool> = below(before, moved).into_iter().zip(below(before, receiving)).map(|(a, b)| a || b).collect();
        check(below(after, receiving) == trees, || what("the rows of the tree that both became".into()));
        for v in (0..capacity(before)).filter(|v| !trees[*v]) {
            let places = changed(before, after, v);
            check(places.is_empty(), || what(format!("{places:?} of row {v} changed outside the two trees")));
        }
        self.links += 1;
    }

    fn refusal(&mut self, before: &Table, after: &Table) {
        check(before.same_parts(after) && before.count == after.count, || "a refused call changed something".into());
        self.refused += 1;
    }

    /// A growth, looked at or not.
    fn grow(&mut self, growth: Growth, table: &mut Table, look: bool) {
        let before = look.then(|| table.clone());
        let reply = growth.call(table);
        match (before, reply) {
            (None, _) => (),
            (Some(before), Ok(grown)) => self.growth(growth, &before, table, grown),
            (Some(before), Err(_)) => self.refusal(&before, table),
        }
    }

    /// The tree of root x under v.
    fn join(&mut self, (x, v, label): (u16, u16, u16), table: &mut Table, scratch: &mut Lent<u16>) {
        let before = table.clone();
        match table.link(scratch, x, v, label) {
            Ok(linked) => self.link((x, v, label), &before, table, linked),
            Err(_) => self.refusal(&before, table),
        }
    }

    /// Of each exception whether it was met.
    fn has_met(&self) -> [bool; EXCEPTIONS] {
        self.exceptions.map(|times| times > 0)
    }

    fn say(&self) -> String {
        let [size, root, next_free, first, last, next, label, face] = self.exceptions;
        format!(
            "{} growths, {} links and {} refused calls looked at, {} heads neither the new row nor row 0, {} rows in use outside a head; there \
             changed {size} sizes, {root} roots, {next_free} next free numbers, {first} first, {last} last and {next} next links, {label} labels and \
             {face} faces of old roots; {} old roots kept theirs",
            self.growths, self.links, self.refused, self.between, self.outside, self.kept
        )
    }
}

/// An empty table with anything in its rows, none of which is in use.
fn empty(capacity: usize, random: &mut Random) -> Table {
    let mut table = Table::set_up_over(capacity, false, random);
    table.fields.part_mut().iter_mut().for_each(|c| *c = random.word() as u16);
    table.numbers.part_mut().iter_mut().for_each(|c| *c = random.word());
    table.levels.part_mut().iter_mut().for_each(|c| *c = random.word() as i32);
    table.ancestors.part_mut().iter_mut().for_each(|c| *c = random.word() as u16);
    table
}

/// A list under way.
struct List {
    table: Table,
    scratch: Lent<u16>,
    shape: Shape,
    mix: Mix,
}

impl List {
    fn new(capacity: usize, shape: Shape, mix: Mix, random: &mut Random) -> List {
        List { table: empty(capacity, random), scratch: Lent::new(capacity, 0), shape, mix }
    }

    /// A node, now and then the one that is not there yet.
    fn node(&self, random: &mut Random) -> u16 {
        let known = self.table.count as usize;
        let nodes = if random.one_in(24) { known + 1 } else { known };
        random.below(nodes) as u16
    }

    fn root(&self, random: &mut Random) -> u16 {
        let x = self.node(random);
        if x < self.table.count && !random.one_in(12) {
            self.table.root_of(x)
        } else {
            x
        }
    }

    /// Mostly a node of another tree than x's.
    fn other(&self, x: u16, random: &mut Random) -> u16 {
        let (count, mut v) = (self.table.count, self.node(random));
        for _ in 0..8 {
            if x < count && v < count && self.table.root_of(x) == self.table.root_of(v) {
                v = self.node(random);
            }
        }
        v
    }

    fn label(random: &mut Random) -> u16 {
        if random.one_in(24) {
            0
        } else {
            1 + random.below(9) as u16
        }
    }

    /// A link, which is always looked at.
    fn link(&mut self, met: &mut Met, random: &mut Random) {
        let x = self.root(random);
        let v = self.other(x, random);
        met.join((x, v, List::label(random)), &mut self.table, &mut self.scratch);
    }

    /// A growth, looked at or not, or a link.
    fn call(&mut self, met: &mut Met, look: bool, random: &mut Random) {
        let count = self.table.count as usize;
        let growth = if count == 0 || random.one_in(self.mix.firsts) {
            Growth::First
        } else if random.one_in(self.mix.roots) {
            Growth::Root(self.root(random), Opening::any(List::label(random), random))
        } else if random.one_in(self.mix.links) {
            return self.link(met, random);
        } else {
            Growth::Leaf(self.shape.parent(count, random) as u16, List::label(random), faces::any(random))
        };
        met.grow(growth, &mut self.table, look);
    }
}

/// Lists at capacities to 1,024, every call looked at.
pub fn lists() -> String {
    let (mut random, mut met) = (Random::new(12), Met::default());
    for (round, capacity) in (1..=40).chain([64, 100, 128, 129, 256, 500, 1024]).enumerate() {
        for shape in SHAPES {
            let mut list = List::new(capacity, shape, MIXES[(round + shape as usize) % 4], &mut random);
            (0..capacity * 2 + 6).for_each(|_| list.call(&mut met, true, &mut random));
        }
    }
    equal(met.has_met(), OF_LISTS, || "the exceptions that lists of calls meet".into());
    check(met.kept > 0, || "no old root outside the head kept its label".into());
    check(met.between > met.growths / 4, || format!("{} heads of {} are neither the new row nor row 0", met.between, met.growths));
    met.say()
}

/// Lists at capacities to 32,768, and links once the table is full.
pub fn large() -> String {
    const MIX: Mix = Mix { firsts: 300, roots: 10, links: 2_000 };
    let (mut random, mut met) = (Random::new(13), Met::default());
    for (shape, capacity) in SHAPES.into_iter().zip([32768, 5000, 20000, 32768, 32768, 5000]) {
        let mut list = List::new(capacity, shape, MIX, &mut random);
        while (list.table.count as usize) < capacity {
            let look = random.one_in(capacity / 100);
            list.call(&mut met, look, &mut random);
        }
        (0..8).for_each(|_| list.link(&mut met, &mut random));
    }
    equal(met.has_met(), OF_LISTS, || "the exceptions that large tables meet".into());
    met.say()
}

/// Tables that lists of calls leave.
fn pool(random: &mut Random) -> Vec<Table> {
    (0..POOL)
        .map(|i| {
            let mut list = List::new(8 + i % 24, SHAPES[i % 6], MIXES[i / 6 % 4], random);
            let rows = 6 + random.below(capacity(&list.table) - 6) as u16;
            while list.table.count < rows {
                list.call(&mut Met::default(), false, random);
            }
            list.table
        })
        .collect()
}

/// Tables that pass inspection though no list of calls makes them, out of so many that are tried.
fn variants(tried: usize, random: &mut Random) -> Vec<Table> {
    let pool = pool(random);
    let variant = |_| variants::of(&pool[random.below(POOL)], random);
    (0..tried).map(variant).filter(rules::passes).collect()
}

impl Met {
    /// Every growth of a table, and a link of each node.
    fn each(&mut self, table: &Table, random: &mut Random) {
        let mut scratch = Lent::new(capacity(table), 0);
        self.grow(Growth::First, &mut table.clone(), true);
        for x in 0..table.count {
            self.grow(Growth::Leaf(x, 1, x % 2), &mut table.clone(), true);
            for opening in [Opening::NONE, Opening::of(1)] {
                self.grow(Growth::Root(x, opening), &mut table.clone(), true);
            }
            let v = random.below(table.count as usize) as u16;
            self.join((x, v, 1), &mut table.clone(), &mut scratch);
        }
    }
}

/// Tables that pass inspection though no list of calls makes them. Here a *first* link changes outside the head too: a row without children may be the next
/// of a path.
pub fn unreachable() -> String {
    let (mut random, mut met) = (Random::new(14), Met::default());
    let tables = variants(VARIANTS, &mut random);
    tables.iter().for_each(|table| met.each(table, &mut random));
    let mut expected = [true; EXCEPTIONS];
    expected[Exception::Face as usize] = false;
    equal(met.has_met(), expected, || "the exceptions that such tables meet".into());
    check(met.kept > 0, || "no old root outside the head kept its label".into());
    format!("{} tables, {}", tables.len(), met.say())
}

/// The same with a face other than 0 at every root and any at the other rows. No growth looks at a face, but an old root that takes an opening has 0 then,
/// outside the head too; every link is refused.
pub fn odd_faces() -> String {
    let (mut random, mut met) = (Random::new(15), Met::default());
    let mut tables = variants(VARIANTS / 4, &mut random);
    for table in &mut tables {
        for v in 0..table.count {
            let face = if table.root_of(v) == v { 1 + random.below(65535) } else { random.below(65536) };
            table.fields.part_mut()[FIELDS * v as usize + FACE] = face as u16;
        }
        met.each(table, &mut random);
    }
    equal(met.has_met(), [true; EXCEPTIONS], || "the exceptions that tables with odd faces meet".into());
    check(met.kept > 0 && met.links == 0, || format!("{} old roots kept their face, {} links were served", met.kept, met.links));
    format!("{} tables, {}", tables.len(), met.say())
}
