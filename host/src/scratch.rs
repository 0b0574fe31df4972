//! Growth's scratch (document 02, M-106): by hand every length about 32 and about the capacity, and those of links and inspections; and lists of calls on
//! tables side by side whose growths are lent scratches of several lengths, with anything in them.

use crate::checks::{check, equal};
use crate::engine::{Opening, Reply, Table, GROWTH_SCRATCH, NONE};
use crate::hand::{empty, two_trees_at};
use crate::lent::Lent;
use crate::lists::{List, Mix, Shape, MIXES, SHAPES};
use crate::outside::{capacity, Growth};
use crate::random::Random;

const LARGEST: usize = 32_768;
const LONG: [usize; 2] = [4_096, 65_536];

/// Lengths that are tried at a capacity, fewer of them at the largest.
fn tried(capacity: usize) -> Vec<usize> {
    let near = if capacity == LARGEST { 30..=34 } else { 0..=40 };
    let mut lengths: Vec<usize> = near.chain([0, capacity - 1, capacity, capacity + 1, 2 * capacity]).chain(LONG).collect();
    lengths.sort();
    lengths.dedup();
    lengths
}

/// Each growth with each length: refusal 3 where that is too short, whatever else there is to refuse; from 32 on what is said here.
fn grow_each(table: &Table, said: &[(Growth, Reply<u16>)]) {
    for (length, (growth, reply)) in tried(capacity(table)).into_iter().flat_map(|length| said.iter().map(move |s| (length, s))) {
        let mut grown = Table { growth_scratch: Lent::new(length, 7), ..table.clone() };
        let expected = if length < GROWTH_SCRATCH { Err(3) } else { *reply };
        let what = || format!("{growth:?} on {} rows at capacity {} with a scratch of {length}", table.count, capacity(table));
        equal(growth.call(&mut grown).map(|g| g.node), expected, what);
    }
}

/// A first node, and leaves under it.
fn star(capacity: usize, rows: u16) -> Table {
    let (mut table, _) = empty(capacity);
    equal(table.add_first().map(|g| g.node), Ok(0), || "a first node".into());
    (1..rows).for_each(|x| equal(table.add_leaf(0, 3, 0).map(|g| g.node), Ok(x), || "a leaf".into()));
    table
}

/// Every growth of an empty table.
fn growths_of_none(capacity: usize) {
    let (leaf, root) = (Growth::Leaf(0, 0, 2), Growth::Root(0, Opening::of(0)));
    grow_each(&empty(capacity).0, &[(Growth::First, Ok(0)), (leaf, Err(1)), (root, Err(1))]);
}

/// Every growth of a table with a row left, of a full one, and of one whose count is above the capacity.
fn growths(capacity: usize) {
    let (none, odd) = (Opening::NONE, Opening::of(0));
    let (first, leaf, root) = (Growth::First, Growth::Leaf(0, 3, 1), Growth::Root(0, none));
    let full = star(capacity, capacity as u16);
    let before = [(Growth::Leaf(0, 0, 2), Err(5)), (Growth::Leaf(0, 3, 2), Err(13)), (Growth::Root(0, odd), Err(5))];
    grow_each(&full, &[(first, Err(2)), (leaf, Err(2)), (root, Err(2)), before[0], before[1], before[2]]);
    let over = Table { count: capacity as u16 + 1, ..full };
    grow_each(&over, &[(first, Err(4)), (leaf, Err(4)), (root, Err(4)), before[0], before[1], before[2]]);
    if capacity > 2 {
        let new = capacity as u16 - 1;
        let served = [(first, Ok(new)), (leaf, Ok(new)), (root, Ok(new)), (Growth::Root(0, Opening::of(7)), Ok(new))];
        let unknown = [(Growth::Leaf(new, 0, 2), Err(1)), (Growth::Root(new, odd), Err(1)), (Growth::Root(1, none), Err(10))];
        grow_each(&star(capacity, new), &[&served[..], &unknown, &before].concat());
    }
}

/// Links and inspections keep theirs, which has the capacity: with any other length refusal 3, whatever else there is to refuse.
fn others(capacity: usize) {
    let (table, _) = two_trees_at(capacity);
    let links = [((2, 0, 5), Ok(())), ((3, 0, 0), Err(1)), ((1, 2, 0), Err(5)), ((1, 2, 5), Err(10)), ((0, 1, 5), Err(11))];
    for length in tried(capacity) {
        let fits = |reply: Reply<()>| if length == capacity { reply } else { Err(3) };
        let what = |call: &str| format!("{call} at capacity {capacity} with a scratch of {length}");
        for ((x, v, label), reply) in links {
            let found = table.clone().link(&mut Lent::new(length, 7), x, v, label);
            equal(found.map(|_| ()), fits(reply), || what(&format!("link {x} {v} {label}")));
        }
        equal(table.inspect(&mut Lent::new(length, 7)).map(|_| ()), fits(Ok(())), || what("inspection"));
    }
}

pub fn lengths() -> String {
    [1, 8, 31, 32, 33, 128, LARGEST].into_iter().for_each(growths_of_none);
    [1, 8, 31, 32, 33, 128].into_iter().for_each(growths);
    [8, 31, 32, 33, 128, LARGEST].into_iter().for_each(others);
    "7 capacities".into()
}

/// A list of calls, and the numbers that it is drawn from.
struct Side {
    list: List,
    random: Random,
}

impl Side {
    /// From one seed the same list, set up over the same filling, whatever growth is lent: any numbers, often such as a table has.
    fn new(seed: u64, length: usize, (capacity, shape, mix): (usize, Shape, Mix)) -> Side {
        let (mut random, mut filling) = (Random::new(seed), Random::new((seed << 20) + length as u64));
        let mut list = List::new(capacity, shape, mix, &mut random);
        list.table.growth_scratch = Lent::new(length, 0);
        for number in list.table.growth_scratch.part_mut() {
            *number = [0, NONE, filling.below(64) as u16, filling.word() as u16][filling.below(4)];
        }
        Side { list, random }
    }
}

/// The same list on several tables, whose growths are lent 32 numbers, 33, as many as the capacity, or many more.
struct Sides {
    sides: Vec<Side>,
}

impl Sides {
    fn new(seed: u64, given: (usize, Shape, Mix)) -> Sides {
        let capacity = Some(given.0).filter(|c| *c > GROWTH_SCRATCH + 1);
        let lengths = [GROWTH_SCRATCH, GROWTH_SCRATCH + 1].into_iter().chain(capacity).chain(LONG);
        Sides { sides: lengths.map(|length| Side::new(seed, length, given)).collect() }
    }

    /// A call of each, all outcomes of which are the plain list's; growths and links say the same of rows and heads too.
    fn call(&mut self, call: fn(&mut List, &mut Random)) {
        self.sides.iter_mut().for_each(|side| call(&mut side.list, &mut side.random));
        self.compare("outcomes", |one, other| one.said == other.said && one.table.count == other.table.count);
    }

    /// Every number of every part, of rows that are not in use too.
    fn same_parts(&self) {
        self.compare("parts", |one, other| one.table.same_parts(&other.table));
    }

    fn compare(&self, what: &str, same: impl Fn(&List, &List) -> bool) {
        let lent = |side: &Side| side.list.table.growth_scratch.part().len();
        let (one, others) = self.sides.split_first().expect("a table");
        for other in others {
            let say = || format!("{what} with scratches of {} and {}, {} nodes", lent(one), lent(other), one.list.plain.count());
            check(same(&one.list, &other.list), say);
        }
    }

    fn count(&self) -> usize {
        self.sides[0].list.plain.count()
    }
}

/// Lists at capacities to 1,024, every part compared after every call.
pub fn side_by_side() -> String {
    let (mut lists, mut tables) = (0, 0);
    for capacity in (1..=20).chain([31, 32, 33, 34, 128, 1024]) {
        for (round, shape) in SHAPES.into_iter().enumerate().take(if capacity > 128 { 2 } else { 6 }) {
            let mut sides = Sides::new(106 + lists, (capacity, shape, MIXES[(capacity + round) % 4]));
            for _ in 0..2 * capacity + 8 {
                sides.call(List::call);
                sides.same_parts();
            }
            (lists, tables) = (lists + 1, tables + sides.sides.len());
        }
    }
    format!("{lists} lists on {tables} tables")
}

/// A list at capacity 32,768 to the last row, the parts compared now and then; then growths of the full table.
pub fn large() -> String {
    let mut sides = Sides::new(107, (LARGEST, Shape::Uniform, Mix { firsts: 300, roots: 20, links: 2_000 }));
    for call in 0.. {
        sides.call(List::grow);
        if call % 2_048 == 0 {
            sides.same_parts();
        }
        if sides.count() == LARGEST {
            break;
        }
    }
    (0..40).for_each(|_| sides.call(List::call));
    sides.same_parts();
    let full = Table { watched: true, ..sides.sides[0].list.table.clone() };
    let root = Growth::Root(full.root_of(0), Opening::NONE);
    grow_each(&full, &[(Growth::First, Err(2)), (Growth::Leaf(0, 3, 1), Err(2)), (root, Err(2))]);
    format!("1 list on {} tables", sides.sides.len())
}
