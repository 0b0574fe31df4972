//! Random lists of calls, from set-up over anything: every outcome held against the plain list, and for smaller tables against the stored trees; after
//! every call, refused ones too, all numbers of the tally against a full count of the plain list's labels, and for smaller tables all faces.

use crate::cases;
use crate::checks::{check, equal};
use crate::engine::{Grown, Linked, Opening, Reply, Table, GROWTH_SCRATCH};
use crate::faces;
use crate::lent::Lent;
use crate::plain::Plain;
use crate::random::Random;
use crate::rules;
use crate::stored::Stored;
use crate::tally;

/// How parents are chosen.
#[derive(Clone, Copy, Debug)]
pub enum Shape {
    Uniform,
    Chain,
    Star,
    Recent,
    Binary,
    Caterpillar,
}

pub const SHAPES: [Shape; 6] = [Shape::Uniform, Shape::Chain, Shape::Star, Shape::Recent, Shape::Binary, Shape::Caterpillar];

impl Shape {
    /// A node below `count`, which is not 0.
    pub fn parent(self, count: usize, random: &mut Random) -> usize {
        match self {
            Shape::Uniform => random.below(count),
            Shape::Chain => count - 1,
            Shape::Star => 0,
            Shape::Recent => count - 1 - random.below(count.min(8)),
            Shape::Binary => (count - 1) / 2,
            Shape::Caterpillar => (count - 1) & !1,
        }
    }
}

/// How often a growth is of a kind: one in so many.
#[derive(Clone, Copy)]
pub struct Mix {
    pub firsts: usize,
    pub roots: usize,
    pub links: usize,
}

/// One tree as in document 01; several, seldom and often linked; many small ones.
pub const MIXES: [Mix; 4] = [
    Mix { firsts: NEVER, roots: 5, links: NEVER },
    Mix { firsts: 10, roots: 20, links: 40 },
    Mix { firsts: 4, roots: NEVER, links: 3 },
    Mix { firsts: 2, roots: 4, links: 8 },
];

const NEVER: usize = usize::MAX;

/// How many calls of a kind were served.
#[derive(Clone, Copy, Default)]
struct Served {
    links: usize,
    /// New roots through openings.
    openings: usize,
    /// Leaves of face 1.
    backs: usize,
}

impl Served {
    fn add(&mut self, more: Served) {
        self.links += more.links;
        self.openings += more.openings;
        self.backs += more.backs;
    }

    fn say(self) -> String {
        format!("{} links, {} openings, {} leaves of face 1", self.links, self.openings, self.backs)
    }
}

/// One list under way: the engine's table and the models beside it.
pub struct List {
    pub table: Table,
    pub plain: Plain,
    stored: Option<Stored>,
    scratch: Lent<u16>,
    capacity: usize,
    shape: Shape,
    mix: Mix,
    total: u64,
    /// A node that is added counts once, and once more in each link that moves it.
    joinings: u64,
    served: Served,
    /// What the last growth and the last link said.
    pub said: (Option<Reply<Grown>>, Option<Reply<Linked>>),
}

impl List {
    pub fn new(capacity: usize, shape: Shape, mix: Mix, random: &mut Random) -> List {
        let small = capacity <= 128;
        List {
            table: Table::set_up_over(capacity, small, random),
            plain: Plain::new(capacity),
            stored: (capacity <= 1024).then(Stored::new),
            scratch: Lent::new(capacity, random.word() as u16),
            capacity,
            shape,
            mix,
            total: 0,
            joinings: 0,
            served: Served::default(),
            said: (None, None),
        }
    }

    /// The scratch of a link or an inspection, now and then of another length.
    fn lend(&mut self, random: &mut Random) -> Lent<u16> {
        if !random.one_in(24) {
            return self.scratch.clone();
        }
        let lengths = [0, 1, self.capacity - 1, self.capacity + 1, 2 * self.capacity, GROWTH_SCRATCH];
        Lent::new(lengths[random.below(lengths.len())], random.word() as u16)
    }

    /// A node, now and then one that is not there.
    fn node(&self, random: &mut Random) -> u16 {
        let count = self.plain.count();
        if count == 0 || random.one_in(24) {
            return [count as u16, count as u16 + 1, 32768, 65535][random.below(4)];
        }
        random.below(count) as u16
    }

    /// A label out of few, so that lists of labels meet and entries of the tally tie; now and then any, at the limits or past them.
    fn label(random: &mut Random) -> u16 {
        if random.one_in(24) {
            [0, 9999, 10000, 65535][random.below(4)]
        } else if random.one_in(24) {
            1 + random.below(9999) as u16
        } else {
            1 + random.below(2) as u16
        }
    }

    /// Mostly a root, of any tree.
    fn root(&self, random: &mut Random) -> u16 {
        let x = self.node(random);
        if (x as usize) < self.plain.count() && !random.one_in(12) {
            self.plain.root_of(x)
        } else {
            x
        }
    }

    /// A growth or a link; now and then growth has a scratch of another length, which may be too short.
    pub fn grow(&mut self, random: &mut Random) {
        if !random.one_in(24) {
            return self.grow_any(random);
        }
        let lengths = [0, 1, GROWTH_SCRATCH - 1, GROWTH_SCRATCH + 1, self.capacity, 2 * self.capacity];
        let other = Lent::new(lengths[random.below(lengths.len())], random.word() as u16);
        let kept = std::mem::replace(&mut self.table.growth_scratch, other);
        self.grow_any(random);
        self.table.growth_scratch = kept;
    }

    fn grow_any(&mut self, random: &mut Random) {
        let count = self.plain.count();
        if count == 0 && !random.one_in(8) || random.one_in(self.mix.firsts) {
            self.add_first(random)
        } else if random.one_in(self.mix.roots) {
            self.add_root(random)
        } else if random.one_in(self.mix.links) {
            self.link(random)
        } else {
            self.add_leaf(random)
        }
    }

    fn add_first(&mut self, random: &mut Random) {
        let (found, expected) = (self.table.add_first(), self.plain.add_first(self.table.growth_scratch.part().len()));
        self.grown("first node", found, expected, random, |stored| stored.add_first());
    }

    fn add_leaf(&mut self, random: &mut Random) {
        let count = self.plain.count();
        let parent = if count == 0 || random.one_in(24) { self.node(random) } else { self.shape.parent(count, random) as u16 };
        self.add_leaf_under(parent, random);
    }

    fn add_leaf_under(&mut self, parent: u16, random: &mut Random) {
        let (label, face) = (List::label(random), faces::any(random));
        let found = self.table.add_leaf(parent, label, face);
        let expected = self.plain.add_leaf(self.table.growth_scratch.part().len(), parent, label, face);
        self.served.backs += (found.is_ok() && face == 1) as usize;
        self.grown("leaf", found, expected, random, |stored| stored.add_leaf(parent, label, face));
    }

    fn add_root(&mut self, random: &mut Random) {
        let (x, opening) = (self.root(random), Opening::any(List::label(random), random));
        let found = self.table.add_root(x, opening);
        let expected = self.plain.add_root(self.table.growth_scratch.part().len(), x, opening.label());
        self.served.openings += (found.is_ok() && opening.label().is_some()) as usize;
        self.grown(&format!("new root over {x} with {opening:?}"), found, expected, random, |stored| stored.add_root(x, opening.label()));
    }

    /// What a growth gave, against both models.
    fn grown(
        &mut self,
        call: &str,
        found: Reply<Grown>,
        expected: Reply<u16>,
        random: &mut Random,
        model: impl FnOnce(&mut Stored) -> Grown,
    ) {
        self.said.0 = Some(found);
        equal(found.map(|g| g.node), expected, || self.describe(call));
        equal(self.table.count as usize, self.plain.count(), || "the count".into());
        self.tallied(call);
        let Ok(grown) = found else { return };
        if let Some(stored) = &mut self.stored {
            let expected = model(stored);
            equal(grown, expected, || self.describe(call));
        }
        self.renumbered(u64::from(grown.rows), 1, random);
    }

    fn link(&mut self, random: &mut Random) {
        let x = self.root(random);
        let v = self.other(x, false, random);
        self.link_under(x, v, random);
    }

    fn link_under(&mut self, x: u16, v: u16, random: &mut Random) {
        let (mut scratch, label) = (self.lend(random), List::label(random));
        let fits = scratch.part().len();
        let found = self.table.link(&mut scratch, x, v, label);
        let expected = self.plain.link(fits, x, v, label);
        self.said.1 = Some(found);
        equal(found.map(|_| ()), expected.map(|_| ()), || self.describe(&format!("link {x} {v}")));
        self.tallied("link");
        let (Ok(linked), Ok(joined)) = (found, expected) else { return };
        self.served.links += 1;
        if let Some(stored) = &mut self.stored {
            let expected = stored.link(x, v, label);
            equal((linked, joined), expected, || self.describe(&format!("link {x} {v}")));
        }
        self.renumbered(u64::from(linked.rows), joined as u64, random);
    }

    /// After each call that joined nodes: the total, the stored trees and an inspection.
    fn renumbered(&mut self, rows: u64, joined: u64, random: &mut Random) {
        self.total += rows;
        self.joinings += joined;
        check(self.total <= 120 * self.joinings, || format!("{} rows renumbered for {} joinings", self.total, self.joinings));
        if let Some(stored) = &self.stored {
            if self.capacity <= 40 || random.one_in(40) {
                check(stored.is_held_by(&self.table), || self.describe("the stored trees"));
            }
        }
        if self.capacity <= 128 || self.plain.count().is_power_of_two() {
            self.inspect(random);
        }
    }

    /// After each call: the tally is the full count, and in smaller tables the faces are those that the calls set.
    fn tallied(&self, call: &str) {
        check(self.table.tally.part() == tally::count(self.plain.all_labels()), || self.describe(&format!("the tally after {call}")));
        if self.capacity <= 1024 {
            self.faced(call);
        }
    }

    fn faced(&self, call: &str) {
        check(faces::of(&self.table) == self.plain.all_faces(), || self.describe(&format!("the faces after {call}")));
    }

    fn describe(&self, what: &str) -> String {
        format!("{what}, {} nodes at capacity {}, {:?}", self.plain.count(), self.capacity, self.shape)
    }

    /// Another node, mostly of x's tree, or mostly of another one.
    fn other(&self, x: u16, kindred: bool, random: &mut Random) -> u16 {
        let mut y = self.node(random);
        let count = self.plain.count();
        for _ in 0..4 {
            let known = (x as usize) < count && (y as usize) < count;
            if known && (self.plain.root_of(x) == self.plain.root_of(y)) != kindred && !random.one_in(8) {
                y = self.node(random);
            }
        }
        y
    }

    pub fn ask(&mut self, random: &mut Random) {
        let x = self.node(random);
        let y = if random.one_in(8) { x } else { self.other(x, true, random) };
        equal(self.table.query(x, y), self.plain.query(x, y), || self.describe(&format!("question {x} {y}")));
        self.tallied("question");
    }

    pub fn compare(&mut self, random: &mut Random) {
        let x = self.node(random);
        let y = self.other(x, true, random);
        equal(self.table.alike(x, y), self.plain.alike(x, y), || self.describe(&format!("alike {x} {y}")));
        self.tallied("alike");
    }

    pub fn inspect(&mut self, random: &mut Random) {
        let mut scratch = self.lend(random);
        let expected = if scratch.part().len() == self.capacity { Ok(1) } else { Err(3) };
        equal(self.table.inspect(&mut scratch), expected, || self.describe("inspection"));
        self.tallied("inspection");
        self.faced("inspection");
    }

    /// Calls that are lent a tally of another length.
    fn misfit(&mut self, random: &mut Random) {
        let (mut scratch, x, v, label) = (self.lend(random), self.node(random), self.node(random), List::label(random));
        let length = tally::MISFITS[random.below(tally::MISFITS.len())];
        let kept = std::mem::replace(&mut self.table.tally, Lent::new(length, random.word() as u16));
        cases::refused(&mut self.table, &mut scratch, (x, v, label), || format!("a tally of {length} numbers"));
        self.table.tally = kept;
        self.tallied("a misfit");
    }

    /// One call of any kind.
    pub fn call(&mut self, random: &mut Random) {
        match random.below(32) {
            0..=15 => self.grow(random),
            16..=23 => self.ask(random),
            24..=27 => self.compare(random),
            28 => self.misfit(random),
            _ => self.inspect(random),
        }
    }
}

/// Small trees: every pair is asked, and the naive rules look at every table.
pub fn small() -> String {
    let (mut random, mut served) = (Random::new(1), Served::default());
    for round in 0..480 {
        let capacity = 1 + round % 20;
        let mut list = List::new(capacity, SHAPES[round % 6], MIXES[round / 6 % 4], &mut random);
        for _ in 0..3 * capacity + 4 {
            list.call(&mut random);
            check(rules::passes(&list.table), || "the naive rules refuse a table".into());
        }
        for x in 0..=list.plain.count() as u16 {
            for y in 0..=list.plain.count() as u16 {
                equal(list.table.query(x, y), list.plain.query(x, y), || format!("question {x} {y}"));
                equal(list.table.alike(x, y), list.plain.alike(x, y), || format!("alike {x} {y}"));
            }
        }
        served.add(list.served);
    }
    format!("480 lists, {}", served.say())
}

/// Lists at capacities between, the stored trees beside them.
pub fn middle() -> String {
    let (mut random, mut served) = (Random::new(2), Served::default());
    for (round, capacity) in [40, 64, 100, 127, 128, 129, 200, 256, 500, 1000, 1024].into_iter().enumerate() {
        for shape in SHAPES {
            let mut list = List::new(capacity, shape, MIXES[(round + shape as usize) % 4], &mut random);
            for _ in 0..capacity * 5 / 2 {
                if capacity <= 128 || random.one_in(2) {
                    list.call(&mut random)
                } else {
                    list.grow(&mut random)
                }
            }
            served.add(list.served);
        }
    }
    format!("66 lists, {}", served.say())
}

/// Large capacities to the last row, new roots, first nodes and links among the leaves, and links once it is full.
pub fn large() -> String {
    const LARGE: [Mix; 3] = [
        Mix { firsts: 300, roots: 20, links: 200 },
        Mix { firsts: 1000, roots: 50, links: 600 },
        Mix { firsts: 40, roots: 100_000, links: 100 },
    ];
    let (mut random, mut most, mut served) = (Random::new(3), 0f64, Served::default());
    for (round, shape) in SHAPES.into_iter().enumerate() {
        let capacity = [32768, 5000, 32768, 20000, 32768, 32768][round];
        let mut list = List::new(capacity, shape, LARGE[round % 3], &mut random);
        while list.plain.count() < capacity {
            list.grow(&mut random);
            if random.one_in(8) {
                list.ask(&mut random);
            }
            if random.one_in(64) {
                list.compare(&mut random);
            }
        }
        (0..40).for_each(|_| list.grow(&mut random));
        (0..100).for_each(|_| list.link(&mut random));
        list.inspect(&mut random);
        (0..2000).for_each(|_| list.ask(&mut random));
        most = most.max(list.total as f64 / list.joinings as f64);
        served.add(list.served);
    }
    format!("6 lists, {}, at most {most:.1} rows renumbered for each joining", served.say())
}

/// Two trees that fill a table of 32,768 rows, the second linked under the last node of the first.
pub fn halves() -> String {
    const HALF: usize = 16384;
    let (mut random, mut most) = (Random::new(9), 0f64);
    for shape in [Shape::Uniform, Shape::Chain, Shape::Binary] {
        let mut list = List::new(2 * HALF, shape, MIXES[0], &mut random);
        for first in [0, HALF] {
            while list.plain.count() == first {
                list.add_first(&mut random);
            }
            while list.plain.count() < first + HALF {
                let parent = first + shape.parent(list.plain.count() - first, &mut random);
                list.add_leaf_under(parent as u16, &mut random);
            }
        }
        while list.plain.is_root(HALF as u16) {
            list.link_under(HALF as u16, HALF as u16 - 1, &mut random);
        }
        list.inspect(&mut random);
        (0..1000).for_each(|_| list.ask(&mut random));
        most = most.max(list.total as f64 / list.joinings as f64);
    }
    format!("3 lists, at most {most:.1} rows renumbered for each joining")
}
