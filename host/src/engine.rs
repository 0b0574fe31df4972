//! The engine's table form (include/vundreli.h), each call checked: guards untouched, on a refusal nothing stored, and growth's scratch as it was.

use crate::checks::check;
use crate::lent::{Lent, Word};
use crate::random::Random;
use crate::raw;
use crate::tally;

pub const NONE: u16 = 65535;
pub const FIELDS: usize = 12;
pub const NUMBERS: usize = 2;
pub const ENTRIES: usize = 122;

/// The shortest scratch that growth takes, at any capacity.
pub const GROWTH_SCRATCH: usize = 32;

/// The places of a row's fields; the root is that of the tree, in its first row.
pub const PARENT: usize = 0;
pub const FIRST: usize = 1;
pub const LAST: usize = 2;
pub const NEXT: usize = 3;
pub const UPPER: usize = 4;
pub const PATH: usize = 5;
pub const SIZE: usize = 6;
pub const SET_SIZE: usize = 7;
pub const DEPTH: usize = 8;
pub const LABEL: usize = 9;
pub const ROOT: usize = 10;
pub const FACE: usize = 11;

/// The places of a row's numbers.
pub const START: usize = 0;
pub const NEXT_FREE: usize = 1;

/// The ancestor entry that is the first row of the tree.
pub const TREE: usize = 121;

/// The fields of a row that set-up leaves.
pub const BLANK: [u16; FIELDS] = [NONE, NONE, NONE, NONE, NONE, NONE, 0, 0, 0, 0, NONE, 0];

/// A table's lent parts and its tally, and its count.
#[derive(Clone)]
pub struct Table {
    pub fields: Lent<u16>,
    pub numbers: Lent<u64>,
    pub levels: Lent<i32>,
    pub ancestors: Lent<u16>,
    pub tally: Lent<u16>,
    /// What growths are lent beside these, as short as may be unless a test lends another. Links and inspections are handed theirs.
    pub growth_scratch: Lent<u16>,
    pub count: u16,
    /// Whether every call compares all parts with a copy made before it: for small tables.
    pub watched: bool,
}

/// What a growth answers: the new node, the rows renumbered, and the row that headed them.
#[derive(Clone, Copy, PartialEq, Debug)]
pub struct Grown {
    pub node: u16,
    pub rows: u16,
    pub head: u16,
}

/// What a link answers: the rows renumbered, and the first row of the receiving stored tree.
#[derive(Clone, Copy, PartialEq, Debug)]
pub struct Linked {
    pub rows: u32,
    pub head: u32,
}

/// What a new root is given: whether it names an opening, 0 for no and any other number for yes, and the opening's number.
#[derive(Clone, Copy, Debug)]
pub struct Opening {
    pub named: u16,
    pub number: u16,
}

impl Opening {
    /// None is named.
    pub const NONE: Opening = Opening { named: 0, number: 0 };

    pub fn of(number: u16) -> Opening {
        Opening { named: 1, number }
    }

    /// Mostly this label, by any yes; else none, with a number that must not be looked at.
    pub fn any(label: u16, random: &mut Random) -> Opening {
        if random.one_in(3) {
            Opening { named: 0, number: [label, 0, 10000, 65535][random.below(4)] }
        } else {
            Opening { named: [1, 2, 256, 65535][random.below(4)], number: label }
        }
    }

    /// The opening that is named.
    pub fn label(self) -> Option<u16> {
        (self.named != 0).then_some(self.number)
    }
}

/// How many places the out slices of growths and links have.
const GROWN: usize = 4;
const LINKED: usize = 2;

/// What a call says, or 01's refusal number.
pub type Reply<T> = Result<T, u16>;

/// A call that may store, with the table's parts and its tally as C takes them: each a pointer and a count. What follows them is written out.
macro_rules! lend_mut {
    ($call:ident, $table:ident, $($rest:expr),*) => {{
        let (f, n, l, a) = ($table.fields.part_mut(), $table.numbers.part_mut(), $table.levels.part_mut(), $table.ancestors.part_mut());
        let w = $table.tally.part_mut();
        unsafe {
            raw::$call(
                f.as_mut_ptr(), f.len(), n.as_mut_ptr(), n.len(), l.as_mut_ptr(), l.len(), a.as_mut_ptr(), a.len(), w.as_mut_ptr(), w.len(), $($rest),*
            )
        }
    }};
}

/// The same of a call that only reads, without the tally, which questions are not lent.
macro_rules! lend {
    ($call:ident, $table:ident, $($rest:expr),*) => {{
        let (f, n, l, a) = ($table.fields.part(), $table.numbers.part(), $table.levels.part(), $table.ancestors.part());
        unsafe { raw::$call(f.as_ptr(), f.len(), n.as_ptr(), n.len(), l.as_ptr(), l.len(), a.as_ptr(), a.len(), $($rest),*) }
    }};
}

impl Table {
    /// Parts that fit a capacity, all zero.
    pub fn new(capacity: usize, watched: bool) -> Table {
        Table {
            fields: Lent::new(FIELDS * capacity, 0),
            numbers: Lent::new(NUMBERS * capacity, 0),
            levels: Lent::new(capacity, 0),
            ancestors: Lent::new(ENTRIES * capacity, 0),
            tally: Lent::new(tally::LENGTH, 0),
            growth_scratch: Lent::new(GROWTH_SCRATCH, 0),
            count: 0,
            watched,
        }
    }

    /// An empty table in parts that were filled with anything.
    pub fn set_up_over(capacity: usize, watched: bool, random: &mut Random) -> Table {
        let mut table = Table::new(capacity, watched);
        table.fields.part_mut().iter_mut().for_each(|c| *c = random.word() as u16);
        table.numbers.part_mut().iter_mut().for_each(|c| *c = random.word());
        table.levels.part_mut().iter_mut().for_each(|c| *c = random.word() as i32);
        table.ancestors.part_mut().iter_mut().for_each(|c| *c = random.word() as u16);
        table.tally.part_mut().iter_mut().for_each(|c| *c = random.word() as u16);
        let reply = table.set_up();
        check(reply == Ok(()) && table.is_empty(), || format!("set-up at capacity {capacity} gave {reply:?}"));
        table
    }

    fn is_empty(&self) -> bool {
        let fields = self.fields.part().chunks(FIELDS).all(|row| row == BLANK);
        let numbers = self.numbers.part().iter().all(|c| *c == 0) && self.levels.part().iter().all(|c| *c == 0);
        let ancestors = self.ancestors.part().iter().all(|c| *c == NONE);
        fields && numbers && ancestors && self.tally.part().iter().all(|c| *c == 0) && self.count == 0
    }

    pub fn same_parts(&self, other: &Table) -> bool {
        self.fields.part() == other.fields.part()
            && self.numbers.part() == other.numbers.part()
            && self.levels.part() == other.levels.part()
            && self.ancestors.part() == other.ancestors.part()
            && self.tally.part() == other.tally.part()
    }

    fn is_guarded(&self) -> bool {
        let rows = self.fields.is_guarded() && self.numbers.is_guarded() && self.levels.is_guarded() && self.ancestors.is_guarded();
        rows && self.tally.is_guarded() && self.growth_scratch.is_guarded()
    }

    fn copy(&self) -> Option<Table> {
        self.watched.then(|| self.clone())
    }

    /// What holds after every call: guards as they were, parts too where the call stores nothing.
    fn after<T: Word>(&self, call: &str, code: u16, before: Option<Table>, stores: bool, out: &Lent<T>) {
        check(self.is_guarded() && out.is_guarded(), || format!("{call} touched a guard"));
        check(code <= 5 || (10..=12).contains(&code) || code == 13 && call == "leaf", || format!("{call} gave {code}"));
        if code != 0 {
            check(out.part().iter().all(|c| *c == T::MARK), || format!("{call} refused by {code} and stored an answer"));
        }
        if let Some(before) = before {
            check((stores && code == 0) || self.same_parts(&before), || format!("{call} gave {code} and changed a part"));
        }
    }

    pub fn set_up(&mut self) -> Reply<()> {
        let (before, mut out) = (self.copy(), Lent::<u16>::marked(1));
        let o = out.part_mut();
        let code = lend_mut!(nca_table_set_up, self, o.as_mut_ptr(), o.len());
        self.after("set-up", code, before, true, &out);
        self.served(code, &out)
    }

    /// Takes over the count of a served growth or set-up.
    fn served(&mut self, code: u16, out: &Lent<u16>) -> Reply<()> {
        if code != 0 {
            return Err(code);
        }
        self.count = out.part()[0];
        Ok(())
    }

    pub fn add_first(&mut self) -> Reply<Grown> {
        self.add_first_to(Lent::marked(GROWN))
    }

    /// A first node that answers to a slice of any length.
    pub fn add_first_to(&mut self, mut out: Lent<u16>) -> Reply<Grown> {
        let (before, kept) = (self.copy(), self.growth_scratch.clone());
        let (s, o) = (self.growth_scratch.part_mut(), out.part_mut());
        let code = lend_mut!(nca_table_add_first, self, s.as_mut_ptr(), s.len(), self.count, o.as_mut_ptr(), o.len());
        self.grown("first node", code, before, kept, &out)
    }

    pub fn add_leaf(&mut self, parent: u16, label: u16, face: u16) -> Reply<Grown> {
        self.add_leaf_to(Lent::marked(GROWN), (parent, label, face))
    }

    /// A leaf that answers to a slice of any length.
    pub fn add_leaf_to(&mut self, mut out: Lent<u16>, (parent, label, face): (u16, u16, u16)) -> Reply<Grown> {
        let (before, kept) = (self.copy(), self.growth_scratch.clone());
        let (s, o) = (self.growth_scratch.part_mut(), out.part_mut());
        let code = lend_mut!(nca_table_add_leaf, self, s.as_mut_ptr(), s.len(), self.count, parent, label, face, o.as_mut_ptr(), o.len());
        self.grown("leaf", code, before, kept, &out)
    }

    /// A new root over x.
    pub fn add_root(&mut self, x: u16, opening: Opening) -> Reply<Grown> {
        self.add_root_to(Lent::marked(GROWN), x, opening)
    }

    /// A new root that answers to a slice of any length.
    pub fn add_root_to(&mut self, mut out: Lent<u16>, x: u16, opening: Opening) -> Reply<Grown> {
        let (before, kept) = (self.copy(), self.growth_scratch.clone());
        let (s, o) = (self.growth_scratch.part_mut(), out.part_mut());
        let Opening { named, number } = opening;
        let code = lend_mut!(nca_table_add_root, self, s.as_mut_ptr(), s.len(), self.count, x, named, number, o.as_mut_ptr(), o.len());
        self.grown("new root", code, before, kept, &out)
    }

    /// The root of x's tree, as its rows record it; none where that leads past the count.
    pub fn root_of(&self, x: u16) -> u16 {
        let first = self.ancestors.part()[ENTRIES * x as usize + TREE];
        if first >= self.count {
            return NONE;
        }
        self.fields.part()[FIELDS * first as usize + ROOT]
    }

    /// What a growth said; its scratch, of which it looks at the length only, is as it was kept.
    fn grown(&mut self, call: &str, code: u16, before: Option<Table>, kept: Lent<u16>, out: &Lent<u16>) -> Reply<Grown> {
        self.after(call, code, before, true, out);
        check(kept.part() == self.growth_scratch.part(), || format!("{call} gave {code} and changed the scratch"));
        self.served(code, out).map(|_| Grown { node: out.part()[1], rows: out.part()[2], head: out.part()[3] })
    }

    /// The tree of root x under v, x with this label.
    pub fn link(&mut self, scratch: &mut Lent<u16>, x: u16, v: u16, label: u16) -> Reply<Linked> {
        self.link_to(Lent::marked(LINKED), scratch, x, v, label)
    }

    /// A link that answers to a slice of any length.
    pub fn link_to(&mut self, mut out: Lent<u32>, scratch: &mut Lent<u16>, x: u16, v: u16, label: u16) -> Reply<Linked> {
        let (before, kept) = (self.copy(), scratch.clone());
        let (s, o) = (scratch.part_mut(), out.part_mut());
        let code = lend_mut!(nca_table_link, self, s.as_mut_ptr(), s.len(), self.count, x, v, label, o.as_mut_ptr(), o.len());
        self.after("link", code, before, true, &out);
        check(scratch.is_guarded(), || "link touched a guard of the scratch".into());
        check(code == 0 || kept.part() == scratch.part(), || format!("link gave {code} and changed the scratch"));
        if code == 0 {
            Ok(Linked { rows: out.part()[0], head: out.part()[1] })
        } else {
            Err(code)
        }
    }

    /// Nearest common ancestor, branches, distances and label.
    pub fn query(&self, x: u16, y: u16) -> Reply<[i32; 6]> {
        let (before, mut out) = (self.copy(), Lent::<i32>::marked(6));
        let o = out.part_mut();
        let code = lend!(nca_table_query, self, self.count, x, y, o.as_mut_ptr(), o.len());
        self.after("question", code, before, false, &out);
        if code == 0 {
            Ok(out.part().try_into().unwrap())
        } else {
            Err(code)
        }
    }

    pub fn alike(&self, x: u16, y: u16) -> Reply<u16> {
        let (before, mut out) = (self.copy(), Lent::<u16>::marked(1));
        let o = out.part_mut();
        let code = lend!(nca_table_alike, self, self.count, x, y, o.as_mut_ptr(), o.len());
        self.after("alike", code, before, false, &out);
        if code == 0 {
            Ok(out.part()[0])
        } else {
            Err(code)
        }
    }

    pub fn inspect(&self, scratch: &mut Lent<u16>) -> Reply<u16> {
        let (before, kept, mut out) = (self.copy(), scratch.clone(), Lent::<u16>::marked(1));
        let (w, s, o) = (self.tally.part(), scratch.part_mut(), out.part_mut());
        let code = lend!(nca_table_inspect, self, w.as_ptr(), w.len(), s.as_mut_ptr(), s.len(), self.count, o.as_mut_ptr(), o.len());
        self.after("inspection", code, before, false, &out);
        check(scratch.is_guarded(), || "inspection touched a guard of the scratch".into());
        check(code == 0 || kept.part() == scratch.part(), || format!("inspection gave {code} and changed the scratch"));
        if code == 0 {
            Ok(out.part()[0])
        } else {
            Err(code)
        }
    }
}
