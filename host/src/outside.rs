//! A growth of a table: the head that document 01's rule gives, and what it may change of the rows outside the head (document 02, M-101, M-104 and M-105).

use crate::engine::{
    Grown, Opening, Reply, Table, ENTRIES, FACE, FIELDS, FIRST, LABEL, LAST, NEXT, NEXT_FREE, NONE, NUMBERS, PARENT, PATH, ROOT, SET_SIZE,
    SIZE, UPPER,
};
use crate::marks::Marks;

#[derive(Clone, Copy, Debug)]
pub enum Part {
    Fields,
    Numbers,
    Levels,
    Ancestors,
}

/// One number of a row: which of a part's.
pub type Place = (Part, usize);

/// What may change outside the head.
#[derive(Clone, Copy, Debug)]
pub enum Exception {
    Size,
    Root,
    NextFree,
    First,
    Last,
    Next,
    Label,
    Face,
}

pub const EXCEPTIONS: usize = 8;

#[derive(Clone, Copy, Debug)]
pub enum Growth {
    First,
    Leaf(u16, u16, u16),
    Root(u16, Opening),
}

fn field(t: &Table, v: u16, k: usize) -> u16 {
    t.fields.part()[FIELDS * v as usize + k]
}

pub fn capacity(t: &Table) -> usize {
    t.levels.part().len()
}

/// A row and those above it by a link, in this order.
fn line(t: &Table, mut v: u16, link: usize) -> Vec<u16> {
    let mut line = Vec::new();
    while v != NONE {
        line.push(v);
        v = field(t, v, link);
    }
    line
}

/// The first row of a row's stored tree.
pub fn first_row(t: &Table, v: u16) -> u16 {
    *line(t, v, PARENT).last().expect("a row")
}

/// Of every row whether it lies at or below another in the stored tree: up from each by stored parents, as far as that is not known yet.
pub fn below(t: &Table, head: u16) -> Vec<bool> {
    let mut known = vec![None; capacity(t)];
    known[head as usize] = Some(true);
    for v in 0..t.count {
        let (mut way, mut w) = (Vec::new(), v);
        while w != NONE && known[w as usize].is_none() {
            way.push(w);
            w = field(t, w, PARENT);
        }
        let lies = w != NONE && known[w as usize] == Some(true);
        way.into_iter().for_each(|u| known[u as usize] = Some(lies));
    }
    known.into_iter().map(|lies| lies == Some(true)).collect()
}

/// The places of a row that differ.
pub fn changed(a: &Table, b: &Table, v: usize) -> Vec<Place> {
    fn differ<T: PartialEq>(part: Part, a: &[T], b: &[T], v: usize, width: usize) -> Vec<Place> {
        let (a, b) = (&a[width * v..][..width], &b[width * v..][..width]);
        if a == b {
            return Vec::new();
        }
        (0..width).filter(|k| a[*k] != b[*k]).map(|k| (part, k)).collect()
    }
    let fields = differ(Part::Fields, a.fields.part(), b.fields.part(), v, FIELDS);
    let numbers = differ(Part::Numbers, a.numbers.part(), b.numbers.part(), v, NUMBERS);
    let levels = differ(Part::Levels, a.levels.part(), b.levels.part(), v, 1);
    let entries = differ(Part::Ancestors, a.ancestors.part(), b.ancestors.part(), v, ENTRIES);
    [fields, numbers, levels, entries].concat()
}

impl Growth {
    /// The stored parent of the new row.
    pub fn parent(self) -> u16 {
        match self {
            Growth::First => NONE,
            Growth::Leaf(v, ..) | Growth::Root(v, _) => v,
        }
    }

    pub fn is_root(self) -> bool {
        matches!(self, Growth::Root(..))
    }

    /// Whether the stored parent, an old root, takes an opening.
    pub fn names_opening(self) -> bool {
        matches!(self, Growth::Root(_, opening) if opening.label().is_some())
    }

    pub fn marks(self) -> Marks {
        match self {
            Growth::First => Marks::FIRST,
            Growth::Leaf(_, label, face) => Marks::leaf(label, face),
            Growth::Root(x, opening) => Marks::over(x, opening),
        }
    }

    pub fn call(self, table: &mut Table) -> Reply<Grown> {
        match self {
            Growth::First => table.add_first(),
            Growth::Leaf(parent, label, face) => table.add_leaf(parent, label, face),
            Growth::Root(x, opening) => table.add_root(x, opening),
        }
    }

    /// The highest row of the new row's chain that has 5s ≥ 6σ once the new row is counted. The new row, which has no set size yet, always has.
    pub fn head(self, before: &Table) -> u16 {
        let parent = self.parent();
        if parent == NONE {
            return before.count;
        }
        let above = field(before, parent, PARENT);
        let is_apex = above == NONE || field(before, above, PATH) != parent;
        let upper = if is_apex { parent } else { field(before, parent, UPPER) };
        let outgrown = |v: &u16| 5 * (u32::from(field(before, *v, SIZE)) + 1) >= 6 * u32::from(field(before, *v, SET_SIZE));
        line(before, upper, UPPER).into_iter().rev().find(outgrown).unwrap_or(before.count)
    }
}

/// A growth that was served, the table after it, and what its exceptions ask for.
pub struct Served<'a> {
    growth: Growth,
    after: &'a Table,
    /// The compressed ancestors of the head, itself not among them.
    chain: Vec<u16>,
    /// The first row of the tree.
    first: u16,
}

impl Served<'_> {
    pub fn of(growth: Growth, after: &Table, grown: Grown) -> Served<'_> {
        let chain = line(after, field(after, grown.head, UPPER), UPPER);
        Served { growth, after, chain, first: first_row(after, grown.node) }
    }

    /// Why a place of a row outside the head may change; none where it may not.
    pub fn exception(&self, v: u16, place: Place) -> Option<Exception> {
        let parent = self.growth.parent();
        let is_parent = v == parent;
        let is_child = v < self.after.count && parent != NONE && field(self.after, v, PARENT) == parent;
        match place {
            (Part::Fields, SIZE) if self.chain.contains(&v) => Some(Exception::Size),
            (Part::Fields, ROOT) if self.growth.is_root() && v == self.first => Some(Exception::Root),
            (Part::Numbers, NEXT_FREE) if self.chain.first() == Some(&v) => Some(Exception::NextFree),
            (Part::Fields, FIRST) if is_parent => Some(Exception::First),
            (Part::Fields, LAST) if is_parent => Some(Exception::Last),
            (Part::Fields, NEXT) if is_child => Some(Exception::Next),
            (Part::Fields, LABEL) if is_parent && self.growth.names_opening() => Some(Exception::Label),
            (Part::Fields, FACE) if is_parent && self.growth.names_opening() => Some(Exception::Face),
            _ => None,
        }
    }
}
