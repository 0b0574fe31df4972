//! Which rows of a table, filled with anything, a call reads, and what it says then: by the words of documents 01 and 02 and of docs/DECISIONS.md.
//! A row is read whole: refusal 4 where it is not in use or holds something out of range. A level is read by itself, where one is needed.
//! Every row read is kept, and why a table was refused by 4.

use std::collections::BTreeSet;

use crate::engine::{
    Reply, Table, DEPTH, ENTRIES, FACE, FIELDS, FIRST, LABEL, LAST, NEXT, NEXT_FREE, NONE, NUMBERS, PARENT, PATH, ROOT, SET_SIZE, SIZE,
    START, TREE, UPPER,
};

pub const LIMIT: u128 = 5 << 60;
pub const LEVELS: std::ops::RangeInclusive<i64> = -32_767..=32_767;

const CAPACITIES: std::ops::RangeInclusive<usize> = 1..=32_768;

/// What refusal 4 is given for.
#[derive(Clone, Copy, PartialEq, Eq, PartialOrd, Ord, Debug)]
pub enum Cause {
    Count,
    Tree,
    Root,
    NotInUse,
    Parent,
    FirstChild,
    LastChild,
    NextSibling,
    Upper,
    Path,
    Size,
    SetSize,
    End,
    NextFree,
    Level,
    EqualNumbers,
    NoRowAbove,
    NoParent,
    NoBranch,
    NoPlainBranch,
    TooManyTurns,
    NewLevel,
    NoUpper,
    EndlessChain,
    Unseated,
    NewEnd,
    OtherParent,
    MetTwice,
    OtherSize,
    Entries,
    Tally,
}

/// A row that holds nothing out of range.
pub struct Row {
    pub parent: Option<u16>,
    pub first: Option<u16>,
    pub last: Option<u16>,
    pub next: Option<u16>,
    pub upper: Option<u16>,
    pub path: Option<u16>,
    pub size: u128,
    pub set_size: u128,
    pub depth: i64,
    pub label: u16,
    pub face: u16,
    pub start: u128,
    pub next_free: u128,
}

impl Row {
    pub fn p(&self) -> u128 {
        self.start + self.set_size.pow(4)
    }

    pub fn q(&self) -> u128 {
        self.start + 4 * self.set_size.pow(4)
    }

    pub fn end(&self) -> u128 {
        self.start + 5 * self.set_size.pow(4)
    }
}

/// A row with its level.
pub struct Node {
    pub row: Row,
    pub level: i64,
}

impl Node {
    /// On the line from its tree's first row to the root a row's level is minus its depth.
    pub fn is_on_line(&self) -> bool {
        self.level + self.row.depth == 0
    }
}

pub struct Reading<'a> {
    pub table: &'a Table,
    /// The rows of which something was read, in that order.
    pub rows: Vec<u16>,
    seen: BTreeSet<u16>,
    /// The label whose entry of the tally was read.
    pub label: Option<u16>,
    /// Why the table was refused by 4.
    pub cause: Option<Cause>,
}

impl Reading<'_> {
    pub fn of(table: &Table) -> Reading<'_> {
        Reading { table, rows: Vec::new(), seen: BTreeSet::new(), label: None, cause: None }
    }

    /// Refusal 4 unless something holds.
    pub fn must(&mut self, holds: bool, cause: Cause) -> Reply<()> {
        if holds {
            return Ok(());
        }
        self.cause = Some(cause);
        Err(4)
    }

    /// A row that is sought; refusal 4 where there is none.
    pub fn some(&mut self, row: Option<u16>, cause: Cause) -> Reply<u16> {
        self.must(row.is_some(), cause)?;
        row.ok_or(4)
    }

    pub fn capacity(&self) -> Reply<usize> {
        let (t, c) = (self.table, self.table.levels.part().len());
        let parts = [t.fields.part().len(), t.numbers.part().len(), t.ancestors.part().len()];
        if CAPACITIES.contains(&c) && parts == [c * FIELDS, c * NUMBERS, c * ENTRIES] {
            Ok(c)
        } else {
            Err(3)
        }
    }

    pub fn knows(&self, nodes: &[u16]) -> Reply<()> {
        if nodes.iter().all(|x| *x < self.table.count) {
            Ok(())
        } else {
            Err(1)
        }
    }

    /// A count above the capacity is told before any row is read.
    pub fn has_count(&mut self, capacity: usize) -> Reply<()> {
        self.must(self.table.count as usize <= capacity, Cause::Count)
    }

    fn note(&mut self, v: u16) {
        if self.seen.insert(v) {
            self.rows.push(v);
        }
    }

    pub fn has_read(&self, v: u16) -> bool {
        self.seen.contains(&v)
    }

    pub fn field(&mut self, v: u16, k: usize) -> u16 {
        self.note(v);
        self.table.fields.part()[FIELDS * v as usize + k]
    }

    fn number_at(&mut self, v: u16, k: usize) -> u128 {
        self.note(v);
        u128::from(self.table.numbers.part()[NUMBERS * v as usize + k])
    }

    pub fn entry(&mut self, v: u16, i: usize) -> u16 {
        self.note(v);
        self.table.ancestors.part()[ENTRIES * v as usize + i]
    }

    /// The first row of a node's tree.
    pub fn tree(&mut self, x: u16) -> Reply<u16> {
        let tree = self.entry(x, TREE);
        self.must(tree < self.table.count, Cause::Tree)?;
        Ok(tree)
    }

    /// The root that a tree's first row records.
    pub fn root(&mut self, tree: u16) -> Reply<u16> {
        let root = self.field(tree, ROOT);
        self.must(root < self.table.count, Cause::Root)?;
        Ok(root)
    }

    /// A link that is none or a row in use.
    fn link_at(&mut self, v: u16, k: usize, cause: Cause) -> Reply<Option<u16>> {
        let link = self.field(v, k);
        self.must(link == NONE || link < self.table.count, cause)?;
        Ok((link != NONE).then_some(link))
    }

    /// A size or set size.
    fn size_at(&mut self, v: u16, k: usize, cause: Cause) -> Reply<u128> {
        let size = self.field(v, k);
        self.must(size <= self.table.count, cause)?;
        Ok(u128::from(size))
    }

    /// A row that is sought.
    pub fn row(&mut self, v: u16) -> Reply<Row> {
        self.must(v < self.table.count, Cause::NotInUse)?;
        let row = Row {
            parent: self.link_at(v, PARENT, Cause::Parent)?,
            first: self.link_at(v, FIRST, Cause::FirstChild)?,
            last: self.link_at(v, LAST, Cause::LastChild)?,
            next: self.link_at(v, NEXT, Cause::NextSibling)?,
            upper: self.link_at(v, UPPER, Cause::Upper)?,
            path: self.link_at(v, PATH, Cause::Path)?,
            size: self.size_at(v, SIZE, Cause::Size)?,
            set_size: self.size_at(v, SET_SIZE, Cause::SetSize)?,
            depth: i64::from(self.field(v, DEPTH)),
            label: self.field(v, LABEL),
            face: self.field(v, FACE),
            start: self.number_at(v, START),
            next_free: self.number_at(v, NEXT_FREE),
        };
        self.must(row.end() <= LIMIT, Cause::End)?;
        self.must(row.next_free <= LIMIT, Cause::NextFree)?;
        Ok(row)
    }

    /// A row that is sought, and its level, which is read too.
    pub fn node(&mut self, v: u16) -> Reply<Node> {
        let row = self.row(v)?;
        let level = i64::from(self.table.levels.part()[v as usize]);
        self.must(LEVELS.contains(&level), Cause::Level)?;
        Ok(Node { row, level })
    }
}
