//! Growths on a table filled with anything: what each reads before its first store, and the node, rows and head that it answers. Of a link, what it
//! reads before it inspects the whole table, and the head; its entries of the tally it need not look at, since inspection has.

use std::collections::BTreeSet;

use crate::engine::{Grown, Reply, ENTRIES, GROWTH_SCRATCH, NONE};
use crate::reading::{Cause, Reading, Row, LEVELS, LIMIT};
use crate::tally;

/// A leaf that is not stored yet: its row, its parent, and the child before it.
struct Leaf {
    row: u16,
    parent: u16,
    before: Option<u16>,
}

impl Reading<'_> {
    /// The capacity of the parts, where the tally fits too.
    pub fn fits(&self) -> Reply<usize> {
        let tally = self.table.tally.part().len();
        self.capacity().and_then(|c| if tally == tally::LENGTH { Ok(c) } else { Err(3) })
    }

    /// The same, where growth's scratch is long enough.
    fn fits_growth(&self) -> Reply<usize> {
        let scratch = self.table.growth_scratch.part().len();
        self.fits().and_then(|c| if scratch >= GROWTH_SCRATCH { Ok(c) } else { Err(3) })
    }

    /// The same, where a link's scratch has the capacity.
    fn fits_link(&self, scratch: usize) -> Reply<usize> {
        self.fits().and_then(|c| if scratch == c { Ok(c) } else { Err(3) })
    }

    /// Last of all: the entry of the label that the growth counts for can grow.
    fn is_countable(&mut self, capacity: usize, label: u16) -> Reply<()> {
        self.label = Some(label);
        let grown = tally::grown(self.table.tally.part(), capacity, label);
        self.must(grown.is_ok(), Cause::Tally)
    }

    fn has_label(label: u16) -> Reply<()> {
        if (1..=9999).contains(&label) {
            Ok(())
        } else {
            Err(5)
        }
    }

    fn has_face(face: u16) -> Reply<()> {
        if face <= 1 {
            Ok(())
        } else {
            Err(13)
        }
    }

    /// An opening that is named is a label.
    fn has_opening(opening: Option<u16>) -> Reply<()> {
        opening.map_or(Ok(()), Self::has_label)
    }

    fn has_room(&self, capacity: usize) -> Reply<()> {
        if self.table.count as usize == capacity {
            Err(2)
        } else {
            Ok(())
        }
    }

    pub fn add_first(&mut self) -> Reply<Grown> {
        let capacity = self.fits_growth()?;
        self.has_room(capacity)?;
        self.has_count(capacity)?;
        self.is_countable(capacity, 0)?;
        Ok(Grown { node: self.table.count, rows: 1, head: self.table.count })
    }

    pub fn add_leaf(&mut self, parent: u16, label: u16, face: u16) -> Reply<Grown> {
        let capacity = self.fits_growth()?;
        self.knows(&[parent])?;
        Self::has_label(label)?;
        Self::has_face(face)?;
        self.has_room(capacity)?;
        self.has_count(capacity)?;
        let tree = self.tree(parent)?;
        self.root(tree)?;
        let grown = self.join(parent, 1)?;
        self.is_countable(capacity, label)?;
        Ok(grown)
    }

    /// The tree of a root, as its first row records it.
    fn tree_of_root(&mut self, x: u16) -> Reply<u16> {
        let tree = self.tree(x)?;
        if self.root(tree)? == x {
            Ok(tree)
        } else {
            Err(10)
        }
    }

    /// A new root over x. The label and the face of x, which the opening takes the place of, are not looked at.
    pub fn add_root(&mut self, x: u16, opening: Option<u16>) -> Reply<Grown> {
        let capacity = self.fits_growth()?;
        self.knows(&[x])?;
        Self::has_opening(opening)?;
        self.has_count(capacity)?;
        self.tree_of_root(x)?;
        self.has_room(capacity)?;
        let grown = self.join(x, -1)?;
        self.is_countable(capacity, opening.unwrap_or(0))?;
        Ok(grown)
    }

    /// Document 01's new root: over that of row 0's tree, or the first node, which counts for label 0.
    pub fn add_root_first_tree(&mut self, opening: Option<u16>) -> Reply<Grown> {
        let capacity = self.fits()?;
        Self::has_opening(opening)?;
        if self.table.count == 0 {
            return self.add_first();
        }
        self.has_room(capacity)?;
        self.has_count(capacity)?;
        let tree = self.tree(0)?;
        let root = self.root(tree)?;
        let grown = self.join(root, -1)?;
        self.is_countable(capacity, opening.unwrap_or(0))?;
        Ok(grown)
    }

    /// What a link refuses before it inspects the table; else its head, the first row of v's tree.
    pub fn link(&mut self, scratch: usize, x: u16, v: u16, label: u16) -> Reply<u16> {
        let capacity = self.fits_link(scratch)?;
        self.knows(&[x, v])?;
        Self::has_label(label)?;
        self.has_count(capacity)?;
        let (linked, receiving) = (self.tree_of_root(x)?, self.tree(v)?);
        if linked == receiving {
            return Err(11);
        }
        Ok(receiving)
    }

    /// A leaf under a parent, so many levels below it.
    fn join(&mut self, parent: u16, levels: i64) -> Reply<Grown> {
        let above = self.node(parent)?;
        self.must(LEVELS.contains(&(above.level + levels)), Cause::NewLevel)?;
        let above = above.row;
        let leaf = Leaf { row: self.table.count, parent, before: above.last };
        let upper = self.upper_under(parent, &above)?;
        let chain = self.chain(upper)?;
        let Some((head, row)) = chain.into_iter().rev().find(|(_, row)| 5 * (row.size + 1) >= 6 * row.set_size) else {
            self.is_seated(Some(upper), 1)?;
            return Ok(Grown { node: leaf.row, rows: 1, head: leaf.row });
        };
        self.must(row.upper.is_some() || row.parent.is_none(), Cause::Unseated)?;
        self.must_meet(head, row.size + 1, &leaf)?;
        self.is_seated(row.upper, row.size + 1)?;
        Ok(Grown { node: leaf.row, rows: row.size as u16 + 1, head })
    }

    /// The compressed parent of a leaf: its parent where that is an apex.
    fn upper_under(&mut self, parent: u16, row: &Row) -> Reply<u16> {
        match row.parent {
            Some(above) if self.row(above)?.path == Some(parent) => self.some(row.upper, Cause::NoUpper),
            _ => Ok(parent),
        }
    }

    /// A row and all compressed ancestors, going up; a row that comes twice comes without end.
    fn chain(&mut self, lowest: u16) -> Reply<Vec<(u16, Row)>> {
        let mut chain: Vec<(u16, Row)> = Vec::new();
        let mut next = Some(lowest);
        while let Some(u) = next {
            self.must(chain.iter().all(|(v, _)| *v != u), Cause::EndlessChain)?;
            let row = self.row(u)?;
            next = row.upper;
            chain.push((u, row));
        }
        Ok(chain)
    }

    /// The span of a head of so many rows ends within the limit: it starts at its upper row's next free number, or at 0.
    fn is_seated(&mut self, upper: Option<u16>, rows: u128) -> Reply<()> {
        let start = match upper {
            Some(u) => self.row(u)?.next_free,
            None => 0,
        };
        self.must(start + 5 * rows.pow(4) <= LIMIT, Cause::NewEnd)?;
        upper.map_or(Ok(()), |u| self.has_entries(u))
    }

    /// The ancestor entries of a head's upper row, which the head's are made from, are none or rows in use.
    fn has_entries(&mut self, u: u16) -> Reply<()> {
        let count = self.table.count;
        let links = (0..ENTRIES).map(|i| self.entry(u, i)).all(|e| e == NONE || e < count);
        self.must(links, Cause::Entries)
    }

    /// The walk below a head meets as many rows as its size says, the leaf among them.
    fn must_meet(&mut self, head: u16, rows: u128, leaf: &Leaf) -> Reply<()> {
        let mut met = BTreeSet::new();
        self.meet(head, leaf, &mut met)?;
        self.must(met.len() as u128 == rows, Cause::OtherSize)
    }

    /// A row and all below it by child links, as these will stand with the leaf; each is a child of the row that it is met from.
    fn meet(&mut self, v: u16, leaf: &Leaf, met: &mut BTreeSet<u16>) -> Reply<()> {
        self.must(met.insert(v), Cause::MetTwice)?;
        let mut child = self.first_child(v, leaf)?;
        while let Some(c) = child {
            let parent = if c == leaf.row { Some(leaf.parent) } else { self.row(c)?.parent };
            self.must(parent == Some(v), Cause::OtherParent)?;
            self.meet(c, leaf, met)?;
            child = self.next_sibling(c, leaf)?;
        }
        Ok(())
    }

    fn first_child(&mut self, v: u16, leaf: &Leaf) -> Reply<Option<u16>> {
        if v == leaf.row {
            return Ok(None);
        }
        let only = v == leaf.parent && leaf.before.is_none();
        Ok(if only { Some(leaf.row) } else { self.row(v)?.first })
    }

    fn next_sibling(&mut self, c: u16, leaf: &Leaf) -> Reply<Option<u16>> {
        if c == leaf.row {
            return Ok(None);
        }
        Ok(if leaf.before == Some(c) { Some(leaf.row) } else { self.row(c)?.next })
    }
}
