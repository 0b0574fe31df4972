//! A question and alike on a table filled with anything: the tree that both nodes share, one stored answer or two, and the rows that these read.

use crate::engine::{Reply, NONE};
use crate::powers::POWERS;
use crate::reading::{Cause, Reading};

/// A nearest common ancestor and the branches from it.
#[derive(Clone, Copy)]
struct Fork {
    nca: u16,
    to_x: u16,
    to_y: u16,
}

impl Reading<'_> {
    /// The root of the tree that x and y share.
    fn shared_root(&mut self, x: u16, y: u16) -> Reply<u16> {
        let capacity = self.capacity()?;
        self.knows(&[x, y])?;
        self.has_count(capacity)?;
        let trees = [self.tree(x)?, self.tree(y)?];
        if trees[0] != trees[1] {
            return Err(12);
        }
        self.root(trees[0])
    }

    pub fn question(&mut self, x: u16, y: u16) -> Reply<[i32; 6]> {
        let root = self.shared_root(x, y)?;
        let (from_x, from_y) = (self.node(x)?.level, self.node(y)?.level);
        let fork = self.plain_fork(root, x, y)?;
        let nca = self.node(fork.nca)?;
        let distance = |level: i64| (level - nca.level) as i32;
        Ok([fork.nca.into(), fork.to_x.into(), fork.to_y.into(), distance(from_x), distance(from_y), nca.row.label.into()])
    }

    /// The stored answer, unless the line to the root goes on below it towards x or y: then the answer is where that node leaves the line.
    fn plain_fork(&mut self, root: u16, x: u16, y: u16) -> Reply<Fork> {
        let fork = self.stored_fork(x, y)?;
        if fork.nca == root || !self.node(fork.nca)?.is_on_line() {
            return Ok(fork);
        }
        self.row(root)?;
        let on = [self.node(fork.to_x)?.is_on_line() && fork.to_x != fork.nca, self.node(fork.to_y)?.is_on_line() && fork.to_y != fork.nca];
        if !on[0] && !on[1] {
            return Ok(fork);
        }
        let lower = self.stored_fork(if on[0] { x } else { y }, root)?;
        let above = self.row(lower.nca)?.parent;
        let above = self.some(above, Cause::NoPlainBranch)?;
        let (to_x, to_y) = if on[0] { (lower.to_x, above) } else { (above, lower.to_x) };
        Ok(Fork { nca: lower.nca, to_x, to_y })
    }

    fn stored_fork(&mut self, x: u16, y: u16) -> Reply<Fork> {
        if x == y {
            return Ok(Fork { nca: x, to_x: x, to_y: x });
        }
        let (at_x, at_y) = (self.row(x)?.p(), self.row(y)?.p());
        self.must(at_x != at_y, Cause::EqualNumbers)?;
        let way_x = self.compressed_way(x, at_x, at_y)?;
        let way_y = self.compressed_way(y, at_y, at_x)?;
        let (leaves_x, leaves_y) = (self.leaves_path(&way_x)?, self.leaves_path(&way_y)?);
        let higher = self.row(leaves_x)?.depth <= self.row(leaves_y)?.depth;
        let nca = if higher { leaves_x } else { leaves_y };
        Ok(Fork { nca, to_x: self.branch(nca, leaves_x, &way_x)?, to_y: self.branch(nca, leaves_y, &way_y)? })
    }

    /// The rows of the compressed step from z, whose number is `own`, to a node whose number is `other`, going up: the last is the compressed nearest
    /// common ancestor.
    fn compressed_way(&mut self, z: u16, own: u128, other: u128) -> Reply<Vec<u16>> {
        let distance = own.abs_diff(other);
        let rank = POWERS.with(|powers| powers.iter().filter(|power| **power <= distance).count() - 1);
        let mut way = match self.entry(z, rank) {
            NONE => vec![z],
            entry => self.up(vec![entry])?,
        };
        let row = self.row(way[way.len() - 1])?;
        if row.q() - row.p() <= distance {
            way = self.up(way)?;
        }
        let row = self.row(way[way.len() - 1])?;
        if !(row.p()..row.q()).contains(&other) {
            way = self.up(way)?;
        }
        Ok(way)
    }

    /// A way with the compressed parent of its last row.
    fn up(&mut self, mut way: Vec<u16>) -> Reply<Vec<u16>> {
        let upper = self.row(way[way.len() - 1])?.upper;
        let upper = self.some(upper, Cause::NoRowAbove)?;
        self.row(upper)?;
        way.push(upper);
        Ok(way)
    }

    /// The last row of a way and the one before it, which is the same where the way is one row.
    fn top(way: &[u16]) -> (u16, u16) {
        let last = way.len() - 1;
        (way[last], way[last.saturating_sub(1)])
    }

    /// The lowest row over a node on the path that its way ends at.
    fn leaves_path(&mut self, way: &[u16]) -> Reply<u16> {
        let (apex, below) = Self::top(way);
        if apex == below {
            return Ok(apex);
        }
        let parent = self.row(below)?.parent;
        let parent = self.some(parent, Cause::NoParent)?;
        let on_path = self.row(parent)?.path == Some(below);
        Ok(if on_path { below } else { parent })
    }

    /// The branch from a row of a path towards the node whose way leaves the path at `leaves`: along the path, or off it.
    fn branch(&mut self, nca: u16, leaves: u16, way: &[u16]) -> Reply<u16> {
        if nca == leaves {
            return Ok(Self::top(way).1);
        }
        let path = self.row(nca)?.path;
        self.some(path, Cause::NoBranch)
    }

    pub fn alike(&mut self, x: u16, y: u16) -> Reply<u16> {
        let root = self.shared_root(x, y)?;
        self.row(root)?;
        let (mut x, mut y) = (x, y);
        for _ in 0..self.table.count {
            let (at_x, at_y) = (self.node(x)?, self.node(y)?);
            if at_x.level != at_y.level {
                return Ok(0);
            }
            if x == y || (at_x.row.label, at_x.row.face) != (at_y.row.label, at_y.row.face) {
                return Ok((x == y) as u16);
            }
            (x, y) = (self.plain_parent(x, root)?, self.plain_parent(y, root)?);
        }
        self.must(false, Cause::TooManyTurns)?;
        Err(4)
    }

    /// The row above in the plain tree; a row on the line to the root has the next one of that line.
    fn plain_parent(&mut self, z: u16, root: u16) -> Reply<u16> {
        self.must(z != root, Cause::NoParent)?;
        let node = self.node(z)?;
        if !node.is_on_line() {
            return self.some(node.row.parent, Cause::NoParent);
        }
        let fork = self.stored_fork(z, root)?;
        self.must(fork.nca == z, Cause::NoBranch)?;
        Ok(fork.to_y)
    }
}
