//! The plain list of documents 01 and 02: each node's parent, label and face, a root's parent being none; answers by walking from parent to parent.

use crate::engine::{Reply, GROWTH_SCRATCH, NONE};

#[derive(Clone)]
pub struct Plain {
    capacity: usize,
    parent: Vec<u16>,
    label: Vec<u16>,
    face: Vec<u16>,
}

impl Plain {
    pub fn new(capacity: usize) -> Plain {
        Plain { capacity, parent: Vec::new(), label: Vec::new(), face: Vec::new() }
    }

    /// Plain trees as they are, to ask.
    pub fn of(capacity: usize, parent: Vec<u16>, label: Vec<u16>, face: Vec<u16>) -> Plain {
        Plain { capacity, parent, label, face }
    }

    pub fn same_trees(&self, other: &Plain) -> bool {
        self.parent == other.parent && self.label == other.label && self.face == other.face
    }

    pub fn count(&self) -> usize {
        self.parent.len()
    }

    /// The label of every node.
    pub fn all_labels(&self) -> &[u16] {
        &self.label
    }

    /// The face of every node.
    pub fn all_faces(&self) -> &[u16] {
        &self.face
    }

    pub fn is_root(&self, x: u16) -> bool {
        self.parent[x as usize] == NONE
    }

    /// A node and its ancestors, up to its root.
    fn line(&self, mut x: u16) -> Vec<u16> {
        let mut line = vec![x];
        while !self.is_root(x) {
            x = self.parent[x as usize];
            line.push(x);
        }
        line
    }

    pub fn root_of(&self, mut x: u16) -> u16 {
        while !self.is_root(x) {
            x = self.parent[x as usize];
        }
        x
    }

    /// How many nodes a root has below it, itself among them.
    pub fn size(&self, root: u16) -> usize {
        let mut roots = vec![NONE; self.count()];
        for x in 0..self.count() as u16 {
            let (mut v, mut line) = (x, Vec::new());
            while roots[v as usize] == NONE && !self.is_root(v) {
                line.push(v);
                v = self.parent[v as usize];
            }
            let found = if self.is_root(v) { v } else { roots[v as usize] };
            line.into_iter().chain([v]).for_each(|w| roots[w as usize] = found);
        }
        roots.into_iter().filter(|r| *r == root).count()
    }

    /// A link's scratch has the capacity.
    fn fits(&self, scratch: usize) -> Reply<()> {
        if scratch == self.capacity {
            Ok(())
        } else {
            Err(3)
        }
    }

    /// Growth's is long enough, whatever the capacity.
    fn fits_growth(scratch: usize) -> Reply<()> {
        if scratch >= GROWTH_SCRATCH {
            Ok(())
        } else {
            Err(3)
        }
    }

    fn knows(&self, nodes: &[u16]) -> Reply<()> {
        if nodes.iter().all(|x| (*x as usize) < self.count()) {
            Ok(())
        } else {
            Err(1)
        }
    }

    fn has_label(label: u16) -> Reply<()> {
        if (1..=9999).contains(&label) {
            Ok(())
        } else {
            Err(5)
        }
    }

    fn has_face(face: u16) -> Reply<()> {
        if face <= 1 {
            Ok(())
        } else {
            Err(13)
        }
    }

    /// An opening that is named is a label.
    fn has_opening(opening: Option<u16>) -> Reply<()> {
        opening.map_or(Ok(()), Plain::has_label)
    }

    /// A node more: its parent, label and face.
    fn add(&mut self, parent: u16, label: u16, face: u16) -> Reply<u16> {
        if self.count() == self.capacity {
            return Err(2);
        }
        self.parent.push(parent);
        self.label.push(label);
        self.face.push(face);
        Ok(self.count() as u16 - 1)
    }

    pub fn add_first(&mut self, scratch: usize) -> Reply<u16> {
        Plain::fits_growth(scratch)?;
        self.add(NONE, 0, 0)
    }

    pub fn add_leaf(&mut self, scratch: usize, parent: u16, label: u16, face: u16) -> Reply<u16> {
        Plain::fits_growth(scratch)?;
        self.knows(&[parent])?;
        Plain::has_label(label)?;
        Plain::has_face(face)?;
        self.add(parent, label, face)
    }

    /// A new root over x, which takes the opening that is named, in front.
    pub fn add_root(&mut self, scratch: usize, x: u16, opening: Option<u16>) -> Reply<u16> {
        Plain::fits_growth(scratch)?;
        self.knows(&[x])?;
        Plain::has_opening(opening)?;
        if !self.is_root(x) {
            return Err(10);
        }
        let node = self.add(NONE, 0, 0)?;
        self.parent[x as usize] = node;
        if let Some(opening) = opening {
            (self.label[x as usize], self.face[x as usize]) = (opening, 0);
        }
        Ok(node)
    }

    /// Document 01's new root: over that of node 0, or the first node, which has no use for an opening.
    pub fn add_root_first_tree(&mut self, scratch: usize, opening: Option<u16>) -> Reply<u16> {
        if self.count() != 0 {
            return self.add_root(scratch, self.root_of(0), opening);
        }
        Plain::fits_growth(scratch)?;
        Plain::has_opening(opening)?;
        self.add_first(scratch)
    }

    /// The tree of root x under v, x in front; how many nodes joined.
    pub fn link(&mut self, scratch: usize, x: u16, v: u16, label: u16) -> Reply<usize> {
        self.fits(scratch)?;
        self.knows(&[x, v])?;
        Plain::has_label(label)?;
        if !self.is_root(x) {
            return Err(10);
        }
        if self.root_of(v) == x {
            return Err(11);
        }
        let joined = self.size(x);
        self.parent[x as usize] = v;
        (self.label[x as usize], self.face[x as usize]) = (label, 0);
        Ok(joined)
    }

    fn are_kindred(&self, x: u16, y: u16) -> Reply<()> {
        if self.root_of(x) == self.root_of(y) {
            Ok(())
        } else {
            Err(12)
        }
    }

    pub fn query(&self, x: u16, y: u16) -> Reply<[i32; 6]> {
        self.knows(&[x, y])?;
        self.are_kindred(x, y)?;
        let (up_x, up_y) = (self.line(x), self.line(y));
        let shared = up_x.iter().rev().zip(up_y.iter().rev()).take_while(|(a, b)| a == b).count();
        let (at_x, at_y) = (up_x.len() - shared, up_y.len() - shared);
        let nca = up_x[at_x];
        let (to_x, to_y) = (up_x[at_x.max(1) - 1], up_y[at_y.max(1) - 1]);
        Ok([nca as i32, to_x as i32, to_y as i32, at_x as i32, at_y as i32, self.label[nca as usize] as i32])
    }

    /// The labels and faces from the root's child down to a node.
    fn marks(&self, x: u16) -> Vec<(u16, u16)> {
        let mut marks: Vec<(u16, u16)> = self.line(x).iter().map(|v| (self.label[*v as usize], self.face[*v as usize])).collect();
        marks.pop();
        marks.reverse();
        marks
    }

    pub fn alike(&self, x: u16, y: u16) -> Reply<u16> {
        self.knows(&[x, y])?;
        self.are_kindred(x, y)?;
        Ok((self.marks(x) == self.marks(y)) as u16)
    }
}
