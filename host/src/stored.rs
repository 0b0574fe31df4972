//! The stored trees of documents 01 and 02 by their own words: growths and links with every size, path, span and ancestor entry made from the rules,
//! not from the engine.

use crate::engine::{Grown, Linked, Table, BLANK, ENTRIES, FIELDS, NONE, NUMBERS};
use crate::powers::POWERS;

#[derive(Clone)]
pub struct Row {
    pub parent: u16,
    pub children: Vec<u16>,
    pub upper: u16,
    pub path: u16,
    pub size: u64,
    pub set_size: u64,
    pub depth: u16,
    pub label: u16,
    pub face: u16,
    /// The root of the tree, in its first row; else none.
    pub root: u16,
    pub level: i32,
    pub start: u64,
    pub next_free: u64,
    pub entries: Vec<u16>,
}

impl Row {
    fn p(&self) -> u64 {
        self.start + self.set_size.pow(4)
    }

    fn end(&self) -> u64 {
        self.start + 5 * self.set_size.pow(4)
    }
}

/// A row that stands alone.
fn lone() -> Row {
    Row {
        parent: NONE,
        children: Vec::new(),
        upper: NONE,
        path: NONE,
        size: 0,
        set_size: 0,
        depth: 0,
        label: 0,
        face: 0,
        root: NONE,
        level: 0,
        start: 0,
        next_free: 0,
        entries: vec![NONE; ENTRIES],
    }
}

pub struct Stored {
    pub rows: Vec<Row>,
}

impl Stored {
    pub fn new() -> Stored {
        Stored { rows: Vec::new() }
    }

    fn row(&self, v: u16) -> &Row {
        &self.rows[v as usize]
    }

    fn is_apex(&self, v: u16) -> bool {
        let parent = self.row(v).parent;
        parent == NONE || self.row(parent).path != v
    }

    /// A row and those above it in its stored tree.
    fn line(&self, mut v: u16) -> Vec<u16> {
        let mut line = Vec::new();
        while v != NONE {
            line.push(v);
            v = self.row(v).parent;
        }
        line
    }

    fn first_row(&self, mut v: u16) -> u16 {
        while self.row(v).parent != NONE {
            v = self.row(v).parent;
        }
        v
    }

    pub fn root_of(&self, v: u16) -> u16 {
        self.row(self.first_row(v)).root
    }

    pub fn add_first(&mut self) -> Grown {
        let node = self.rows.len() as u16;
        self.rows.push(Row { root: node, ..lone() });
        self.join(node, NONE, 0)
    }

    pub fn add_leaf(&mut self, parent: u16, label: u16, face: u16) -> Grown {
        let level = self.row(parent).level + 1;
        self.grow(parent, Row { label, face, ..lone() }, level)
    }

    /// A new root over x, stored as a leaf under it; x takes the opening that is named, in front.
    pub fn add_root(&mut self, x: u16, opening: Option<u16>) -> Grown {
        let level = self.row(x).level - 1;
        let first = self.first_row(x);
        let grown = self.grow(x, lone(), level);
        self.rows[first as usize].root = grown.node;
        if let Some(label) = opening {
            let old = &mut self.rows[x as usize];
            (old.label, old.face) = (label, 0);
        }
        grown
    }

    /// Document 01's new root.
    pub fn add_root_first_tree(&mut self, opening: Option<u16>) -> Grown {
        if self.rows.is_empty() {
            self.add_first()
        } else {
            self.add_root(self.root_of(0), opening)
        }
    }

    /// A row that stands alone, as the next leaf under a parent.
    fn grow(&mut self, parent: u16, row: Row, level: i32) -> Grown {
        let node = self.rows.len() as u16;
        self.rows.push(row);
        self.join(node, parent, level)
    }

    /// The tree of root x under v: its rows stand alone, then join level by level below x, by rising number within a level, each under its plain parent.
    /// They keep labels and faces, but x, which takes the label, in front. What it answers, and how many rows joined.
    pub fn link(&mut self, x: u16, v: u16, label: u16) -> (Linked, usize) {
        let receiving = self.first_row(v);
        let line = self.line(x);
        let rows = self.below(*line.last().expect("a line of rows"));
        let mut parent: Vec<u16> = self.rows.iter().map(|r| r.parent).collect();
        parent[x as usize] = v;
        for pair in line.windows(2) {
            parent[pair[1] as usize] = pair[0];
        }
        let depth = |mut w: u16| {
            let mut steps = 0;
            while w != x {
                w = parent[w as usize];
                steps += 1;
            }
            steps
        };
        let mut order: Vec<(usize, u16)> = rows.into_iter().map(|w| (depth(w), w)).collect();
        order.sort();
        for (_, w) in &order {
            let (label, face) = if *w == x { (label, 0) } else { (self.row(*w).label, self.row(*w).face) };
            self.rows[*w as usize] = Row { label, face, ..lone() };
        }
        let (mut rows, joined) = (0, order.len());
        for (_, w) in order {
            let above = parent[w as usize];
            rows += u32::from(self.join(w, above, self.row(above).level + 1).rows);
        }
        (Linked { rows, head: receiving.into() }, joined)
    }

    /// A row that stands alone becomes a leaf; the highest row of its chain that has grown by a fifth heads the renumbering.
    fn join(&mut self, node: u16, parent: u16, level: i32) -> Grown {
        let (depth, upper) = match parent {
            NONE => (0, NONE),
            p => (self.row(p).depth + 1, if self.is_apex(p) { p } else { self.row(p).upper }),
        };
        let row = &mut self.rows[node as usize];
        (row.parent, row.upper, row.depth, row.level) = (parent, upper, depth, level);
        if parent != NONE {
            self.rows[parent as usize].children.push(node);
        }
        let (mut head, mut v) = (node, node);
        while v != NONE {
            let row = &mut self.rows[v as usize];
            row.size += 1;
            if 5 * row.size >= 6 * row.set_size {
                head = v;
            }
            v = row.upper;
        }
        Grown { node, rows: self.renumber(head), head }
    }

    /// The rows at or below a row, parents first.
    fn below(&self, head: u16) -> Vec<u16> {
        let mut rows = vec![head];
        let mut i = 0;
        while i < rows.len() {
            rows.extend(&self.row(rows[i]).children);
            i += 1;
        }
        rows
    }

    fn renumber(&mut self, head: u16) -> u16 {
        let rows = self.below(head);
        self.build_paths(head, &rows);
        self.rows[head as usize].start = match self.row(head).upper {
            NONE => 0,
            u => {
                let start = self.row(u).next_free;
                self.rows[u as usize].next_free = start + 5 * self.row(head).set_size.pow(4);
                start
            }
        };
        for v in &rows {
            if *v == head || self.is_apex(*v) {
                self.place_children(*v);
            }
        }
        for v in &rows {
            self.fill_entries(*v);
        }
        rows.len() as u16
    }

    /// Paths, compressed parents and sizes from true sizes.
    fn build_paths(&mut self, head: u16, rows: &[u16]) {
        let mut below = vec![0u64; self.rows.len()];
        for v in rows.iter().rev() {
            below[*v as usize] = 1 + self.row(*v).children.iter().map(|c| below[*c as usize]).sum::<u64>();
        }
        for v in rows {
            let heavy = self.row(*v).children.iter().find(|c| 2 * below[**c as usize] > below[*v as usize]);
            self.rows[*v as usize].path = heavy.copied().unwrap_or(NONE);
        }
        for v in rows {
            let apex = *v == head || self.is_apex(*v);
            if *v != head {
                let p = self.row(*v).parent;
                self.rows[*v as usize].upper = if p == head || self.is_apex(p) { p } else { self.row(p).upper };
            }
            let row = &mut self.rows[*v as usize];
            row.size = if apex { below[*v as usize] } else { 1 };
            row.set_size = row.size;
            row.next_free = 0;
        }
    }

    /// Starts of the compressed children of an apex, going down its path; their next free numbers until they place their own.
    fn place_children(&mut self, apex: u16) {
        let mut at = self.row(apex).p();
        let mut r = apex;
        while r != NONE {
            let path = self.row(r).path;
            let own = if r == apex { None } else { Some(r) };
            let light: Vec<u16> = self.row(r).children.iter().copied().filter(|c| *c != path).collect();
            for c in own.into_iter().chain(light) {
                let row = &mut self.rows[c as usize];
                row.start = at;
                row.next_free = row.p();
                at = row.end();
            }
            r = path;
        }
        self.rows[apex as usize].next_free = at;
    }

    /// Entry i: the highest compressed ancestor b with 3σ(b)⁴ below (10/7)^i.
    fn fill_entries(&mut self, v: u16) {
        for i in 0..ENTRIES {
            let (mut entry, mut b) = (NONE, v);
            while b != NONE {
                if 3 * (self.row(b).set_size.pow(4) as u128) < POWERS.with(|p| p[i]) {
                    entry = b;
                }
                b = self.row(b).upper;
            }
            self.rows[v as usize].entries[i] = entry;
        }
    }

    /// Whether a table's parts hold exactly these rows, and past them what set-up leaves.
    pub fn is_held_by(&self, table: &Table) -> bool {
        let capacity = table.levels.part().len();
        let next = self.next_siblings();
        (0..capacity).all(|x| {
            let f = &table.fields.part()[FIELDS * x..][..FIELDS];
            let n = &table.numbers.part()[NUMBERS * x..][..NUMBERS];
            let a = &table.ancestors.part()[ENTRIES * x..][..ENTRIES];
            let level = table.levels.part()[x];
            match self.rows.get(x) {
                None => f == BLANK && n == [0, 0] && level == 0 && a.iter().all(|e| *e == NONE),
                Some(r) => {
                    let first = r.children.first().copied().unwrap_or(NONE);
                    let last = r.children.last().copied().unwrap_or(NONE);
                    f == [
                        r.parent,
                        first,
                        last,
                        next[x],
                        r.upper,
                        r.path,
                        r.size as u16,
                        r.set_size as u16,
                        r.depth,
                        r.label,
                        r.root,
                        r.face,
                    ] && n == [r.start, r.next_free]
                        && level == r.level
                        && a == r.entries
                }
            }
        })
    }

    fn next_siblings(&self) -> Vec<u16> {
        let mut next = vec![NONE; self.rows.len()];
        for row in &self.rows {
            for pair in row.children.windows(2) {
                next[pair[0] as usize] = pair[1];
            }
        }
        next
    }
}
