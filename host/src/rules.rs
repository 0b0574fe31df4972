//! The six rules of inspection and the tally, naively, on any table; and the plain trees that a table records.

use std::collections::HashSet;

use crate::engine::{Table, ENTRIES, FIELDS, NONE, NUMBERS};
use crate::plain::Plain;
use crate::powers::POWERS;
use crate::tally;

/// A table's rows below its count as numbers of any width.
struct Rows {
    parent: Vec<u16>,
    first: Vec<u16>,
    last: Vec<u16>,
    next: Vec<u16>,
    upper: Vec<u16>,
    path: Vec<u16>,
    size: Vec<u128>,
    set_size: Vec<u128>,
    depth: Vec<u16>,
    label: Vec<u16>,
    level: Vec<i32>,
    start: Vec<u128>,
    next_free: Vec<u128>,
    root: Vec<u16>,
    face: Vec<u16>,
}

impl Rows {
    fn of(t: &Table) -> Rows {
        let n = t.count as usize;
        let field = |k: usize| (0..n).map(|x| t.fields.part()[FIELDS * x + k]).collect::<Vec<u16>>();
        let wide = |k: usize| field(k).into_iter().map(u128::from).collect::<Vec<u128>>();
        let number = |k: usize| (0..n).map(|x| u128::from(t.numbers.part()[NUMBERS * x + k])).collect::<Vec<u128>>();
        Rows {
            parent: field(0),
            first: field(1),
            last: field(2),
            next: field(3),
            upper: field(4),
            path: field(5),
            size: wide(6),
            set_size: wide(7),
            depth: field(8),
            label: field(9),
            level: t.levels.part()[..n].to_vec(),
            start: number(0),
            next_free: number(1),
            root: field(10),
            face: field(11),
        }
    }

    fn count(&self) -> usize {
        self.parent.len()
    }

    fn p(&self, v: usize) -> u128 {
        self.start[v] + self.set_size[v].pow(4)
    }

    fn q(&self, v: usize) -> u128 {
        self.start[v] + 4 * self.set_size[v].pow(4)
    }

    fn end(&self, v: usize) -> u128 {
        self.start[v] + 5 * self.set_size[v].pow(4)
    }

    /// A row and those above it by a column of links.
    fn line(&self, links: &[u16], mut v: u16) -> Vec<usize> {
        let mut line = Vec::new();
        while v != NONE {
            line.push(v as usize);
            v = links[v as usize];
        }
        line
    }

    /// The first rows of the stored trees.
    fn first_rows(&self) -> impl Iterator<Item = usize> + '_ {
        (0..self.count()).filter(|v| self.parent[*v] == NONE)
    }

    /// The rows from each tree's root up to its first row. Parents are known to lead up.
    fn root_lines(&self) -> Vec<Vec<usize>> {
        self.first_rows().map(|f| self.line(&self.parent, self.root[f])).collect()
    }

    /// Rule 1, parents and depths.
    fn is_forest(&self) -> bool {
        let n = self.count();
        (0..n).all(|v| match self.parent[v] {
            NONE => self.depth[v] == 0,
            p => (p as usize) < n && u32::from(self.depth[v]) == u32::from(self.depth[p as usize]) + 1,
        })
    }

    /// Rule 1, child links: the children in some order, each once.
    fn has_child_links(&self) -> bool {
        let n = self.count();
        let listed = |v: usize| {
            let (mut list, mut c) = (Vec::new(), self.first[v]);
            while (c as usize) < n && list.len() <= n {
                list.push(c as usize);
                c = self.next[c as usize];
            }
            let last = list.last().map_or(NONE, |w| *w as u16);
            list.sort();
            c == NONE && last == self.last[v] && list.into_iter().eq((0..n).filter(|w| self.parent[*w] as usize == v))
        };
        (0..n).all(listed) && self.first_rows().all(|f| self.next[f] == NONE)
    }

    /// Rule 1, roots, levels, labels and faces.
    fn is_recorded(&self) -> bool {
        let n = self.count();
        let is_bare = |root: usize| root < n && self.label[root] == 0 && self.face[root] == 0;
        if !self.first_rows().all(|f| is_bare(self.root[f] as usize)) {
            return false;
        }
        let lines = self.root_lines();
        if !self.first_rows().zip(&lines).all(|(f, line)| line.last() == Some(&f)) {
            return false;
        }
        let on_line: HashSet<usize> = lines.into_iter().flatten().collect();
        (0..n).all(|v| {
            let level = match self.parent[v] {
                NONE => 0,
                p => i64::from(self.level[p as usize]) + if on_line.contains(&v) { -1 } else { 1 },
            };
            i64::from(self.level[v]) == level && self.label[v] <= 9999 && self.face[v] <= 1
        })
    }

    /// Rule 2.
    fn has_true_paths(&self) -> bool {
        let n = self.count();
        let links =
            (0..n).all(|v| self.path[v] == NONE || ((self.path[v] as usize) < n && self.parent[self.path[v] as usize] as usize == v));
        if !links {
            return false;
        }
        let apex = |v: u16| self.parent[v as usize] == NONE || self.path[self.parent[v as usize] as usize] != v;
        let uppers = (0..n).all(|v| {
            let mut u = self.parent[v];
            while u != NONE && !apex(u) {
                u = self.parent[u as usize];
            }
            self.upper[v] == u
        });
        if !uppers {
            return false;
        }
        let mut below = vec![0u128; n];
        for v in 0..n {
            self.line(&self.upper, v as u16).into_iter().for_each(|u| below[u] += 1);
        }
        below == self.size
    }

    /// Rules 3 and 4.
    fn has_sizes(&self) -> bool {
        let third = |v: usize| {
            let (s, set) = (self.size[v], self.set_size[v]);
            1 <= set && set <= s && 5 * s < 6 * set
        };
        let fourth = |w: usize| match self.upper[w] {
            NONE => true,
            u => 2 * self.size[w] + self.set_size[u as usize] <= 2 * self.size[u as usize],
        };
        (0..self.count()).all(third) && (0..self.count()).all(fourth)
    }

    /// Rule 5.
    fn has_spans(&self) -> bool {
        self.first_rows().all(|f| self.start[f] == 0)
            && (0..self.count()).all(|u| {
                let kids: Vec<usize> = (0..self.count()).filter(|w| self.upper[*w] as usize == u).collect();
                let apart = |a: usize, b: usize| a == b || self.end(a) <= self.start[b] || self.end(b) <= self.start[a];
                let total: u128 = kids.iter().map(|w| self.set_size[*w].pow(4)).sum();
                kids.iter().all(|a| kids.iter().all(|b| apart(*a, *b)))
                    && kids.iter().all(|w| self.p(u) <= self.start[*w] && self.end(*w) <= self.next_free[u])
                    && self.next_free[u] <= self.q(u)
                    && 671 * self.next_free[u].saturating_sub(self.p(u)) <= 6480 * total
            })
    }

    /// Rule 6.
    fn has_entries(&self, t: &Table) -> bool {
        (0..self.count()).all(|v| {
            let up = self.line(&self.upper, v as u16);
            (0..ENTRIES).all(|i| {
                let power = POWERS.with(|p| p[i]);
                let entry = up.iter().rev().find(|b| 3 * self.set_size[**b].pow(4) < power);
                t.ancestors.part()[ENTRIES * v + i] == entry.map_or(NONE, |b| *b as u16)
            })
        })
    }
}

/// Whether a table whose parts fit passes inspection.
pub fn passes(t: &Table) -> bool {
    if t.count as usize > t.levels.part().len() {
        return false;
    }
    let rows = Rows::of(t);
    rows.is_forest()
        && rows.has_child_links()
        && rows.is_recorded()
        && rows.has_true_paths()
        && rows.has_sizes()
        && rows.has_spans()
        && rows.has_entries(t)
        && t.tally.part() == tally::count(&rows.label)
}

/// The plain trees of a table that passes: along the line from a first row to its root parents turn round.
pub fn plain(t: &Table) -> Plain {
    let rows = Rows::of(t);
    let mut parent = rows.parent.clone();
    for line in rows.root_lines() {
        parent[line[0]] = NONE;
        line.windows(2).for_each(|pair| parent[pair[1]] = pair[0] as u16);
    }
    Plain::of(t.levels.part().len(), parent, rows.label.clone(), rows.face.clone())
}
