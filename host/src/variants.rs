//! Tables that no list of calls makes: the trees of a good table with other labels, faces, paths, set sizes and spans, at the edges of the rules.

use crate::engine::{
    Table, DEPTH, ENTRIES, FACE, FIELDS, FIRST, LABEL, LAST, NEXT, NONE, NUMBERS, PARENT, PATH, ROOT, SET_SIZE, SIZE, UPPER,
};
use crate::faces::ODD;
use crate::places;
use crate::powers::POWERS;
use crate::random::Random;
use crate::tally;

fn get(t: &Table, v: usize, k: usize) -> u16 {
    t.fields.part()[FIELDS * v + k]
}

fn put(t: &mut Table, v: usize, k: usize, value: u16) {
    t.fields.part_mut()[FIELDS * v + k] = value;
}

fn fourth(t: &Table, v: usize) -> u64 {
    u64::from(get(t, v, SET_SIZE)).pow(4)
}

fn start(t: &Table, v: usize) -> u64 {
    t.numbers.part()[NUMBERS * v]
}

fn shuffle(rows: &mut [usize], random: &mut Random) {
    for i in (1..rows.len()).rev() {
        rows.swap(i, random.below(i + 1));
    }
}

/// Children linked in any order.
fn link_children(t: &mut Table, n: usize, random: &mut Random) {
    for v in 0..n {
        let mut children: Vec<usize> = (0..n).filter(|c| get(t, *c, PARENT) as usize == v).collect();
        shuffle(&mut children, random);
        put(t, v, FIRST, children.first().map_or(NONE, |c| *c as u16));
        put(t, v, LAST, children.last().map_or(NONE, |c| *c as u16));
        for (i, c) in children.iter().enumerate() {
            put(t, *c, NEXT, children.get(i + 1).map_or(NONE, |c| *c as u16));
        }
    }
}

/// Anything for a root where a row is not a tree's first.
fn record_roots(t: &mut Table, n: usize, random: &mut Random) {
    for v in (0..n).filter(|v| get(t, *v, PARENT) != NONE).collect::<Vec<usize>>() {
        put(t, v, ROOT, random.word() as u16);
    }
}

/// Any labels for rows that are not the root of their tree, out of few, so that they tie; the tally true to them, or damaged.
fn choose_labels(t: &mut Table, n: usize, random: &mut Random) {
    for v in (0..n as u16).filter(|v| t.root_of(*v) != *v).collect::<Vec<u16>>() {
        if random.one_in(2) {
            put(t, v as usize, LABEL, [0, 1, 2, 9999][random.below(4)]);
        }
    }
    let tally = tally::of(t).expect("labels of rows in use");
    t.tally.part_mut().copy_from_slice(&tally);
    if random.one_in(12) {
        places::change_tally(t, random);
    }
}

/// Any faces for rows that are not the root of their tree, old roots and linked ones among them; now and then one that is none, or a root's 1.
fn choose_faces(t: &mut Table, n: usize, random: &mut Random) {
    for v in (0..n as u16).filter(|v| t.root_of(*v) != *v).collect::<Vec<u16>>() {
        put(t, v as usize, FACE, random.below(2) as u16);
    }
    if random.one_in(12) {
        let face = if random.one_in(2) { 1 } else { ODD[random.below(4)] };
        put(t, random.below(n), FACE, face);
    }
}

/// Paths kept, cut or led to any child; compressed parents and sizes true to them.
fn lead_paths(t: &mut Table, n: usize, random: &mut Random) {
    for v in 0..n {
        let children: Vec<usize> = (0..n).filter(|c| get(t, *c, PARENT) as usize == v).collect();
        if random.one_in(6) {
            let path = if children.is_empty() || random.one_in(2) { NONE } else { children[random.below(children.len())] as u16 };
            put(t, v, PATH, path);
        }
        put(t, v, SIZE, 0);
    }
    for v in 0..n {
        let mut u = get(t, v, PARENT);
        while u != NONE && get(t, u as usize, PARENT) != NONE && get(t, get(t, u as usize, PARENT) as usize, PATH) == u {
            u = get(t, u as usize, PARENT);
        }
        put(t, v, UPPER, u);
    }
    for v in 0..n {
        let mut b = v as u16;
        while b != NONE {
            let size = get(t, b as usize, SIZE);
            put(t, b as usize, SIZE, size + 1);
            b = get(t, b as usize, UPPER);
        }
    }
}

/// Set sizes from the size down to below five sixths of it.
fn choose_set_sizes(t: &mut Table, n: usize, random: &mut Random) {
    for v in 0..n {
        let size = get(t, v, SIZE);
        let choices = [size, size, size, size - 1, size * 5 / 6, size * 5 / 6 + 1, size + 1];
        let most = if random.one_in(3) { choices.len() } else { 3 };
        put(t, v, SET_SIZE, choices[random.below(most)]);
    }
}

/// Spans one after another from p in any order, with gaps now and then; next free numbers at or about their bounds.
fn place_spans(t: &mut Table, n: usize, random: &mut Random) {
    let mut rows: Vec<usize> = (0..n).collect();
    rows.sort_by_key(|v| get(t, *v, DEPTH));
    for u in rows {
        if get(t, u, UPPER) == NONE {
            t.numbers.part_mut()[NUMBERS * u] = 0;
        }
        let mut children: Vec<usize> = (0..n).filter(|w| get(t, *w, UPPER) as usize == u).collect();
        shuffle(&mut children, random);
        let p = start(t, u) + fourth(t, u);
        let (mut at, mut total) = (p, 0);
        for w in &children {
            at += if random.one_in(12) { random.below(40) as u64 } else { 0 };
            t.numbers.part_mut()[NUMBERS * w] = at;
            at += 5 * fourth(t, *w);
            total += fourth(t, *w);
        }
        let dense = p + 6480 * total / 671;
        let q = start(t, u) + 4 * fourth(t, u);
        let bounds = [dense, dense + 1, q, q + 1, at.saturating_sub(1), at + 1];
        t.numbers.part_mut()[NUMBERS * u + 1] = if random.one_in(8) { bounds[random.below(bounds.len())] } else { at };
    }
}

/// Every ancestor entry true to the set sizes.
fn fill_entries(t: &mut Table, n: usize) {
    for v in 0..n {
        for i in 0..ENTRIES {
            let (mut entry, mut b) = (NONE, v as u16);
            while b != NONE {
                if 3 * u128::from(fourth(t, b as usize)) < POWERS.with(|p| p[i]) {
                    entry = b;
                }
                b = get(t, b as usize, UPPER);
            }
            t.ancestors.part_mut()[ENTRIES * v + i] = entry;
        }
    }
}

/// A variant of a good table.
pub fn of(table: &Table, random: &mut Random) -> Table {
    let (mut t, n) = (table.clone(), table.count as usize);
    if n != 0 {
        link_children(&mut t, n, random);
        choose_labels(&mut t, n, random);
        choose_faces(&mut t, n, random);
        record_roots(&mut t, n, random);
        lead_paths(&mut t, n, random);
        choose_set_sizes(&mut t, n, random);
        place_spans(&mut t, n, random);
        fill_entries(&mut t, n);
    }
    t
}
