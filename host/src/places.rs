//! Good tables damaged in a few places, with numbers that matter there: none, the count and its neighbours, other rows, the limits of 01 and what leads to
//! them or just past them.

use crate::engine::{Table, DEPTH, ENTRIES, FACE, FIELDS, LABEL, NEXT_FREE, NONE, NUMBERS, SET_SIZE, SIZE, START, TREE};
use crate::faces::ODD;
use crate::lent::Lent;
use crate::random::Random;
use crate::reading::LIMIT;
use crate::tally::{LABELS, MISFITS};

/// A row that is damaged: mostly one of those that a call reads, as often an early one as a late one.
fn row(table: &Table, read: &[u16], random: &mut Random) -> u16 {
    if read.is_empty() || random.one_in(8) {
        return random.below(table.levels.part().len()) as u16;
    }
    let (i, j) = (random.below(read.len()), random.below(read.len()));
    read[if random.one_in(2) { i.min(j) } else { i.max(j) }]
}

/// A link that matters beside an old one.
fn link(old: u16, count: u16, other: u16, random: &mut Random) -> u16 {
    let links = [NONE, NONE - 1, count, count.wrapping_sub(1), 0, old.wrapping_add(1), old.wrapping_sub(1), other, other, other];
    links[random.below(links.len())]
}

fn change_field(t: &mut Table, v: usize, other: u16, random: &mut Random) {
    let (count, k, level) = (t.count, random.below(FIELDS), t.levels.part()[v]);
    let field = &mut t.fields.part_mut()[FIELDS * v + k];
    let (up, down) = (field.wrapping_add(1), field.wrapping_sub(1));
    *field = match k {
        SIZE | SET_SIZE => [0, 1, up, down, up, down, count, count.wrapping_add(1), NONE][random.below(9)],
        DEPTH => [0, up, down, NONE, level.unsigned_abs() as u16][random.below(5)],
        LABEL => [0, up, down, NONE][random.below(4)],
        FACE => [*field ^ 1, *field ^ 1, ODD[random.below(4)]][random.below(3)],
        _ => link(*field, count, other, random),
    }
}

/// A start or next free number at or about the limit that it leads past.
fn change_limit(t: &mut Table, v: usize, other: u16, random: &mut Random) {
    let fourth = |v: usize, k: usize, more: u128| (u128::from(t.fields.part()[FIELDS * v + k]) + more).pow(4);
    let k = random.below(NUMBERS);
    let old = t.numbers.part()[NUMBERS * v + k];
    let full = LIMIT.saturating_sub([5 * fourth(v, SET_SIZE, 0), 5 * fourth(other as usize, SIZE, 1), 5, 0][random.below(4)]) as u64;
    let new = [full, full + 1, full, full + 1, 0, old.wrapping_add(1), old.wrapping_sub(1), u64::MAX];
    t.numbers.part_mut()[NUMBERS * v + k] = new[random.below(new.len())];
}

/// A start that brings a row's p to another's, or as far from it as another's span has q, or next to these.
fn change_start(t: &mut Table, v: usize, other: u16, third: u16, random: &mut Random) {
    let fourth = |v: u16| u64::from(t.fields.part()[FIELDS * v as usize + SET_SIZE]).wrapping_pow(4);
    let p = t.numbers.part()[NUMBERS * other as usize + START].wrapping_add(fourth(other));
    let reach = [0, 0, fourth(other), fourth(third)][random.below(4)].wrapping_mul(3);
    let at = if random.one_in(3) { p.wrapping_sub(reach) } else { p.wrapping_add(reach) };
    let near = [at, at, at.wrapping_add(1), at.wrapping_sub(1)][random.below(4)];
    t.numbers.part_mut()[NUMBERS * v + START] = near.wrapping_sub(fourth(v as u16));
}

/// A row that must not be read: out of range in a place that leads nowhere.
fn spoil(t: &mut Table, v: usize, random: &mut Random) {
    match random.below(3) {
        0 => t.numbers.part_mut()[NUMBERS * v + NEXT_FREE] = LIMIT as u64 + 1,
        1 => t.levels.part_mut()[v] = -32768,
        _ => t.fields.part_mut()[FIELDS * v + SIZE] = t.count.wrapping_add(1),
    }
}

fn change_level(t: &mut Table, v: usize, other: u16, random: &mut Random) {
    let (old, depth) = (t.levels.part()[v], i32::from(t.fields.part()[FIELDS * v + DEPTH]));
    let limit = 32767 + random.below(2) as i32;
    let new =
        [limit, -limit, -depth, -depth, old.wrapping_add(1), old.wrapping_sub(1), t.levels.part()[other as usize], i32::MIN, i32::MAX];
    t.levels.part_mut()[v] = new[random.below(new.len())];
}

fn change_entry(t: &mut Table, v: usize, other: u16, random: &mut Random) {
    let (count, i) = (t.count, if random.one_in(3) { TREE } else { random.below(ENTRIES) });
    let entry = &mut t.ancestors.part_mut()[ENTRIES * v + i];
    let new = link(*entry, count, other, random);
    // a whole row of entries now and then, since few of them are read
    if random.one_in(2) {
        t.ancestors.part_mut()[ENTRIES * v..][..ENTRIES].fill(new);
    } else {
        *entry = new;
    }
}

/// Two rows linked to each other, often as parents, with one label, face and level.
fn change_loop(t: &mut Table, v: usize, other: u16, random: &mut Random) {
    let (k, w) = (random.below(9).saturating_sub(3), other as usize);
    let fields = t.fields.part_mut();
    (fields[FIELDS * v + k], fields[FIELDS * w + k]) = (other, v as u16);
    fields[FIELDS * w + LABEL] = fields[FIELDS * v + LABEL];
    fields[FIELDS * w + FACE] = fields[FIELDS * v + FACE];
    t.levels.part_mut()[w] = t.levels.part()[v];
}

fn change_count(t: &mut Table, random: &mut Random) {
    let capacity = t.levels.part().len() as u16;
    t.count = [t.count.wrapping_sub(1), t.count.wrapping_add(1), 0, capacity, capacity + 1, NONE][random.below(6)];
}

/// A label that a row carries or a call names, or any.
fn label(t: &Table, random: &mut Random) -> usize {
    let v = random.below(t.levels.part().len());
    let carried = t.fields.part()[FIELDS * v + LABEL] as usize;
    let labels = [0, 0, 1, 1, 9999, 9999, 2, 7, carried.min(LABELS - 1), random.below(LABELS)];
    labels[random.below(labels.len())]
}

/// The tally changed where it matters: an entry one up or down, two swapped, one at the capacity or past it, one that ties with the greatest, or another label
/// at the end: the greatest of those that tie, or none at all.
pub fn change_tally(t: &mut Table, random: &mut Random) {
    let (capacity, label, other) = (t.levels.part().len() as u16, label(t, random), label(t, random));
    let tally = t.tally.part_mut();
    let greatest = *tally[..LABELS].iter().max().expect("an entry");
    let last = tally[..LABELS].iter().rposition(|entry| *entry == greatest).expect("a label");
    match random.below(8) {
        0 => tally[label] = tally[label].wrapping_add(1),
        1 => tally[label] = tally[label].wrapping_sub(1),
        2 => tally.swap(label, other),
        3 => tally[label] = capacity,
        4 => tally[label] = [capacity - 1, capacity + 1, NONE][random.below(3)],
        5 => tally[label] = greatest,
        6 => tally[LABELS] = [other, last, last][random.below(3)] as u16,
        _ => tally[LABELS] = [LABELS as u16, NONE, tally[LABELS] + 1][random.below(3)],
    }
}

/// A part one element short or long.
fn change_part(t: &mut Table, random: &mut Random) {
    let length = |old: usize, random: &mut Random| if random.one_in(2) { old + 1 } else { old - 1 };
    match random.below(5) {
        0 => t.fields = Lent::new(length(t.fields.part().len(), random), 0),
        1 => t.numbers = Lent::new(length(t.numbers.part().len(), random), 0),
        2 => t.levels = Lent::new(length(t.levels.part().len(), random), 0),
        3 => t.tally = Lent::new(MISFITS[random.below(MISFITS.len())], 0),
        _ => t.ancestors = Lent::new(length(t.ancestors.part().len(), random), 0),
    }
}

/// A table with one to four places changed, where `read` are the rows that some call reads.
pub fn damaged(table: &Table, read: &[u16], random: &mut Random) -> Table {
    let mut t = table.clone();
    for _ in 0..[1, 1, 1, 2, 3, 4][random.below(6)] {
        let (v, other, third) = (row(&t, read, random) as usize, row(&t, read, random), row(&t, read, random));
        match random.below(36) {
            0 => change_count(&mut t, random),
            1..=3 => change_loop(&mut t, v, other, random),
            4..=6 => change_entry(&mut t, v, other, random),
            7..=9 => change_level(&mut t, v, other, random),
            10..=12 => change_limit(&mut t, v, other, random),
            13..=15 => change_start(&mut t, v, other, third, random),
            16..=19 => spoil(&mut t, v, random),
            20..=23 => change_tally(&mut t, random),
            _ => change_field(&mut t, v, other, random),
        }
    }
    if random.one_in(100) {
        change_part(&mut t, random);
    }
    t
}
