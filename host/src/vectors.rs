//! Written lists of calls with every reply (host/vectors/lists.txt says how), and the tables and tallies that some of them leave; the stored trees beside
//! them, and after every call a full count of their labels beside the tally.

use crate::checks::{check, equal};
use crate::engine::{Grown, Opening, Reply, Table, ENTRIES, FIELDS, NUMBERS, ROOT};
use crate::lent::Lent;
use crate::stored::Stored;
use crate::tally;

const LISTS: &str = include_str!("../vectors/lists.txt");

/// What a call says, as numbers.
type Numbers = Reply<Vec<i64>>;

struct List {
    number: usize,
    table: Table,
    stored: Stored,
    capacity: usize,
    total: u64,
    joinings: u64,
    rows: usize,
}

fn numbers(words: &str) -> Vec<i64> {
    words.split_whitespace().filter_map(|w| w.parse().ok()).collect()
}

/// What a new root is given: behind its x may stand whether it names an opening, and which; else it names none.
fn opening(given: &[i64]) -> Opening {
    match given {
        [_, named, number, _] => Opening { named: *named as u16, number: *number as u16 },
        _ => Opening::NONE,
    }
}

/// The face of a leaf: behind its parent and label may stand one; else it is in front.
fn face(given: &[i64]) -> u16 {
    match given {
        [_, _, face, _] => *face as u16,
        _ => 0,
    }
}

/// A reply as it is written: R and a refusal, or a letter and values.
fn written(reply: &str) -> Numbers {
    match reply.strip_prefix("R ") {
        Some(code) => Err(code.parse().expect("a refusal")),
        None => Ok(numbers(reply)),
    }
}

impl List {
    fn new(number: usize, capacity: usize) -> List {
        let mut table = Table::new(capacity, true);
        equal(table.set_up(), Ok(()), || "set-up".into());
        List { number, table, stored: Stored::new(), capacity, total: 0, joinings: 0, rows: 0 }
    }

    /// A growth's values, with the same growth of the stored trees.
    fn grown(&mut self, found: Reply<Grown>, model: impl FnOnce(&mut Stored) -> Grown) -> Numbers {
        let grown = found?;
        equal(grown, model(&mut self.stored), || format!("a growth of the stored trees, list {}", self.number));
        self.total += u64::from(grown.rows);
        self.joinings += 1;
        Ok(vec![i64::from(grown.node), i64::from(grown.rows), i64::from(grown.head)])
    }

    /// Document 01's new root: over that of row 0's tree.
    fn add_root_first_tree(&mut self) -> Reply<Grown> {
        if self.table.count == 0 {
            self.table.add_first()
        } else {
            self.table.add_root(self.table.root_of(0), Opening::NONE)
        }
    }

    fn link(&mut self, scratch: &mut Lent<u16>, x: u16, v: u16, label: u16) -> Numbers {
        let linked = self.table.link(scratch, x, v, label)?;
        let (expected, joined) = self.stored.link(x, v, label);
        equal(linked, expected, || format!("a link of the stored trees, list {}", self.number));
        self.total += u64::from(linked.rows);
        self.joinings += joined as u64;
        Ok(vec![i64::from(linked.rows), i64::from(linked.head)])
    }

    /// A call with a tally of this length.
    fn call_with(&mut self, call: &str, length: usize) -> Numbers {
        let kept = std::mem::replace(&mut self.table.tally, Lent::new(length, 7));
        let found = self.call(call);
        self.table.tally = kept;
        found
    }

    fn call(&mut self, call: &str) -> Numbers {
        let given = numbers(call);
        let arg = |i: usize| given[i] as u16;
        let mut scratch = Lent::new(*given.last().expect("a number") as usize, 7);
        self.table.growth_scratch = scratch.clone();
        match &call[..1] {
            "F" => {
                let found = self.table.add_first();
                self.grown(found, |stored| stored.add_first())
            }
            "L" => {
                let face = face(&given);
                let found = self.table.add_leaf(arg(0), arg(1), face);
                self.grown(found, |stored| stored.add_leaf(arg(0), arg(1), face))
            }
            "T" => {
                let opening = opening(&given);
                let found = self.table.add_root(arg(0), opening);
                self.grown(found, |stored| stored.add_root(arg(0), opening.label()))
            }
            "O" => {
                let found = self.add_root_first_tree();
                self.grown(found, |stored| stored.add_root_first_tree(None))
            }
            "H" => self.link(&mut scratch, arg(0), arg(1), arg(2)),
            "Q" => self.table.query(arg(0), arg(1)).map(|values| values.map(i64::from).to_vec()),
            "A" => self.table.alike(arg(0), arg(1)).map(|value| vec![i64::from(value)]),
            _ => self.table.inspect(&mut scratch).map(|value| vec![i64::from(value)]),
        }
    }

    /// A call and its reply.
    fn play(&mut self, call: &str, reply: &str) {
        let found = match call.split_once(" tally ") {
            Some((call, length)) => self.call_with(call, length.parse().expect("a length")),
            None => self.call(call),
        };
        equal(found, written(reply), || format!("{call} in list {}", self.number));
        let labels: Vec<u16> = self.stored.rows.iter().map(|row| row.label).collect();
        check(self.table.tally.part() == tally::count(&labels), || format!("the tally after {call} in list {}", self.number));
    }

    /// The tally: labels and their entries where these are not 0, and the last.
    fn tally(&mut self, written: &str) {
        let (entries, most) = written.split_once(" most ").expect("entries and the last");
        let mut expected = vec![0; tally::LENGTH];
        numbers(entries).chunks(2).for_each(|pair| expected[pair[0] as usize] = pair[1] as u16);
        expected[tally::LABELS] = most.parse().expect("a label");
        check(self.table.tally.part() == expected, || format!("the tally after list {}", self.number));
    }

    /// The next row of the table.
    fn row(&mut self, row: &str) {
        let (row, entries) = row.split_once(" entries ").expect("a row and its entries");
        let (row, entries) = (numbers(row), numbers(entries));
        let entries: Vec<u16> = entries.chunks(2).flat_map(|run| vec![run[0] as u16; run[1] as usize]).collect();
        let (x, t) = (self.rows, &self.table);
        let (fields, [level, start, next_free, face @ ..]) = row.split_at(ROOT + 1) else { panic!("row {x} of list {}", self.number) };
        let fields: Vec<u16> = fields.iter().chain([face.first().unwrap_or(&0)]).map(|n| *n as u16).collect();
        let same = t.fields.part()[FIELDS * x..][..FIELDS] == fields
            && i64::from(t.levels.part()[x]) == *level
            && t.numbers.part()[NUMBERS * x..][..NUMBERS] == [*start as u64, *next_free as u64]
            && t.ancestors.part()[ENTRIES * x..][..ENTRIES] == entries;
        check(same, || format!("row {x} after list {}", self.number));
        self.rows += 1;
    }

    fn end(&mut self, totals: &str) {
        equal(vec![self.total as i64, self.joinings as i64], numbers(totals), || format!("the totals of list {}", self.number));
        check(self.stored.is_held_by(&self.table), || format!("the stored trees of list {}", self.number));
        let mut scratch = Lent::new(self.capacity, 7);
        equal(self.table.inspect(&mut scratch), Ok(1), || format!("inspection after list {}", self.number));
    }
}

pub fn lists() -> String {
    let (mut list, mut count, mut calls): (Option<List>, usize, usize) = (None, 0, 0);
    for line in LISTS.lines().filter(|line| !line.starts_with('#')) {
        if let Some(capacity) = line.strip_prefix("capacity ") {
            list = Some(List::new(count, capacity.parse().expect("a capacity")));
            count += 1;
        }
        let Some(list) = &mut list else { continue };
        if let Some((call, reply)) = line.split_once(" -> ") {
            list.play(call, reply);
            calls += 1;
        } else if let Some(row) = line.strip_prefix("row ") {
            list.row(row);
        } else if let Some(tally) = line.strip_prefix("tally ") {
            list.tally(tally);
        } else if let Some(totals) = line.strip_prefix("end ") {
            list.end(totals);
        }
    }
    format!("{count} lists of {calls} calls")
}
