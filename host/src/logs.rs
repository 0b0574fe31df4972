//! The log program on good and damaged logs, against a reader and a printer written apart, on written logs (host/vectors/logs.txt says how), and on the sample
//! logs of docs/samples.

use std::io::Write;
use std::process::{Command, Stdio};

use crate::checks::equal;
use crate::engine::{Grown, GROWTH_SCRATCH};
use crate::faces;
use crate::plain::Plain;
use crate::random::Random;
use crate::stored::Stored;

const CAPACITY: usize = 128;
const LONGEST: usize = 16_384;
const LOGS: usize = 1_500;
const PROGRAM: &str = "target/bin/echo";

const WRITTEN: &str = include_str!("../vectors/logs.txt");

/// A log whose new roots name no opening, one whose do, one whose leaves have faces, and what is printed for each.
const SAMPLES: [(&str, &[u8], &str); 3] = [
    ("older", include_bytes!("../../docs/samples/older.log"), include_str!("../../docs/samples/older.txt")),
    ("openings", include_bytes!("../../docs/samples/openings.log"), include_str!("../../docs/samples/openings.txt")),
    ("faces", include_bytes!("../../docs/samples/faces.log"), include_str!("../../docs/samples/faces.txt")),
];

/// What document 01's program prints for a log.
struct Printer {
    plain: Plain,
    stored: Stored,
    total: u64,
    text: String,
}

impl Printer {
    fn line(&mut self, ordinal: usize, letter: char, values: &[i32]) {
        self.text += &format!("{ordinal} {letter}");
        values.iter().for_each(|v| self.text += &format!(" {v}"));
        self.text += "\n";
    }

    fn grown(&mut self, ordinal: usize, letter: char, reply: Result<u16, u16>, model: impl FnOnce(&mut Stored) -> Grown) {
        match reply {
            Err(code) => self.line(ordinal, 'R', &[i32::from(code)]),
            Ok(node) => {
                let grown = model(&mut self.stored);
                self.total += u64::from(grown.rows);
                let level = self.stored.rows[node as usize].level;
                self.line(ordinal, letter, &[i32::from(node), level, i32::from(grown.rows), i32::from(grown.head)]);
            }
        }
    }

    fn field(&mut self, ordinal: usize, tag: u8, body: &[u8]) {
        let number = |i: usize| u16::from_be_bytes([body[i], body[i + 1]]);
        match (tag, body.len()) {
            (1, 4) | (5, 5) => {
                let face = body.get(4).map_or(0, |face| u16::from(*face));
                let reply = self.plain.add_leaf(GROWTH_SCRATCH, number(0), number(2), face);
                self.grown(ordinal, 'L', reply, |stored| stored.add_leaf(number(0), number(2), face));
            }
            (2, length @ (0 | 2)) => {
                let opening = (length == 2).then(|| number(0));
                let reply = self.plain.add_root_first_tree(GROWTH_SCRATCH, opening);
                self.grown(ordinal, 'T', reply, |stored| stored.add_root_first_tree(opening));
            }
            (3, 4) => match self.plain.query(number(0), number(2)) {
                Err(code) => self.line(ordinal, 'R', &[i32::from(code)]),
                Ok(values) => self.line(ordinal, 'Q', &values),
            },
            (4, 4) => match self.plain.alike(number(0), number(2)) {
                Err(code) => self.line(ordinal, 'R', &[i32::from(code)]),
                Ok(value) => self.line(ordinal, 'A', &[i32::from(value)]),
            },
            (1..=5, _) => self.line(ordinal, 'R', &[7]),
            (9, _) if body.iter().all(|b| *b == 0) => (),
            (9, _) => self.line(ordinal, 'R', &[9]),
            _ => self.line(ordinal, 'R', &[6]),
        }
    }
}

fn listing(log: &[u8]) -> String {
    let log = &log[..log.len().min(LONGEST)];
    let mut printer = Printer { plain: Plain::new(CAPACITY), stored: Stored::new(), total: 0, text: format!("echo {CAPACITY}\n") };
    let (mut at, mut ordinal) = (0, 1);
    while at < log.len() {
        let rest = &log[at..];
        let length = if rest.len() < 3 { LONGEST } else { usize::from(u16::from_be_bytes([rest[1], rest[2]])) };
        if rest.len() < 3 || rest.len() - 3 < length {
            printer.line(ordinal, 'R', &[8]);
            break;
        }
        printer.field(ordinal, rest[0], &rest[3..3 + length]);
        at += 3 + length;
        ordinal += 1;
    }
    let (count, total) = (printer.plain.count(), printer.total);
    printer.text + &format!("end {count} {total}\n")
}

/// A log of fields that mostly make sense.
pub fn log(fields: usize, random: &mut Random) -> Vec<u8> {
    let (mut bytes, mut nodes) = (Vec::new(), 0usize);
    for _ in 0..fields {
        let mut node = || if random.one_in(16) { random.word() as u16 } else { random.below(nodes.min(CAPACITY).max(1)) as u16 };
        let (x, y) = (node(), node());
        let label = if random.one_in(16) { [0, 9999, 10000][random.below(3)] } else { 1 + random.below(2) as u16 };
        let kind = if nodes == 0 { 4 } else { random.below(9) };
        let (tag, body) = match kind {
            0 | 1 => (1, [x.to_be_bytes(), label.to_be_bytes()].concat()),
            2 | 3 => (5, [&x.to_be_bytes()[..], &label.to_be_bytes(), &[faces::any(random) as u8]].concat()),
            4 if random.one_in(2) => (2, Vec::new()),
            4 => (2, label.to_be_bytes().to_vec()),
            5 | 6 => (3, [x.to_be_bytes(), y.to_be_bytes()].concat()),
            7 => (4, [x.to_be_bytes(), y.to_be_bytes()].concat()),
            _ => (9, vec![0; random.below(6)]),
        };
        nodes += usize::from(kind <= 4);
        bytes.push(tag);
        bytes.extend((body.len() as u16).to_be_bytes());
        bytes.extend(body);
    }
    bytes
}

/// Bytes overwritten, taken out or put in, and the end cut off.
pub fn damage(log: &mut Vec<u8>, random: &mut Random) {
    for _ in 0..random.below(5) {
        let place = random.below(log.len());
        match random.below(4) {
            0 => log[place] = random.word() as u8,
            1 => log[place] = random.below(10) as u8,
            2 => drop(log.remove(place)),
            _ => log.insert(place, random.below(3) as u8),
        }
    }
    if random.one_in(3) {
        log.truncate(random.below(log.len() + 1));
    }
}

/// What the program prints. It may leave the end of a long log unread.
fn run(log: &[u8]) -> String {
    let mut child = Command::new(PROGRAM).stdin(Stdio::piped()).stdout(Stdio::piped()).spawn().expect(PROGRAM);
    let _ = child.stdin.take().expect("stdin").write_all(log);
    let output = child.wait_with_output().expect(PROGRAM);
    String::from_utf8_lossy(&output.stdout).into_owned()
}

fn compare(log: &[u8]) {
    let (found, expected) = (run(log), listing(log));
    let first = found.lines().zip(expected.lines()).find(|(f, e)| f != e);
    equal(&found, &expected, || format!("a log of {} bytes, first at {first:?}", log.len()));
}

/// A written log: its name, its bytes and what is printed for it.
fn written(log: &str) -> (&str, Vec<u8>, String) {
    let byte = |field: &str, i: usize| u8::from_str_radix(&field[i..i + 2], 16).expect("a byte");
    let (name, lines) = log.split_once('\n').expect("a name");
    let mut bytes = Vec::new();
    for line in lines.lines() {
        if let Some(field) = line.strip_prefix("< ") {
            bytes.extend((0..field.len()).step_by(2).map(|i| byte(field, i)));
        }
        if let Some(zeros) = line.strip_prefix("<0 ") {
            bytes.resize(bytes.len() + zeros.parse::<usize>().expect("how many"), 0);
        }
    }
    let printed = lines.lines().filter(|line| !line.starts_with('<')).map(|line| format!("{line}\n")).collect();
    (name, bytes, printed)
}

/// Written logs, by the program and by the printer.
pub fn vectors() -> String {
    let logs = WRITTEN.split("\nlog ").skip(1);
    let count = logs.clone().count();
    for (name, bytes, expected) in logs.map(written) {
        equal(listing(&bytes), expected.clone(), || format!("the printer on log {name}"));
        equal(run(&bytes), expected, || format!("log {name}"));
    }
    format!("{count} logs")
}

/// The sample logs, by the program and by the printer.
pub fn samples() -> String {
    for (name, bytes, expected) in SAMPLES {
        equal(&*listing(bytes), expected, || format!("the printer on the sample log {name}"));
        equal(&*run(bytes), expected, || format!("the sample log {name}"));
    }
    format!("{} logs", SAMPLES.len())
}

/// A field of a log.
fn field(tag: u8, body: &[u8]) -> Vec<u8> {
    let mut bytes = vec![tag, 0, body.len() as u8];
    bytes.extend(body);
    bytes
}

/// Leaves through the program: of every face, of tag 5 with every length to 6, the first field or a later one, with a label that is none or of a full tree.
pub fn faces() -> String {
    let (root, pair, mut count) = (field(2, &[]), [field(4, &[0, 1, 0, 2]), field(4, &[0, 1, 0, 3])].concat(), 0);
    let mut compare = |parts: &[&[u8]]| {
        compare(&parts.concat());
        count += 1;
    };
    let leaves = |face: u8| [field(1, &[0, 0, 0, 7]), field(5, &[0, 0, 0, 7, face]), field(5, &[0, 0, 0, 7, 0])].concat();
    for face in 0..=255 {
        compare(&[&root, &leaves(face), &pair]);
        compare(&[&leaves(face), &root, &pair]);
        compare(&[&root, &field(5, &[0, 0, 0, 0, face]), &field(5, &[0, 1, 0, 0, face]), &field(5, &[0, 0, 39, 16, face])]);
    }
    for length in 0..7 {
        let odd = field(5, &[0, 0, 0, 7, 1, 0, 0][..length]);
        (0..=odd.len()).for_each(|end| compare(&[&root, &leaves(1), &odd[..end]]));
        compare(&[&root, &odd, &leaves(1), &pair]);
    }
    let full = [root, field(5, &[0, 0, 0, 7, 1]).repeat(CAPACITY - 1)].concat();
    for face in [0, 1, 2, 255] {
        compare(&[&full, &field(5, &[0, 0, 0, 7, face]), &field(5, &[0, 0, 0, 0, face]), &pair]);
    }
    format!("{count} logs")
}

/// A new root, filler with these bytes of it set, and a leaf.
fn filler_log(length: usize, bytes: &[(usize, u8)]) -> Vec<u8> {
    let mut log = vec![2, 0, 0, 9, (length / 256) as u8, (length % 256) as u8];
    log.resize(log.len() + length, 0);
    bytes.iter().for_each(|(i, b)| log[6 + i] = *b);
    log.extend([1, 0, 4, 0, 0, 0, 7]);
    log
}

/// Filler through the program: of 7, 8 and 9 bytes with each of them set; as much as the program reads, one more, and the longest, which it cuts short.
pub fn filler() -> String {
    let mut random = Random::new(9);
    let mut count = 0;
    for length in [7, 8, 9, LONGEST - 13, LONGEST - 6, LONGEST - 5, 65_535] {
        let places: Vec<_> =
            if length < 10 { (0..length).collect() } else { (0..20).map(|_| random.below(length)).chain([0, length - 1]).collect() };
        compare(&filler_log(length, &[]));
        for i in &places {
            [1, 128, 255].iter().for_each(|b| compare(&filler_log(length, &[(*i, *b)])));
        }
        count += 1 + 3 * places.len();
    }
    format!("{count} logs")
}

pub fn logs() -> String {
    let mut random = Random::new(8);
    compare(&[]);
    for round in 0..LOGS {
        let fields = [10, 40, 200, 1000, 4000][round % 5];
        let mut bytes = log(fields, &mut random);
        if round % 4 != 0 {
            damage(&mut bytes, &mut random);
        }
        compare(&bytes);
    }
    format!("{LOGS} logs and the empty one")
}
