//! The log reader (include/vundreli.h) against one written apart: at every place of good and damaged logs, on filler of many lengths, clean and
//! with bytes that are not zero, and on new roots and leaves of many lengths.

use crate::checks::{check, equal};
use crate::lent::Lent;
use crate::logs;
use crate::random::Random;

mod raw {
    #[link(name = "vundreli", kind = "static")]
    extern "C" {
        pub fn nca_log_field(log: *const u8, log_len: usize, at: usize, out: *mut u16, out_len: usize) -> u16;
        pub fn nca_log_next(log: *const u8, log_len: usize, at: usize) -> usize;
    }
}

const VALUES: usize = 4;
const LOGS: usize = 200;
const LONGEST: usize = 65_535;

/// A field's kind and its three values, zeros at the log's end; or the refusal.
type Field = Result<[u16; VALUES], u16>;

/// What is told to a slice of any length; 0 as a refusal where one of another length was served.
fn field_to(mut out: Lent<u16>, log: &Lent<u8>, at: usize) -> Field {
    let (l, o) = (log.part(), out.part_mut());
    let code = unsafe { raw::nca_log_field(l.as_ptr(), l.len(), at, o.as_mut_ptr(), o.len()) };
    check(log.is_guarded() && out.is_guarded(), || format!("the field at {at} touched a guard"));
    if code == 0 {
        return out.part().try_into().map_err(|_| code);
    }
    check(out.part().iter().all(|c| *c == 0xA5C3), || format!("the field at {at} was refused by {code} and stored an answer"));
    Err(code)
}

/// The field at a place, and the next place.
fn read(log: &Lent<u8>, at: usize) -> (Field, usize) {
    let next = unsafe { raw::nca_log_next(log.part().as_ptr(), log.part().len(), at) };
    (field_to(Lent::marked(VALUES), log, at), next)
}

/// The same by the words of documents 01 and 02: a leaf with a face is a leaf, and one without is in front.
fn naive(log: &[u8], at: usize) -> (Field, usize) {
    let rest = log.get(at..).unwrap_or(&[]);
    if rest.is_empty() {
        return (Ok([0; VALUES]), at);
    }
    let Some(body) = rest.get(1..3).and_then(|n| rest[3..].get(..usize::from(n[0]) * 256 + usize::from(n[1]))) else {
        return (Err(8), at);
    };
    let number = |i: usize| u16::from_be_bytes([body[i], body[i + 1]]);
    let field = match (rest[0], body.len()) {
        (tag @ (1 | 3 | 4), 4) => Ok([tag.into(), number(0), number(2), 0]),
        (2, 0) => Ok([2, 0, 0, 0]),
        (2, 2) => Ok([2, 1, number(0), 0]),
        (5, 5) => Ok([1, number(0), number(2), body[4].into()]),
        (1..=5, _) => Err(7),
        (9, _) if body.iter().all(|b| *b == 0) => Ok([9, 0, 0, 0]),
        (9, _) => Err(9),
        _ => Err(6),
    };
    (field, at + 3 + body.len())
}

fn lent(bytes: &[u8]) -> Lent<u8> {
    let mut log = Lent::new(bytes.len(), 0);
    log.part_mut().copy_from_slice(bytes);
    log
}

fn compare(log: &Lent<u8>, at: usize, what: impl Fn() -> String) {
    equal(read(log, at), naive(log.part(), at), || format!("place {at} of {}", what()));
}

/// Every place of a log and some past it, whether a field starts there or not; an answer of another length is refused before all else.
pub fn places() -> String {
    let mut random = Random::new(103);
    for round in 0..LOGS {
        let mut bytes = logs::log([0, 10, 40, 200][round % 4], &mut random);
        if round % 4 != 0 && round % 3 != 0 {
            logs::damage(&mut bytes, &mut random);
        }
        let log = lent(&bytes);
        for at in (0..bytes.len() + 4).chain([usize::MAX - 3, usize::MAX - 2, usize::MAX - 1, usize::MAX]) {
            compare(&log, at, || format!("log {round}"));
        }
        for length in [0, 1, 2, 3, 5, 6] {
            let at = random.below(bytes.len() + 2);
            equal(field_to(Lent::marked(length), &log, at), Err(3), || format!("an answer of {length} values"));
        }
    }
    format!("{LOGS} logs")
}

/// A log with filler of this length at a place, bytes that are not zero before it and after it.
fn filler_at(at: usize, length: usize) -> Lent<u8> {
    let mut bytes = vec![0xFF; at];
    bytes.extend([9, (length / 256) as u8, (length % 256) as u8]);
    bytes.extend(std::iter::repeat(0).take(length).chain([0xFF; 9]));
    lent(&bytes)
}

/// With these bytes of its body set, filler is refused by 9, else served; its bytes are zeros again after it.
fn with_bytes(log: &mut Lent<u8>, at: usize, length: usize, bytes: &[(usize, u8)]) {
    bytes.iter().for_each(|(i, b)| log.part_mut()[at + 3 + i] = *b);
    let field = if bytes.is_empty() { Ok([9, 0, 0, 0]) } else { Err(9) };
    equal(read(log, at), (field, at + 3 + length), || format!("filler of {length} bytes at {at} with {bytes:?}"));
    bytes.iter().for_each(|(i, _)| log.part_mut()[at + 3 + i] = 0);
}

/// Lengths 0 to 39 at eight places, clean, and with each bit set at each place; pairs of bytes whose sum vanishes in 8 bits, and longer runs of that kind.
fn short() {
    for length in 0..40 {
        for at in 0..8 {
            let mut log = filler_at(at, length);
            with_bytes(&mut log, at, length, &[]);
            for i in 0..length {
                (0..8).for_each(|bit| with_bytes(&mut log, at, length, &[(i, 1 << bit)]));
                with_bytes(&mut log, at, length, &[(i, 255)]);
                for j in i + 1..length {
                    [(128, 128), (1, 255), (1, 254)].iter().for_each(|(b, c)| with_bytes(&mut log, at, length, &[(i, *b), (j, *c)]));
                }
            }
            for byte in [32, 255] {
                let run: Vec<_> = (0..length).map(|i| (i, byte)).collect();
                with_bytes(&mut log, at, length, &run);
            }
        }
    }
}

/// The longest filler, clean and with one byte that is not zero, at every place of it.
fn longest() {
    for at in [0, 5] {
        let mut log = filler_at(at, LONGEST);
        with_bytes(&mut log, at, LONGEST, &[]);
        (0..LONGEST).for_each(|i| with_bytes(&mut log, at, LONGEST, &[(i, 1 << (i % 8))]));
    }
}

pub fn filler() -> String {
    short();
    longest();
    format!("lengths 0 to 39 and {LONGEST}")
}

/// A log with a field of this tag and length at a place, bytes that are not zero about it, and these bytes in its body or past it.
fn field_at(at: usize, tag: u8, length: usize, body: &[u8]) -> Lent<u8> {
    let mut bytes = vec![0xFF; at];
    bytes.extend([tag, (length / 256) as u8, (length % 256) as u8]);
    bytes.extend(body);
    bytes.resize(at + 3 + length.max(body.len()) + 9, 0xFF);
    lent(&bytes)
}

/// Lengths 0 to 5, and others with a 0 or a 2 in one of their bytes: only 0 and 2 are served. The reader tells every opening, and leaves it to a table to
/// refuse one; cut short, the field is refused by 8.
pub fn roots() -> String {
    let lengths = [0, 1, 2, 3, 4, 5, 255, 256, 258, 512, 514, LONGEST];
    for (length, at) in lengths.into_iter().flat_map(|length| (0..8).map(move |at| (length, at))) {
        let field = match length {
            0 => Ok([2, 0, 0, 0]),
            2 => Ok([2, 1, 9999, 0]),
            _ => Err(7),
        };
        let log = field_at(at, 2, length, &9999u16.to_be_bytes());
        equal(read(&log, at), (field, at + 3 + length), || format!("a new root of length {length} at {at}"));
        for end in at + 1..at + 3 + length.min(8) {
            equal(read(&lent(&log.part()[..end]), at), (Err(8), at), || format!("a new root of length {length} at {at}, cut at {end}"));
        }
    }
    for opening in 0..=65_535u16 {
        let log = field_at(1, 2, 2, &opening.to_be_bytes());
        equal(read(&log, 1), (Ok([2, 1, opening, 0]), 6), || format!("a new root through {opening}"));
    }
    format!("{} lengths and every opening", lengths.len())
}

/// Lengths 0 to 6, and others with a 4 or a 5 in one of their bytes: a leaf of tag 1 has 4, one of tag 5 has 5. The reader tells every face, label and
/// parent, and leaves it to a table to refuse them; cut short, the field is refused by 8.
pub fn leaves() -> String {
    let lengths = [0, 1, 2, 3, 4, 5, 6, 255, 256, 260, 261, 1024, 1280, LONGEST];
    for (length, at) in lengths.into_iter().flat_map(|length| (0..8).map(move |at| (length, at))) {
        for tag in [1, 5] {
            let field = match (tag, length) {
                (1, 4) => Ok([1, 258, 772, 0]),
                (5, 5) => Ok([1, 258, 772, 1]),
                _ => Err(7),
            };
            let log = field_at(at, tag, length, &[1, 2, 3, 4, 1]);
            equal(read(&log, at), (field, at + 3 + length), || format!("tag {tag} of length {length} at {at}"));
            for end in at + 1..at + 3 + length.min(8) {
                equal(read(&lent(&log.part()[..end]), at), (Err(8), at), || format!("tag {tag} of length {length} at {at}, cut at {end}"));
            }
        }
    }
    for face in 0..=255 {
        equal(read(&field_at(1, 5, 5, &[0, 2, 0, 7, face]), 1), (Ok([1, 2, 7, face.into()]), 9), || format!("a leaf of face {face}"));
    }
    for number in 0..=65_535u16 {
        let [high, low] = number.to_be_bytes();
        let whole = (Ok([1, number, !number, 1]), 8);
        equal(read(&field_at(0, 5, 5, &[high, low, !high, !low, 1]), 0), whole, || format!("a leaf under {number}"));
    }
    let tags = (0..=255).filter(|tag| ![1, 2, 3, 4, 5, 9].contains(tag));
    for (tag, length) in tags.clone().flat_map(|tag| [0, 2, 4, 5].map(|length| (tag, length))) {
        equal(read(&field_at(2, tag, length, &[0; 5]), 2), (Err(6), 5 + length), || format!("tag {tag} of length {length}"));
    }
    format!("{} lengths, every face, parent and label, and {} tags that no field has", lengths.len(), tags.count())
}
