//! Tests of the engine from a host, over the static library: random lists of calls against naive models, damaged tables, trees and
//! logs, written lists, and the cases of documents 01 and 02.
//! Prints a line for each group and, last, how many passed; the exit status says whether all did.

mod asking;
mod cases;
mod checks;
mod damage;
mod engine;
mod faces;
mod fields;
mod frame;
mod growing;
mod hand;
mod lent;
mod lists;
mod logs;
mod marks;
mod outside;
mod places;
mod plain;
mod powers;
mod random;
mod raw;
mod reading;
mod refusals;
mod rules;
mod scratch;
mod stored;
mod tally;
mod trees;
mod variants;
mod vectors;

use std::process::ExitCode;

/// A group of tests, and what it says of itself beside its counts.
const GROUPS: [(&str, fn() -> String); 40] = [
    ("capacities 0, 1, 32,768 and 32,769", cases::capacities),
    ("parts that do not fit", cases::misfits),
    ("answers of another length", cases::answers),
    ("labels, faces and the last node", cases::limits),
    ("several trees by hand", hand::cases),
    ("openings by hand", hand::openings),
    ("faces by hand", faces::cases),
    ("every set of a leaf's refusals", faces::refusals),
    ("lists of calls with faces and without", faces::without),
    ("every face of every row inspected", faces::inspected),
    ("every length of a scratch", scratch::lengths),
    ("lists of calls with scratches of several lengths, at capacities to 1,024", scratch::side_by_side),
    ("lists of calls with scratches of several lengths, at capacity 32,768", scratch::large),
    ("written lists of calls", vectors::lists),
    ("lists of calls at capacities to 20", lists::small),
    ("lists of calls at capacities to 1,024", lists::middle),
    ("lists of calls at capacities to 32,768", lists::large),
    ("two trees of 16,384 nodes, linked", lists::halves),
    ("what stays as it was, at capacities to 1,024", frame::lists),
    ("what stays as it was, at capacities to 32,768", frame::large),
    ("what stays as it was of tables that no list of calls makes", frame::unreachable),
    ("what stays as it was of tables with odd faces", frame::odd_faces),
    ("damaged tables", damage::tables),
    ("tables that no list of calls makes", damage::unreachable),
    ("good tables by the naive reading", refusals::undamaged),
    ("which rows are read of damaged tables", refusals::damage),
    ("byte trees that do not fit", trees::misfits),
    ("openings of a byte tree by hand", trees::openings),
    ("faces of a byte tree by hand", trees::faces),
    ("lists of calls on byte trees", trees::lists),
    ("damaged byte trees", trees::damaged),
    ("the log reader at every place", fields::places),
    ("the log reader on filler", fields::filler),
    ("the log reader on new roots", fields::roots),
    ("the log reader on leaves", fields::leaves),
    ("written logs", logs::vectors),
    ("sample logs", logs::samples),
    ("filler through the log program", logs::filler),
    ("faces through the log program", logs::faces),
    ("good and damaged logs", logs::logs),
];

fn main() -> ExitCode {
    let (mut passed, mut failed) = (0, 0);
    for (name, run) in GROUPS {
        let before = checks::counts();
        let said = run();
        let (compared, different) = (checks::counts().0 - before.0, checks::counts().1 - before.1);
        println!("{name}: {said}, {compared} comparisons, {different} differences");
        if different == 0 {
            passed += 1
        } else {
            failed += 1
        }
    }
    println!("host: {passed} passed, {failed} failed");
    if failed == 0 {
        ExitCode::SUCCESS
    } else {
        ExitCode::FAILURE
    }
}
