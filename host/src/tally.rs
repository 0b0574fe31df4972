//! The tally of document 02, naively: a full count of labels, and the label that most nodes carry. What a growth and a link make of any tally, good or
//! damaged: an entry up, or one down and one up, and the last found anew.

use crate::engine::{Reply, Table, FIELDS, LABEL};

/// The labels, 0 to 9,999; the last entry stands behind theirs.
pub const LABELS: usize = 10_000;
pub const LENGTH: usize = LABELS + 1;

/// Lengths that are misfit.
pub const MISFITS: [usize; 3] = [0, LENGTH - 1, LENGTH + 1];

/// The label whose entry is the greatest, the smaller of two.
fn most(entries: &[u16]) -> u16 {
    let mut most = 0;
    for (label, entry) in entries.iter().enumerate() {
        if *entry > entries[most] {
            most = label;
        }
    }
    most as u16
}

fn with_most(mut tally: Vec<u16>) -> Vec<u16> {
    tally[LABELS] = most(&tally[..LABELS]);
    tally
}

/// The tally of nodes with these labels.
pub fn count(labels: &[u16]) -> Vec<u16> {
    let mut tally = vec![0; LENGTH];
    labels.iter().for_each(|label| tally[*label as usize] += 1);
    with_most(tally)
}

/// The full count over a table's rows; none where a row has no label or the count is above the capacity.
pub fn of(t: &Table) -> Option<Vec<u16>> {
    let rows = t.fields.part().get(..FIELDS * t.count as usize)?;
    let labels: Vec<u16> = rows.chunks(FIELDS).map(|row| row[LABEL]).collect();
    labels.iter().all(|label| (*label as usize) < LABELS).then(|| count(&labels))
}

/// A tally after a node more that counts for this label; refusal 4 where its entry is at the capacity or past it.
pub fn grown(tally: &[u16], capacity: usize, label: u16) -> Reply<Vec<u16>> {
    let mut tally = tally.to_vec();
    if tally[label as usize] as usize >= capacity {
        return Err(4);
    }
    tally[label as usize] += 1;
    Ok(with_most(tally))
}

/// A tally after a root took this label.
pub fn linked(tally: &[u16], label: u16) -> Vec<u16> {
    let mut tally = tally.to_vec();
    tally[0] -= 1;
    tally[label as usize] += 1;
    with_most(tally)
}
