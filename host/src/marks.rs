//! The labels and faces that a growth leaves on any table, good or damaged, and what its tally counts.

use crate::engine::{Opening, Table, FACE, FIELDS, LABEL};
use crate::tally;

/// A label and a face.
type Mark = (u16, u16);

/// What a growth gives: the new row's label and face, and the opening that an old root takes.
#[derive(Clone, Copy)]
pub struct Marks {
    new: Mark,
    taken: Option<(u16, u16)>,
}

/// Those of all rows.
pub fn column(t: &Table) -> Vec<Mark> {
    t.fields.part().chunks(FIELDS).map(|row| (row[LABEL], row[FACE])).collect()
}

impl Marks {
    /// Of a first node.
    pub const FIRST: Marks = Marks { new: (0, 0), taken: None };

    pub fn leaf(label: u16, face: u16) -> Marks {
        Marks { new: (label, face), taken: None }
    }

    /// Of a new root over x.
    pub fn over(x: u16, opening: Opening) -> Marks {
        Marks { new: (0, 0), taken: opening.label().map(|label| (x, label)) }
    }

    /// The label whose entry of the tally rises. Where an old root takes an opening, the new root carries 0 in its place.
    fn counted(self) -> u16 {
        self.taken.map_or(self.new.0, |(_, opening)| opening)
    }

    /// Whether a served growth left these labels and faces, an old root that took an opening in front, in all other rows those that were there, and the tally
    /// that the rule gives.
    pub fn are_left(self, before: &Table, after: &Table) -> bool {
        let mut marks = column(before);
        marks[before.count as usize] = self.new;
        if let Some((x, opening)) = self.taken {
            marks[x as usize] = (opening, 0);
        }
        let tally = tally::grown(before.tally.part(), before.levels.part().len(), self.counted());
        column(after) == marks && tally.as_deref() == Ok(after.tally.part())
    }
}
