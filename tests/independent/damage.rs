//! Faults in a run file: other bytes in a field's place, a cut, bytes after the end.
//!
//! A fault names its field and not a place, so that the file around it can be made smaller.

use crate::runfile::RunFile;

#[derive(Clone, Copy, PartialEq, Eq, Debug)]
pub enum Field {
    HeadsCount,
    Proposal(usize),
    NeedCount,
    Need,
    RoundsCount,
    Row(usize),
    CoinsCount,
    Coin(usize),
}

#[derive(Clone, PartialEq, Eq, Debug)]
pub enum Damage {
    /// The field has these bytes, as many as it should have or not.
    Put(Field, Vec<u8>),
    /// The file ends so many bytes after the field's first.
    Cut(Field, usize),
    Append(Vec<u8>),
}

/// A file as it is handed to both sides: a sound run file and what is wrong with it, if anything.
#[derive(Clone, PartialEq, Eq, Debug)]
pub struct Case {
    pub run: RunFile,
    pub damages: Vec<Damage>,
}

impl From<RunFile> for Case {
    fn from(run: RunFile) -> Case {
        Case { run, damages: Vec::new() }
    }
}

impl Case {
    pub fn bytes(&self) -> Vec<u8> {
        let mut file = self.run.write();
        let mut placed: Vec<(usize, usize, &Damage)> =
            self.damages.iter().filter_map(|damage| self.placed(damage)).collect();
        // The last place first, so that the earlier places stay where they are.
        placed.sort_by_key(|&(place, _, _)| std::cmp::Reverse(place));
        for (place, length, damage) in placed {
            match damage {
                Damage::Put(_, bytes) => {
                    let (start, end) = (place.min(file.len()), (place + length).min(file.len()));
                    file.splice(start..end, bytes.iter().copied());
                }
                Damage::Cut(_, after) => file.truncate(place + after),
                Damage::Append(_) => {}
            }
        }
        for damage in &self.damages {
            if let Damage::Append(bytes) = damage {
                file.extend(bytes);
            }
        }
        file
    }

    fn placed<'a>(&self, damage: &'a Damage) -> Option<(usize, usize, &'a Damage)> {
        let field = match damage {
            Damage::Put(field, _) | Damage::Cut(field, _) => *field,
            Damage::Append(_) => return None,
        };
        self.place(field).map(|(place, length)| (place, length, damage))
    }

    /// Where a field stands in the sound file and its length. An index past the last is the last;
    /// none where there is no such field.
    pub fn place(&self, field: Field) -> Option<(usize, usize)> {
        let n = self.run.n();
        let rows = n * self.run.rounds.len();
        let last_row = rows.checked_sub(1);
        match field {
            Field::HeadsCount => Some((0, 2)),
            Field::Proposal(head) => Some((2 + head.min(n - 1), 1)),
            Field::NeedCount => Some((2 + n, 2)),
            Field::Need => Some((4 + n, 1)),
            Field::RoundsCount => Some((5 + n, 2)),
            Field::Row(index) => last_row.map(|last| (7 + n + 4 * index.min(last), 4)),
            Field::CoinsCount => Some((7 + n + 4 * rows, 2)),
            Field::Coin(index) => last_row.map(|last| (9 + n + 4 * rows + index.min(last), 1)),
        }
    }
}
