//! Makes a call smaller as long as it still shows a difference.

use crate::pipe::{Call, Entry};
use std::collections::BTreeSet;

/// A call that shows a difference, and whether the last pass made it smaller.
struct Shrinker<'a> {
    call: Call,
    differs: &'a mut dyn FnMut(&Call) -> bool,
    moved: bool,
}

/// The shortest call found. Every change takes bytes away or makes a number smaller, so that this
/// ends.
pub fn shortest_call(call: Call, differs: &mut dyn FnMut(&Call) -> bool) -> Call {
    let mut shrinker = Shrinker { call, differs, moved: true };
    while shrinker.moved {
        shrinker.moved = false;
        shrinker.shorten_record();
        shrinker.drop_ballots();
        shrinker.drop_heads();
        shrinker.lower_phases();
        shrinker.zero_bytes(|call| &mut call.record);
        shrinker.zero_bytes(|call| &mut call.other);
        shrinker.lower_numbers();
        shrinker.attempt(|call| call.null = false);
    }
    shrinker.call
}

impl Shrinker<'_> {
    /// Keeps a change after which the difference is still there. True if it was kept.
    fn attempt(&mut self, change: impl FnOnce(&mut Call)) -> bool {
        let mut copy = self.call.clone();
        change(&mut copy);
        let kept = copy != self.call && (self.differs)(&copy);
        if kept {
            self.call = copy;
            self.moved = true;
        }
        kept
    }

    fn shorten_record(&mut self) {
        for length in [20, 0, self.call.record.len() / 2] {
            self.attempt(|call| call.record.truncate(length));
        }
        while self.attempt(|call| call.record.truncate(call.record.len().max(1) - 1)) {}
    }

    /// Many ballots at once, then one by one; then bytes, for a length that is no multiple of 5.
    fn drop_ballots(&mut self) {
        let unit = if self.call.entry == Entry::Tick { 5 } else { 1 };
        let mut size = self.call.other.len() / unit * unit;
        while size > 0 {
            let mut from = 0;
            while from < self.call.other.len() {
                let end = (from + size).min(self.call.other.len());
                if !self.attempt(|call| drop(call.other.drain(from..end))) {
                    from += size;
                }
            }
            size = if size > unit { size / 2 / unit * unit } else { size / 5 };
        }
    }

    /// Two heads and one ballot: so a majority stays a majority. The ballot with the highest sender
    /// goes first.
    fn drop_heads(&mut self) {
        if self.call.entry != Entry::Tick || self.call.record.is_empty() {
            return;
        }
        let ballots = self.call.other.chunks(5).enumerate();
        let mut places: Vec<(u8, usize)> = ballots.map(|(place, b)| (b[0], place)).collect();
        places.sort();
        while let Some((_, place)) = places.pop() {
            let from = 5 * place;
            let dropped = self.attempt(|call| {
                call.other.drain(from..(from + 5).min(call.other.len()));
                call.record[0] = call.record[0].saturating_sub(2);
            });
            if dropped {
                places.iter_mut().filter(|other| other.1 > place).for_each(|other| other.1 -= 1);
            }
        }
    }

    /// One phase in all places that have it, and then all phases together. Odd stays odd.
    fn lower_phases(&mut self) {
        for phase in phases(&self.call) {
            for lower in [phase % 2, phase % 2 + 2, phase / 4 * 2 + phase % 2, phase.max(2) - 2] {
                let lower_one = |old| if old == phase { lower.min(phase) } else { old };
                self.attempt(|call| change_phases(call, lower_one));
            }
        }
        for shift in [32_768, 1_024, 32, 8, 2] {
            self.attempt(|call| change_phases(call, |old| old.max(shift) - shift));
        }
    }

    /// Many at once, then one by one; what cannot be zero is made lower.
    fn zero_bytes(&mut self, part: fn(&mut Call) -> &mut Vec<u8>) {
        let length = part(&mut self.call).len();
        let mut size = length;
        while size > 0 {
            for from in (0..length).step_by(size) {
                let end = (from + size).min(length);
                if part(&mut self.call)[from..end].iter().any(|&byte| byte > 0) {
                    self.attempt(|call| part(call)[from..end].fill(0));
                }
            }
            size /= 2;
        }
        for (place, how) in (0..length).flat_map(|place| LOWER.map(|how| (place, how))) {
            let byte = part(&mut self.call)[place] as u32;
            if byte > 0 {
                self.attempt(|call| part(call)[place] = how(byte) as u8);
            }
        }
    }

    fn lower_numbers(&mut self) {
        for place in 0..3 {
            for how in LOWER {
                let number = self.call.numbers[place];
                self.attempt(|call| call.numbers[place] = how(number));
            }
        }
    }
}

/// The phases of the record and of whole ballots.
fn phases(call: &Call) -> BTreeSet<u16> {
    let mut found = BTreeSet::new();
    change_phases(&mut call.clone(), |phase| {
        found.insert(phase);
        phase
    });
    found
}

fn change_phases(call: &mut Call, mut change: impl FnMut(u16) -> u16) {
    let in_record = call.record.get_mut(2..4);
    let in_list = if call.entry == Entry::Tick { &mut call.other[..] } else { &mut [] };
    let in_ballots = in_list.chunks_exact_mut(5).map(|ballot| &mut ballot[3..]);
    for place in in_record.into_iter().chain(in_ballots) {
        let phase = u16::from_be_bytes([place[0], place[1]]);
        place.copy_from_slice(&change(phase).to_be_bytes());
    }
}

/// Zero, half, without its lowest bit, one less.
const LOWER: [fn(u32) -> u32; 4] = [
    |_| 0,
    |number| number / 2,
    |number| number & number.saturating_sub(1),
    |number| number.saturating_sub(1),
];
