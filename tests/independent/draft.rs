//! A head in codes, drawn sound, and its record.

use crate::chance::Chance;
use std::collections::BTreeMap;

pub const BLANK: u8 = 2;
pub const NONE: u8 = 2;
pub const LAST: u32 = 65_535;

/// `held` has the value under which a sender is held.
pub struct Draft {
    pub n: u32,
    pub own: u32,
    pub phase: u32,
    pub value: u8,
    pub status: u8,
    pub decision: u8,
    pub held: BTreeMap<u32, u8>,
}

impl Draft {
    pub fn record(&self) -> Vec<u8> {
        let (high, low) = ((self.phase / 256) as u8, (self.phase % 256) as u8);
        let codes = [self.value, self.status, self.decision, 0];
        let mut sets = [0u32; 3];
        for (sender, value) in &self.held {
            sets[*value as usize] |= 1 << sender;
        }
        let mut record = vec![self.n as u8, self.own as u8, high, low];
        record.extend(codes);
        record.extend(sets.map(u32::to_be_bytes).concat());
        record
    }

    /// The head of a sound record.
    pub fn of(record: &[u8]) -> Draft {
        let set = |at: usize| u32::from_be_bytes([0, 1, 2, 3].map(|i| record[at + i]));
        let sets = [set(8), set(12), set(16)];
        let mut held = BTreeMap::new();
        for sender in 0..32 {
            for value in 0..3 {
                if sets[value as usize] >> sender & 1 == 1 {
                    held.insert(sender, value);
                }
            }
        }
        Draft {
            n: record[0] as u32,
            own: record[1] as u32,
            phase: record[2] as u32 * 256 + record[3] as u32,
            value: record[4],
            status: record[5],
            decision: record[6],
            held,
        }
    }
}

/// A sound head.
pub fn draw_head(chance: &mut Chance) -> Draft {
    let any = chance.between(2, 32);
    let n = chance.of(&[2, 3, 3, 4, 4, 5, 6, 7, 8, 31, 32, any, any, any]);
    let phase = draw_phase(chance);
    let value = draw_value(chance, phase);
    let status = draw_status(chance, phase, value);
    let decision = match status {
        1 => value,
        _ if phase >= 3 => chance.of(&[0, 1, NONE, NONE]),
        _ => NONE,
    };
    let own = chance.below(n as usize) as u32;
    let mut head = Draft { n, own, phase, value, status, decision, held: BTreeMap::new() };
    hold(chance, &mut head);
    head
}

fn draw_phase(chance: &mut Chance) -> u32 {
    match chance.below(8) {
        0 => chance.between(1, LAST),
        1 => chance.of(&[255, 256, 257, 258, 511, 512]),
        2 => chance.between(LAST - 3, LAST),
        _ => chance.between(1, 8),
    }
}

fn draw_value(chance: &mut Chance, phase: u32) -> u8 {
    let blanks = if phase % 2 == 0 { 1 } else { 0 };
    chance.below(2 + blanks) as u8
}

pub fn draw_status(chance: &mut Chance, phase: u32, value: u8) -> u8 {
    if phase < 3 || value == BLANK {
        0
    } else {
        chance.bit() as u8
    }
}

/// Some senders are held, mostly no more than half of n; more is sound, though no tick leaves it.
fn hold(chance: &mut Chance, head: &mut Draft) {
    let most = if chance.one_in(12) { head.n } else { head.n / 2 };
    let count = if chance.one_in(3) { 0 } else { chance.between(0, most) };
    let bit = chance.bit() as u8;
    let calm = chance.one_in(2);
    for sender in some_senders(chance, head.n, count) {
        let value = match head.phase % 2 {
            1 if calm => bit,
            1 => chance.bit() as u8,
            _ => chance.of(&[bit, BLANK]),
        };
        let value = if sender == head.own { head.value } else { value };
        if head.phase % 2 == 1 || value == bit || value == BLANK {
            head.held.insert(sender, value);
        }
    }
}

pub fn some_senders(chance: &mut Chance, n: u32, count: u32) -> Vec<u32> {
    let mut senders: Vec<u32> = (0..n).collect();
    chance.shuffle(&mut senders);
    senders.truncate(count as usize);
    senders
}
