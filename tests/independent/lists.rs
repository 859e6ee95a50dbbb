//! Lists that other heads could have sent to a head.

use crate::chance::Chance;
use crate::draft::{draw_status, some_senders, Draft, BLANK, LAST};
use std::collections::BTreeMap;

/// One ballot for a sender and phase, one bit for an even phase, nothing of the head's own that it
/// does not know.
pub fn draw_list(chance: &mut Chance, head: &Draft) -> Vec<[u8; 5]> {
    let step = chance.of(&[0, 0, 0, 0, 1, 1, 2, 3, 256, 65_000]);
    let top = (head.phase + step).min(LAST);
    let half = head.n / 2;
    let count = match chance.below(6) {
        0 => chance.between(0, 3),
        1 => chance.between(0, 64),
        2 => head.n,
        _ => chance.between(half, half + 2),
    };
    let bit = chance.bit() as u8;
    let even_bit = head.held.values().copied().find(|&value| value != BLANK).unwrap_or(bit);
    let calm = chance.one_in(2);
    let mixed = chance.one_in(3);
    let mut senders = some_senders(chance, head.n, count);
    senders.extend((head.n..count).map(|_| chance.below(head.n as usize) as u32));
    let mut made = BTreeMap::new();
    let mut list = Vec::new();
    for sender in senders {
        let phase = if mixed { near(chance, head.phase, top) } else { top };
        let phase = if sender == head.own { phase.min(head.phase) } else { phase };
        let favour = if phase == head.phase { even_bit } else { bit };
        let fresh = draw_codes(chance, phase, favour, calm);
        let codes = *made.entry((sender, phase)).or_insert(fresh);
        list.push(pack(sender, known(head, sender, phase, codes), phase));
    }
    list
}

fn near(chance: &mut Chance, present: u32, top: u32) -> u32 {
    match chance.below(6) {
        0 => chance.between(1, present),
        1 => chance.between(present.max(2) - 1, present),
        2 => chance.between(present, top),
        _ => top,
    }
}

/// Value and status that the ballot rules allow. An even phase has one bit only.
fn draw_codes(chance: &mut Chance, phase: u32, bit: u8, calm: bool) -> (u8, u8) {
    let value = match phase % 2 {
        1 if calm => bit,
        1 => chance.bit() as u8,
        _ => chance.of(&[bit, BLANK]),
    };
    let status = draw_status(chance, phase, value);
    (value, if calm && !chance.one_in(8) { 0 } else { status })
}

/// What the head knows already of a sender at its phase: of itself all, of one held the value.
fn known(head: &Draft, sender: u32, phase: u32, codes: (u8, u8)) -> (u8, u8) {
    if phase != head.phase {
        return codes;
    }
    if sender == head.own {
        return (head.value, head.status);
    }
    match head.held.get(&sender) {
        Some(&BLANK) => (BLANK, 0),
        Some(&value) => (value, codes.1),
        None => codes,
    }
}

pub fn pack(sender: u32, (value, status): (u8, u8), phase: u32) -> [u8; 5] {
    [sender as u8, value, status, (phase / 256) as u8, (phase % 256) as u8]
}
