//! Puts forged ballots into a list.

use crate::chance::Chance;
use crate::draft::{Draft, LAST};
use crate::lists::pack;

/// How many kinds of forgery there are. Kind 0 and 1 break ballot rules, the others keep the codes.
pub const FORGERIES: usize = 10;

/// Puts one forged ballot into the list; one kind for each refusal from 6 to 11, two for 6 to 8.
pub fn forge(chance: &mut Chance, head: &Draft, list: &mut Vec<[u8; 5]>, kind: usize) {
    let ahead = (head.phase + chance.between(1, 3)).min(LAST);
    let bit = chance.bit() as u8;
    let sender = chance.below(head.n as usize) as u32;
    let own = head.own;
    match kind {
        0 => list.push(break_code(chance, head.n, ahead)),
        1 => break_rule(chance, list),
        2 => list.push(pack(own, (bit, 0), ahead)),
        3 => list.push(pack(own, otherwise(chance, (head.value, head.status)), head.phase)),
        4 => contradict(chance, list),
        5 => contradict_held(chance, head, list),
        6 => list.push(pack(sender, (bit, 0), ahead - ahead % 2)),
        7 => list.push(pack(sender, (bit, 0), head.phase.max(2) - head.phase % 2)),
        8 => list.extend((0..head.n).filter(|&s| s != own).map(|s| pack(s, (bit, 0), LAST))),
        _ => list.push(pack(sender, ((head.decision % 2) ^ bit, 1), ahead)),
    }
}

/// One of the five bytes is no code, or the sender is no head.
fn break_code(chance: &mut Chance, n: u32, phase: u32) -> [u8; 5] {
    let mut ballot = pack(0, (chance.bit() as u8, 0), phase);
    match chance.below(4) {
        0 => ballot[0] = chance.between(n, 255.min(n + 3)) as u8,
        1 => ballot[1] = chance.of(&[3, 4, 128, 255]),
        2 => ballot[2] = chance.of(&[2, 3, 128, 255]),
        _ => ballot[3..].fill(0),
    }
    ballot
}

/// A ballot of codes that breaks, or nearly breaks, the rule of its phase.
fn break_rule(chance: &mut Chance, list: &mut Vec<[u8; 5]>) {
    let phase = chance.between(0, 6);
    let codes = (chance.between(0, 2) as u8, chance.bit() as u8);
    list.push(pack(chance.bit(), codes, phase));
}

/// Another value or another status.
fn otherwise(chance: &mut Chance, (value, status): (u8, u8)) -> (u8, u8) {
    match chance.below(3) {
        0 => (value, 1 - status),
        1 => (1 - value % 2, status),
        _ => ((value + 1) % 3, status),
    }
}

/// A second ballot of a sender and phase that the list has.
fn contradict(chance: &mut Chance, list: &mut Vec<[u8; 5]>) {
    if list.is_empty() {
        return;
    }
    let mut ballot = list[chance.below(list.len())];
    let (value, status) = otherwise(chance, (ballot[1], ballot[2]));
    ballot[1] = value;
    ballot[2] = status;
    list.push(ballot);
}

fn contradict_held(chance: &mut Chance, head: &Draft, list: &mut Vec<[u8; 5]>) {
    if head.held.is_empty() {
        return;
    }
    let place = chance.below(head.held.len());
    let (&sender, &value) = head.held.iter().nth(place).expect("the place is below the length");
    let codes = otherwise(chance, (value, 0));
    list.push(pack(sender, codes, head.phase));
}

/// Repeats some ballots, and takes the order away. No more than 64.
pub fn finish(chance: &mut Chance, mut list: Vec<[u8; 5]>) -> Vec<[u8; 5]> {
    if !list.is_empty() && chance.one_in(3) {
        for _ in 0..chance.below(8) {
            list.push(list[chance.below(list.len())]);
        }
    }
    chance.shuffle(&mut list);
    list.truncate(64);
    list
}
