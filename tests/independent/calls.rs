//! Single calls: heads and lists that no vote need ever have had, sound and unsound.
//!
//! A head is drawn sound, a list is drawn honest, and then some of it is forged or damaged. So most
//! calls are near the edge of a rule; bytes by pure chance would nearly all be refused by 3.

use crate::chance::Chance;
use crate::draft::draw_head;
use crate::forger::{finish, forge, FORGERIES};
use crate::lists::draw_list;
use crate::pipe::Call;

/// One call of one of the three entries.
pub fn draw_call(chance: &mut Chance) -> Call {
    let mut call = match chance.below(16) {
        0 => draw_start(chance),
        1 | 2 => draw_ballot(chance),
        _ => draw_tick(chance),
    };
    call.null = chance.one_in(2);
    call
}

fn draw_start(chance: &mut Chance) -> Call {
    let n = chance.between(0, 35);
    let own = if chance.one_in(4) { n } else { chance.below(n.max(1) as usize) as u32 };
    let length = if chance.one_in(4) { odd_length(chance, 20) } else { 20 };
    let mut numbers = [n, own, chance.bit()];
    for place in 0..3 {
        if chance.one_in(6) {
            numbers[place] = odd_number(chance, numbers[place]);
        }
    }
    Call::start(chance.bytes(length), numbers)
}

fn draw_ballot(chance: &mut Chance) -> Call {
    let mut record = draw_head(chance).record();
    if chance.one_in(4) {
        damage(chance, &mut record);
    }
    let length = if chance.one_in(4) { odd_length(chance, 5) } else { 5 };
    Call::ballot(record, chance.bytes(length))
}

fn draw_tick(chance: &mut Chance) -> Call {
    let head = draw_head(chance);
    let mut list = draw_list(chance, &head);
    let forgeries = chance.of(&[0, 0, 0, 0, 0, 1, 1, 1, 2, 3]);
    for _ in 0..forgeries {
        let kind = chance.below(FORGERIES);
        forge(chance, &head, &mut list, kind);
    }
    let mut list = finish(chance, list).concat();
    let mut record = head.record();
    let coin = chance.bit();
    let coin = if chance.one_in(16) { odd_number(chance, coin) } else { coin };
    let few = chance.below(9);
    match chance.below(40) {
        0..=3 => damage(chance, &mut record),
        4 | 5 => list.resize(odd_length(chance, list.len()), 0x01),
        6 => list = chance.bytes(5 * few),
        7 => record = chance.bytes(20),
        8 => lengthen(chance, &mut list),
        _ => {}
    }
    Call::tick(record, list, coin)
}

/// A number near the right one, or one that is right in its low 8, 16 or 31 bits.
fn odd_number(chance: &mut Chance, right: u32) -> u32 {
    match chance.below(8) {
        0 => chance.next() as u32,
        1 => u32::MAX - right,
        2 => right + (1 << 31),
        3 => right + 65_536 * chance.between(1, 9),
        4 | 5 => right + 256 * chance.between(1, 9),
        _ => right + chance.between(1, 5),
    }
}

/// A length other than the right one, mostly near it, or right in its low 8 or 16 bits.
fn odd_length(chance: &mut Chance, right: usize) -> usize {
    match chance.below(8) {
        0 => 0,
        1 => right + 1,
        2 => right.max(1) - 1,
        3 => chance.below(48),
        4 => right + 256 * chance.below(3),
        5 => right + chance.below(8),
        6 if chance.one_in(64) => right + 65_536,
        _ => chance.below(400),
    }
}

/// A list over 320 bytes, or just 320.
fn lengthen(chance: &mut Chance, list: &mut Vec<u8>) {
    let count = chance.of(&[63, 64, 64, 65, 65, 66, 66, 128]);
    if list.len() < 5 {
        *list = chance.bytes(5);
    }
    while list.len() < 5 * count {
        list.extend_from_within(list.len() - 5..);
    }
}

/// One field of a record, one bit, or its length.
fn damage(chance: &mut Chance, record: &mut Vec<u8>) {
    let place = chance.below(20);
    match chance.below(10) {
        0 | 1 => record[place] ^= 1 << chance.below(8),
        2 => record[place] = chance.byte(),
        3 => record[place] = chance.of(&[0, 1, 2, 3, 4, 31, 32, 33, 128, 255]),
        4..=6 => record[chance.below(8)] = chance.between(0, 4) as u8,
        7 => record.resize(odd_length(chance, 20), 0),
        8 => record.copy_within(8..12, 8 + 4 * chance.below(3)),
        _ => record[8 + chance.below(12)] |= 1 << chance.below(8),
    }
}
