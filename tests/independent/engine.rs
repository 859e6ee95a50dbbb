//! The vote engine of one head once more, written from document 01 alone.
//!
//! It is slow and plain on purpose, and holds other things than the proved engine: a head has a set
//! of pairs of sender and value instead of bits, a list is a set of ballots, and what was heard is
//! kept by phase until step 2 drops it. In the set no ballot has a place: which one of the list was
//! bad is asked of the list, once the number is known. What stands in double quotes is document
//! 01's sentence, or that of request W1.

use crate::words::{ballot_of, bit_of, bytes_of, status_of, value_of, Ballot, Status, Value};
use std::collections::{BTreeMap, BTreeSet};

/// A head, sound or not. In an unsound one a sender may stand under several values.
struct Head {
    n: u32,
    own: u32,
    phase: u32,
    value: Value,
    status: Status,
    decision: Option<Value>,
    heard: BTreeSet<(u32, Value)>,
}

/// Start, as C calls it. An answer other than 0 leaves the record alone.
pub fn start(record: &mut [u8], n: u32, own: u32, proposal: u32) -> u32 {
    // "start or reading one ballot: n not 2 to 32; start: own number not below n"
    if n < 2 || n > 32 || own >= n {
        return 1;
    }
    // "start: proposal above 1"
    if proposal > 1 {
        return 2;
    }
    // "at a start from C, record not 20 bytes"
    if record.len() != 20 {
        return 3;
    }
    // "It starts at phase 1, value = proposal, undecided, no decision, nothing heard."
    let head = Head {
        n,
        own,
        phase: 1,
        value: bit_of(proposal),
        status: Status::Undecided,
        decision: None,
        heard: BTreeSet::new(),
    };
    write_record(&head, record);
    0
}

/// Ballot, as C calls it: "a head sends its present phase, value and status".
pub fn ballot(record: &[u8], buffer: &mut [u8]) -> u32 {
    // "either refusal leaves every byte of that buffer zero"
    buffer.fill(0);
    // "writing the ballot of a sound head gives those five bytes, of an unsound one refusal 3"
    let Some(head) = sound_head(record) else {
        return 3;
    };
    // "Where a buffer is lent for it, a length other than five is 5, after 3"
    if buffer.len() != 5 {
        return 5;
    }
    let Head { own: sender, value, status, phase, .. } = head;
    buffer.copy_from_slice(&bytes_of(&Ballot { sender, value, status, phase }));
    0
}

/// Tick, as C calls it: the number and the index. "A refused tick gives back the head as it came,
/// sound or not."
pub fn tick(record: &mut [u8], list: &[u8], coin: u32) -> (u32, u64) {
    match after_tick(record, list, coin) {
        Ok(head) => {
            write_record(&head, record);
            (0, 0)
        }
        Err(number) => (number, index(number, record, list)),
    }
}

/// "The index, from 0, of the first offending ballot". A ballot that breaks a ballot rule is none.
fn index(number: u32, record: &[u8], list: &[u8]) -> u64 {
    // "Other numbers give index 0."
    if !(6..=8).contains(&number) {
        return 0;
    }
    let head = sound_head(record).expect("3 comes before");
    let ballots: Vec<_> = list.chunks(5).map(|bytes| standing(bytes, head.n)).collect();
    let offending = |&place: &usize| match ballots[place] {
        // "for 6 and 7 the first that breaks the rule"
        None => number == 6,
        Some(ballot) if number == 7 => belies(&head, &ballot),
        // "for 8 the first that differs from an earlier one or from what is held"
        Some(ballot) if number == 8 => {
            let mut earlier = ballots[..place].iter().flatten();
            unlike_held(&head, &ballot) || earlier.any(|other| unlike(other, &ballot))
        }
        Some(_) => false,
    };
    let first = (0..ballots.len()).find(offending);
    first.expect("each of the three has its ballot") as u64
}

/// "0 is accepted. The first that applies, in this order".
fn after_tick(record: &[u8], list: &[u8], coin: u32) -> Result<Head, u32> {
    // "head not sound"
    let head = sound_head(record).ok_or(3u32)?;
    // "coin above 1, even if not needed"
    refuse(coin > 1, 4)?;
    // "list length not a multiple of 5, or over 320 bytes"
    refuse(list.len() % 5 != 0 || list.len() > 320, 5)?;
    // "a ballot breaks a ballot rule". A set: "Equal repeats count once."
    let read = |bytes| standing(bytes, head.n);
    let ballots: BTreeSet<Ballot> = list.chunks(5).map(read).collect::<Option<_>>().ok_or(6u32)?;
    // "a ballot under the head's own number has a higher phase, or the same phase and another
    // value or status"
    refuse(ballots.iter().any(|ballot| belies(&head, ballot)), 7)?;
    // "two ballots of one sender and phase differ; or one at the present phase differs in value
    // from what that sender is held under"
    refuse(two_differ(&ballots), 8)?;
    refuse(ballots.iter().any(|ballot| unlike_held(&head, ballot)), 8)?;
    let mut head = hear(head, &ballots);
    // "after step 2, phase even and both 0 and 1 heard"
    let both = senders_with(&head, Value::Zero) > 0 && senders_with(&head, Value::One) > 0;
    refuse(head.phase % 2 == 0 && both, 9)?;
    // "If the number of heads heard at the phase, doubled, exceeds n, step"
    if 2 * senders(&head) > head.n {
        // "step 3 would need phase 65,536"
        refuse(head.phase + 1 > 65_535, 10)?;
        head = step(head, bit_of(coin));
    }
    // "If decided, the decision is the value."
    if head.status == Status::Decided {
        // "the end would be decided with a blank, or with a value unlike the decision already
        // written"
        let unlike = head.decision.is_some_and(|written| written != head.value);
        refuse(head.value == Value::Blank || unlike, 11)?;
        head.decision = Some(head.value);
    }
    Ok(head)
}

fn refuse(applies: bool, number: u32) -> Result<(), u32> {
    if applies {
        Err(number)
    } else {
        Ok(())
    }
}

/// Refusal 7, of one ballot.
fn belies(head: &Head, ballot: &Ballot) -> bool {
    let unlike = ballot.value != head.value || ballot.status != head.status;
    ballot.sender == head.own
        && (ballot.phase > head.phase || (ballot.phase == head.phase && unlike))
}

/// Refusal 8, within the list. Equal ballots are one in the set, so that two are two that differ.
fn two_differ(ballots: &BTreeSet<Ballot>) -> bool {
    let places: BTreeSet<_> = ballots.iter().map(|ballot| (ballot.sender, ballot.phase)).collect();
    places.len() < ballots.len()
}

/// "Two ballots of one sender and phase differ".
fn unlike(one: &Ballot, other: &Ballot) -> bool {
    (one.sender, one.phase) == (other.sender, other.phase) && one != other
}

/// Refusal 8, against what is held. The present phase is the one that the head came with.
fn unlike_held(head: &Head, ballot: &Ballot) -> bool {
    let other = |held: &(u32, Value)| held.0 == ballot.sender && held.1 != ballot.value;
    ballot.phase == head.phase && head.heard.iter().any(other)
}

/// Steps 1 and 2.
fn hear(mut head: Head, ballots: &BTreeSet<Ballot>) -> Head {
    // "Add the ballots to what was heard."
    let mut by_phase = BTreeMap::from([(head.phase, head.heard)]);
    for ballot in ballots {
        let pairs = by_phase.entry(ballot.phase).or_default();
        pairs.insert((ballot.sender, ballot.value));
    }
    // "If some ballot has a higher phase, take phase, value and status from a ballot of the highest
    // phase; among several senders the lowest number gives it."
    let (highest, pairs) = by_phase.pop_last().expect("the present phase is there");
    if highest > head.phase {
        let of_highest = ballots.iter().filter(|ballot| ballot.phase == highest);
        let giver = of_highest.min_by_key(|ballot| ballot.sender).expect("it has the phase");
        head.phase = giver.phase;
        head.value = giver.value;
        head.status = giver.status;
    }
    // "Heard sets now hold that phase's ballots only." And "Ballots below the present phase change
    // nothing."
    head.heard = pairs;
    head
}

/// Step 3, where it is due.
fn step(mut head: Head, coin: Value) -> Head {
    let bits = [Value::Zero, Value::One];
    let over_half = bits.into_iter().find(|&bit| 2 * senders_with(&head, bit) > head.n);
    let at_all = bits.into_iter().find(|&bit| senders_with(&head, bit) > 0);
    if head.phase % 2 == 1 {
        // "odd phase: if a value was heard from more than n/2 heads, take it, else blank"
        head.value = over_half.unwrap_or(Value::Blank);
    } else {
        // "even phase: if a value 0 or 1 was heard from more than n/2 heads, become decided; then
        // take the value 0 or 1 that was heard at all, else the coin."
        if over_half.is_some() {
            head.status = Status::Decided;
        }
        head.value = at_all.unwrap_or(coin);
    }
    // "Then phase rises by one and the sets become empty."
    head.phase += 1;
    head.heard.clear();
    head
}

/// "The number of heads heard at the phase": heads, not ballots.
fn senders(head: &Head) -> u32 {
    let numbers: BTreeSet<u32> = head.heard.iter().map(|pair| pair.0).collect();
    numbers.len() as u32
}

fn senders_with(head: &Head, value: Value) -> u32 {
    head.heard.iter().filter(|pair| pair.1 == value).count() as u32
}

/// Five bytes as a ballot, where they obey the ballot rules.
fn standing(bytes: &[u8], n: u32) -> Option<Ballot> {
    ballot_of(bytes).filter(|ballot| stands(ballot, n))
}

/// The ballot rules.
fn stands(ballot: &Ballot, n: u32) -> bool {
    // "Sender below n."
    ballot.sender < n && obeys(ballot.phase, ballot.value, ballot.status)
}

/// The ballot rules by phase.
fn obeys(phase: u32, value: Value, status: Status) -> bool {
    let blank = value == Value::Blank;
    let undecided = status == Status::Undecided;
    match (phase, phase % 2) {
        // "phase 0 never stands"
        (0, _) => false,
        // "Phase 1: value 0 or 1, undecided."
        (1, _) => !blank && undecided,
        // "Phase 2: any value, undecided."
        (2, _) => undecided,
        // "Odd from 3: value 0 or 1, either status."
        (_, 1) => !blank,
        // "Even from 4: any value; blank only when undecided."
        _ => !blank || undecided,
    }
}

/// "A head is sound when": one line for each clause.
fn is_sound(head: &Head) -> bool {
    let values_of = |sender| head.heard.iter().filter(move |pair| pair.0 == sender);
    let decided = head.status == Status::Decided;
    let none_with = |value| senders_with(head, value) == 0;
    let odd = head.phase % 2 == 1;
    // "n is 2 to 32; own number below n"
    (2..=32).contains(&head.n) && head.own < head.n
        // "its phase, value and status obey the same rules"
        && obeys(head.phase, head.value, head.status)
        // "decided means that the decision is there and equals the value"
        && (!decided || head.decision == Some(head.value))
        // "a decision means phase 3 or more"
        && (head.decision.is_none() || head.phase >= 3)
        // "the three sets are disjoint, with members below n"
        && head.heard.iter().all(|pair| values_of(pair.0).count() == 1 && pair.0 < head.n)
        // "at an odd phase none is heard blank"
        && (!odd || none_with(Value::Blank))
        // "at an even phase 0 and 1 are not both heard"
        && (odd || none_with(Value::Zero) || none_with(Value::One))
        // "its own number, if heard, stands under its own value"
        && values_of(head.own).all(|pair| pair.1 == head.value)
}

fn sound_head(record: &[u8]) -> Option<Head> {
    read_record(record).filter(is_sound)
}

/// "Another length or a byte outside these codes makes it unsound."
fn read_record(record: &[u8]) -> Option<Head> {
    // "a record of 20 bytes: n, own number, phase (2, high byte first), value, status, decision
    // (2 for none), a zero byte"
    if record.len() != 20 || record[7] != 0 {
        return None;
    }
    let decision = match value_of(record[6])? {
        Value::Blank => None,
        bit => Some(bit),
    };
    Some(Head {
        n: record[0] as u32,
        own: record[1] as u32,
        phase: record[2] as u32 * 256 + record[3] as u32,
        value: value_of(record[4])?,
        status: status_of(record[5])?,
        decision,
        heard: all_pairs().filter(|&pair| record[byte_of(pair)] & bit_in(pair) != 0).collect(),
    })
}

fn write_record(head: &Head, record: &mut [u8]) {
    let (high, low) = (head.phase / 256, head.phase % 256);
    let decision = head.decision.unwrap_or(Value::Blank);
    record.fill(0);
    record[0] = head.n as u8;
    record[1] = head.own as u8;
    record[2] = high as u8;
    record[3] = low as u8;
    record[4] = head.value as u8;
    record[5] = head.status as u8;
    record[6] = decision as u8;
    for &pair in &head.heard {
        record[byte_of(pair)] |= bit_in(pair);
    }
}

fn all_pairs() -> impl Iterator<Item = (u32, Value)> {
    let values = [Value::Zero, Value::One, Value::Blank];
    values.into_iter().flat_map(|value| (0..32).map(move |sender| (sender, value)))
}

/// "then the sets for 0, 1 and blank, 4 bytes each, high byte first, lowest bit for head 0"
fn byte_of((sender, value): (u32, Value)) -> usize {
    8 + 4 * value as usize + 3 - sender as usize / 8
}

fn bit_in((sender, _): (u32, Value)) -> u8 {
    1 << (sender % 8)
}
