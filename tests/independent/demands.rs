//! Demands 2 and 3, over the answers of one vote.

use crate::pipe::Answer;
use crate::votes::{state_in, Asked, Script};
use crate::words::{ballot_of, Ballot};

/// The first sentence that the answers break, and the place of its tick.
pub fn broken(
    script: &Script,
    asked: &[Asked],
    answers: &[Answer],
) -> Option<(usize, &'static str)> {
    let mut watch = Watch::new(script);
    for (asked, answer) in asked.iter().zip(answers) {
        let Some(place) = asked.tick else { continue };
        let sentence = unlike_algorithm(asked, answer)
            .or_else(|| watch.stays(&asked.call.record, &answer.record))
            .or_else(|| if script.honest { watch.tick(place, answer) } else { None });
        if let Some(sentence) = sentence {
            return Some((place, sentence));
        }
    }
    None
}

/// Demand 2: "Each accepted tick does what Algorithm 1 .. does with all ballots heard so far".
fn unlike_algorithm(asked: &Asked, answer: &Answer) -> Option<&'static str> {
    let state = asked.algorithm?;
    match answer.number {
        10 if state.0 != 65_536 => Some("10, but Algorithm 1 needs no phase 65,536"),
        0 if state != state_in(&answer.record) => Some("Algorithm 1 comes to another state"),
        _ => None,
    }
}

/// Demand 3, followed through the answers of one vote.
struct Watch<'a> {
    script: &'a Script,
    records: Vec<Vec<u8>>,
    decision: Option<u8>,
    formed: Vec<Ballot>,
    loses_nothing: bool,
}

impl Watch<'_> {
    fn new(script: &Script) -> Watch<'_> {
        let records = (0..script.proposals.len()).map(|own| script.first_record(own)).collect();
        Watch { script, records, decision: None, formed: Vec::new(), loses_nothing: true }
    }

    /// "a written one stays"
    fn stays(&self, before: &[u8], after: &[u8]) -> Option<&'static str> {
        (before[6] != 2 && after[6] != before[6]).then_some("a written decision does not stay")
    }

    fn tick(&mut self, place: usize, answer: &Answer) -> Option<&'static str> {
        self.follow_rounds(place);
        self.records[self.script.ticks[place].receiver] = answer.record.clone();
        let decision = answer.record[6];
        if answer.number != 0 && answer.number != 10 {
            return Some("a tick of an honest vote is refused");
        }
        if decision != 2 && !self.script.proposals.contains(&(decision as u32)) {
            return Some("a decision that nobody proposed");
        }
        if decision != 2 && *self.decision.get_or_insert(decision) != decision {
            return Some("two decisions differ");
        }
        self.end_of_rounds(place)
    }

    /// "The first ticks are two of document 01's rounds that lose nothing": all ballots are formed
    /// first, then each head in number order is ticked with all of them in sender order.
    fn follow_rounds(&mut self, place: usize) {
        let n = self.records.len();
        if place % n == 0 {
            let sends = |r: &Vec<u8>| ballot_of(&[r[1], r[4], r[5], r[2], r[3]]);
            self.formed = self.records.iter().map(sends).collect::<Option<_>>().unwrap_or_default();
        }
        let tick = &self.script.ticks[place];
        if place < 2 * n && (tick.receiver != place % n || tick.list != self.formed) {
            self.loses_nothing = false;
        }
    }

    /// "If over half propose one bit ..., every head decides that bit in them."
    fn end_of_rounds(&self, place: usize) -> Option<&'static str> {
        let n = self.records.len();
        let last_phase_near = self.script.first_phase > 65_533;
        if place + 1 != 2 * n || !self.loses_nothing || last_phase_near {
            return None;
        }
        let proposing =
            |bit| self.script.proposals.iter().filter(|&&proposal| proposal == bit).count();
        let bit = (0..2).find(|&bit| 2 * proposing(bit) > n)? as u8;
        let decided = |record: &Vec<u8>| record[5] == 1 && record[6] == bit;
        let all = self.records.iter().all(decided);
        (!all).then_some("two rounds lost nothing, and a head has not decided the bit of over half")
    }
}
