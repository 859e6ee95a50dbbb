//! What the compared calls and votes were, to see how far the adversary came.

use crate::pipe::{Answer, Call, Entry};
use crate::votes::{state_in, Asked, Script, State};

/// `numbers` has the answers of each entry by number, `indexed` those of a tick whose index is
/// above 0.
#[derive(Default)]
pub struct Tally {
    pub ticks: usize,
    pub votes: usize,
    forged: usize,
    numbers: [[usize; 12]; 3],
    indexed: [usize; 12],
    undecided_votes: usize,
    decided_votes: [usize; 2],
    decisions: usize,
    put_back: usize,
    behind: usize,
    against: usize,
}

impl Tally {
    pub fn count(&mut self, call: &Call, answer: &Answer) {
        self.numbers[call.entry as usize][answer.number as usize] += 1;
        if call.entry == Entry::Tick {
            self.ticks += 1;
            self.indexed[answer.number as usize] += (answer.index > 0) as usize;
        }
    }

    /// A vote without a difference: how far did the adversary come?
    pub fn count_vote(&mut self, script: &Script, asked: &[Asked]) {
        if !script.honest {
            self.forged += 1;
            return;
        }
        self.votes += 1;
        let mut first = None;
        for (before, after) in asked.iter().filter_map(moved) {
            if before.3 == 2 && after.3 != 2 {
                self.decisions += 1;
                let (phase, _) = *first.get_or_insert((after.0, after.3));
                self.behind += (after.0 < phase) as usize;
            }
            self.put_back += (before.2 == 1 && after.2 == 0) as usize;
            let decision = first.map(|(_, decision)| decision);
            self.against += decision.is_some_and(|bit| after.1 + bit == 1) as usize;
        }
        match first {
            Some((_, decision)) => self.decided_votes[decision as usize] += 1,
            None => self.undecided_votes += 1,
        }
    }

    pub fn print(&self) {
        println!("number    start     tick   ballot   tick, index above 0");
        for number in 0..12 {
            let [start, tick, ballot] = [0, 1, 2].map(|entry: usize| self.numbers[entry][number]);
            println!("{number:6} {start:8} {tick:8} {ballot:8} {:8}", self.indexed[number]);
        }
        let [zeros, ones] = self.decided_votes;
        println!("heads with forged lists {}, honest votes {}", self.forged, self.votes);
        println!("votes that decide 0 {zeros}, 1 {ones}, nothing {}", self.undecided_votes);
        println!(
            "decisions written {}, of them at a lower phase than the vote's first {}",
            self.decisions, self.behind
        );
        println!(
            "heads put back to undecided {}, heads that take the other bit after a decision {}",
            self.put_back, self.against
        );
    }
}

/// State before and after a tick that changed it.
fn moved(asked: &Asked) -> Option<(State, State)> {
    asked.tick?;
    let (before, after) = (state_in(&asked.call.record), state_in(&asked.expected.record));
    (before != after).then_some((before, after))
}
