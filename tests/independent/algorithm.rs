//! Algorithm 1 of "Randomization can be a healer: consensus with dynamic omission failures", line
//! by line, over the whole set of ballots heard so far.
//!
//! The paper leaves open which message the loop of line 9 takes, and it counts messages. Document
//! 01 decides: a message of the highest phase, there of the lowest sender; and "counted by sender".
//! Lines 5 to 7, the clock, sending and receiving, are the caller's.

use crate::words::{Ballot, Status, Value};
use std::collections::BTreeSet;

const ALL: [Value; 3] = [Value::Zero, Value::One, Value::Blank];

/// The process of the paper. `heard` is its V.
#[derive(Clone)]
pub struct Process {
    n: usize,
    pub phase: u32,
    pub value: Value,
    pub status: Status,
    pub decision: Option<Value>,
    heard: BTreeSet<Ballot>,
}

impl Process {
    /// Lines 1 to 4. The paper begins at phase 1; a vote near the last phase begins later.
    pub fn new(n: u32, first_phase: u32, proposal: Value) -> Process {
        Process {
            n: n as usize,
            phase: first_phase,        // line 1
            value: proposal,           // line 2
            status: Status::Undecided, // line 3
            heard: BTreeSet::new(),    // line 4
            decision: None,
        }
    }

    /// Lines 8 to 35, for the messages that line 7 received.
    #[rustfmt::skip]
    pub fn tick(&mut self, received: &[Ballot], coin: Value) {
        self.heard.extend(received);                                    // line 8
        while let Some(ahead) = self.ahead() {                          // line 9
            self.phase = ahead.phase;                                   // line 10
            self.value = ahead.value;                                   // line 11
            self.status = ahead.status;                                 // line 12
        }                                                               // line 13
        if 2 * self.count(&ALL) > self.n {                              // line 14
            if self.phase % 2 == 1 {                                    // line 15
                match self.bit(|count, n| 2 * count > n) {              // line 16
                    Some(bit) => self.value = bit,                      // line 17
                    None => self.value = Value::Blank,                  // lines 18 and 19
                }                                                       // line 20
            } else {                                                    // line 21
                if self.bit(|count, n| 2 * count > n).is_some() {       // line 22
                    self.status = Status::Decided;                      // line 23
                }                                                       // line 24
                match self.bit(|count, _| count >= 1) {                 // line 25
                    Some(bit) => self.value = bit,                      // line 26
                    None => self.value = coin,                          // lines 27 and 28
                }                                                       // line 29
            }                                                           // line 30
            self.phase += 1;                                            // line 31
        }                                                               // line 32
        if self.status == Status::Decided {                             // line 33
            self.decision = Some(self.value);                           // line 34
        }                                                               // line 35
    }

    /// A message of V with a higher phase, by document 01's choice.
    fn ahead(&self) -> Option<Ballot> {
        let higher = self.heard.iter().filter(|ballot| ballot.phase > self.phase);
        let highest = higher.clone().map(|ballot| ballot.phase).max()?;
        higher.filter(|ballot| ballot.phase == highest).min_by_key(|ballot| ballot.sender).copied()
    }

    /// The size of a set of messages of the present phase with one of these values, by sender.
    fn count(&self, values: &[Value]) -> usize {
        let counted = |b: &&Ballot| b.phase == self.phase && values.contains(&b.value);
        let senders: BTreeSet<u32> = self.heard.iter().filter(counted).map(|b| b.sender).collect();
        senders.len()
    }

    /// The v of {0, 1} whose count passes the test against n.
    fn bit(&self, test: fn(usize, usize) -> bool) -> Option<Value> {
        let passes = |bit: &Value| test(self.count(&[*bit]), self.n);
        [Value::Zero, Value::One].into_iter().find(passes)
    }
}
