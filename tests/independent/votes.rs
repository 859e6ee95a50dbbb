//! Whole votes: a script of ticks, and what the independent engine and Algorithm 1 make of it.
//!
//! Every call of a vote is lent the record that the independent engine has. As long as no answer
//! differs that is also the proved engine's own, and so a whole vote can be asked at once.

use crate::algorithm::Process;
use crate::pipe::{Answer, Call};
use crate::words::{ballot_of, bit_of, bytes_of, Ballot, Value};
use std::collections::BTreeSet;

/// A vote as it is played. `honest`: every list has only ballots that these heads sent earlier, as
/// demand 3 has it. Else anything may stand in a list, and only demand 2 is compared.
#[derive(Clone, PartialEq, Eq)]
pub struct Script {
    pub honest: bool,
    pub first_phase: u32,
    pub proposals: Vec<u32>,
    pub ticks: Vec<Tick>,
}

#[derive(Clone, PartialEq, Eq)]
pub struct Tick {
    pub receiver: usize,
    pub list: Vec<Ballot>,
    pub coin: u32,
}

/// Phase, value, status, decision, in the record's codes.
pub type State = (u32, u8, u8, u8);

/// One call of a vote. A tick has its place in the script and the state of Algorithm 1 after it;
/// none where the tick is refused, unless by 10: there Algorithm 1 goes on.
pub struct Asked {
    pub call: Call,
    pub expected: Answer,
    pub tick: Option<usize>,
    pub algorithm: Option<State>,
}

impl Script {
    /// The record that a head begins with. From phase 1 on the engine's start gives it; near the
    /// last phase it is forged.
    pub fn first_record(&self, own: usize) -> Vec<u8> {
        let n = self.proposals.len();
        let (high, low) = (self.first_phase / 256, self.first_phase % 256);
        let mut record = vec![n as u8, own as u8, high as u8, low as u8];
        record.extend([self.proposals[own] as u8, 0, 2, 0]);
        record.resize(20, 0);
        record
    }

    /// The calls of the vote and their expected answers. None if a list has what nobody sent.
    pub fn play(&self) -> Option<Vec<Asked>> {
        let mut play = Play::new(self);
        for (place, tick) in self.ticks.iter().enumerate() {
            if self.honest && tick.list.iter().any(|ballot| !play.sent.contains(ballot)) {
                return None;
            }
            play.tick(place, tick);
        }
        Some(play.asked)
    }
}

/// A vote that is being played. `records` are the independent engine's.
struct Play {
    records: Vec<Vec<u8>>,
    processes: Vec<Process>,
    sent: BTreeSet<Ballot>,
    asked: Vec<Asked>,
}

impl Play {
    fn new(script: &Script) -> Play {
        let n = script.proposals.len() as u32;
        let process = |&bit: &u32| Process::new(n, script.first_phase, bit_of(bit));
        let mut play = Play {
            records: Vec::new(),
            processes: script.proposals.iter().map(process).collect(),
            sent: BTreeSet::new(),
            asked: Vec::new(),
        };
        for (own, &proposal) in script.proposals.iter().enumerate() {
            let mut record = script.first_record(own);
            if script.first_phase == 1 {
                let old = vec![0xEE; 20];
                record = play.ask(Call::start(old, [n, own as u32, proposal])).record;
            }
            play.records.push(record);
            play.send(own);
        }
        play
    }

    fn ask(&mut self, call: Call) -> Answer {
        let expected = call.expected();
        self.asked.push(Asked { call, expected: expected.clone(), tick: None, algorithm: None });
        expected
    }

    /// Every state that a head ever has counts as sent.
    fn send(&mut self, own: usize) {
        let answer = self.ask(Call::ballot(self.records[own].clone(), vec![0xEE; 5]));
        self.sent.insert(ballot_of(&answer.other).expect("a sound head sends codes"));
    }

    fn tick(&mut self, place: usize, tick: &Tick) {
        let bytes: Vec<u8> = tick.list.iter().flat_map(bytes_of).collect();
        let before = self.records[tick.receiver].clone();
        let answer = self.ask(Call::tick(before.clone(), bytes, tick.coin));
        let mut process = self.processes[tick.receiver].clone();
        process.tick(&tick.list, bit_of(tick.coin));
        let asked = self.asked.last_mut().expect("it was just put there");
        asked.tick = Some(place);
        asked.algorithm = [0, 10].contains(&answer.number).then(|| state_of(&process));
        if answer.number == 0 {
            self.processes[tick.receiver] = process;
            self.records[tick.receiver] = answer.record.clone();
        }
        if answer.record != before {
            self.send(tick.receiver);
        }
    }
}

fn state_of(process: &Process) -> State {
    let decision = process.decision.unwrap_or(Value::Blank);
    (process.phase, process.value as u8, process.status as u8, decision as u8)
}

pub fn state_in(record: &[u8]) -> State {
    (record[2] as u32 * 256 + record[3] as u32, record[4], record[5], record[6])
}
