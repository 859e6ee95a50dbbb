//! Invents whole votes. It decides who is ticked, what arrives and how the coins fall, and it uses
//! that to keep the heads apart: no decision, or two.
//!
//! It may use every ballot ever sent. So a slow head steps through old phases on old ballots while
//! others are far ahead, and may decide after them and at a lower phase.

use crate::chance::Chance;
use crate::draft::Draft;
use crate::engine;
use crate::habits::{draw_habits, Habit, Plan, PLANS};
use crate::votes::{state_in, Script, State, Tick};
use crate::words::{ballot_of, bit_of, bytes_of, Ballot, Status, Value};
use std::cmp::Reverse;

struct Adversary<'a> {
    chance: &'a mut Chance,
    n: usize,
    records: Vec<Vec<u8>>,
    sent: Vec<Ballot>,
    /// The bit that each head is pushed to.
    camp: Vec<u32>,
    habits: Vec<Habit>,
    /// One tick in so many does not follow the head's habit.
    whim: usize,
    /// How many ballots more than enough must be there before a plan chooses among them.
    patience: usize,
    /// How many lists are tried for one tick. The one that keeps heads furthest apart is taken.
    tries: usize,
}

/// An honest vote of at most so many ticks.
pub fn invent(chance: &mut Chance, most: usize) -> Script {
    let any = chance.between(2, 32);
    let n = chance.of(&[2, 3, 3, 4, 4, 5, 5, 6, 7, 31, 32, any, any, any, any]) as usize;
    let late = chance.one_in(10);
    let first_phase = if late { 65_535 - 2 * chance.between(0, 7) } else { 1 };
    let camp = camps(chance, n);
    let proposals = match chance.below(6) {
        0 => vec![chance.bit(); n],
        1 => (0..n).map(|_| chance.bit()).collect(),
        _ => camp.clone(),
    };
    let mut script = Script { honest: true, first_phase, proposals, ticks: Vec::new() };
    let count = n * chance.between(3, if late { 8 } else { 16 }) as usize;
    let in_rounds = chance.of(&[0, 0, 0, 0, 0, 2, 8]) * n;
    let mut adversary = Adversary::new(chance, &script, camp);
    while script.ticks.len() < count.min(most) {
        let left = count.min(most) - script.ticks.len();
        if script.ticks.len() < in_rounds {
            adversary.round(&mut script.ticks, left);
        } else {
            let tick = adversary.choose();
            adversary.play(&tick);
            script.ticks.push(tick);
        }
    }
    script
}

/// Two camps, mostly about equal: that is where no value has a majority.
fn camps(chance: &mut Chance, n: usize) -> Vec<u32> {
    let first = if chance.one_in(3) { chance.below(n + 1) } else { n / 2 + chance.below(2) };
    let bit = chance.bit();
    let mut camp: Vec<u32> = (0..n).map(|head| if head < first { bit } else { 1 - bit }).collect();
    chance.shuffle(&mut camp);
    camp
}

impl Adversary<'_> {
    fn new<'a>(chance: &'a mut Chance, script: &Script, camp: Vec<u32>) -> Adversary<'a> {
        let n = script.proposals.len();
        let records: Vec<Vec<u8>> = (0..n).map(|own| script.first_record(own)).collect();
        let sent = records.iter().map(|record| ballot_in(record)).collect();
        let habits = draw_habits(chance, n);
        let whim = chance.of(&[1, 8, 32, 32]);
        let patience = if chance.one_in(2) { n - n / 2 - 1 } else { chance.below(n / 2 + 1) };
        let tries = chance.of(&[1, 1, 3, 5]);
        Adversary { chance, n, records, sent, camp, habits, whim, patience, tries }
    }

    /// One of document 01's rounds. Half of them lose nothing.
    fn round(&mut self, ticks: &mut Vec<Tick>, most: usize) {
        let formed: Vec<Ballot> = self.records.iter().map(|record| ballot_in(record)).collect();
        let lost = self.chance.of(&[0, 0, 0, 2, 4, 6]);
        for receiver in 0..self.n.min(most) {
            let mut list = formed.clone();
            list.retain(|_| self.chance.below(8) >= lost);
            let tick = Tick { receiver, list, coin: self.coin(receiver) };
            self.play(&tick);
            ticks.push(tick);
        }
    }

    /// Where a plan waits, another head is ticked.
    fn choose(&mut self) -> Tick {
        for _ in 0..40 {
            let receiver = self.chance.below(self.n);
            if self.chance.one_in(self.habits[receiver].seldom) {
                let tick = self.best(receiver);
                if !tick.list.is_empty() || self.chance.one_in(32) {
                    return tick;
                }
            }
        }
        let receiver = self.chance.below(self.n);
        Tick { receiver, list: self.present(2), coin: self.coin(receiver) }
    }

    /// The head's habit, and against it what comes to mind.
    fn best(&mut self, receiver: usize) -> Tick {
        let mut best = self.try_one(receiver, self.whim);
        for _ in 1..self.tries {
            let other = self.try_one(receiver, 2);
            if self.apart(&other) > self.apart(&best) {
                best = other;
            }
        }
        best
    }

    fn try_one(&mut self, receiver: usize, whim: usize) -> Tick {
        let coin = self.coin(receiver);
        let list = self.list(receiver, whim);
        Tick { receiver, list: self.season(receiver, list), coin }
    }

    /// Against a decision that is written somewhere, or else towards the head's camp.
    fn coin(&mut self, receiver: usize) -> u32 {
        let written = self.records.iter().map(|record| record[6]).find(|&decision| decision != 2);
        match (self.chance.below(4), written) {
            (0, _) => self.chance.bit(),
            (1 | 2, Some(decision)) => 1 - decision as u32,
            _ => self.camp[receiver],
        }
    }

    /// How much a tick parts the heads: by heads near in phase with another value, and much more
    /// where a head decides against them or is put back to undecided. A tick that moves nothing
    /// is worth nothing.
    fn apart(&self, tick: &Tick) -> usize {
        let before = state_in(&self.records[tick.receiver]);
        let mut record = self.records[tick.receiver].clone();
        engine::tick(&mut record, &bytes(&tick.list), tick.coin);
        let after = state_in(&record);
        let others = self.records.iter().map(|record| state_in(record));
        let parted = |other: &State| other.0.abs_diff(after.0) <= 2 && other.1 != after.1;
        let count = others.filter(parted).count();
        let decides = before.3 != after.3;
        let put_back = before.2 > after.2;
        match (before == after, put_back, decides) {
            (true, ..) => 0,
            (_, true, _) => 1000,
            (_, _, true) => 10 * count,
            _ => 1 + count,
        }
    }

    fn list(&mut self, receiver: usize, whim: usize) -> Vec<Ballot> {
        let odd = Draft::of(&self.records[receiver]).phase % 2 == 1;
        let habit = self.habits[receiver];
        let plan = match self.chance.one_in(whim) {
            true => self.chance.of(&PLANS),
            false if odd => habit.odd,
            false => habit.even,
        };
        match plan {
            Plan::Nothing => Vec::new(),
            Plan::Present { lost } => self.present(lost),
            Plan::Old => self.old(receiver),
            Plan::Ahead { most } => self.ahead(receiver, most),
            Plan::Any => self.any(),
            Plan::Camp => self.camp_first(receiver),
            Plan::Common => self.by_count(receiver, |v, count| (v == Value::Blank, Reverse(count))),
            Plan::Doubt => self.by_count(receiver, |v, count| (v != Value::Blank, count)),
            Plan::InTurn => self.in_turn(receiver),
        }
    }

    /// The present ballots, some of eight lost.
    fn present(&mut self, lost: usize) -> Vec<Ballot> {
        let mut list: Vec<Ballot> = self.records.iter().map(|record| ballot_in(record)).collect();
        list.retain(|_| self.chance.below(8) >= lost);
        list
    }

    /// Late ballots, which must change nothing.
    fn old(&mut self, receiver: usize) -> Vec<Ballot> {
        let phase = Draft::of(&self.records[receiver]).phase;
        let mut list = self.sent.clone();
        list.retain(|ballot| ballot.phase < phase);
        self.some(list, 20)
    }

    /// Ballots of one higher phase: the head copies one. "Undecided" and the camp's bit first.
    fn ahead(&mut self, receiver: usize, most: usize) -> Vec<Ballot> {
        let push = bit_of(self.camp[receiver]);
        let phase = Draft::of(&self.records[receiver]).phase;
        let higher: Vec<Ballot> = self.sent.iter().filter(|b| b.phase > phase).copied().collect();
        if higher.is_empty() {
            return self.in_turn(receiver);
        }
        let chosen = self.chance.of(&higher).phase;
        let mut list = higher;
        list.retain(|ballot| ballot.phase == chosen);
        self.chance.shuffle(&mut list);
        list.sort_by_key(|ballot| (ballot.status == Status::Decided, ballot.value != push));
        list.truncate(most);
        list
    }

    fn any(&mut self) -> Vec<Ballot> {
        let list = self.sent.clone();
        self.some(list, 64)
    }

    /// The camp's bit first.
    fn camp_first(&mut self, receiver: usize) -> Vec<Ballot> {
        let push = bit_of(self.camp[receiver]);
        let mut list = self.fresh(receiver);
        list.sort_by_key(|ballot| ballot.value != push);
        self.just_enough(receiver, list)
    }

    /// In an order that looks at a value and how many fresh ballots have it.
    fn by_count<K: Ord>(&mut self, receiver: usize, order: fn(Value, usize) -> K) -> Vec<Ballot> {
        let mut list = self.fresh(receiver);
        let counts = count_values(&list);
        list.sort_by_key(|ballot| order(ballot.value, counts[ballot.value as usize]));
        self.just_enough(receiver, list)
    }

    /// The values one after the other, so that none has a majority.
    fn in_turn(&mut self, receiver: usize) -> Vec<Ballot> {
        let list = self.fresh(receiver);
        let turn = |place: usize| count_values(&list[..place])[list[place].value as usize];
        let mut places: Vec<usize> = (0..list.len()).collect();
        places.sort_by_key(|&place| turn(place));
        let list = places.into_iter().map(|place| list[place]).collect();
        self.just_enough(receiver, list)
    }

    /// Ballots of the head's phase from senders that it does not hold yet.
    fn fresh(&mut self, receiver: usize) -> Vec<Ballot> {
        let head = Draft::of(&self.records[receiver]);
        let mut list = self.sent.clone();
        list.retain(|b| b.phase == head.phase && !head.held.contains_key(&b.sender));
        self.chance.shuffle(&mut list);
        list
    }

    /// Mostly as many as the head lacks for a step, and none as long as there is little to choose
    /// from: what comes early is what the plan would not have taken.
    fn just_enough(&mut self, receiver: usize, mut list: Vec<Ballot>) -> Vec<Ballot> {
        let held = Draft::of(&self.records[receiver]).held.len();
        let missing = (self.n / 2 + 1).saturating_sub(held);
        if list.len() < missing + self.patience && !self.chance.one_in(24) {
            return Vec::new();
        }
        let fewer = missing.saturating_sub(1);
        let count = self.chance.of(&[missing, missing, missing, missing, missing + 1, fewer, 1]);
        list.truncate(count);
        list
    }

    fn some(&mut self, mut list: Vec<Ballot>, most: usize) -> Vec<Ballot> {
        self.chance.shuffle(&mut list);
        list.truncate(self.chance.below(most + 1));
        list
    }

    /// Repeats, late ballots, another order. At most 64.
    fn season(&mut self, receiver: usize, mut list: Vec<Ballot>) -> Vec<Ballot> {
        let front = list.len();
        if front > 0 && self.chance.one_in(3) {
            for _ in 0..self.chance.below(65) {
                list.push(list[self.chance.below(front)]);
            }
        }
        if self.chance.one_in(4) {
            list.extend(self.old(receiver));
        }
        list.truncate(64);
        self.chance.shuffle(&mut list);
        list
    }

    fn play(&mut self, tick: &Tick) {
        let record = &mut self.records[tick.receiver];
        engine::tick(record, &bytes(&tick.list), tick.coin);
        let ballot = ballot_in(record);
        if !self.sent.contains(&ballot) {
            self.sent.push(ballot);
        }
    }
}

/// How many ballots have 0, 1 and blank.
fn count_values(list: &[Ballot]) -> [usize; 3] {
    let mut counts = [0; 3];
    for ballot in list {
        counts[ballot.value as usize] += 1;
    }
    counts
}

fn bytes(list: &[Ballot]) -> Vec<u8> {
    list.iter().flat_map(bytes_of).collect()
}

/// What the head in a sound record sends.
fn ballot_in(record: &[u8]) -> Ballot {
    let mut bytes = [0; 5];
    engine::ballot(record, &mut bytes);
    ballot_of(&bytes).expect("a sound head sends codes")
}
