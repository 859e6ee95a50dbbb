//! Compares the proved engine with the independent one, call by call, and whole votes with
//! Algorithm 1 and demand 3.

use crate::adversary;
use crate::calls::draw_call;
use crate::chance::Chance;
use crate::demands::broken;
use crate::forged_votes;
use crate::pipe::{Answer, Call, Driver};
use crate::shrink_call::shortest_call;
use crate::shrink_script::{broken_here, shortest_script};
use crate::tally::Tally;
use crate::tell;
use crate::votes::Script;
use std::io::{Error, Result};

pub struct Order {
    pub verbose: bool,
    pub ticks: usize,
    pub seed: u64,
    pub command: Vec<String>,
}

/// How many single calls go to the driver at once.
const BATCH: usize = 200;

struct Comparer {
    driver: Driver,
    chance: Chance,
    tally: Tally,
}

/// Whether there is no difference. An error where the driver cannot be begun, or does not end well.
pub fn compare(order: &Order) -> Result<bool> {
    let driver = Driver::begin(order.command.clone())?;
    let chance = Chance::new(order.seed);
    let mut comparer = Comparer { driver, chance, tally: Tally::default() };
    let same = comparer.compare(order.ticks);
    if order.verbose {
        comparer.tally.print();
    }
    let ended = comparer.driver.end();
    let Tally { ticks, votes, .. } = comparer.tally;
    let words = if same { "0 differences" } else { "1 difference" };
    println!("independent: {ticks} ticks, {votes} votes, {words} (seed {})", order.seed);
    if same && !ended {
        return Err(Error::other("it did not end well"));
    }
    Ok(same)
}

impl Comparer {
    /// Single calls, forged votes and honest votes in turn, until there are so many ticks.
    fn compare(&mut self, ticks: usize) -> bool {
        while self.tally.ticks < ticks {
            let left = ticks - self.tally.ticks;
            let same = match self.chance.below(8) {
                0 => self.compare_calls(left),
                1..=4 => self.compare_forged(left),
                _ => self.compare_honest(left),
            };
            if !same {
                return false;
            }
        }
        true
    }

    /// Single calls, of which no more than `left` are ticks.
    fn compare_calls(&mut self, left: usize) -> bool {
        let count = BATCH.min(left);
        let calls: Vec<Call> = (0..count).map(|_| draw_call(&mut self.chance)).collect();
        let expected: Vec<Answer> = calls.iter().map(Call::expected).collect();
        self.compare_answers(&calls, &expected).is_some()
    }

    fn compare_forged(&mut self, left: usize) -> bool {
        let script = forged_votes::invent(&mut self.chance, left);
        self.compare_script(&script)
    }

    fn compare_honest(&mut self, left: usize) -> bool {
        let script = adversary::invent(&mut self.chance, left);
        self.compare_script(&script)
    }

    /// The answers of the proved engine, if all are as expected. Else the first that is not is
    /// made short and printed.
    fn compare_answers(&mut self, calls: &[Call], expected: &[Answer]) -> Option<Vec<Answer>> {
        let answers = self.driver.ask(calls);
        for (place, call) in calls.iter().enumerate() {
            if answers.get(place) != Some(&expected[place]) {
                self.tell_call(call.clone());
                return None;
            }
            self.tally.count(call, &expected[place]);
        }
        Some(answers)
    }

    fn tell_call(&mut self, call: Call) {
        let driver = &mut self.driver;
        let mut ask = |call: &Call| driver.ask(std::slice::from_ref(call)).pop();
        let short = shortest_call(call, &mut |call| ask(call) != Some(call.expected()));
        let proved = ask(&short);
        tell::print_call("difference", &short, proved.as_ref());
    }

    fn compare_script(&mut self, script: &Script) -> bool {
        let asked = script.play().expect("the adversary uses what was sent");
        let calls: Vec<Call> = asked.iter().map(|asked| asked.call.clone()).collect();
        let expected: Vec<Answer> = asked.iter().map(|asked| asked.expected.clone()).collect();
        let Some(answers) = self.compare_answers(&calls, &expected) else {
            return false;
        };
        if broken(script, &asked, &answers).is_some() {
            self.tell_script(script);
            return false;
        }
        self.tally.count_vote(script, &asked);
        true
    }

    fn tell_script(&mut self, script: &Script) {
        let short = shortest_script(script.clone());
        let Some((place, sentence)) = broken_here(&short) else {
            return;
        };
        let asked = short.play().expect("it was played just now");
        let Some(last) = asked.iter().find(|asked| asked.tick == Some(place)) else {
            return;
        };
        let proved = self.driver.ask(std::slice::from_ref(&last.call)).pop();
        tell::print_script(&short, sentence, last, proved.as_ref());
    }
}
