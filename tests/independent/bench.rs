//! The bench once more, from document 01 and W2 alone: the rounds of a run file, the figures, the
//! report.

use crate::engine;
use crate::runfile::{self, Refusal, Round, RunFile};
use std::fmt::Write;

/// The heads of a run, as records of 20 bytes.
pub type Heads = Vec<Vec<u8>>;

/// What the program prints for a file.
pub fn report(file: &[u8]) -> String {
    match runfile::read(file) {
        Ok(run) => report_of(&run),
        // "A refusal prints one line only: refused, number, at, place"
        Err(Refusal { number, place }) => format!("refused {number} at {place}\n"),
    }
}

fn report_of(run: &RunFile) -> String {
    let heads = run.rounds.iter().fold(start(run), |heads, round| after(&heads, round));
    // "First line: n, k, the good-round bound."
    let (n, need, bound) = (run.n(), run.need, bound(run));
    let mut text = format!("heads {n} need {need} bound {bound}\n");
    for head in &heads {
        writeln!(text, "{}", head_line(head)).expect("a string takes all");
    }
    // "Last line: rounds run, good rounds," and by W2 the "heads whose decision is written".
    let good = run.rounds.iter().filter(|round| is_good(run, round)).count();
    let decided = heads.iter().filter(|head| head[6] != 2).count();
    text + &format!("rounds {} good {good} decided {decided}\n", run.rounds.len())
}

pub fn start(run: &RunFile) -> Heads {
    let n = run.n();
    let start_one = |(own, &proposal): (usize, &u8)| {
        let mut record = vec![0; 20];
        let number = engine::start(&mut record, n as u32, own as u32, proposal as u32);
        assert_eq!(number, 0, "a file that was read gives good starts");
        record
    };
    run.proposals.iter().enumerate().map(start_one).collect()
}

/// "A round: all n ballots are formed first, then each head in number order is ticked with those
/// not lost to it, in sender order, and its coin of that round."
pub fn after(heads: &Heads, round: &Round) -> Heads {
    let form = |head: &Vec<u8>| {
        let mut ballot = [0; 5];
        assert_eq!(engine::ballot(head, &mut ballot), 0, "every head of a run is sound");
        ballot
    };
    let ballots: Vec<[u8; 5]> = heads.iter().map(form).collect();
    let tick = |(receiver, head): (usize, &Vec<u8>)| {
        let heard = |sender: &usize| !round.lost.contains(&(receiver, *sender));
        let list: Vec<u8> = (0..heads.len()).filter(heard).flat_map(|s| ballots[s]).collect();
        let mut head = head.clone();
        let answer = engine::tick(&mut head, &list, round.coins[receiver] as u32);
        assert_eq!(answer, (0, 0), "no tick of a run is refused");
        head
    };
    heads.iter().enumerate().map(tick).collect()
}

/// "A round is good if its lost ballots, of n × n, are at most ceil(n/2) × (n - k) + k - 2".
pub fn bound(run: &RunFile) -> usize {
    let half_up = run.n().div_ceil(2);
    half_up * (run.n() - run.need) + run.need - 2
}

pub fn is_good(run: &RunFile, round: &Round) -> bool {
    round.lost.len() <= bound(run)
}

/// "One line a head, its last state; value prints 0, 1 or blank, status decided or undecided,
/// decision 0, 1 or none."
pub fn head_line(head: &[u8]) -> String {
    let phase = 256 * head[2] as u32 + head[3] as u32;
    let value = ["0", "1", "blank"][head[4] as usize];
    let status = ["undecided", "decided"][head[5] as usize];
    let decision = ["0", "1", "none"][head[6] as usize];
    let own = head[1];
    format!("head {own} phase {phase} value {value} status {status} decision {decision}")
}
