//! The heads of a run file after each of its rounds, for pictures and traces to be compared with.

use crate::bench;
use crate::runfile::{self, Refusal, RunFile};
use std::fmt::Write;

/// A line for each head at the start and after each round, with the senders lost to it in that
/// round; and a line for each round.
///
///   after 0 head 4 phase 1 value 0 status undecided decision none lost
///   after 1 head 4 phase 1 value 0 status undecided decision none lost 0 1 2 3 4
///   round 1 lost 5 bound 5 good
pub fn states(file: &[u8]) -> String {
    match runfile::read(file) {
        Ok(run) => states_of(&run),
        Err(Refusal { number, place }) => format!("refused {number} at {place}\n"),
    }
}

fn states_of(run: &RunFile) -> String {
    let mut heads = bench::start(run);
    let mut text = lines(&heads, 0, |_| String::new());
    for (round, after) in run.rounds.iter().zip(1..) {
        heads = bench::after(&heads, round);
        text += &lines(&heads, after, |receiver| {
            let of_it = round.lost.iter().filter(|lost| lost.0 == receiver);
            of_it.map(|lost| format!(" {}", lost.1)).collect()
        });
        let good = if bench::is_good(run, round) { "good" } else { "not good" };
        let (lost, bound) = (round.lost.len(), bench::bound(run));
        writeln!(text, "round {after} lost {lost} bound {bound} {good}").expect("a string takes all");
    }
    text
}

fn lines(heads: &bench::Heads, after: usize, lost: impl Fn(usize) -> String) -> String {
    let line = |(receiver, head): (usize, &Vec<u8>)| {
        format!("after {after} {} lost{}\n", bench::head_line(head), lost(receiver))
    };
    heads.iter().enumerate().map(line).collect()
}
