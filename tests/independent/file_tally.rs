//! What the compared files hold, to see whether every corner was visited.

use crate::bench::{self, Heads};
use crate::runfile::{self, Round, RunFile};

#[derive(Default)]
pub struct FileTally {
    pub files: usize,
    refused: [usize; 16],
    sound: usize,
    rounds: usize,
    good: usize,
    at_bound: usize,
    over_bound: usize,
    own_lost: usize,
    copied: usize,
    put_back: usize,
    coins_taken: usize,
    last_blank: usize,
    last_decided: [usize; 2],
    last_unlike: usize,
}

impl FileTally {
    pub fn count(&mut self, file: &[u8]) {
        self.files += 1;
        match runfile::read(file) {
            Ok(run) => self.count_run(&run),
            Err(refusal) => self.refused[refusal.number as usize] += 1,
        }
    }

    fn count_run(&mut self, run: &RunFile) {
        self.sound += 1;
        let bound = bench::bound(run);
        let mut heads = bench::start(run);
        for round in &run.rounds {
            let after = bench::after(&heads, round);
            self.rounds += 1;
            self.good += bench::is_good(run, round) as usize;
            self.at_bound += (round.lost.len() == bound) as usize;
            self.over_bound += (round.lost.len() == bound + 1) as usize;
            self.own_lost += round.lost.iter().filter(|pair| pair.0 == pair.1).count();
            self.count_moves(&heads, &after);
            self.count_coins(&heads, &after, round);
            heads = after;
        }
        for head in &heads {
            self.last_blank += (head[4] == 2) as usize;
            self.last_unlike += (head[5] == 0 && head[6] != 2) as usize;
            if head[5] == 1 {
                self.last_decided[head[6] as usize] += 1;
            }
        }
    }

    fn count_moves(&mut self, heads: &Heads, after: &Heads) {
        for (old, new) in heads.iter().zip(after) {
            let phase = |head: &[u8]| 256 * head[2] as usize + head[3] as usize;
            self.copied += (phase(new) > phase(old) + 1) as usize;
            self.put_back += (old[5] == 1 && new[5] == 0) as usize;
        }
    }

    /// A coin was taken where the other coin makes another head.
    fn count_coins(&mut self, heads: &Heads, after: &Heads, round: &Round) {
        let coins = round.coins.iter().map(|coin| 1 - coin).collect();
        let other = bench::after(heads, &Round { coins, lost: round.lost.clone() });
        self.coins_taken += after.iter().zip(&other).filter(|(one, two)| one != two).count();
    }

    pub fn print(&self) {
        let [r12, r13, r14, r15] = [12, 13, 14, 15].map(|number: usize| self.refused[number]);
        println!("files refused: 12 {r12}, 13 {r13}, 14 {r14}, 15 {r15}; sound {}", self.sound);
        println!(
            "rounds {}, good {}, with as many losses as the bound {}, with one more {}",
            self.rounds, self.good, self.at_bound, self.over_bound
        );
        println!("own ballots lost {}, coins taken {}", self.own_lost, self.coins_taken);
        println!(
            "heads that rose by two phases or more {}, heads put back to undecided {}",
            self.copied, self.put_back
        );
        let [zeros, ones] = self.last_decided;
        println!(
            "heads at the end: status decided with 0 {zeros}, with 1 {ones}; value blank {}",
            self.last_blank
        );
        println!("heads at the end that are undecided with a decision {}", self.last_unlike);
    }
}
