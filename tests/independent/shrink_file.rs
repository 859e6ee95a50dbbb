//! Makes a run file smaller as long as it still shows a difference.

use crate::damage::Case;
use crate::runfile::{Round, RunFile};
use std::time::{Duration, Instant};

/// How long files are tried.
const LONGEST: Duration = Duration::from_secs(20);

struct Shrinker<'a> {
    differs: &'a mut dyn FnMut(&[u8]) -> bool,
    end: Instant,
    moved: bool,
}

/// The shortest file found in that time. First heads, rounds and losses go, with every fault kept
/// in its field; then single bytes.
pub fn shortest(case: Case, differs: &mut dyn FnMut(&[u8]) -> bool) -> Vec<u8> {
    let mut shrinker = Shrinker { differs, end: Instant::now() + LONGEST, moved: true };
    let mut case = case;
    while shrinker.moved {
        shrinker.moved = false;
        shrinker.drop_damages(&mut case);
        shrinker.drop_heads(&mut case);
        shrinker.drop_rounds(&mut case);
        shrinker.drop_losses(&mut case);
        shrinker.lower_bits(&mut case);
    }
    let mut file = case.bytes();
    shrinker.moved = true;
    while shrinker.moved {
        shrinker.moved = false;
        shrinker.drop_bytes(&mut file);
        shrinker.lower_bytes(&mut file);
    }
    file
}

impl Shrinker<'_> {
    /// Keeps a change after which the difference is still there. True if it was kept.
    fn attempt<T: Clone + PartialEq>(
        &mut self,
        thing: &mut T,
        bytes: impl Fn(&T) -> Vec<u8>,
        change: impl FnOnce(&mut T),
    ) -> bool {
        let mut copy = thing.clone();
        change(&mut copy);
        if copy == *thing || Instant::now() > self.end {
            return false;
        }
        let kept = (self.differs)(&bytes(&copy));
        if kept {
            *thing = copy;
            self.moved = true;
        }
        kept
    }

    fn attempt_case(&mut self, case: &mut Case, change: impl FnOnce(&mut Case)) -> bool {
        self.attempt(case, Case::bytes, change)
    }

    fn drop_damages(&mut self, case: &mut Case) {
        for index in (0..case.damages.len()).rev() {
            self.attempt_case(case, |case| drop(case.damages.remove(index)));
        }
    }

    /// Many at once, then one by one; the last ones first.
    fn drop_rounds(&mut self, case: &mut Case) {
        let mut size = case.run.rounds.len();
        while size > 0 {
            let mut end = case.run.rounds.len();
            while end > 0 {
                let from = end.saturating_sub(size);
                self.attempt_case(case, |case| drop(case.run.rounds.drain(from..end)));
                end = from;
            }
            size /= 2;
        }
    }

    /// Two heads at once where possible: so a majority may stay a majority.
    fn drop_heads(&mut self, case: &mut Case) {
        for several in [16, 8, 2, 1] {
            let mut head = case.run.n();
            while head >= several && case.run.n() >= 2 + several {
                head -= several;
                let gone = |case: &mut Case| {
                    (0..several).for_each(|_| remove_head(&mut case.run, head));
                };
                self.attempt_case(case, gone);
            }
        }
    }

    /// A whole round's, a whole receiver's, then one by one.
    fn drop_losses(&mut self, case: &mut Case) {
        for index in 0..case.run.rounds.len() {
            self.attempt_case(case, |case| case.run.rounds[index].lost.clear());
            for head in 0..case.run.n() {
                self.attempt_case(case, |case| {
                    case.run.rounds[index].lost.retain(|pair| pair.0 != head)
                });
            }
            for pair in case.run.rounds[index].lost.clone() {
                self.attempt_case(case, |case| {
                    case.run.rounds[index].lost.remove(&pair);
                });
            }
        }
    }

    fn lower_bits(&mut self, case: &mut Case) {
        self.attempt_case(case, |case| case.run.need = case.run.n() / 2 + 1);
        self.attempt_case(case, |case| case.run.proposals.fill(0));
        for head in 0..case.run.n() {
            self.attempt_case(case, |case| case.run.proposals[head] = 0);
        }
        let fill = |round: &mut Round| round.coins.fill(0);
        self.attempt_case(case, |case| case.run.rounds.iter_mut().for_each(fill));
        for index in 0..case.run.rounds.len() {
            self.attempt_case(case, |case| fill(&mut case.run.rounds[index]));
            for head in 0..case.run.n() {
                self.attempt_case(case, |case| case.run.rounds[index].coins[head] = 0);
            }
        }
    }

    fn drop_bytes(&mut self, file: &mut Vec<u8>) {
        let mut size = file.len();
        while size > 0 {
            let mut end = file.len();
            while end > 0 {
                let from = end.saturating_sub(size);
                self.attempt(file, Vec::clone, |file| drop(file.drain(from..end)));
                end = from;
            }
            size /= 2;
        }
    }

    /// Zero, half or one less.
    fn lower_bytes(&mut self, file: &mut Vec<u8>) {
        for place in 0..file.len() {
            let byte = file[place];
            for lower in [0, byte / 2, byte.saturating_sub(1)] {
                if self.attempt(file, Vec::clone, |file| file[place] = lower) {
                    break;
                }
            }
        }
    }
}

fn remove_head(run: &mut RunFile, head: usize) {
    run.proposals.remove(head);
    let n = run.n();
    run.need = run.need.saturating_sub(1).max(n / 2 + 1).min(n);
    let down = |number: usize| number - (number > head) as usize;
    for round in &mut run.rounds {
        round.coins.remove(head);
        round.lost.retain(|&(receiver, sender)| receiver != head && sender != head);
        round.lost = round.lost.iter().map(|&(r, s)| (down(r), down(s))).collect();
    }
}
