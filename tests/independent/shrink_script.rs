//! Makes a vote smaller as long as it still breaks a sentence.

use crate::demands::broken;
use crate::votes::Script;

/// A vote in which a sentence is broken, and whether the last pass made it smaller. The answers are
/// the independent engine's: up to here the proved one gave the same.
struct Shortener {
    script: Script,
    moved: bool,
}

pub fn shortest_script(script: Script) -> Script {
    let mut shortener = Shortener { script, moved: true };
    shortener.keep_one_head();
    while shortener.moved {
        shortener.moved = false;
        shortener.drop_ticks();
        for place in 0..shortener.script.ticks.len() {
            shortener.drop_listed(place);
            shortener.attempt(|script| script.ticks[place].coin = 0);
        }
    }
    shortener.script
}

pub fn broken_here(script: &Script) -> Option<(usize, &'static str)> {
    let asked = script.play()?;
    let answers: Vec<_> = asked.iter().map(|asked| asked.expected.clone()).collect();
    broken(script, &asked, &answers)
}

impl Shortener {
    fn attempt(&mut self, change: impl FnOnce(&mut Script)) -> bool {
        let mut copy = self.script.clone();
        change(&mut copy);
        let kept = copy != self.script && broken_here(&copy).is_some();
        if kept {
            self.script = copy;
            self.moved = true;
        }
        kept
    }

    /// What comes after the broken sentence goes. If it is Algorithm 1's, the other heads go too:
    /// the lists of one head then show it, whoever sent them.
    fn keep_one_head(&mut self) {
        let Some((place, _)) = broken_here(&self.script) else { return };
        let receiver = self.script.ticks[place].receiver;
        self.attempt(|script| script.ticks.truncate(place + 1));
        self.attempt(|script| {
            script.honest = false;
            script.ticks.retain(|tick| tick.receiver == receiver);
        });
    }

    /// Many at once, then one by one. The last ones first: the others may need the earlier.
    fn drop_ticks(&mut self) {
        let mut size = self.script.ticks.len() / 2;
        while size > 0 {
            let mut end = self.script.ticks.len();
            while end > 0 {
                let from = end.saturating_sub(size);
                self.attempt(|script| drop(script.ticks.drain(from..end)));
                end = from;
            }
            size /= 2;
        }
    }

    fn drop_listed(&mut self, place: usize) {
        let mut size = self.script.ticks[place].list.len();
        while size > 0 {
            let mut end = self.script.ticks[place].list.len();
            while end > 0 {
                let from = end.saturating_sub(size);
                self.attempt(|script| drop(script.ticks[place].list.drain(from..end)));
                end = from;
            }
            size /= 2;
        }
    }
}
