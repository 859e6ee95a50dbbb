//! Which ballots are lost in a round of an invented run file.
//!
//! The heads before the round are known, so that a round can be made in which a majority is just
//! missed or just made.

use crate::bench::Heads;
use crate::chance::Chance;
use std::collections::BTreeSet;

pub type Lost = BTreeSet<(usize, usize)>;

/// How ballots are lost in one round.
#[derive(Clone, Copy)]
pub enum Weather {
    Clear,
    /// As many as a good round may lose, one less or one more, anywhere.
    AtBound,
    /// Each ballot is lost in so many of eight cases.
    Rate(usize),
    /// Two halves, each deaf to the other but for a few ballots.
    Halves,
    /// Each head's own ballot is lost to it, and some others.
    Own,
    /// Each head has a plan of its own.
    Plans,
    Silence,
}

pub const WEATHERS: [Weather; 10] = [
    Weather::Clear,
    Weather::AtBound,
    Weather::AtBound,
    Weather::Rate(2),
    Weather::Rate(4),
    Weather::Halves,
    Weather::Own,
    Weather::Plans,
    Weather::Plans,
    Weather::Silence,
];

pub fn lost(chance: &mut Chance, weather: Weather, heads: &Heads, bound: usize) -> Lost {
    let n = heads.len();
    match weather {
        Weather::Clear => Lost::new(),
        Weather::AtBound => {
            let count = (bound + chance.below(3)).saturating_sub(1);
            any_so_many(chance, n, count)
        }
        Weather::Rate(eighths) => keep(n, |_, _| chance.below(8) < eighths),
        Weather::Halves => halves(chance, n),
        Weather::Own => keep(n, |receiver, sender| receiver == sender || chance.one_in(6)),
        Weather::Plans => plans(chance, heads),
        Weather::Silence => keep(n, |_, _| true),
    }
}

fn keep(n: usize, mut is_lost: impl FnMut(usize, usize) -> bool) -> Lost {
    let pairs = (0..n).flat_map(|receiver| (0..n).map(move |sender| (receiver, sender)));
    pairs.filter(|&(receiver, sender)| is_lost(receiver, sender)).collect()
}

fn any_so_many(chance: &mut Chance, n: usize, count: usize) -> Lost {
    let mut pairs: Vec<(usize, usize)> = keep(n, |_, _| true).into_iter().collect();
    chance.shuffle(&mut pairs);
    pairs.into_iter().take(count).collect()
}

fn halves(chance: &mut Chance, n: usize) -> Lost {
    let mut side: Vec<bool> = (0..n).map(|head| head < n / 2).collect();
    chance.shuffle(&mut side);
    keep(n, |receiver, sender| side[receiver] != side[sender] && !chance.one_in(6))
}

/// A head hears nothing, all, or just enough or nearly enough for a step. Of those at its phase it
/// hears first any, those with one value, or values in turn.
fn plans(chance: &mut Chance, heads: &Heads) -> Lost {
    let n = heads.len();
    let mut lost = Lost::new();
    for receiver in 0..n {
        let count = match chance.below(8) {
            0 => 0,
            1 => n,
            _ => n / 2 + chance.of(&[0, 1, 1, 1, 1, 2]),
        };
        let order = preferred(chance, heads);
        lost.extend(order.into_iter().skip(count).map(|sender| (receiver, sender)));
    }
    lost
}

fn preferred(chance: &mut Chance, heads: &Heads) -> Vec<usize> {
    let mut order: Vec<usize> = (0..heads.len()).collect();
    chance.shuffle(&mut order);
    let first = chance.below(5) as u8;
    match first {
        // one value first
        0..=2 => order.sort_by_key(|&sender| heads[sender][4] != first),
        // values in turn: the first of each, then the second of each
        3 => {
            let mut seen = [0; 3];
            order.sort_by_cached_key(|&sender| {
                let times = &mut seen[heads[sender][4] as usize];
                *times += 1;
                *times
            });
        }
        _ => {}
    }
    order
}
