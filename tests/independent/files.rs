//! Invents run files from a seed: sound ones, and such with one or two faults.

use crate::bench;
use crate::chance::Chance;
use crate::damage::{Case, Damage, Field};
use crate::losses::{lost, Lost, WEATHERS};
use crate::runfile::{Round, RunFile};

pub fn invent(chance: &mut Chance) -> Case {
    let run = match chance.below(10) {
        0 => put_back(chance),
        1 => long(chance),
        2 => cut_off(chance),
        _ => {
            let rounds = chance.of(&[0, 1, 2, 2, 3, 3, 4, 4, 5, 6, 8, 12]);
            let n = draw_n(chance);
            any(chance, n, rounds)
        }
    };
    let faults = chance.of(&[0, 0, 0, 0, 0, 1, 1, 2]);
    let damages = (0..faults).map(|_| damage(chance, &run)).collect();
    Case { run, damages }
}

fn draw_n(chance: &mut Chance) -> usize {
    let any = chance.between(2, 32) as usize;
    chance.of(&[2, 3, 3, 4, 4, 5, 5, 6, 7, 8, 9, 16, 17, 31, 32, any, any, any])
}

/// Many rounds for few heads, or some for many.
fn long(chance: &mut Chance) -> RunFile {
    let n = draw_n(chance);
    let most = if n < 8 { 256 } else { 40 };
    let fewer = chance.between(13, most as u32) as usize;
    let rounds = chance.of(&[most, fewer]);
    any(chance, n, rounds)
}

/// One weather for the whole file, or another in each round.
fn any(chance: &mut Chance, n: usize, rounds: usize) -> RunFile {
    let need = chance.between(n as u32 / 2 + 1, n as u32) as usize;
    let mut run = RunFile { proposals: proposals(chance, n), need, rounds: Vec::new() };
    let steady = chance.one_in(2).then(|| chance.of(&WEATHERS[..9]));
    let coin_habit = chance.below(5);
    let mut heads = bench::start(&run);
    for _ in 0..rounds {
        let weather = steady.unwrap_or_else(|| chance.of(&WEATHERS));
        let lost = lost(chance, weather, &heads, bench::bound(&run));
        let round = Round { lost, coins: coins(chance, n, coin_habit) };
        heads = bench::after(&heads, &round);
        run.rounds.push(round);
    }
    run
}

/// About half propose 1 in most files: that is where no value has a majority.
fn proposals(chance: &mut Chance, n: usize) -> Vec<u8> {
    let ones = if chance.one_in(4) { chance.below(n + 1) } else { n / 2 + chance.below(2) };
    let mut proposals: Vec<u8> = (0..n).map(|head| (head < ones) as u8).collect();
    chance.shuffle(&mut proposals);
    proposals
}

/// Equal coins end a split; coins that differ from head to head, or follow a pattern, show whose
/// coin was taken.
fn coins(chance: &mut Chance, n: usize, habit: usize) -> Vec<u8> {
    let bit = chance.bit() as u8;
    (0..n)
        .map(|head| match habit {
            0 => bit,
            1 => (head % 2) as u8,
            2 => (head >= n / 2) as u8,
            _ => chance.bit() as u8,
        })
        .collect()
}

/// The first of the order decides alone, misses a round, then hears one later ballot that is
/// undecided: its status goes back and its decision stays. In that round the others hear nobody and
/// have written nothing; or they hear all and decide.
fn put_back(chance: &mut Chance) -> RunFile {
    let n = draw_n(chance).max(3);
    let half = n / 2 + 1;
    let order = any_order(chance, n);
    // Those whom a majority hears with one value, and those among whom one value is one short.
    let (agreed, mixed) = (0..half, 1..half + 1);
    let (nobody, all) = (0..0, 0..n);
    let last = if chance.one_in(2) { &nobody } else { &all };
    // By place in the order: whom the first, the others of the majority, and the rest hear.
    let hears = [
        [&agreed, &agreed, &mixed],
        [&agreed, &mixed, &mixed],
        [&nobody, &mixed, &mixed],
        [&(1..2), last, last],
    ];
    let proposals = proposed_by(chance, &order[..half], n);
    let kind = |place: usize| (place > 0) as usize + (place >= half) as usize;
    let round = |heard: &[&std::ops::Range<usize>; 3]| {
        let pairs = (0..n).flat_map(|receiver| (0..n).map(move |sender| (receiver, sender)));
        let missed = pairs.filter(|&(receiver, sender)| !heard[kind(receiver)].contains(&sender));
        missed.map(|(receiver, sender)| (order[receiver], order[sender])).collect::<Lost>()
    };
    let rounds = hears.iter().map(round).map(|lost| Round { lost, coins: vec![0; n] }).collect();
    RunFile { proposals, need: half, rounds }
}

/// Some heads, fewer than half, hear nobody. The others hear all and decide in two rounds: as many
/// have written as were needed or more, and not all.
fn cut_off(chance: &mut Chance) -> RunFile {
    let n = draw_n(chance).max(3);
    let half = n / 2 + 1;
    let order = any_order(chance, n);
    let (deaf, others) = order.split_at(1 + chance.below(n - half));
    let proposals = proposed_by(chance, &others[..half], n);
    let need = chance.between(half as u32, others.len() as u32) as usize;
    let pairs = deaf.iter().flat_map(|&receiver| (0..n).map(move |sender| (receiver, sender)));
    let round = Round { lost: pairs.collect::<Lost>(), coins: vec![0; n] };
    let rounds = chance.between(2, 4) as usize;
    RunFile { proposals, need, rounds: vec![round; rounds] }
}

fn any_order(chance: &mut Chance, n: usize) -> Vec<usize> {
    let mut order: Vec<usize> = (0..n).collect();
    chance.shuffle(&mut order);
    order
}

/// One bit by the heads that are named, the other by all others.
fn proposed_by(chance: &mut Chance, heads: &[usize], n: usize) -> Vec<u8> {
    let bit = chance.bit() as u8;
    (0..n).map(|head| if heads.contains(&head) { bit } else { 1 - bit }).collect()
}

/// One fault, anywhere in the file.
fn damage(chance: &mut Chance, run: &RunFile) -> Damage {
    let rows = (run.n() * run.rounds.len()).max(1);
    let field = match chance.below(8) {
        0 => Field::HeadsCount,
        1 => Field::Proposal(chance.below(run.n())),
        2 => Field::NeedCount,
        3 => Field::Need,
        4 => Field::RoundsCount,
        5 => Field::Row(chance.below(rows)),
        6 => Field::CoinsCount,
        _ => Field::Coin(chance.below(rows)),
    };
    match chance.below(8) {
        0 | 1 => Damage::Cut(field, chance.below(3)),
        2 => Damage::Append(some_bytes(chance, 3)),
        3 => Damage::Put(field, some_bytes(chance, 6)),
        _ => Damage::Put(field, wrong_bytes(chance, run, field)),
    }
}

fn some_bytes(chance: &mut Chance, most: usize) -> Vec<u8> {
    let length = 1 + chance.below(most);
    chance.bytes(length)
}

/// As many bytes as the field has, and mostly wrong: off by one, byte order, a bit too high.
fn wrong_bytes(chance: &mut Chance, run: &RunFile, field: Field) -> Vec<u8> {
    let n = run.n();
    match field {
        Field::Proposal(_) | Field::Coin(_) => vec![chance.of(&[2, 2, 3, 128, 255])],
        Field::Need => vec![chance.of(&[0, n / 2, n + 1, n + 128, 255]) as u8],
        Field::Row(_) => {
            let bit = chance.between(n as u32 % 32, 31);
            (1u32 << bit | chance.next() as u32 & 1).to_be_bytes().to_vec()
        }
        Field::HeadsCount => wrong_count(chance, n),
        Field::NeedCount => wrong_count(chance, 1),
        Field::RoundsCount => wrong_count(chance, run.rounds.len()),
        Field::CoinsCount => wrong_count(chance, n * run.rounds.len()),
    }
}

fn wrong_count(chance: &mut Chance, right: usize) -> Vec<u8> {
    let swapped = (right as u16).swap_bytes() as usize;
    let most = chance.of(&[33, 257, 65_535]);
    let other = chance.of(&[right + 1, right.saturating_sub(1), swapped, right + 256, most]);
    (other as u16).to_be_bytes().to_vec()
}
