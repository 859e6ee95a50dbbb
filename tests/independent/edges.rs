//! Run files that are always compared, whatever the seed: every rule of document 01 at its edge.

use crate::damage::{Case, Damage, Field};
use crate::losses::Lost;
use crate::runfile::{Round, RunFile};

use Damage::{Append, Cut, Put};

pub fn all() -> Vec<Case> {
    let mut cases = vec![printed().into(), largest().into(), rounds_of(2, 256).into()];
    cases.extend(cuts());
    cases.extend(counts());
    cases.extend(bytes());
    cases.extend(needs());
    cases.extend(rows());
    cases.extend(ends());
    cases.extend(two_faults());
    // The short ones first: so a difference is met in a short file.
    cases.sort_by_key(|case| case.bytes().len());
    cases
}

/// Document 01's printed case.
fn printed() -> RunFile {
    RunFile { proposals: vec![1, 1, 0], need: 2, rounds: vec![clear(3), clear(3)] }
}

fn clear(n: usize) -> Round {
    Round { lost: Lost::new(), coins: vec![0; n] }
}

fn rounds_of(n: usize, rounds: usize) -> RunFile {
    let proposals = (0..n).map(|head| (head % 2) as u8).collect();
    RunFile { proposals, need: n / 2 + 1, rounds: vec![clear(n); rounds] }
}

/// "The largest file is 41,001 bytes." Every bit of every row is set in some round.
fn largest() -> RunFile {
    let mut run = rounds_of(32, 256);
    for (index, round) in run.rounds.iter_mut().enumerate() {
        round.lost = (0..32).map(|receiver| (receiver, (receiver + index) % 32)).collect();
        round.coins = (0..32).map(|head| ((head + index) % 3 == 0) as u8).collect();
    }
    run
}

fn with(run: &RunFile, damages: Vec<Damage>) -> Case {
    Case { run: run.clone(), damages }
}

fn count_bytes(count: u16) -> Vec<u8> {
    count.to_be_bytes().to_vec()
}

/// The printed case cut at every byte; the empty file is the first.
fn cuts() -> Vec<Case> {
    let length = printed().write().len();
    (0..length).map(|end| with(&printed(), vec![Cut(Field::HeadsCount, end)])).collect()
}

/// Counts off by one, at both ends of their range, and with their bytes the other way round.
fn counts() -> Vec<Case> {
    let heads = [0, 1, 2, 4, 32, 33, 255, 256, 259, 768, 65_535].map(|c| (Field::HeadsCount, c));
    let needs = [0, 2, 256, 257, 65_535].map(|c| (Field::NeedCount, c));
    let rounds = [0, 1, 3, 256, 257, 512, 65_535].map(|c| (Field::RoundsCount, c));
    let coins = [0, 2, 3, 5, 7, 24, 262, 1536].map(|c| (Field::CoinsCount, c));
    let all = [heads.to_vec(), needs.to_vec(), rounds.to_vec(), coins.to_vec()].concat();
    let put = |(field, count)| with(&printed(), vec![Put(field, count_bytes(count))]);
    // 257 rounds that are all there
    all.into_iter().map(put).chain([rounds_of(2, 257).into()]).collect()
}

fn bytes() -> Vec<Case> {
    let proposals = (0..3).map(Field::Proposal);
    let coins = (0..6).map(Field::Coin);
    let put = |field| [2, 255].map(|byte| with(&printed(), vec![Put(field, vec![byte])]));
    proposals.chain(coins).flat_map(put).collect()
}

/// "more than n/2, at most n"
fn needs() -> Vec<Case> {
    let mut cases = Vec::new();
    for n in [2, 3, 4, 5, 31, 32] {
        for need in [0, n / 2, n / 2 + 1, n, n + 1, n + 128, 255] {
            cases.push(with(&rounds_of(n, 1), vec![Put(Field::Need, vec![need as u8])]));
        }
    }
    cases
}

/// "Bits from n up are zero." With 32 heads there is no such bit.
fn rows() -> Vec<Case> {
    let bad = |n: usize, row, bit: u32| {
        with(&rounds_of(n, 2), vec![Put(Field::Row(row), (1u32 << bit).to_be_bytes().to_vec())])
    };
    let mut cases = vec![with(
        &rounds_of(32, 2),
        vec![Put(Field::Row(0), vec![255; 4]), Put(Field::Row(63), vec![255; 4])],
    )];
    for n in [2, 3, 7, 8, 16, 24, 31] {
        cases.extend([
            bad(n, 0, n as u32),
            bad(n, n, 31),
            bad(n, 2 * n - 1, n as u32),
            bad(n, 0, n as u32 - 1),
        ]);
    }
    cases
}

fn ends() -> Vec<Case> {
    let (small, large) = (printed(), largest());
    let none = RunFile { rounds: Vec::new(), ..printed() };
    let last_coin = Field::Coin(8191);
    vec![
        with(&small, vec![Append(vec![0])]),
        with(&small, vec![Append(vec![255])]),
        with(&small, vec![Append(small.write())]),
        with(&small, vec![Append(vec![0; 60_000])]),
        with(&none, vec![]),
        with(&none, vec![Append(vec![0])]),
        with(&large, vec![Append(vec![0])]),
        with(&large, vec![Append(vec![7; 30_000])]),
        with(&large, vec![Cut(last_coin, 0)]),
        with(&large, vec![Put(last_coin, vec![2])]),
        with(&large, vec![Put(last_coin, vec![2]), Append(vec![0])]),
        with(&large, vec![Put(Field::RoundsCount, count_bytes(257)), Append(vec![0; 200])]),
    ]
}

/// Which of two faults is told shows the order of the tests.
fn two_faults() -> Vec<Case> {
    use Field::*;
    let bad_row = || Put(Row(1), vec![0, 0, 0, 8]);
    let bad_coin = || Put(Coin(1), vec![2]);
    let pairs = [
        [Put(HeadsCount, vec![0, 33]), Cut(HeadsCount, 2)],
        [Put(HeadsCount, vec![0, 1]), Put(Proposal(0), vec![2])],
        [Put(Proposal(0), vec![2]), Cut(Proposal(2), 0)],
        [Put(Proposal(2), vec![2]), Cut(NeedCount, 1)],
        [Put(Proposal(1), vec![2]), Put(Proposal(0), vec![9])],
        [Put(Proposal(1), vec![2]), Put(NeedCount, vec![0, 2])],
        [Put(NeedCount, vec![0, 2]), Cut(Need, 0)],
        [Put(NeedCount, vec![0, 0]), Put(Need, vec![0])],
        [Put(Need, vec![1]), Cut(RoundsCount, 0)],
        [Put(Need, vec![4]), Put(RoundsCount, vec![1, 1])],
        [Put(RoundsCount, vec![1, 1]), Cut(RoundsCount, 2)],
        [Put(RoundsCount, vec![1, 0]), bad_row()],
        [bad_row(), Cut(Row(5), 3)],
        [bad_row(), Cut(CoinsCount, 1)],
        [bad_row(), Put(CoinsCount, vec![0, 5])],
        [bad_row(), Put(Row(4), vec![128, 0, 0, 0])],
        [Put(CoinsCount, vec![0, 5]), Cut(CoinsCount, 2)],
        [Put(CoinsCount, vec![0, 7]), Append(vec![0])],
        [Put(CoinsCount, vec![0, 5]), bad_coin()],
        [bad_coin(), Cut(Coin(5), 0)],
        [bad_coin(), Put(Coin(4), vec![3])],
        [bad_coin(), Append(vec![0])],
    ];
    pairs.into_iter().map(|pair| with(&printed(), pair.to_vec())).collect()
}
