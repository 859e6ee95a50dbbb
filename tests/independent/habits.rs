//! What a head of an invented vote hears: plans for one tick, and habits for a whole vote.

use crate::chance::Chance;

/// What arrives at one tick. The last four bring ballots of the head's own phase, just enough for a
/// step or nearly so: those of its camp first, of the most common value, of blanks and the least
/// common value, or of all values in turn.
#[derive(Clone, Copy)]
pub enum Plan {
    Nothing,
    Present { lost: usize },
    Old,
    Ahead { most: usize },
    Any,
    Camp,
    Common,
    Doubt,
    InTurn,
}

/// What a head mostly hears at odd and at even phases, and how seldom it is ticked. Some pairs make
/// trouble: with (Common, Doubt) a head takes the bit of a majority and does not decide on it.
#[derive(Clone, Copy)]
pub struct Habit {
    pub odd: Plan,
    pub even: Plan,
    pub seldom: usize,
}

const HABITS: [Habit; 9] = [
    Habit { odd: Plan::Common, even: Plan::Doubt, seldom: 1 },
    Habit { odd: Plan::Common, even: Plan::Doubt, seldom: 3 },
    Habit { odd: Plan::InTurn, even: Plan::Doubt, seldom: 1 },
    Habit { odd: Plan::InTurn, even: Plan::Doubt, seldom: 3 },
    Habit { odd: Plan::Common, even: Plan::Common, seldom: 1 },
    Habit { odd: Plan::Common, even: Plan::Common, seldom: 30 },
    Habit { odd: Plan::Ahead { most: 1 }, even: Plan::Common, seldom: 6 },
    Habit { odd: Plan::Common, even: Plan::Ahead { most: 1 }, seldom: 3 },
    Habit { odd: Plan::Camp, even: Plan::Camp, seldom: 2 },
];

/// Habits that go ill together. Most heads take a bit and do not decide on it, some are blank. In
/// the first plot a head that hears more decides alone, and then hears of higher phases where
/// nobody has decided. In the second one comes late and decides at a phase that all others have
/// left.
const PLOTS: [[usize; 4]; 2] = [[0, 0, 2, 6], [0, 0, 2, 5]];

/// Every plan, for a tick that follows no habit; pushing to the camp is the most common.
pub const PLANS: [Plan; 12] = [
    Plan::Nothing,
    Plan::Present { lost: 1 },
    Plan::Present { lost: 4 },
    Plan::Old,
    Plan::Ahead { most: 1 },
    Plan::Ahead { most: 64 },
    Plan::Any,
    Plan::Camp,
    Plan::Camp,
    Plan::Common,
    Plan::Doubt,
    Plan::InTurn,
];

pub fn draw_habits(chance: &mut Chance, n: usize) -> Vec<Habit> {
    let few: [Habit; 4] = match chance.below(4) {
        0 => return parted_habits(chance, n),
        1 | 2 => chance.of(&PLOTS).map(|place| HABITS[place]),
        _ => std::array::from_fn(|_| chance.of(&HABITS)),
    };
    (0..n).map(|_| chance.of(&few)).collect()
}

/// About half of the heads take a bit at odd phases and the others become blank, so that at the
/// even phase a majority is just missed or just made. Some heads hear the bit there, others the
/// blanks.
fn parted_habits(chance: &mut Chance, n: usize) -> Vec<Habit> {
    let with_bit = n / 2 + chance.below(3);
    let mut habits: Vec<Habit> = Vec::new();
    for head in 0..n {
        let odd = if head + 1 < with_bit { Plan::Common } else { Plan::InTurn };
        let even = chance.of(&[Plan::Common, Plan::Doubt, Plan::Doubt]);
        habits.push(Habit { odd, even, seldom: 1 });
    }
    chance.shuffle(&mut habits);
    habits
}
