//! Invents what one head hears that is started and then gets lists which may be forged.

use crate::chance::Chance;
use crate::draft::Draft;
use crate::engine;
use crate::forger;
use crate::lists::draw_list;
use crate::votes::{Script, Tick};
use crate::words::ballot_of;

/// Not honest: demand 2 only.
pub fn invent(chance: &mut Chance, most: usize) -> Script {
    let n = chance.of(&[2, 3, 3, 4, 5, 6, 7, 31, 32]) as usize;
    let proposals = (0..n).map(|_| chance.bit()).collect();
    let mut script = Script { honest: false, first_phase: 1, proposals, ticks: Vec::new() };
    let receiver = chance.below(n);
    let mut record = script.first_record(receiver);
    for _ in 0..most.min(chance.between(4, 40) as usize) {
        let head = Draft::of(&record);
        let mut list = draw_list(chance, &head);
        list.retain(|ballot| !far(ballot, &head));
        if chance.one_in(4) {
            let kind = 2 + chance.below(forger::FORGERIES - 2);
            forger::forge(chance, &head, &mut list, kind);
        }
        let list = forger::finish(chance, list);
        let coin = chance.bit();
        engine::tick(&mut record, &list.concat(), coin);
        let list = list.iter().filter_map(|bytes| ballot_of(bytes)).collect();
        script.ticks.push(Tick { receiver, list, coin });
    }
    script
}

/// Keeps most forged heads away from the last phase, where nothing happens any more.
fn far(ballot: &[u8; 5], head: &Draft) -> bool {
    let phase = ballot[3] as u32 * 256 + ballot[4] as u32;
    phase > head.phase + 300 && head.phase % 8 != 0
}
