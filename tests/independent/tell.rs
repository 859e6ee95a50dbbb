//! Prints a difference.

use crate::pipe::{Answer, Call, Entry};
use crate::votes::{Asked, Script};
use crate::words::bytes_of;

pub fn print_call(title: &str, call: &Call, proved: Option<&Answer>) {
    let [first, second, third] = call.numbers;
    match call.entry {
        Entry::Start => println!("{title}: vote_start, n {first}, own {second}, proposal {third}"),
        Entry::Tick => {
            println!("{title}: vote_tick, coin {first}, index before {}", call.index_before())
        }
        Entry::Ballot => println!("{title}: vote_ballot"),
    }
    println!("  record, {} bytes: {}", call.record.len(), hex(&call.record, 20));
    if call.entry != Entry::Start {
        println!("  {}, {} bytes: {}", name(call), call.other.len(), hex(&call.other, 5));
    }
    print_answer("proved engine", call, proved);
    print_answer("independent engine", call, Some(&call.expected()));
}

fn name(call: &Call) -> &'static str {
    if call.entry == Entry::Ballot {
        "buffer"
    } else {
        "ballots"
    }
}

fn print_answer(who: &str, call: &Call, answer: Option<&Answer>) {
    let Some(answer) = answer else {
        println!("  {who}: ends in the call");
        return;
    };
    match call.entry {
        Entry::Tick => println!("  {who}: number {}, index {}", answer.number, answer.index),
        _ => println!("  {who}: number {}", answer.number),
    }
    println!("    record: {}", hex(&answer.record, 20));
    if call.entry == Entry::Ballot || answer.other != call.other {
        println!("    {}: {}", name(call), hex(&answer.other, 5));
    }
    if !answer.around_kept {
        println!("    bytes around the lent ones are changed");
    }
}

pub fn print_script(script: &Script, sentence: &str, last: &Asked, proved: Option<&Answer>) {
    println!("difference: {sentence}");
    println!("  first phase {}, proposals {:?}", script.first_phase, script.proposals);
    for tick in &script.ticks {
        let bytes: Vec<u8> = tick.list.iter().flat_map(bytes_of).collect();
        println!("  tick of head {}, coin {}: {}", tick.receiver, tick.coin, hex(&bytes, 5));
    }
    print_call("its last tick", &last.call, proved);
    if let Some((phase, value, status, decision)) = last.algorithm {
        println!("  Algorithm 1: phase {phase} value {value} status {status} decision {decision}");
    }
}

/// Bytes in hex, with a bar after each unit. Of more than a list can have, only the first ones.
fn hex(bytes: &[u8], unit: usize) -> String {
    let shown = if bytes.len() > 400 { 40 } else { bytes.len() };
    let pair = |byte: &u8| format!("{byte:02x}");
    let part = |bytes: &[u8]| bytes.iter().map(pair).collect::<Vec<_>>().join(" ");
    let text = bytes[..shown].chunks(unit).map(part).collect::<Vec<_>>().join(" | ");
    text + if shown < bytes.len() { " .." } else { "" }
}
