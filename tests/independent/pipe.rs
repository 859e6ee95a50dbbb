//! Calls, answers, and the driver: a child program that calls the proved engine.
//!
//! The driver reads a frame of calls as a whole before it answers, so that neither side waits for
//! the other. The form of both is told in driver.c.

use crate::engine;
use std::io::{Read, Result, Write};
use std::process::{Child, ChildStdin, ChildStdout, Command, Stdio};

#[derive(Clone, Copy, PartialEq, Eq, Debug)]
pub enum Entry {
    Start,
    Tick,
    Ballot,
}

/// A call of one entry. Start: n, own number, proposal. Tick: the coin first, then what stands in
/// the index before, in two halves, the low one first; the list in `other`. Ballot: no number, the
/// buffer in `other`. `null` lends no address where a length is 0.
#[derive(Clone, PartialEq, Eq, Debug)]
pub struct Call {
    pub entry: Entry,
    pub numbers: [u32; 3],
    pub record: Vec<u8>,
    pub other: Vec<u8>,
    pub null: bool,
}

/// What a call gives back and leaves behind: the number, the index, every lent byte, and whether
/// the bytes around the lent ones are as they were.
#[derive(Clone, PartialEq, Eq, Debug)]
pub struct Answer {
    pub number: u32,
    pub index: u64,
    pub record: Vec<u8>,
    pub other: Vec<u8>,
    pub around_kept: bool,
}

impl Call {
    /// Two things stand in the index by turns, as the coin falls: FF bytes, and 1. What the tick
    /// writes there must not depend on it.
    pub fn tick(record: Vec<u8>, list: Vec<u8>, coin: u32) -> Call {
        let [low, high] = if coin == 0 { [u32::MAX; 2] } else { [1, 0] };
        Call { entry: Entry::Tick, numbers: [coin, low, high], record, other: list, null: false }
    }

    pub fn start(record: Vec<u8>, numbers: [u32; 3]) -> Call {
        Call { entry: Entry::Start, numbers, record, other: Vec::new(), null: false }
    }

    pub fn ballot(record: Vec<u8>, buffer: Vec<u8>) -> Call {
        Call { entry: Entry::Ballot, numbers: [0; 3], record, other: buffer, null: false }
    }

    /// Start and ballot leave it in the index, which they are not lent.
    pub fn index_before(&self) -> u64 {
        let [_, low, high] = self.numbers;
        (high as u64) << 32 | low as u64
    }

    /// What the independent engine answers.
    pub fn expected(&self) -> Answer {
        let (mut record, mut other) = (self.record.clone(), self.other.clone());
        let [first, second, third] = self.numbers;
        let before = self.index_before();
        let (number, index) = match self.entry {
            Entry::Start => (engine::start(&mut record, first, second, third), before),
            Entry::Tick => engine::tick(&mut record, &other, first),
            Entry::Ballot => (engine::ballot(&record, &mut other), before),
        };
        Answer { number, index, record, other, around_kept: true }
    }

    fn put(&self, frame: &mut Vec<u8>) {
        frame.extend([self.entry as u8, self.null as u8]);
        let lengths = [self.record.len() as u32, self.other.len() as u32];
        for number in lengths.iter().chain(&self.numbers) {
            frame.extend(number.to_le_bytes());
        }
        frame.extend(&self.record);
        frame.extend(&self.other);
    }

    fn get_answer(&self, from: &mut ChildStdout) -> Result<Answer> {
        let (mut number, mut index, mut kept) = ([0; 4], [0; 8], [0; 1]);
        let (mut record, mut other) = (self.record.clone(), self.other.clone());
        let parts: [&mut [u8]; 5] = [&mut number, &mut index, &mut kept, &mut record, &mut other];
        for part in parts {
            from.read_exact(part)?;
        }
        Ok(Answer {
            number: u32::from_le_bytes(number),
            index: u64::from_le_bytes(index),
            record,
            other,
            around_kept: kept == [1],
        })
    }
}

/// The driver and how to begin it again, should it end in a call.
pub struct Driver {
    command: Vec<String>,
    child: Child,
    calls: Option<ChildStdin>,
    answers: ChildStdout,
}

/// The driver takes frames of 4 MiB. A frame is closed when it has this many bytes.
const FRAME_FULL: usize = 1 << 20;

impl Driver {
    pub fn begin(command: Vec<String>) -> Result<Driver> {
        let mut program = Command::new(&command[0]);
        program.args(&command[1..]).stdin(Stdio::piped()).stdout(Stdio::piped());
        let mut child = program.spawn()?;
        let calls = child.stdin.take();
        let answers = child.stdout.take().expect("a pipe was asked for");
        Ok(Driver { command, child, calls, answers })
    }

    /// Every call's answer, in order. Where the driver ends in a call, the answers stop before that
    /// call and the driver is begun again.
    pub fn ask(&mut self, calls: &[Call]) -> Vec<Answer> {
        let mut answers = Vec::new();
        while answers.len() < calls.len() {
            let before = answers.len();
            if self.ask_frame(&calls[before..], &mut answers).is_err() {
                self.begin_again();
                answers.truncate(before);
                self.ask_singly(&calls[before..], &mut answers);
                break;
            }
        }
        answers
    }

    /// To find the call that the driver ends in.
    fn ask_singly(&mut self, calls: &[Call], answers: &mut Vec<Answer>) {
        for call in calls {
            if self.ask_frame(std::slice::from_ref(call), answers).is_err() {
                self.begin_again();
                return;
            }
        }
    }

    /// As many of the calls as one frame takes.
    fn ask_frame(&mut self, calls: &[Call], answers: &mut Vec<Answer>) -> Result<()> {
        let mut frame = vec![0; 4];
        let mut count = 0;
        while count < calls.len() && frame.len() < FRAME_FULL {
            calls[count].put(&mut frame);
            count += 1;
        }
        let length = (frame.len() - 4) as u32;
        frame[..4].copy_from_slice(&length.to_le_bytes());
        let to = self.calls.as_mut().expect("open until the end");
        to.write_all(&frame)?;
        to.flush()?;
        for call in &calls[..count] {
            answers.push(call.get_answer(&mut self.answers)?);
        }
        Ok(())
    }

    fn begin_again(&mut self) {
        let _ = self.child.kill();
        let _ = self.child.wait();
        *self = Driver::begin(self.command.clone()).expect("it could be begun before");
    }

    /// The end of its input ends the driver, with status 0.
    pub fn end(mut self) -> bool {
        self.calls = None;
        self.child.wait().is_ok_and(|status| status.success())
    }
}
