//! The words that the engine and Algorithm 1 share: value, status, ballot. No rule stands here.

/// "Value (0, 1 or blank)". The order is the order of the codes 0, 1 and 2.
#[derive(Clone, Copy, PartialEq, Eq, PartialOrd, Ord, Debug)]
pub enum Value {
    Zero,
    One,
    Blank,
}

/// "Status (undecided or decided)". The order is the order of the codes 0 and 1.
#[derive(Clone, Copy, PartialEq, Eq, PartialOrd, Ord, Debug)]
pub enum Status {
    Undecided,
    Decided,
}

/// "A ballot is sender, value, status, phase".
#[derive(Clone, Copy, PartialEq, Eq, PartialOrd, Ord, Debug)]
pub struct Ballot {
    pub sender: u32,
    pub value: Value,
    pub status: Status,
    pub phase: u32,
}

/// "Value 0, 1 or 2 (blank)".
pub fn value_of(code: u8) -> Option<Value> {
    [Value::Zero, Value::One, Value::Blank].get(code as usize).copied()
}

/// "Status 0 or 1 (decided)".
pub fn status_of(code: u8) -> Option<Status> {
    [Status::Undecided, Status::Decided].get(code as usize).copied()
}

/// A coin or a proposal that is known to be 0 or 1.
pub fn bit_of(number: u32) -> Value {
    if number == 0 {
        Value::Zero
    } else {
        Value::One
    }
}

/// "Five bytes: sender; value 0, 1 or 2 (blank); status 0 or 1 (decided); phase, high byte first."
pub fn bytes_of(ballot: &Ballot) -> [u8; 5] {
    let (high, low) = (ballot.phase / 256, ballot.phase % 256);
    [ballot.sender as u8, ballot.value as u8, ballot.status as u8, high as u8, low as u8]
}

/// Five bytes as a ballot, where value and status are codes. The ballot rules are the engine's.
pub fn ballot_of(bytes: &[u8]) -> Option<Ballot> {
    Some(Ballot {
        sender: bytes[0] as u32,
        value: value_of(bytes[1])?,
        status: status_of(bytes[2])?,
        phase: bytes[3] as u32 * 256 + bytes[4] as u32,
    })
}
