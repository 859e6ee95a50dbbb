//! Run files once more, from document 01 alone: read or refused, and written.
//!
//! A round's losses are a set of pairs of receiver and sender, not rows of bits. What stands in
//! double quotes is document 01's sentence.

use std::collections::BTreeSet;

/// A run file that obeys every rule. n is the number of proposals.
#[derive(Clone, PartialEq, Eq, Debug)]
pub struct RunFile {
    pub proposals: Vec<u8>,
    /// k, "the heads needed".
    pub need: usize,
    pub rounds: Vec<Round>,
}

/// `lost` has (receiver, sender) where the sender's ballot is lost to the receiver.
#[derive(Clone, PartialEq, Eq, Debug)]
pub struct Round {
    pub lost: BTreeSet<(usize, usize)>,
    pub coins: Vec<u8>,
}

#[derive(Clone, Copy, PartialEq, Eq, Debug)]
pub struct Refusal {
    pub number: u32,
    pub place: usize,
}

/// The part of a file that is not read yet begins at `place`.
struct Reader<'a> {
    file: &'a [u8],
    place: usize,
}

/// "Four sections in this order, each after a two-byte count, high byte first."
pub fn read(file: &[u8]) -> Result<RunFile, Refusal> {
    let mut reader = Reader { file, place: 0 };
    // "Count n (2 to 32), then n proposals (0 or 1)."
    let n = reader.count(|count| (2..=32).contains(&count))?;
    let proposals = reader.units(n, 1, |byte| byte[0] < 2)?.concat();
    // "Count 1, then k, the heads needed: more than n/2, at most n."
    reader.count(|count| count == 1)?;
    let enough = |k: usize| 2 * k > n && k <= n;
    let need = reader.units(1, 1, |byte| enough(byte[0] as usize))?[0][0] as usize;
    // "Count of rounds, 0 to 256; per round n rows of 4 bytes, high byte first, one per receiver in
    // number order."
    let count = reader.count(|count| count <= 256)?;
    // "Bits from n up are zero."
    let below_n = |row: &[u8]| lost_in(row).all(|sender| sender < n);
    let rows = reader.units(n * count, 4, below_n)?;
    // "Count n times rounds, then that many coins (0 or 1), round by round, head by head."
    reader.count(|coins| coins == n * count)?;
    let coins = reader.units(n * count, 1, |byte| byte[0] < 2)?.concat();
    reader.end()?;
    let rounds = rows.chunks(n).zip(coins.chunks(n)).map(round_of).collect();
    Ok(RunFile { proposals, need, rounds })
}

/// "In each section the count is read, then its rule tested, then the body's length, then its
/// bytes."
impl<'a> Reader<'a> {
    fn count(&mut self, rule: impl Fn(usize) -> bool) -> Result<usize, Refusal> {
        // "13, the count"
        let place = self.place;
        let bytes = self.take(2)?;
        let count = 256 * bytes[0] as usize + bytes[1] as usize;
        rule(count).then_some(count).ok_or(Refusal { number: 13, place })
    }

    /// A body of so many units: bytes, or rows of four.
    fn units(
        &mut self,
        count: usize,
        size: usize,
        rule: impl Fn(&[u8]) -> bool,
    ) -> Result<Vec<&'a [u8]>, Refusal> {
        let start = self.place;
        let units: Vec<&[u8]> = self.take(count * size)?.chunks(size).collect();
        // "14, the byte, or the row's first byte"
        match units.iter().position(|unit| !rule(unit)) {
            Some(index) => Err(Refusal { number: 14, place: start + index * size }),
            None => Ok(units),
        }
    }

    fn take(&mut self, length: usize) -> Result<&'a [u8], Refusal> {
        let end = self.place + length;
        // "12, the file's length"
        let ended = Refusal { number: 12, place: self.file.len() };
        let part = self.file.get(self.place..end).ok_or(ended)?;
        self.place = end;
        Ok(part)
    }

    fn end(&self) -> Result<(), Refusal> {
        // "15, the first extra byte"
        let extra = Refusal { number: 15, place: self.place };
        (self.place == self.file.len()).then_some(()).ok_or(extra)
    }
}

/// "Bit s set: the ballot of head s is lost to it." The high byte is first, so that head 0 has the
/// last bit of the last byte.
fn lost_in(row: &[u8]) -> impl Iterator<Item = usize> + '_ {
    (0..32).filter(|sender| row[3 - sender / 8] >> (sender % 8) & 1 == 1)
}

fn round_of((rows, coins): (&[&[u8]], &[u8])) -> Round {
    let pairs = |(receiver, &row)| lost_in(row).map(move |sender| (receiver, sender));
    Round { lost: rows.iter().enumerate().flat_map(pairs).collect(), coins: coins.to_vec() }
}

impl RunFile {
    pub fn n(&self) -> usize {
        self.proposals.len()
    }

    pub fn write(&self) -> Vec<u8> {
        let mut file = Vec::new();
        put_count(&mut file, self.n());
        file.extend(&self.proposals);
        put_count(&mut file, 1);
        file.push(self.need as u8);
        put_count(&mut file, self.rounds.len());
        for round in &self.rounds {
            let rows = file.len();
            file.resize(rows + 4 * self.n(), 0);
            for (receiver, sender) in &round.lost {
                file[rows + 4 * receiver + 3 - sender / 8] |= 1 << (sender % 8);
            }
        }
        put_count(&mut file, self.n() * self.rounds.len());
        self.rounds.iter().for_each(|round| file.extend(&round.coins));
        file
    }
}

fn put_count(file: &mut Vec<u8>, count: usize) {
    file.extend([(count / 256) as u8, (count % 256) as u8]);
}
