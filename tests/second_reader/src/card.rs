//! The card: its 512 bytes decoded, with refusals 1 to 5 and 14, and made.
use crate::code::Code;
use crate::Refusal;

/// A sound card.
#[derive(Clone, Debug)]
pub struct Card {
    pub track: u32,
    pub code: Code,
    /// Position 0's distance from the buffer face in millimetres, from -20,000 to 20,000: request P2.
    pub offset: i32,
}

impl Card {
    /// Decodes a card and checks it, in the order of document 01's table, with request P2's 14 between 4 and 5.
    pub fn checked(bytes: &[u8]) -> Result<Card, Refusal> {
        if bytes.len() != 512 {
            return Err(1);
        }
        if check_of(&bytes[..510]) != number(&bytes[510..]) {
            return Err(2);
        }
        let (n, k) = (bytes[0] as usize, bytes[1] as usize);
        if !(1..=64).contains(&n) || !(1..=12).contains(&k) || n < k {
            return Err(3);
        }
        let rows: Vec<u64> = bytes[4..100].chunks(8).map(number).collect();
        let (used, unused) = rows.split_at(k);
        if used.iter().any(|&row| reaches(row, n))
            || unused.iter().any(|&row| row != 0)
            || bytes[104..510].iter().any(|&b| b != 0)
        {
            return Err(4);
        }
        let offset = signed_number(&bytes[100..104]);
        if !(-20_000..=20_000).contains(&offset) {
            return Err(14);
        }
        let code = Code::of_rows(n, used).ok_or(5u32)?;
        Ok(Card { track: number(&bytes[2..4]) as u32, code, offset: offset as i32 })
    }

    /// The card's 512 bytes.
    pub fn bytes(&self) -> [u8; 512] {
        let mut bytes = [0; 512];
        bytes[0] = self.code.n as u8;
        bytes[1] = self.code.rows.len() as u8;
        put(&mut bytes[2..4], self.track.into());
        for (place, &row) in bytes[4..100].chunks_mut(8).zip(&self.code.rows) {
            put(place, row);
        }
        put_signed(&mut bytes[100..104], self.offset.into());
        let check = check_of(&bytes[..510]);
        put(&mut bytes[510..], check);
        bytes
    }
}

/// Bytes as a number, high byte first.
fn number(bytes: &[u8]) -> u64 {
    bytes.iter().fold(0, |high, &byte| high * 256 + u64::from(byte))
}

/// Puts a number into bytes, high byte first.
fn put(bytes: &mut [u8], number: u64) {
    for (place, byte) in bytes.iter_mut().rev().enumerate() {
        *byte = (number >> (8 * place)) as u8;
    }
}

/// Four bytes as a number in two's complement, high byte first: what they hold, less 2^32 where that is 2^31 or more.
fn signed_number(bytes: &[u8]) -> i64 {
    let held = number(bytes) as i64;
    if held < 1 << 31 {
        held
    } else {
        held - (1 << 32)
    }
}

/// Puts a number into four bytes in two's complement, high byte first: one below 0 is held as itself plus 2^32.
fn put_signed(bytes: &mut [u8], number: i64) {
    let held = if number < 0 { number + (1 << 32) } else { number };
    put(bytes, held as u64);
}

/// The check of a card's first 510 bytes: the sum of (place + 1) × byte, modulo 65,521.
fn check_of(bytes: &[u8]) -> u64 {
    (1..).zip(bytes).map(|(factor, &byte)| factor * u64::from(byte)).sum::<u64>() % 65_521
}

/// Whether a row, or a chunk, has a bit at n or above.
pub fn reaches(row: u64, n: usize) -> bool {
    (n..64).any(|p| row >> p & 1 == 1)
}
