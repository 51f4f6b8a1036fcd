//! Cards with faults.
use super::cards::{sealed, with_offset, Card};

#[derive(Clone, Copy)]
pub enum Fault {
    None,
    /// A length other than 512.
    Length(usize),
    /// The highest bit of this byte of the check is damaged.
    Check(usize),
    /// Something is wrong under a right check.
    Bytes(fn(&mut Card)),
}

use Fault::{Bytes, Check, Length};

const FAULTS: [Fault; 21] = [
    Fault::None,
    Length(511),
    Length(513),
    Length(0),
    Check(510),
    Check(511),
    // n 0 and 65; k 0, 13 and one more than n
    Bytes(|card| card[0] = 0),
    Bytes(|card| card[0] = 65),
    Bytes(|card| card[1] = 0),
    Bytes(|card| card[1] = 13),
    Bytes(|card| card[1] = card[0] + 1),
    // a bit at place 63; an unused row, the first and the last unused byte not zero
    Bytes(|card| card[4] |= 0x80),
    Bytes(|card| card[99] = 1),
    Bytes(|card| card[104] = 1),
    Bytes(|card| card[509] = 255),
    // offsets: one past either end of the range, and 16,777,216; then an end of the range, which is no fault itself
    Bytes(|card| *card = with_offset(*card, 20_001)),
    Bytes(|card| *card = with_offset(*card, -20_001)),
    Bytes(|card| card[100] = 1),
    Bytes(|card| *card = with_offset(*card, -20_000)),
    // row 0 zero, row 1 like row 0, where rows have at most eight bits
    Bytes(|card| card[11] = 0),
    Bytes(|card| card[19] = card[11]),
];

/// Every two faults.
pub fn pairs() -> impl Iterator<Item = (Fault, Fault)> {
    FAULTS.into_iter().flat_map(|a| FAULTS.into_iter().map(move |b| (a, b)))
}

/// A card, with no check yet, with two faults and its check. Where both are of the length, it is the first one's.
pub fn faulty(mut card: Card, a: Fault, b: Fault) -> Vec<u8> {
    for fault in [a, b] {
        if let Bytes(change) = fault {
            change(&mut card);
        }
    }
    let mut card = sealed(card).to_vec();
    for fault in [a, b] {
        if let Check(place) = fault {
            card[place] ^= 0x80;
        }
    }
    let length = [a, b].into_iter().find_map(|fault| if let Length(len) = fault { Some(len) } else { None });
    card.push(0);
    card.truncate(length.unwrap_or(512));
    card
}
