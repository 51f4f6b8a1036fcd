//! The bytes of a card of a shape, its offset and its check.
use super::shapes::Shape;

pub type Card = [u8; 512];

/// A card of a shape for some track, with offset 0 and no check yet.
pub fn of_shape(shape: &Shape, track: u16) -> Card {
    let mut card = [0; 512];
    card[0] = shape.n as u8;
    card[1] = shape.k as u8;
    card[2..4].copy_from_slice(&track.to_be_bytes());
    for (z, row) in (0..shape.k).zip(card[4..100].chunks_mut(8)) {
        row.copy_from_slice(&shape.row(z).to_be_bytes());
    }
    card
}

/// The card with an offset: bytes 100 to 103, two's complement, high byte first.
pub fn with_offset(mut card: Card, offset: i32) -> Card {
    card[100..104].copy_from_slice(&offset.to_be_bytes());
    card
}

/// The card with its check: the sum over places 0 to 509 of (place + 1) × byte, modulo 65,521. From the last place down to the
/// first, each byte is added to those after it, and all of them to the sum, so that a byte counts once for each place up to its own.
pub fn sealed(mut card: Card) -> Card {
    let (mut sum, mut after) = (0, 0);
    for &byte in card[..510].iter().rev() {
        after += u32::from(byte);
        sum += after;
    }
    card[510..].copy_from_slice(&((sum % 65_521) as u16).to_be_bytes());
    card
}
