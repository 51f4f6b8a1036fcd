//! Words as single bits, place p at index p, and the places of their chunks.
use dunnavish::{write_word, CardSummary};
use std::ops::Range;

/// The bits of the word of a position, as the library writes it.
pub fn word_at(card: &[u8], summary: &CardSummary, position: u32) -> Vec<bool> {
    let mut bytes = vec![0; summary.word_bytes()];
    write_word(card, position, &mut bytes).unwrap();
    (0..summary.word_bits as usize).map(|place| bytes[place / 8] >> (place % 8) & 1 == 1).collect()
}

/// The bytes that the bits of a word travel as.
pub fn packed(word: &[bool]) -> Vec<u8> {
    word.chunks(8).map(|byte| byte.iter().rev().fold(0, |sum, bit| 2 * sum + u8::from(*bit))).collect()
}

/// The places of the five chunks.
pub fn chunks(summary: &CardSummary) -> [Range<usize>; 5] {
    let (n, distance) = (summary.length as usize, summary.distance as usize);
    let mut end = 0;
    [distance, n, distance, n, distance].map(|length| {
        end += length;
        end - length..end
    })
}
