//! Damage to the bits of a word, and how many bits are damaged.
use super::random;
use second_reader::code::Code;
use second_reader::word::{unlike, Word};
use std::ops::Range;

/// Which of a chunk's places are damaged.
#[derive(Clone, Copy)]
pub enum Places {
    First,
    Last,
    /// Ones that follow each other.
    Run,
    /// Some of them may be the same, and are then as they were.
    Scattered,
}

/// Damages so many bits of these places.
pub fn turn(word: &mut Word, chunk: Range<usize>, count: usize, which: Places, seed: u64) {
    let size = chunk.len();
    for i in 0..count {
        let place = match which {
            Places::First => i % size,
            Places::Last => size - 1 - i % size,
            Places::Run => (i + (seed % 64) as usize) % size,
            Places::Scattered => (random(seed, i as u64) % size as u64) as usize,
        };
        word[chunk.start + place] ^= true;
    }
}

/// The word with so many bits of each of some chunks, 0 to 4, damaged.
pub fn damaged(code: &Code, word: &Word, chunks: Range<usize>, count: usize, which: Places, seed: u64) -> Word {
    let mut word = word.clone();
    for c in chunks {
        turn(&mut word, code.chunks()[c].clone(), count, which, random(seed, c as u64));
    }
    word
}

/// The bits damaged in each chunk between two words, if no chunk has more of them than the radius.
pub fn damaged_within_radius(code: &Code, sent: &Word, received: &Word) -> Option<[u32; 5]> {
    let damaged = code.chunks().map(|chunk| unlike(&sent[chunk.clone()], &received[chunk]));
    damaged.iter().all(|&bits| bits <= code.radius()).then(|| damaged.map(|bits| bits as u32))
}
