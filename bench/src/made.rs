//! The calls on a Reed-Muller code that are measured, by the library and by a baseline: its card is made, and chunks are read
//! that have no codeword within the radius, by votes and, in a word, by the library's search.
use crate::baseline::{decode, Kept, Order as _};
use crate::calls::{mixed, Calls};
use crate::cards::card_of;
use crate::codes::reed_muller;
use crate::inputs::{unreadable_chunks, word_of, CODES};
use dunnavish::{make_card, read_word, vote_chunk, Refusal};
use std::hint::black_box;

/// A code, its card as the baseline keeps it, chunks without a codeword within the radius, and two words of each chunk.
pub struct Made {
    r: u32,
    m: u32,
    card: Vec<u8>,
    kept: Kept,
    chunks: Vec<u64>,
    /// Separators 0 0 1: rule 1, so that chunk 1 is searched, and the word refused by 10.
    searched: Vec<Vec<u8>>,
    /// Separators 0 1 0: the word is refused by 9, before any chunk is searched.
    unsearched: Vec<Vec<u8>>,
}

impl Made {
    /// The code of this name, if there is one, with so many chunks.
    pub fn named(name: &str, count: usize) -> Option<Made> {
        let (_, r, m) = CODES.into_iter().find(|code| code.0 == name)?;
        let card = plain_card(14, r, m);
        let code = decode(&card).unwrap();
        let kept = Kept::new(code);
        let chunks = unreadable_chunks(&kept, count);
        let words = |separators| chunks.iter().map(|&chunk| word_of(&code, separators, chunk)).collect();
        let (searched, unsearched) = (words([false, false, true]), words([false, true, false]));
        Some(Made { r, m, card, kept, chunks, searched, unsearched })
    }

    /// Fails unless the library makes the baseline's cards and refuses each chunk and each word as it should.
    pub fn check(&self) {
        for track in 0..self.count() as u16 {
            assert_eq!(make_card(track, self.r, self.m).unwrap()[..], plain_card(track, self.r, self.m));
        }
        for &chunk in &self.chunks {
            assert_eq!(vote_chunk(self.r, self.m, chunk), Err(Refusal::ChunkUnreadable));
            assert_eq!(vote_chunk(self.m + 1, self.m, chunk), Err(Refusal::CodeLimits));
        }
        let refused = |words: &[Vec<u8>], by| words.iter().all(|word| read_word(&self.card, word) == Err(by));
        assert!(refused(&self.searched, Refusal::ChunkUnreadable) && refused(&self.unsearched, Refusal::Separators));
    }
}

impl Calls for Made {
    fn count(&self) -> usize {
        self.chunks.len()
    }

    fn all(&self, call: &str, way: &str, count: usize) -> u64 {
        let (r, m) = black_box((self.r, self.m));
        let chunks = self.chunks[..count].iter().map(|&chunk| black_box(chunk));
        let read = |words: &[Vec<u8>]| mixed(words[..count].iter().map(|word| refused(read_word(&self.card, black_box(word)))));
        black_box(match (call, way) {
            ("make_card", "library") => mixed((0..count).map(|track| last_byte(&make_card(track as u16, r, m).unwrap()))),
            ("make_card", "plain") => mixed((0..count).map(|track| last_byte(&plain_card(track as u16, r, m)))),
            ("vote_chunk", "library") => mixed(chunks.map(|chunk| refused(vote_chunk(r, m, chunk)))),
            ("vote_chunk", "refused-13") => mixed(chunks.map(|chunk| refused(vote_chunk(black_box(m + 1), m, chunk)))),
            ("vote_chunk", "kept") => mixed(chunks.map(|chunk| self.kept.find(chunk).map_or(10, |_| 0))),
            ("read_word", "refused-10") => read(&self.searched),
            ("read_word", "refused-9") => read(&self.unsearched),
            _ => panic!("no call {call} by {way}"),
        })
    }
}

/// The card in straightforward Rust.
fn plain_card(track: u16, r: u32, m: u32) -> Vec<u8> {
    let rows = reed_muller(r, m);
    card_of(1 << m, rows.len() as u8, track, &rows)
}

/// The last byte of a card, all of which has been made.
fn last_byte(card: &[u8]) -> u64 {
    u64::from(black_box(card)[511])
}

/// Whether a call was refused. By which number is looked at once, by `check`.
fn refused<T>(answer: Result<T, Refusal>) -> u64 {
    u64::from(answer.is_err())
}
