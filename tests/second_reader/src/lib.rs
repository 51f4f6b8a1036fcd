//! A second reader of robust Gray position words: cards, words, positions, readings, trams at marks and the slot queue, written
//! from the words of document 01 and of requests P1 to P9 by plain search, to be compared with the library.
//!
//! Words are single bits, made by walking from position 0 and flipping one bit a step; block starts add up the places in which
//! one whole word and the next differ; the least distance is found by summing every set of rows, a chunk's codeword by trying
//! all, the bits that the chunk needed by comparing the two bit by bit, and the nearest allowed position by trying each with its
//! full word. Where there is a short way and a plain one, this is the plain one: a chunk of a Reed-Muller code too is read by
//! trying all codewords, not by votes. A word of levels is read by the same search, over the unerased bits. Trams are widened
//! step by step, and the nearest to a mark is found by holding each against every other. The yard is two plain lists, gone
//! through from the start.
//!
//! The calls below and the two of [`yard::Yard`] are the library's thirteen; [`yard_numbers`] has the two as the C interface
//! does. [`track::Track`] and [`walk::Walk`] are for a caller with many words of one card, [`reed_muller::ReedMuller`] for one
//! with many chunks of one code, [`trams::Trams`] for one with many marks of one list. [`separator_promise`] is for holding any
//! reader's answers to request P6, [`divided`] to request P7.
#![deny(unsafe_code)]
#![deny(unsafe_op_in_unsafe_fn)]

#[allow(unsafe_code)]
mod c_calls;
pub mod card;
pub mod code;
pub mod divided;
#[cfg(test)]
mod level_promises;
pub mod levels;
pub mod reading;
pub mod reed_muller;
mod rules;
pub mod separator_promise;
#[cfg(test)]
mod test_cards;
pub mod track;
pub mod trams;
pub mod walk;
pub mod word;
pub mod yard;
pub mod yard_numbers;

pub use c_calls::WRONG_COUNT;
use card::Card;
pub use levels::Strength;
pub use reading::Reading;
use reed_muller::ReedMuller;
pub use reed_muller::Vote;
pub use track::Facts;
use track::Track;
pub use trams::Stretch;
use trams::Trams;
use walk::Walk;

/// Why a call is turned down: the number in document 01's table, or a request's: P1's 13, P2's 14, P5's 15 and 16, P6's 17, P8's
/// 18 and 19, P9's 20 to 22 and 26.
pub type Refusal = u32;

/// Checks a card.
pub fn check_card(card: &[u8]) -> Result<Facts, Refusal> {
    Ok(Track::of_card(card)?.facts())
}

/// Writes the word of a position into the lent bytes. A refused write changes none of them.
pub fn write_word(card: &[u8], position: u32, lent: &mut [u8]) -> Result<(), Refusal> {
    let track = Track::of_card(card)?;
    if lent.len() != track.card.code.word_bytes() {
        return Err(6);
    }
    track.holds(position)?;
    let mut walk = Walk::new(&track);
    walk.go_to(position);
    lent.copy_from_slice(&word::packed(&walk.word));
    Ok(())
}

/// Reads a received word.
pub fn read_word(card: &[u8], received: &[u8]) -> Result<Reading, Refusal> {
    reading::read_from(&Walk::new(&Track::of_card(card)?), received)
}

/// Reads a received word whose bits came as levels, and keeps the receiver's strength beside the answer.
pub fn read_levels(card: &[u8], levels: &[f32]) -> Result<(Reading, Strength), Refusal> {
    levels::read_levels_from(&Walk::new(&Track::of_card(card)?), levels)
}

/// The start of a block.
pub fn block_start(card: &[u8], block: u32) -> Result<u32, Refusal> {
    Track::of_card(card)?.starts.get(block as usize).copied().ok_or(7)
}

/// A position's distance from the buffer face in millimetres, offset + 50 × position, which may be negative.
pub fn millimetres(card: &[u8], position: u32) -> Result<i32, Refusal> {
    let track = Track::of_card(card)?;
    track.holds(position)?;
    Ok(track.card.offset + 50 * position as i32)
}

/// The 512 bytes of the card of a Reed-Muller code, with offset 0.
pub fn make_card(track: u16, r: u32, m: u32) -> Result<[u8; 512], Refusal> {
    Ok(Card { track: track.into(), code: ReedMuller::of_order(r, m)?.code, offset: 0 }.bytes())
}

/// What a chunk of a Reed-Muller code reads as.
pub fn vote_chunk(r: u32, m: u32, chunk: u64) -> Result<Vote, Refusal> {
    ReedMuller::of_order(r, m)?.read_chunk(chunk)
}

/// Whether each tram of a list crosses a mark.
pub fn trams_crossing(card: &[u8], trams: &[Stretch], mark: u32) -> Result<Vec<bool>, Refusal> {
    Trams::of_list(&Track::of_card(card)?, trams)?.crossing(mark)
}

/// Whether each tram of a list is wholly within two marks.
pub fn trams_within(card: &[u8], trams: &[Stretch], first: u32, second: u32) -> Result<Vec<bool>, Refusal> {
    Trams::of_list(&Track::of_card(card)?, trams)?.within(first, second)
}

/// The place in a list of the tram nearest to a mark, from 0; of no trams none.
pub fn nearest_tram(card: &[u8], trams: &[Stretch], mark: u32) -> Result<Option<usize>, Refusal> {
    Trams::of_list(&Track::of_card(card)?, trams)?.nearest(mark)
}
