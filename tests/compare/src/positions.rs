//! The track of a sound card: its block starts, and its positions from end to end.
use crate::calls::{self, Lent};
use crate::counts;
use crate::divided;
use crate::levels;
use crate::library;
use crate::tally::Tally;
use crate::trials::{choice, words};
use second_reader::track::Track;
use second_reader::walk::Walk;
use second_reader::{word, Reading, Refusal};

/// The start of every block.
pub fn blocks(tally: &mut Tally, card: &[u8], track: &Track) {
    for (block, &start) in (0..).zip(&track.starts) {
        calls::number(tally, library::block_start(card, block), Ok(start));
    }
}

/// The positions, one after the other: words are written, and at some of them words are read, and words of levels; at some also
/// words whose divided chunk is damaged arbitrarily, and at the starts of some blocks words with counts at their borders.
pub fn from_end_to_end(tally: &mut Tally, card: &[u8], track: &Track, id: u64) {
    let mut here = Walk::new(track);
    let mut behind = here.clone();
    let mut before = None;
    for position in 0..=track.last() {
        here.go_to(position);
        let wrote = choice::is_written(&here, id).then(|| write(tally, card, &here));
        if let (Some(one), Some(next)) = (before, wrote) {
            neighbours(tally, &one, &next);
        }
        before = wrote;
        if choice::is_read(&here, id) {
            follow(&mut behind, position);
            read(tally, card, &behind, &here, id);
            levels::at(tally, card, &behind, &here, id);
        }
        if choice::is_damaged_arbitrarily(&here, id) {
            follow(&mut behind, position);
            divided::at(tally, card, &behind, &here, id);
        }
        let begins = track.starts.binary_search(&position).ok();
        if let Some(p) = begins.filter(|&p| choice::is_counted(track, p, id)) {
            follow(&mut behind, position);
            counts::at_borders(tally, card, &behind, p, id);
        }
    }
}

/// Brings the walk behind another up to a word's bits before it: as far back as the allowed positions of a word that is damaged
/// within the radius in every chunk that is not divided can reach.
pub fn follow(behind: &mut Walk, position: u32) {
    let bits = behind.word.len() as u32;
    behind.go_to(behind.position.max(position.saturating_sub(bits)));
}

/// What the library writes at a position, against the second reader's word.
fn write(tally: &mut Tally, card: &[u8], here: &Walk) -> Lent {
    let word = word::packed(&here.word);
    calls::written(tally, card, here.position, word.len(), |lent| {
        lent.copy_from_slice(&word);
        Ok(())
    })
}

/// The words of two neighbouring positions, as the library writes them, are one bit apart.
fn neighbours(tally: &mut Tally, one: &Lent, next: &Lent) {
    let apart: u32 = one.iter().zip(next).map(|(a, b)| (a ^ b).count_ones()).sum();
    tally.add("neighbours compared", true);
    tally.add("neighbours not one bit apart", apart != 1);
}

/// The words that are read at a position.
fn read(tally: &mut Tally, card: &[u8], behind: &Walk, here: &Walk, id: u64) {
    for word in words::at(behind, here, id) {
        let [answer, second] = counts::both_read(tally, card, behind, &word.bytes);
        if second != Err(8) {
            divided::held(tally, here, &word.bytes, answer, second);
        }
        if let Some(damaged) = word.damaged_within_radius {
            let in_all = damaged.iter().copied().map(u64::from).sum();
            bounded(tally, in_all, off(here.position, answer), off(here.position, second));
            counts::as_damaged(tally, [damaged[1], damaged[3]], answer, second);
        }
    }
}

/// How far a reading is off, or without end if it is refused.
fn off(position: u32, answer: Result<Reading, Refusal>) -> u64 {
    answer.map_or(u64::MAX, |reading| position.abs_diff(reading.position).into())
}

/// A word damaged within the radius: it must be read, no further off than twice the bits damaged.
fn bounded(tally: &mut Tally, damaged: u64, by_library: u64, by_second: u64) {
    tally.add("words damaged within the radius", true);
    tally.greatest("most bits damaged in one of them", damaged);
    tally.greatest("greatest error in steps", by_second);
    tally.add("errors of twice the bits damaged", damaged != 0 && by_second == 2 * damaged);
    tally.add("errors above twice the bits damaged or refused", 2 * damaged < by_library);
}
