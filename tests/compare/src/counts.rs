//! The bits that code chunks needed: which counts have been met, and the library's held to the bits that were damaged.
use crate::calls;
use crate::levels;
use crate::library;
use crate::parity;
use crate::tally::Tally;
use crate::trials::counts::{self, Counted};
use second_reader::separator_promise::separator_agrees;
use second_reader::track::Track;
use second_reader::walk::Walk;
use second_reader::{reading, Reading, Refusal};

/// The words of codeword p of card `id` with counts at their borders. The walk `behind` stands before the codeword's block.
pub fn at_borders(tally: &mut Tally, card: &[u8], behind: &Walk, p: usize, id: u64) {
    let code = &behind.track.card.code;
    let radius = code.radius() as u32;
    for Counted { bytes, rule, damaged } in counts::of_codeword(code, p, id) {
        let [answer, second] = both_read(tally, card, behind, &bytes);
        let names = named(rule);
        let past = |is_named| (0..2).any(|chunk| names[chunk] == is_named && radius < damaged[chunk]);
        if past(true) {
            past_radius(tally, second);
        } else if second != Err(12) {
            as_damaged(tally, damaged, answer, second);
        }
        tally.add("words read with t + 1 bits damaged in the chunk not named", second.is_ok() && past(false));
    }
}

/// A received word, by the library and by the second reader, whose search sets out from a walk; and its bits as levels, by the
/// library.
pub fn both_read(tally: &mut Tally, card: &[u8], walk: &Walk, bytes: &[u8]) -> [Result<Reading, Refusal>; 2] {
    let (answer, second) = (library::read_word(card, bytes), reading::read_from(walk, bytes));
    calls::read(tally, answer, second);
    needed(tally, walk.track, second);
    levels::as_plain(tally, card, &walk.track.card.code, bytes, answer);
    if !matches!(second, Err(6 | 8)) {
        parity::held(tally, walk.track, answer, || separator_agrees(walk.track, bytes));
    }
    [answer, second]
}

/// Which code chunks a rule names.
fn named(rule: u32) -> [bool; 2] {
    [rule != 2, rule != 1]
}

/// Counts a word that is read by the bits that its chunks needed. Counts of other chunks than the rule names have no line in the
/// tally, which ends the program.
fn needed(tally: &mut Tally, track: &Track, second: Result<Reading, Refusal>) {
    let Ok(Reading { rule, chunk1_bits, chunk2_bits, .. }) = second else { return };
    let radius = track.card.code.radius() as u32;
    let text = |bits: u32| match bits {
        0 => "no bit",
        _ if bits == radius => "t bits",
        _ => "some bits",
    };
    let line = match (chunk1_bits, chunk2_bits) {
        (Some(bits), None) => format!("rule {rule}, chunk 1 needed {}", text(bits)),
        (None, Some(bits)) => format!("rule {rule}, chunk 2 needed {}", text(bits)),
        (Some(first), Some(other)) => format!("rule {rule}, chunks needed {} and {}", text(first), text(other)),
        (None, None) => format!("rule {rule} without a chunk"),
    };
    tally.add(&line, true);
    for bits in [chunk1_bits, chunk2_bits].into_iter().flatten() {
        tally.greatest("most bits that a chunk of a word needed", bits.into());
    }
}

/// A word in which so many bits of code chunks 1 and 2 are damaged, in those that the rule names from a codeword and no more than
/// the radius: it must be read, and the counts are these numbers. A position's word that is damaged within the radius is such a
/// word, since the chunks that the rule names are never those that the tram's step divides.
pub fn as_damaged(tally: &mut Tally, damaged: [u32; 2], answer: Result<Reading, Refusal>, second: Result<Reading, Refusal>) {
    let is_right = |Reading { rule, chunk1_bits, chunk2_bits, .. }| {
        let [first, second] = named(rule);
        chunk1_bits == first.then_some(damaged[0]) && chunk2_bits == second.then_some(damaged[1])
    };
    assert!(second.map_or(false, is_right), "the second reader's counts {second:?} where {damaged:?} bits were damaged");
    tally.add("words whose counts are known from what was damaged", true);
    tally.add("counts unlike the bits damaged or refused", !answer.map_or(false, is_right));
}

/// A word with t + 1 bits damaged in a chunk that its rule names: that chunk reads as another codeword, if as any.
fn past_radius(tally: &mut Tally, second: Result<Reading, Refusal>) {
    let words = "words with t + 1 bits damaged in a chunk named";
    let line = match second {
        Ok(_) => format!("{words}, read as another codeword"),
        Err(refusal) => format!("{words}, refused {refusal}"),
    };
    tally.add(&line, true);
}
