//! What requests P5 and P6 promise of levels 1, -1 and 0, tried on words of small cards.
use crate::levels::read_levels_from;
use crate::reading::{read_from, Reading};
use crate::separator_promise::{damage, separator_agrees_in_levels};
use crate::test_cards::{card_a, card_b, card_of_one, card_of_two_rows};
use crate::track::Track;
use crate::walk::Walk;
use crate::word::{packed, Word};
use crate::Refusal;

/// The track of a small card.
pub fn track_of(card: [u8; 512]) -> Track {
    Track::of_card(&card).expect("the card is sound")
}

/// What levels of a track's word read as.
fn position_answer(track: &Track, levels: &[f32]) -> Result<Reading, Refusal> {
    read_levels_from(&Walk::new(track), levels).map(|(reading, _)| reading)
}

/// The words of all positions, in order.
pub fn words_of(track: &Track) -> Vec<Word> {
    let mut walk = Walk::new(track);
    let word_at = |position| {
        walk.go_to(position);
        walk.word.clone()
    };
    (0..=track.last()).map(word_at).collect()
}

/// The d levels that a number stands for, each a digit of it: 0 is the level 1, 1 is -1, and 2, in base 3, is 0.
pub fn levels_of(number: u32, base: u32, d: usize) -> Vec<f32> {
    let digits = (0..d as u32).map(|place| number / base.pow(place) % base);
    digits.map(|digit| [1.0, -1.0, 0.0][digit as usize]).collect()
}

/// The bytes of the plain word that levels of 1 and -1 stand for.
pub fn plain(levels: &[f32]) -> Vec<u8> {
    let bits: Word = levels.iter().map(|level| *level < 0.0).collect();
    packed(&bits)
}

/// Whether levels come under the promise for a position, their damage being below D in every chunk. If so, asserts it: they are
/// read, off by at most the whole word's damage.
fn promise_holds(track: &Track, position: u32, word: &[bool], levels: &[f32]) -> bool {
    let code = &track.card.code;
    let under = code.chunks().into_iter().all(|places| damage(&word[places.clone()], &levels[places]) < code.distance);
    if under {
        let reading = position_answer(track, levels).unwrap_or_else(|number| panic!("{levels:?}: refusal {number}"));
        let off = reading.position.abs_diff(position) as usize;
        assert!(off <= damage(word, levels), "{levels:?}: {position} read as {reading:?}");
    }
    under
}

/// For how many positions levels come under the promise, which holds for each of them.
fn positions_under(track: &Track, words: &[Word], levels: &[f32]) -> usize {
    (0..).zip(words).filter(|(position, word)| promise_holds(track, *position, word, levels)).count()
}

/// For each chunk, all its levels of 1 and -1, and of 0 in base 3, whose damage against a position's word is below D.
fn borne(track: &Track, word: &[bool], base: u32) -> [Vec<Vec<f32>>; 5] {
    let code = &track.card.code;
    code.chunks().map(|places| {
        let size = places.len();
        let chunks = (0..base.pow(size as u32)).map(|number| levels_of(number, base, size));
        chunks.filter(|chunk| damage(&word[places.clone()], chunk) < code.distance).collect()
    })
}

/// All such levels of a whole word.
pub fn damaged(track: &Track, word: &[bool], base: u32) -> Vec<Vec<f32>> {
    joined(&borne(track, word, base))
}

/// All whole words, of levels or of bits, each of whose chunks comes in one of its own ways: added chunk by chunk.
pub fn joined<Bit: Copy>(chunks: &[Vec<Vec<Bit>>; 5]) -> Vec<Vec<Bit>> {
    let mut all: Vec<Vec<Bit>> = vec![vec![]];
    for ways in chunks {
        all = all.iter().flat_map(|before| ways.iter().map(move |chunk| [&before[..], chunk].concat())).collect();
    }
    all
}

/// The next number of a linear congruential generator.
pub fn draw(state: &mut u64) -> u64 {
    *state = state.wrapping_mul(6_364_136_223_846_793_005).wrapping_add(1_442_695_040_888_963_407);
    *state >> 33
}

/// Every word of bits, as levels of 1 and -1, is read or refused as the plain word is.
#[test]
fn levels_of_one_read_as_the_plain_word() {
    for track in [card_of_one(), card_a(), card_b()].map(track_of) {
        let d = track.card.code.word_bits();
        for number in 0..1 << d {
            let levels = levels_of(number, 2, d);
            assert_eq!(position_answer(&track, &levels), read_from(&Walk::new(&track), &plain(&levels)), "{levels:?}");
        }
    }
}

/// All 3^5 words of the card with D 1, where only the six undamaged words come under the promise.
#[test]
fn every_word_of_the_least_card() {
    let track = track_of(card_of_one());
    let words = words_of(&track);
    let positions: usize = (0..243).map(|number| positions_under(&track, &words, &levels_of(number, 3, 5))).sum();
    assert_eq!(positions, 6);
}

/// All words of card A, D 2, that come under the promise. A chunk bears one erased bit, which leaves 3 ways for a separator and 4
/// for a code chunk: 3 × 4 × 3 × 4 × 3 = 432 words for each of the 31 positions.
#[test]
fn every_bearable_word_of_card_a() {
    let track = track_of(card_a());
    let words = words_of(&track);
    assert_eq!(words.len(), 31);
    for (position, word) in (0..).zip(&words) {
        let all = damaged(&track, word, 3);
        assert_eq!(all.len(), 432, "position {position}");
        assert!(all.iter().all(|levels| promise_holds(&track, position, word, levels)), "position {position}");
    }
}

/// 20,000 of the 3^15 words of card B, D 3, drawn. A chunk bears one damaged bit or up to two erased ones, 3 + 1 + 3 + 3 = 10 of its
/// 27 ways, so that about 20,000 × 16 × 10^5 / 27^5, or 2,230, positions come under the promise. Whether or not a word does, if it
/// is read, its separators bear out the codeword, as request P6 promises; 17 is answered only where they don't.
#[test]
fn many_words_of_card_b() {
    let track = track_of(card_b());
    let words = words_of(&track);
    let (mut state, mut positions) = (5u64, 0);
    for _ in 0..20_000 {
        let levels = levels_of((draw(&mut state) % 14_348_907) as u32, 3, 15);
        positions += positions_under(&track, &words, &levels);
        let agrees = separator_agrees_in_levels(&track, &levels);
        match position_answer(&track, &levels) {
            Ok(reading) => assert_eq!(agrees, Some(true), "{levels:?} read as {reading:?}"),
            Err(17) => assert_eq!(agrees, Some(false), "{levels:?}"),
            Err(_) => (),
        }
    }
    assert!((2_000..2_500).contains(&positions), "{positions} positions");
}

/// 100 words for each of the 46 positions of the card of two rows, D 3, drawn chunk by chunk from those that come under the
/// promise: in a separator 10 ways, in a code chunk one damaged bit or up to two erased ones, 5 + 1 + 5 + 10 = 21.
#[test]
fn many_bearable_words_of_two_rows() {
    let track = track_of(card_of_two_rows());
    let words = words_of(&track);
    assert_eq!(words.len(), 46);
    let mut state = 6;
    for (position, word) in (0..).zip(&words) {
        let borne = borne(&track, word, 3);
        let ways: Vec<usize> = borne.iter().map(Vec::len).collect();
        assert_eq!(ways, [10, 21, 10, 21, 10], "position {position}");
        for _ in 0..100 {
            let drawn = borne.iter().flat_map(|chunks| &chunks[draw(&mut state) as usize % chunks.len()]);
            let levels: Vec<f32> = drawn.copied().collect();
            assert!(promise_holds(&track, position, word, &levels), "position {position}");
        }
    }
}
