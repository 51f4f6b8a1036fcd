//! Words whose divided chunk is damaged arbitrarily, and the error bar about the answer, request P7: every such word of two small
//! cards, and many of larger ones. Single words, and where chunks are divided, stand in cases.txt.
mod cards;
mod codes;
mod divided;
mod random;
mod words;

use cards::card_of;
use codes::{golay, reed_muller};
use divided::divided;
use dunnavish::{check_card, read_word};
use random::Random;
use std::ops::Range;
use words::{chunks, packed, word_at};

/// Card A: n 3, rows 3 and 6, so D 2, t 0, and ten steps a block.
fn card_a() -> Vec<u8> {
    card_of(3, 2, 0, &[3, 6])
}

/// Card B: n 3, row 7, so D 3 and t 1. The word of position m has ones in its first m places, up to 15; separators and code
/// chunks take turns, three places each. So separator 1 is divided at 1 and 2, chunk 1 at 4 and 5, separator 2 at 7 and 8, and
/// so on.
fn card_b() -> Vec<u8> {
    card_of(3, 1, 14, &[7])
}

/// The positions that the error bar holds about an answer, where at most so many bits are assumed damaged: as many steps and the
/// residual on either side, as far as the track goes.
fn bar(card: &[u8], word: &[u8], damaged: u32) -> (u32, u32) {
    let (reading, last) = (read_word(card, word).unwrap(), check_card(card).unwrap().last);
    let reach = reading.residual + damaged;
    (reading.position.saturating_sub(reach), last.min(reading.position + reach))
}

#[test]
fn the_bar_about_an_answer() {
    // position 7 with one bit damaged, in chunk 1, is read as 5 with residual 1; the error bar for one bit just holds 7
    assert_eq!(bar(&card_b(), &[0x5f, 0x00], 1), (3, 7));
    // position 7 with separator 2 damaged in every bit is read as 9 with residual 1; the error bar for three bits
    assert_eq!(bar(&card_b(), &[0xbf, 0x01], 3), (5, 13));
    // cut at both ends of the track
    assert_eq!(bar(&card_b(), &[0x00, 0x00], 2), (0, 2));
    assert_eq!(bar(&card_b(), &[0xff, 0x7f], 2), (13, 15));
}

/// Asserts that a word of a position is read, within both distances, and that the residual is at most the bits damaged.
fn within_both_distances(card: &[u8], position: u32, sent: &[bool], word: &[bool]) {
    let reading = read_word(card, &packed(word)).unwrap_or_else(|refusal| panic!("{position} as {word:?}: {refusal}"));
    let damaged = sent.iter().zip(word).filter(|(sent, came)| sent != came).count() as u32;
    let off = reading.position.abs_diff(position);
    assert!(off <= damaged + reading.residual && off <= 2 * damaged, "{position} as {word:?}, {damaged} damaged: {reading:?}");
    assert!(reading.residual <= damaged, "{position} as {word:?}, {damaged} damaged: {reading:?}");
}

/// Every word of a card in which the divided chunk is damaged arbitrarily and each other has at most t bits damaged: how many
/// there are. Which places are damaged is a number, place p its bit worth 2^p.
fn every(card: &[u8]) -> usize {
    let summary = check_card(card).unwrap();
    let mut tried = 0;
    for position in 0..=summary.last {
        let (sent, free) = (word_at(card, &summary, position), divided(card, &summary, position));
        for damaged in 0u32..1 << summary.word_bits {
            let is_damaged = |place: usize| damaged >> place & 1 == 1;
            let within = |places: Range<usize>| places.filter(|&place| is_damaged(place)).count() <= summary.radius as usize;
            if chunks(&summary).into_iter().enumerate().all(|(chunk, places)| Some(chunk) == free || within(places)) {
                let word: Vec<bool> = sent.iter().enumerate().map(|(place, bit)| bit ^ is_damaged(place)).collect();
                within_both_distances(card, position, &sent, &word);
                tried += 1;
            }
        }
    }
    tried
}

/// Counted by hand. Card B: a chunk has 1 + 3 ways within t, a divided one 8, and one is divided at ten of 16 positions. Card
/// A, t 0: a block has 5 positions with none divided, 3 with a separator, in 4 ways, and 2 with a code chunk, in 8; and there
/// is the last.
#[test]
fn every_word_of_two_small_cards() {
    assert_eq!(every(&card_b()), 6 * 1024 + 10 * 8 * 256);
    assert_eq!(every(&card_a()), 3 * (5 + 3 * 4 + 2 * 8) + 1);
}

#[test]
fn many_words_of_larger_cards() {
    let mut random = Random(7);
    for (n, rows) in [(8, reed_muller(1, 3)), (16, reed_muller(1, 4)), (24, golay()), (64, reed_muller(1, 6)), (5, vec![7, 28])] {
        let card = card_of(n, rows.len() as u8, 14, &rows);
        let summary = check_card(&card).unwrap();
        let mut arbitrary = 0;
        for _ in 0..120 {
            let position = random.below(summary.last as usize + 1) as u32;
            let (sent, free) = (word_at(&card, &summary, position), divided(&card, &summary, position));
            arbitrary += usize::from(free.is_some());
            for _ in 0..10 {
                let mut word = sent.clone();
                for (chunk, places) in chunks(&summary).into_iter().enumerate() {
                    let most = if free == Some(chunk) { places.len() } else { summary.radius as usize };
                    let count = random.below(most + 1);
                    random.some_below(count, places.len()).into_iter().for_each(|place| word[places.start + place] ^= true);
                }
                within_both_distances(&card, position, &sent, &word);
            }
        }
        assert!(arbitrary >= 60, "n {n}: only {arbitrary} of 120 positions have a divided chunk");
    }
}
