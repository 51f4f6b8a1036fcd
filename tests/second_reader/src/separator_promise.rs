//! What request P6 promises of every word that is read: the separator that its rule names, separator 1 by rules 1 and 3 and
//! separator 3 by rule 2, is the parity of p.
//!
//! It is found from the word and w(p) alone, apart from the reading rules of this reader, so that any reader's answers can be held
//! to it. They fit where a word that is read has `Some(true)`, one refused with 17 `Some(false)`, one refused with 12 either of
//! these, and one refused with 9, 10 or 11 `None`.
use crate::track::Track;
use crate::word::{bits_of, unpacked, Word};

/// Whether the separator that the rule names is that of w(p), in a plain word of the track's length, whose spare bits aren't looked
/// at. None if there is no rule or no p.
///
/// The bits are taken as levels of 1 and -1: a separator's sum is below zero where more than half its bits are 1, and 2 × wrong is
/// below D where wrong is at most t.
pub fn separator_agrees(track: &Track, bytes: &[u8]) -> Option<bool> {
    let levels: Vec<f32> = unpacked(bytes).into_iter().map(|bit| if bit { -1.0 } else { 1.0 }).collect();
    separator_agrees_in_levels(track, &levels)
}

/// The same of a word of d levels, each within the limits.
pub fn separator_agrees_in_levels(track: &Track, levels: &[f32]) -> Option<bool> {
    let code = &track.card.code;
    let chunks = code.chunks();
    let came = |chunk: usize| &levels[chunks[chunk].clone()];
    let reads = |chunk: usize| came(chunk).iter().fold(0.0f32, |sum, level| sum + level) < 0.0;
    // The code chunks and the separator that the rule names. All five chunks are counted, from 0.
    let (named, separator): (&[usize], usize) = match [0, 2, 4].map(reads) {
        [false, false, false] | [true, true, true] => (&[1, 3], 0),
        [false, false, true] | [true, true, false] => (&[1], 0),
        [false, true, true] | [true, false, false] => (&[3], 4),
        [false, true, false] | [true, false, true] => return None,
    };
    let reads_as = |p: usize| {
        let sent: Word = bits_of(code.codeword(p), code.n).collect();
        named.iter().all(|&chunk| damage(&sent, came(chunk)) < code.distance)
    };
    let p = (0..code.codewords()).find(|&p| reads_as(p))?;
    Some(reads(separator) == code.whole_word(p)[chunks[separator].start])
}

/// 2 × wrong + erased of levels against the bits that were sent in these places. Each place has 0, 1 or 2.
pub fn damage(sent: &[bool], levels: &[f32]) -> usize {
    let in_place = |(sent, level): (&bool, &f32)| match *level < 0.0 {
        _ if *level == 0.0 => 1,
        came if came == *sent => 0,
        _ => 2,
    };
    sent.iter().zip(levels).map(in_place).sum()
}

/// Counts are worked out by hand from document 01 and requests P5 and P6.
#[cfg(test)]
mod tests {
    use super::{damage, separator_agrees, separator_agrees_in_levels};
    use crate::level_promises::{damaged, levels_of, plain, track_of, words_of};
    use crate::levels::read_levels_from;
    use crate::reading::read_from;
    use crate::test_cards::{card_a, card_b, card_of_one, card_of_two_rows};
    use crate::walk::Walk;
    use crate::Refusal;

    /// How many words are read, then how many are refused with 9, 10, 11, 12 and 17. Each word's answer fits its separators.
    fn counts<T>(words: impl Iterator<Item = (Result<T, Refusal>, Option<bool>)>) -> [usize; 6] {
        let mut counts = [0; 6];
        for (answer, agrees) in words {
            let number = answer.err().unwrap_or(0);
            let (count, fits) = match number {
                0 => (0, agrees == Some(true)),
                9 => (1, agrees.is_none()),
                10 => (2, agrees.is_none()),
                11 => (3, agrees.is_none()),
                12 => (4, agrees.is_some()),
                17 => (5, agrees == Some(false)),
                _ => panic!("refusal {number}"),
            };
            assert!(fits, "answer {number}, separator {agrees:?}");
            counts[count] += 1;
        }
        counts
    }

    /// The sums of the counts that each rule, and no rule, leaves.
    fn added(parts: [[usize; 6]; 4]) -> [usize; 6] {
        [0, 1, 2, 3, 4, 5].map(|count| parts.iter().map(|part| part[count]).sum())
    }

    /// The counts of all 2^d plain words of a card.
    fn plain_counts(card: [u8; 512]) -> [usize; 6] {
        let track = track_of(card);
        let d = track.card.code.word_bits();
        let words = (0..1 << d).map(|number| plain(&levels_of(number, 2, d)));
        counts(words.map(|word| (read_from(&Walk::new(&track), &word), separator_agrees(&track, &word))))
    }

    /// On the card with D 1 each bit is a chunk. Separators 0 1 0 and 1 0 1, with any chunks, leave 2 × 4 words to 9. By rule 3,
    /// of the 2 × 4 words four have chunks that differ, 11, and two a p that contradicts the separators, 17. By rule 1 p is 0 in 2 × 2
    /// words, 12; p is 1 in two words with 1 in separator 1, read, and in two with 0, 17. By rule 2 p is 1 in 2 × 2 words, 12; p is 0 in
    /// two with 0 in separator 3, read, and in two with 1, 17.
    #[test]
    fn every_plain_word_of_the_least_card() {
        assert_eq!(plain_counts(card_of_one()), [2 + 2 + 2, 8, 0, 4, 4 + 4, 2 + 2 + 2]);
    }

    /// On card B each chunk, separator or not, reads 0 in four of its eight ways and 1 in the other four: each word of the least
    /// card stands for 4^5 = 1024 here.
    #[test]
    fn every_plain_word_of_card_b() {
        assert_eq!(plain_counts(card_b()), [6 * 1024, 8 * 1024, 0, 4 * 1024, 8 * 1024, 6 * 1024]);
    }

    /// On card A a separator reads 0 in three of its four ways; 4 of a chunk's 8 ways are codewords, the others 10.
    #[test]
    fn every_plain_word_of_card_a() {
        // 0 1 0 in 3 × 1 × 3 ways and 1 0 1 in 1 × 3 × 1, with 64 ways of the chunks.
        let no_rule = [0, (9 + 3) * 64, 0, 0, 0, 0];
        // 0 0 0 in 27 ways and 1 1 1 in one. Both chunks are codewords in 16 of 64 ways, the same one in 4, and p has the
        // separators' parity in one half of these.
        let rule_3 = [28 * 2, 0, 28 * 48, 28 * 12, 0, 28 * 2];
        // With 8 ways of chunk 2: 0 0 1 in 3 × 3 × 1 ways, where p 2 is read and p 1 and 3 are 17, and 1 1 0 in 1 × 1 × 3, where
        // it is the other way round. p 0 is 12.
        let rule_1 = [9 * 8 + 3 * 16, 0, 12 * 4 * 8, 0, 12 * 8, 9 * 16 + 3 * 8];
        // With 8 ways of chunk 1: 1 0 0 in 1 × 3 × 3 ways, where p 0 and 2 are read and p 1 is 17, and 0 1 1 in 3 × 1 × 1, where
        // it is the other way round. p 3 is 12.
        let rule_2 = [9 * 16 + 3 * 8, 0, 12 * 4 * 8, 0, 12 * 8, 9 * 8 + 3 * 16];
        assert_eq!(plain_counts(card_a()), added([no_rule, rule_3, rule_1, rule_2]));
    }

    /// All 3^5 words of levels 1, -1 and 0 of the card with D 1: a separator reads 0 in two of three ways, and an erased chunk is 10.
    #[test]
    fn every_word_of_levels_of_the_least_card() {
        let track = track_of(card_of_one());
        let words = (0..243).map(|number| levels_of(number, 3, 5));
        let read = |levels: &[f32]| read_levels_from(&Walk::new(&track), levels);
        let counted = counts(words.map(|levels| (read(&levels), separator_agrees_in_levels(&track, &levels))));
        // 0 1 0 in 2 × 1 × 2 ways and 1 0 1 in 1 × 2 × 1, with 9 ways of the chunks.
        let no_rule = [0, (4 + 2) * 9, 0, 0, 0, 0];
        // 0 0 0 in 8 ways and 1 1 1 in one. Of the chunks' 9 ways, 5 have an erased one and in 2 they differ; in one p has the
        // separators' parity, in one it hasn't.
        let rule_3 = [9, 0, 9 * 5, 9 * 2, 0, 9];
        // With 3 ways of chunk 2: p 1 is read with 1 1 0, in 1 × 1 × 2 ways, and 17 with 0 0 1, in 2 × 2 × 1. p 0 is 12.
        let rule_1 = [2 * 3, 0, 6 * 3, 0, 6 * 3, 4 * 3];
        // With 3 ways of chunk 1: p 0 is read with 1 0 0, in 1 × 2 × 2 ways, and 17 with 0 1 1, in 2 × 1 × 1. p 1 is 12.
        let rule_2 = [4 * 3, 0, 6 * 3, 0, 6 * 3, 2 * 3];
        assert_eq!(counted, added([no_rule, rule_3, rule_1, rule_2]));
    }

    /// Demand 3, which request P6 leaves as it was: every plain word damaged within the radius in every chunk is read, off by at
    /// most twice the bits damaged. Where t is 0 that is the position's word alone; on card B each chunk has 1 + 3 ways, on the card
    /// of two rows a separator has 1 + 3 and a code chunk 1 + 5.
    #[test]
    fn every_plain_word_within_the_radius_is_read() {
        let cards = [(card_of_one(), 1), (card_a(), 1), (card_b(), 1024), (card_of_two_rows(), 4 * 6 * 4 * 6 * 4)];
        for (track, ways) in cards.map(|(card, ways)| (track_of(card), ways)) {
            for (position, word) in (0..).zip(words_of(&track)) {
                let all = damaged(&track, &word, 2);
                assert_eq!(all.len(), ways, "position {position}");
                for levels in all {
                    let reading = read_from(&Walk::new(&track), &plain(&levels));
                    let reading = reading.unwrap_or_else(|number| panic!("{levels:?} of {position}: refusal {number}"));
                    // With no erased bit, the damage is twice the bits damaged.
                    let off = reading.position.abs_diff(position) as usize;
                    assert!(off <= damage(&word, &levels), "{levels:?}: {position} read as {reading:?}");
                }
            }
        }
    }
}
