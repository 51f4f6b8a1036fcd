//! What request P7 promises of plain words: which chunks of a position's word are divided, how many bits of a received word are
//! damaged where only these may be damaged arbitrarily, and the two distances that its reading keeps.
//!
//! A chunk is divided when some, but not all, of the places in which w(i) and w(i+1) differ there are taken from w(i+1). The block
//! i is found from the starts, and both words are made anew and compared place by place with the position's, which is the walk's;
//! of its steps and of the reading rules nothing is used, so that any reader's answers can be held to the promise: a word that has
//! a count in [`damaged_within_limit`] is read, and [`both_distances_hold`] of its reading.
use crate::reading::Reading;
use crate::walk::Walk;
use crate::word::unlike;

/// Which of the five chunks of the word at a walk's position are divided. In the last block, which is the last position alone,
/// there is no w(i+1) to take a place from, and none is.
pub fn divided(here: &Walk) -> [bool; 5] {
    let (code, starts) = (&here.track.card.code, &here.track.starts);
    let block = starts.iter().rposition(|&start| start <= here.position).expect("block 0 starts at position 0");
    if block + 1 == starts.len() {
        return [false; 5];
    }
    let (this, next) = (code.whole_word(block), code.whole_word(block + 1));
    code.chunks().map(|places| {
        let differ: Vec<usize> = places.filter(|&place| this[place] != next[place]).collect();
        let taken = differ.iter().filter(|&&place| here.word[place] == next[place]).count();
        0 < taken && taken < differ.len()
    })
}

/// How many bits are damaged in all between the word at a walk's position and a received word: in a divided chunk any number may
/// be, in another at most t. None where some chunk that isn't divided has more. Received bits past d aren't looked at.
pub fn damaged_within_limit(here: &Walk, received: &[bool]) -> Option<usize> {
    let code = &here.track.card.code;
    let damaged = code.chunks().map(|places| unlike(&here.word[places.clone()], &received[places]));
    let within = damaged.iter().zip(divided(here)).all(|(&damaged, divided)| divided || damaged <= code.radius());
    within.then(|| damaged.iter().sum())
}

/// Whether the reading of a word of this position, with so many bits damaged in all, keeps both distances: it is off by at most
/// the bits damaged plus the residual, and by at most twice the bits damaged.
pub fn both_distances_hold(position: u32, damaged: usize, reading: &Reading) -> bool {
    let off = reading.position.abs_diff(position) as usize;
    off <= damaged + reading.residual as usize && off <= 2 * damaged
}

/// Expected values are worked out by hand from document 01 and request P7. All five chunks are counted, from 0; in a word's chunks
/// place 0 stands leftmost.
#[cfg(test)]
mod tests {
    use super::{both_distances_hold, damaged_within_limit, divided};
    use crate::level_promises::{draw, joined, track_of};
    use crate::make_card;
    use crate::reading::{read_from, Reading};
    use crate::test_cards::{card_a, card_b, card_of_five, card_of_one, card_of_two_rows};
    use crate::test_cards::{card_of_weights_one_and_two, card_of_weights_two_and_three};
    use crate::track::Track;
    use crate::walk::Walk;
    use crate::word::{bits_of, packed, unlike, unpacked, Word};
    use std::ops::RangeInclusive;

    /// The number of the chunk that is divided where a walk stands, or `-` if none is. No two are.
    fn mark(here: &Walk) -> char {
        let divided = divided(here);
        let mut marks = ('0'..='4').zip(divided).filter(|(_, divided)| *divided).map(|(mark, _)| mark);
        let first = marks.next();
        assert_eq!(marks.next(), None, "position {}: {divided:?}", here.position);
        first.unwrap_or('-')
    }

    /// The marks of all positions, block by block.
    fn marks(card: [u8; 512]) -> Vec<String> {
        let track = track_of(card);
        let mut walk = Walk::new(&track);
        let mut marks_to = |end: u32| {
            let mut marks = String::new();
            while walk.position < end {
                marks.push(mark(&walk));
                walk.step();
            }
            marks
        };
        let mut blocks: Vec<String> = track.starts[1..].iter().map(|&end| marks_to(end)).collect();
        blocks.push(mark(&walk).to_string());
        blocks
    }

    /// A step takes one place, the chunks one after another. With s places that differ, a chunk is divided after each of its first
    /// s - 1 steps, and taken whole after the last. At a block's start and at the last position no place is taken.
    #[test]
    fn chunks_of_equal_size_are_divided_equally_often() {
        // D 3 and A 3: s is 3 in all five chunks.
        assert_eq!(marks(card_b()), ["-00-11-22-33-44", "-"]);
        let block = "-00-11-22-33-44";
        assert_eq!(marks(card_of_two_rows()), [block, block, block, "-"]);
        // D 2 and A 2.
        let block = "-0-1-2-3-4";
        assert_eq!(marks(card_a()), [block, block, block, "-"]);
        // D 5 and A 5.
        assert_eq!(marks(card_of_five()), ["-0000-1111-2222-3333-4444", "-"]);
        // D 1 and A 1: a step takes a whole chunk.
        assert_eq!(marks(card_of_one()), ["-----", "-"]);
    }

    /// Where a row's weight is above D, code chunks are divided more often than separators.
    #[test]
    fn code_chunks_are_divided_by_their_rows_weight() {
        // D 1 and A 1, 2, 1: in block 1 alone code chunks are divided, separators nowhere.
        assert_eq!(marks(card_of_weights_one_and_two()), ["-----", "--1--3-", "-----", "-"]);
        // D 2 and A 2, 3, 2.
        let block = "-0-1-2-3-4";
        assert_eq!(marks(card_of_weights_two_and_three()), [block, "-0-11-2-33-4", block, "-"]);
        // The Reed-Muller code of order 1 in 3 variables: n 8, k 4, D 4. Row 0 has weight 8 and every other 4. Row 0 is flipped in
        // the even blocks of the fifteen.
        let (even, odd) = ("-000-1111111-222-3333333-444", "-000-111-222-333-444");
        let mut blocks = [even, odd].repeat(8);
        blocks[15] = "-";
        assert_eq!(marks(make_card(0, 1, 3).expect("r 1 and m 3 are in their limits")), blocks);
    }

    /// The bits of a word written down.
    fn bits(written: &str) -> Word {
        written.chars().filter(|bit| *bit != ' ').map(|bit| bit == '1').collect()
    }

    /// The walk to a position.
    fn at(track: &Track, position: u32) -> Walk<'_> {
        let mut walk = Walk::new(track);
        walk.go_to(position);
        walk
    }

    /// On card B, t 1. The word of position m is m ones and then zeros.
    #[test]
    fn bits_damaged_are_counted_within_the_limits() {
        let track = track_of(card_b());
        let counts = |position, written| damaged_within_limit(&at(&track, position), &bits(written));
        // At 7 chunk 2 is divided: undamaged, then damaged in every bit, then with one more bit in each other chunk.
        assert_eq!(counts(7, "111 111 100 000 000"), Some(0));
        assert_eq!(counts(7, "111 111 011 000 000"), Some(3));
        assert_eq!(counts(7, "011 101 011 100 010"), Some(1 + 1 + 3 + 1 + 1));
        // Two bits in each of the others.
        assert_eq!(counts(7, "001 111 100 000 000"), None);
        assert_eq!(counts(7, "111 010 100 000 000"), None);
        assert_eq!(counts(7, "111 111 100 011 000"), None);
        assert_eq!(counts(7, "111 111 100 000 110"), None);
        // At 6, 0 and 15 none is divided.
        assert_eq!(counts(6, "111 110 100 000 000"), Some(1 + 1));
        assert_eq!(counts(6, "111 111 110 000 000"), None);
        assert_eq!(counts(6, "111 100 000 000 000"), None);
        assert_eq!(counts(0, "100 001 010 001 100"), Some(5));
        assert_eq!(counts(0, "110 000 000 000 000"), None);
        assert_eq!(counts(15, "110 011 101 110 011"), Some(5));
        assert_eq!(counts(15, "111 111 111 111 100"), None);
        // Bits past d: two bytes have sixteen bits.
        assert_eq!(damaged_within_limit(&at(&track, 7), &unpacked(&[0x5F, 0x80])), Some(1));
    }

    /// Of a word of position 7.
    #[test]
    fn the_distances_are_both_asked() {
        let hold = |damaged, [position, residual]: [u32; 2]| {
            both_distances_hold(7, damaged, &Reading { position, residual, rule: 2, chunk1_bits: None, chunk2_bits: Some(0) })
        };
        assert!(hold(0, [7, 0]));
        // Off by 2 to either side, which is 1 + 1 and 2 × 1.
        assert!(hold(1, [5, 1]) && hold(1, [9, 1]));
        // 2 is more than 1 + 0.
        assert!(!hold(1, [5, 0]) && !hold(1, [9, 0]));
        // 3 is 1 + 2, but more than 2 × 1.
        assert!(!hold(1, [4, 2]) && !hold(1, [10, 2]));
        // 4 is 2 × 2, but more than 2 + 1.
        assert!(!hold(2, [3, 1]) && !hold(2, [11, 1]));
    }

    /// For each chunk of the word where a walk stands, the ways in which it may come: with any of its places damaged where it is
    /// free, else with those that `borne` allows. That is given the chunk's size, and the damaged places as the bits of a number,
    /// the first the lowest.
    fn ways(here: &Walk, free: [bool; 5], borne: impl Fn(usize, u64) -> bool) -> [Vec<Word>; 5] {
        let chunks = here.track.card.code.chunks();
        [0, 1, 2, 3, 4].map(|chunk| {
            let sent = &here.word[chunks[chunk].clone()];
            let turns = (0..1 << sent.len()).filter(|&damaged| free[chunk] || borne(sent.len(), damaged));
            turns
                .map(|damaged| sent.iter().zip(bits_of(damaged, sent.len())).map(|(sent, damaged)| sent ^ damaged).collect())
                .collect()
        })
    }

    /// All ways in which each chunk that isn't free has at most t bits damaged.
    fn within_radius(here: &Walk, free: [bool; 5]) -> [Vec<Word>; 5] {
        let radius = here.track.card.code.radius();
        ways(here, free, |_, damaged| damaged.count_ones() as usize <= radius)
    }

    /// Of these, the ways in which each chunk that isn't free comes as it was sent, with its first t bits damaged or with its last
    /// t.
    fn thinned(here: &Walk, free: [bool; 5]) -> [Vec<Word>; 5] {
        let radius = here.track.card.code.radius();
        let first = (1 << radius) - 1;
        ways(here, free, |size, damaged| [0, first, first << (size - radius)].contains(&damaged))
    }

    /// Asserts the promise of a word of the position where a walk stands: it is within the limits and read, and both distances
    /// hold. The search sets out from `start`.
    fn promise_holds(start: &Walk, here: &Walk, word: &[bool]) {
        let position = here.position;
        let damaged = unlike(&here.word, word);
        assert_eq!(damaged_within_limit(here, word), Some(damaged), "{word:?} of {position}");
        let reading = read_from(start, &packed(word)).unwrap_or_else(|number| panic!("{word:?} of {position}: refusal {number}"));
        assert!(both_distances_hold(position, damaged, &reading), "{word:?} of {position}, {damaged} bits damaged: {reading:?}");
    }

    /// Asserts the promise of the words that `words` makes at each of these positions, and answers how many there are.
    fn tried(track: &Track, positions: RangeInclusive<u32>, mut words: impl FnMut(&Walk) -> Vec<Word>) -> usize {
        let (mut start, mut here) = (Walk::new(track), Walk::new(track));
        let tried_at = |position: u32| {
            here.go_to(position);
            // The allowed positions, of which this is one, all lie above the one d before it.
            start.go_to(position.saturating_sub(track.card.code.word_bits() as u32));
            let words = words(&here);
            words.iter().for_each(|word| promise_holds(&start, &here, word));
            words.len()
        };
        positions.map(tried_at).sum()
    }

    /// The same of every word that comes under the promise at any position.
    fn all_tried(card: [u8; 512]) -> usize {
        let track = track_of(card);
        tried(&track, 0..=track.last(), |here| joined(&within_radius(here, divided(here))))
    }

    /// Where t is 0, a position at which none is divided has its own word alone. A divided separator has 2^D words, a divided code
    /// chunk 2^n.
    #[test]
    fn every_word_where_the_radius_is_0() {
        assert_eq!(all_tried(card_of_one()), 6);
        // A block has 5 positions with none divided, 3 with a separator of 2 bits and 2 with a code chunk of 3.
        assert_eq!(all_tried(card_a()), 3 * (5 + 3 * 4 + 2 * 8) + 1);
        // Two of the 18 positions have a divided code chunk of 3 bits.
        assert_eq!(all_tried(card_of_weights_one_and_two()), 16 + 2 * 8);
        // A block has 5 and 3 as on card A, and a code chunk of 4 bits is divided at 2 positions, in block 1 at 4.
        assert_eq!(all_tried(card_of_weights_two_and_three()), 3 * (5 + 3 * 4) + (2 + 4 + 2) * 16 + 1);
    }

    /// A chunk within the radius has 1 + 3 ways, a divided one 8. One is divided at ten positions, none at 0, 3, 6, 9, 12 and 15.
    #[test]
    fn every_word_of_card_b() {
        assert_eq!(all_tried(card_b()), 6 * 1024 + 10 * 8 * 256);
    }

    /// Block 1 of the card of two rows, which has a block on either side, and the next start. A separator within the radius has
    /// 1 + 3 ways, a divided one 8; a code chunk 1 + 5, a divided one 32. The block has 5 positions with none divided, 6 with a
    /// separator and 4 with a code chunk.
    #[test]
    fn every_word_of_a_middle_block() {
        let track = track_of(card_of_two_rows());
        let none = 64 * 36;
        let block = 5 * none + 6 * (8 * 16 * 36) + 4 * (64 * 32 * 6);
        assert_eq!(tried(&track, 15..=30, |here| joined(&within_radius(here, divided(here)))), block + none);
    }

    /// All blocks of the card of two rows, and the card of five, t 2. A chunk that isn't divided has 3 ways.
    #[test]
    fn thinned_words_of_two_rows_and_of_five() {
        let tried = |track: Track| tried(&track, 0..=track.last(), |here| joined(&thinned(here, divided(here))));
        // Again 5, 6 and 4 positions a block, and the last.
        assert_eq!(tried(track_of(card_of_two_rows())), 3 * (5 * 243 + 6 * 8 * 81 + 4 * 32 * 81) + 243);
        // One is divided at twenty positions, none at 0, 5, 10, 15, 20 and 25.
        assert_eq!(tried(track_of(card_of_five())), 6 * 243 + 20 * 32 * 81);
    }

    /// 20 words for each of the 365 positions of the Reed-Muller card above, t 1, drawn chunk by chunk. The blocks have
    /// 3 × 4 + 2 × 8 = 28 and 3 × 4 + 2 × 4 = 20 steps, so that the last position is 8 × 28 + 7 × 20 = 364.
    #[test]
    fn many_words_of_unequal_blocks() {
        let track = track_of(make_card(0, 1, 3).expect("r 1 and m 3 are in their limits"));
        let mut state = 7;
        let words = |here: &Walk| {
            let ways = within_radius(here, divided(here));
            let mut drawn = || ways.iter().flat_map(|ways| ways[draw(&mut state) as usize % ways.len()].clone()).collect();
            (0..20).map(|_| drawn()).collect()
        };
        assert_eq!(tried(&track, 0..=364, words), 365 * 20);
        assert_eq!(track.last(), 364);
    }

    /// How many of all 2^d words are within the limits of a position, added up over all positions. Each is read, and both
    /// distances hold.
    fn found(card: [u8; 512]) -> usize {
        let track = track_of(card);
        let d = track.card.code.word_bits();
        let words = |here: &Walk| {
            let all = (0..1 << d).map(|number| bits_of(number, d).collect());
            all.filter(|word: &Word| damaged_within_limit(here, word).is_some()).collect()
        };
        tried(&track, 0..=track.last(), words)
    }

    /// As many words are found among all as were made chunk by chunk.
    #[test]
    fn no_other_word_is_within_the_limits() {
        assert_eq!(found(card_of_one()), 6);
        assert_eq!(found(card_a()), 100);
        assert_eq!(found(card_of_weights_one_and_two()), 32);
    }

    /// Asserts that a word written down is outside the limits of a position, and refused.
    fn refused(card: [u8; 512], position: u32, written: &str, number: u32) {
        let (track, word) = (track_of(card), bits(written));
        assert_eq!(damaged_within_limit(&at(&track, position), &word), None, "{written}");
        assert_eq!(read_from(&Walk::new(&track), &packed(&word)), Err(number), "{written}");
    }

    /// At 4 card B has the word 111 100 000 000 000, and chunk 1 is divided. With chunk 1 damaged arbitrarily, two bits are too many in
    /// each of the others.
    #[test]
    fn a_second_chunk_arbitrary_is_too_many() {
        // Separators 0 0 0, so rule 3. Code chunk 1 reads 1 and code chunk 2 reads 0.
        refused(card_b(), 4, "001 111 000 000 000", 11);
        // Separators 1 1 0, so rule 1. Code chunk 1 reads 0.
        refused(card_b(), 4, "111 000 011 000 000", 12);
        // Separators 1 0 0, so rule 2. Code chunk 2 reads 1, the last.
        refused(card_b(), 4, "111 011 000 011 000", 12);
        // Separators 1 0 1.
        refused(card_b(), 4, "111 011 000 000 101", 9);
    }

    /// At 3 card B has the word 111 000 000 000 000, and no chunk is divided. Two bits are too many in each of the last three.
    #[test]
    fn a_chunk_arbitrary_that_is_not_divided_is_too_many() {
        // Separators 1 1 0, so rule 1. Code chunk 1 reads 0.
        refused(card_b(), 3, "111 000 011 000 000", 12);
        // Separators 1 0 0, so rule 2. Code chunk 2 reads 1, the last.
        refused(card_b(), 3, "111 000 000 101 000", 12);
        // Separators 1 0 1.
        refused(card_b(), 3, "111 000 000 000 110", 9);
    }

    /// The numbers of the chunks that aren't divided where a walk stands and that, being free besides, leave some word refused.
    fn too_free(here: &Walk) -> String {
        let divided = divided(here);
        let start = Walk::new(here.track);
        let is_too_free = |chunk: usize| {
            let mut free = divided;
            free[chunk] = true;
            !divided[chunk] && joined(&within_radius(here, free)).iter().any(|word| read_from(&start, &packed(word)).is_err())
        };
        (0..5).filter(|&chunk| is_too_free(chunk)).map(|chunk| chunk.to_string()).collect()
    }

    /// On card B, at each position, some word is refused when any one chunk is free beside the divided one. Where none is divided
    /// it is so of each chunk but the one that the last step made whole and the one that the next step divides: were one of these
    /// two free, the rule named would still be one that allows the position.
    #[test]
    fn every_other_chunk_needs_the_limit() {
        let track = track_of(card_b());
        let expected = [
            ("1234", 0..=2), // chunk 0 is next, then divided
            ("234", 3..=3),
            ("0234", 4..=5), // chunk 1
            ("034", 6..=6),
            ("0134", 7..=8), // chunk 2
            ("014", 9..=9),
            ("0124", 10..=11), // chunk 3
            ("012", 12..=12),
            ("0123", 13..=15), // chunk 4 is divided, then whole
        ];
        for (chunks, positions) in expected {
            for position in positions {
                assert_eq!(too_free(&at(&track, position)), chunks, "position {position}");
            }
        }
    }

    /// Asserts what a word written down, with so many bits damaged against a position's word, reads as: position and residual.
    /// Answers whether it is within the limits, and whether both distances hold.
    fn read_with(card: [u8; 512], (position, damaged): (u32, usize), written: &str, answer: [u32; 2]) -> [bool; 2] {
        let (track, word) = (track_of(card), bits(written));
        let here = at(&track, position);
        assert_eq!(unlike(&here.word, &word), damaged, "{written}");
        let reading = read_from(&Walk::new(&track), &packed(&word)).expect("the word is read");
        assert_eq!([reading.position, reading.residual], answer, "{written}");
        [damaged_within_limit(&here, &word).is_some(), both_distances_hold(position, damaged, &reading)]
    }

    /// With too many bits damaged in a chunk that isn't divided, a word may also be read, but as a position of another block.
    #[test]
    fn a_word_outside_the_limits_may_be_far_off() {
        // On card A 8 has the word 11 110 11 110 00. Code chunk 1 comes as 011, two bits damaged: rule 1 with p 3, which allows 24
        // to 30. The word of 26 is 11 011 11 101 00, and those of 24 to 30 have 4, 3, 2, 3, 2, 3 and 4 bits differing.
        assert_eq!(read_with(card_a(), (8, 2), "11 011 11 110 00", [26, 2]), [false, false]);
        // On the card of two rows 12 has the word 111 11100 111 11100 000. Code chunk 1 comes as 00110, three bits damaged and one
        // bit from c(3): rule 1 with p 3, which allows 36 to 45. The word of 39 is 111 00111 111 11011 000, and those of 36 to 45
        // have 7, 6, 5, 4, 5, 6, 5, 6, 7 and 8 bits differing.
        assert_eq!(read_with(card_of_two_rows(), (12, 3), "111 00110 111 11100 000", [39, 4]), [false, false]);
    }

    /// A word within the limits may be off by more than the bits damaged, so the residual is needed.
    #[test]
    fn the_bits_damaged_alone_are_too_few() {
        // Document 01's 5F 00, position 7 with place 5 damaged, within the radius in every chunk: off by 2, which is 1 + 1.
        assert_eq!(packed(&bits("111 110 100 000 000")), [0x5F, 0x00]);
        assert_eq!(read_with(card_b(), (7, 1), "111 110 100 000 000", [5, 1]), [true, true]);
        // Position 2 with place 0 damaged, in chunk 0, which is divided: rule 3, and the words of 0 to 3 have 1, 2, 1 and 2 bits
        // differing. Off by 2, which is 1 + 1.
        assert_eq!(read_with(card_b(), (2, 1), "010 000 000 000 000", [0, 1]), [true, true]);
    }

    /// The bits damaged plus the residual may be below twice the bits damaged.
    #[test]
    fn the_distance_is_sharper() {
        // Position 1 with place 1 damaged is the word of 2: off by 1, which is 1 + 0.
        assert_eq!(read_with(card_b(), (1, 1), "110 000 000 000 000", [2, 0]), [true, true]);
        // Position 8 with chunk 2, which is divided, damaged in every bit: separators 1 0 0, so rule 2, which allows 0 to 9. The words
        // of 5 to 9 have 2, 1, 2, 3 and 2 bits differing. Off by 2, and 3 + 1 is below 2 × 3.
        assert_eq!(read_with(card_b(), (8, 3), "111 111 001 000 000", [6, 1]), [true, true]);
    }
}
