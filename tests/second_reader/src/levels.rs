//! Reading a word whose bits arrive as levels, request P5: what levels are taken as, how the rules see them, and the receiver's
//! strength.
use crate::code::Code;
use crate::reading::Reading;
use crate::rules::{self, Received};
use crate::walk::Walk;
use crate::word::bits_of;
use crate::Refusal;

/// The receiver's strength in a word: the sum of its levels' magnitudes, and the greatest of them.
#[derive(Clone, Copy, Debug, PartialEq)]
pub struct Strength {
    pub sum: f32,
    pub greatest: f32,
}

/// What an arriving level is taken as.
#[derive(Clone, Copy, Debug, PartialEq)]
enum Arrival {
    Level(f32),
    Lost,
}

impl Arrival {
    /// A zero of either sign is an erased bit.
    fn of(level: f32) -> Arrival {
        if level == 0.0 {
            Arrival::Lost
        } else {
            Arrival::Level(level)
        }
    }

    /// The bit, if it isn't erased: a negative level is a 1.
    fn bit(self) -> Option<bool> {
        match self {
            Arrival::Level(level) => Some(level < 0.0),
            Arrival::Lost => None,
        }
    }
}

/// Reads the d levels of a word of a walk's track. The search sets out from where the walk stands, as that of a plain word does,
/// and the answer is the same from anywhere.
pub fn read_levels_from(walk: &Walk, levels: &[f32]) -> Result<(Reading, Strength), Refusal> {
    if levels.len() != walk.track.card.code.word_bits() {
        return Err(15);
    }
    if levels.iter().any(|level| level.is_nan() || level.is_infinite() || 1_000_000.0 < level.abs()) {
        return Err(16);
    }
    let received: Vec<Arrival> = levels.iter().map(|&level| Arrival::of(level)).collect();
    Ok((rules::read(walk, &received)?, strength(levels)))
}

impl Received for [Arrival] {
    /// A separator reads 1 if its levels sum below zero, else 0. An erased bit adds nothing.
    fn separator(&self) -> bool {
        sum_in_order(self.iter().map(|arrival| match arrival {
            Arrival::Level(level) => *level,
            Arrival::Lost => 0.0,
        })) < 0.0
    }

    /// The first p for whose codeword c(p) 2 × wrong + erased is below D; wrong is the number that it answers beside p.
    fn code_chunk(&self, code: &Code) -> Option<(usize, usize)> {
        let erased = self.iter().filter(|arrival| arrival.bit().is_none()).count();
        let numbers = 0..code.codewords();
        let mut tried = numbers.map(|p| (p, wrong(bits_of(code.codeword(p), code.n), self)));
        tried.find(|&(_, wrong)| 2 * wrong + erased < code.distance)
    }

    /// Only the unerased bits count.
    fn unlike(&self, word: &[bool]) -> usize {
        wrong(word.iter().copied(), self)
    }
}

/// In how many unerased places the received bit differs from the one that was sent.
fn wrong(sent: impl Iterator<Item = bool>, received: &[Arrival]) -> usize {
    sent.zip(received).filter(|(sent, arrival)| arrival.bit() == Some(!sent)).count()
}

/// The strength of a word's levels. An erased bit's magnitude is zero.
fn strength(levels: &[f32]) -> Strength {
    let magnitudes = levels.iter().map(|level| level.abs());
    Strength { sum: sum_in_order(magnitudes.clone()), greatest: magnitudes.fold(0.0, f32::max) }
}

/// Levels added in order from zero, in single precision, so that each addition is rounded once. It is written out, not left to
/// `Iterator::sum`, so that the start and the order are seen.
fn sum_in_order(levels: impl Iterator<Item = f32>) -> f32 {
    let mut sum = 0.0;
    for level in levels {
        sum += level;
    }
    sum
}

/// Expected values are worked out by hand from document 01 and requests P5 and P6. In a word's chunks place 0 stands leftmost.
///
/// On card B the word of m is m ones and then zeros; rule 1 with p 1 allows 0 + 3 + 3 = 6 to 15, rule 2 with p 0 allows 0 to
/// 2 × 3 + 3 = 9, rule 3 allows 0 to 3 with p 0 and 12 to 15 with p 1.
#[cfg(test)]
mod tests {
    use super::{read_levels_from, strength, Reading, Strength};
    use crate::read_levels;
    use crate::test_cards::{card, card_a, card_b, card_of_five, card_of_two_rows};
    use crate::track::Track;
    use crate::walk::Walk;

    /// The levels of a word written down: -1 for a 1, 1 for a 0, and the two zeros for erased bits, `?` the positive one and `-` the
    /// negative one.
    fn levels(written: &str) -> Vec<f32> {
        let level = |bit| match bit {
            '1' => -1.0,
            '0' => 1.0,
            '?' => 0.0,
            '-' => -0.0,
            _ => panic!("{bit} is no bit"),
        };
        written.chars().filter(|bit| *bit != ' ').map(level).collect()
    }

    /// The levels of a word written down, but these in the places from `start` on.
    fn levels_with(written: &str, start: usize, put: &[f32]) -> Vec<f32> {
        let mut levels = levels(written);
        levels[start..start + put.len()].copy_from_slice(put);
        levels
    }

    /// Asserts what levels read as: position, residual and rule, then the bits of both chunks.
    fn levels_read(card: [u8; 512], levels: &[f32], [position, residual, rule]: [u32; 3], bits: [Option<u32>; 2]) {
        let [chunk1_bits, chunk2_bits] = bits;
        let expected = Reading { position, residual, rule, chunk1_bits, chunk2_bits };
        assert_eq!(read_levels(&card, levels).map(|(reading, _)| reading), Ok(expected), "levels {levels:?}");
    }

    /// The same of a word written down.
    fn reads(card: [u8; 512], written: &str, answer: [u32; 3], bits: [Option<u32>; 2]) {
        levels_read(card, &levels(written), answer, bits);
    }

    /// Asserts that a word written down is refused.
    fn refused(card: [u8; 512], written: &str, number: u32) {
        assert_eq!(read_levels(&card, &levels(written)), Err(number), "word {written}");
    }

    /// The words of src/reading.rs and document 01, as levels of 1 and -1.
    #[test]
    fn plain_words_read_as_before() {
        reads(card_b(), "111 101 111 111 000", [12, 1, 1], [Some(1), None]);
        reads(card_b(), "111 111 111 101 000", [10, 1, 1], [Some(0), None]);
        reads(card_b(), "111 110 100 000 000", [5, 1, 2], [None, Some(0)]);
        reads(card_b(), "111 111 100 010 000", [7, 1, 2], [None, Some(1)]);
        reads(card_b(), "000 010 000 010 000", [0, 2, 3], [Some(1), Some(1)]);
        reads(card_b(), "111 011 111 111 111", [15, 1, 3], [Some(1), Some(0)]);
        reads(card_of_five(), "00000 01010 00000 00100 00000", [0, 3, 3], [Some(2), Some(1)]);
        reads(card_a(), "11 110 10 000 00", [5, 0, 2], [None, Some(0)]);
        refused(card_b(), "000 000 111 000 000", 9);
        refused(card_b(), "111 111 000 111 111", 9);
        refused(card_a(), "00 100 00 000 00", 10);
        refused(card_b(), "000 000 000 111 000", 11);
        refused(card_b(), "000 000 000 000 111", 12);
        refused(card_b(), "000 000 111 111 111", 12);
    }

    /// The word of 7 on card B, 111 111 100 000 000, rule 2, with one bit erased in each chunk.
    #[test]
    fn one_erased_bit_in_each_chunk() {
        // Separator 1 sums to -2. m has |7 - m| places differing, less place 1 if that is one of them: 0 for 7 alone.
        reads(card_b(), "1?1 111 100 000 000", [7, 0, 2], [None, Some(0)]);
        // Chunk 1 isn't named.
        reads(card_b(), "111 1-1 100 000 000", [7, 0, 2], [None, Some(0)]);
        // The words of 6 and 7 differ only in place 6, which is erased: the smaller is the answer.
        reads(card_b(), "111 111 ?00 000 000", [6, 0, 2], [None, Some(0)]);
        // Those of 7 and 8 differ only in place 7. Separator 2 sums to -1 + 1 = 0, and reads 0.
        reads(card_b(), "111 111 1-0 000 000", [7, 0, 2], [None, Some(0)]);
        // Chunk 2 against 000: none wrong and 1 erased, 1.
        reads(card_b(), "111 111 100 0?0 000", [7, 0, 2], [None, Some(0)]);
        // Separator 3 sums to 2.
        reads(card_b(), "111 111 100 000 00-", [7, 0, 2], [None, Some(0)]);
    }

    /// D 3. With one bit wrong and one erased, 2 × 1 + 1 = 3 isn't below 3; with two erased, 2 is.
    #[test]
    fn a_chunk_of_three_bits_bears_two_erased_or_one_wrong() {
        // Rule 2. 01? against 000 and against 111: one wrong, one erased.
        refused(card_b(), "111 111 100 01? 000", 10);
        reads(card_b(), "111 111 100 ?-0 000", [7, 0, 2], [None, Some(0)]);
        refused(card_b(), "111 111 100 ??? 000", 10);
        // ??1 reads as 111, p 1, the last.
        refused(card_b(), "111 111 100 ??1 000", 12);
        // Rule 1. The word of 12 with bits of chunk 1 damaged or erased.
        refused(card_b(), "111 ?01 111 111 000", 10);
        reads(card_b(), "111 1?? 111 111 000", [12, 0, 1], [Some(0), None]);
        refused(card_b(), "111 ?-? 111 111 000", 10);
        refused(card_b(), "111 ??0 111 111 000", 12);
        // Rule 3. Both chunks are named. m from 0 to 3 has m places differing, and 1 more where place 4 is damaged.
        reads(card_b(), "000 0-0 000 0?? 000", [0, 0, 3], [Some(0), Some(0)]);
        reads(card_b(), "000 010 000 ?0? 000", [0, 1, 3], [Some(1), Some(0)]);
        refused(card_b(), "000 01? 000 000 000", 10);
        refused(card_b(), "000 000 000 ?10 000", 10);
        refused(card_b(), "000 ??1 000 000 000", 11);
    }

    /// D 5: two wrong, one wrong and two erased, or four erased, each 4, are read; one more of either is not.
    #[test]
    fn a_chunk_of_five_bits_bears_four() {
        // 01?-0: place 6 is wrong, 7 and 8 are erased. ????0: four erased. m from 0 to 5 has 1 + m places differing.
        reads(card_of_five(), "00000 01?-0 00000 ????0 00000", [0, 1, 3], [Some(1), Some(0)]);
        // 10?11: place 6 is wrong, 7 is erased, 2 × 1 + 1 = 3. 01011: places 15 and 17 are wrong, 4. m from 20 to 25 has
        // 3 + (25 - m) places differing.
        reads(card_of_five(), "11111 10?11 11111 01011 11111", [25, 3, 3], [Some(1), Some(2)]);
        // 01?10 has two wrong and one erased against 00000 and against 11111, 01??? one wrong and three erased: 5.
        refused(card_of_five(), "00000 01?10 00000 00000 00000", 10);
        refused(card_of_five(), "00000 00000 00000 01??? 00000", 10);
        refused(card_of_five(), "00000 ????? 00000 00000 00000", 10);
    }

    /// Card A, D 2: one erased bit is read though t is 0, as a codeword follows from any two of its bits. Two erased or one
    /// wrong are 2.
    #[test]
    fn a_chunk_of_card_a_bears_one_erased_bit() {
        // 11 110 11 110 10 is the word of 9: 9 of the places in which w(0), all zeros, and w(1) = 11 110 11 110 11 differ are
        // taken from w(1). Separator 3 ties, so rule 1; p 1 allows 0 + 2 + 2 = 4 to 10.
        reads(card_a(), "11 ?10 11 110 10", [9, 0, 1], [Some(0), None]);
        refused(card_a(), "11 ?-0 11 110 10", 10);
        refused(card_a(), "11 010 11 110 10", 10);
        // With separator 3 erased, the words of 8, 9 and 10 have no place differing.
        reads(card_a(), "11 110 11 110 -?", [8, 0, 1], [Some(0), None]);
        // The word of 5, whose separator 2 ties: rule 2, p 0 allows 0 to 2 × 2 + 2 = 6.
        reads(card_a(), "11 110 10 0?0 00", [5, 0, 2], [None, Some(0)]);
        // The last position, 30, has the word 11 011 11 011 11; p 3 allows 30 - 2 to 30.
        reads(card_a(), "11 ?11 11 0-1 11", [30, 0, 3], [Some(0), Some(0)]);
    }

    /// A tie, or a separator that is erased whole, reads 0. Here rule 3 is named, which it would not be if they read 1.
    #[test]
    fn a_separator_sum_of_zero_reads_0() {
        // The words of 0 to 3 have 1, 0, 1 and 1 places differing, place 2 being erased.
        reads(card_b(), "10? 000 000 000 000", [1, 0, 3], [Some(0), Some(0)]);
        // They have 1, 1, 2 and 1, place 0 being erased.
        reads(card_b(), "-01 000 000 000 000", [0, 1, 3], [Some(0), Some(0)]);
        // In these two, m has 1 + m.
        reads(card_b(), "000 000 0-1 000 000", [0, 1, 3], [Some(0), Some(0)]);
        reads(card_b(), "000 000 000 000 1?0", [0, 1, 3], [Some(0), Some(0)]);
        // In the first of these three, all four have 0; in the others, m has m.
        reads(card_b(), "??? 000 000 000 000", [0, 0, 3], [Some(0), Some(0)]);
        reads(card_b(), "000 000 --- 000 000", [0, 0, 3], [Some(0), Some(0)]);
        reads(card_b(), "000 000 000 000 -?-", [0, 0, 3], [Some(0), Some(0)]);
        // 0 1 1, so rule 2, and chunk 2 reads the last p.
        refused(card_b(), "-?- 111 111 111 111", 12);
    }

    /// Request P6: the words of src/reading.rs that it refuses, and those where 9 to 12 come first, as levels of 1 and -1.
    #[test]
    fn plain_words_in_contradiction_are_refused() {
        // Rule 3.
        refused(card_b(), "000 111 000 111 000", 17);
        refused(card_b(), "100 110 001 101 010", 17);
        refused(card_b(), "111 000 111 000 111", 17);
        refused(card_a(), "11 101 11 101 11", 17);
        refused(card_a(), "10 110 01 110 10", 17);
        // Rule 1.
        refused(card_b(), "000 111 000 000 111", 17);
        refused(card_a(), "00 011 00 101 11", 17);
        refused(card_a(), "11 101 11 110 00", 17);
        refused(card_of_two_rows(), "110 11010 011 00000 000", 17);
        // Rule 2.
        refused(card_b(), "000 000 111 000 111", 17);
        refused(card_a(), "00 110 11 101 11", 17);
        refused(card_a(), "11 101 00 110 00", 17);
        // 9 to 12.
        refused(card_b(), "000 111 111 111 000", 9);
        refused(card_a(), "11 000 11 100 11", 10);
        refused(card_b(), "111 000 111 111 111", 11);
        refused(card_a(), "00 110 00 011 00", 11);
        refused(card_b(), "111 000 111 000 000", 12);
        refused(card_b(), "111 000 000 111 000", 12);
        refused(card_a(), "11 000 00 011 00", 12);
    }

    /// Request P6 with erased bits.
    #[test]
    fn words_with_erased_bits_in_contradiction_are_refused() {
        // Rule 3: the separators sum to 2, 3 and 2, and read 0; both chunks read 1, with one bit erased and with two.
        refused(card_b(), "0?0 1-1 000 1?? -00", 17);
        // Separators that are erased whole read 0.
        refused(card_b(), "??? 111 --- 111 ?-?", 17);
        // With no bit of separator 1 erased, it would be separators 1 0 0: rule 2 with p 1, the last.
        refused(card_b(), "111 111 --- 111 ?-?", 12);
        // Rule 1: separators 0 0 1, and chunk 1 reads 1.
        refused(card_b(), "000 1?? 0-0 000 111", 17);
        // Rule 2: separators 0 1 1, separator 3 summing to -2, and chunk 2 reads 0.
        refused(card_b(), "?00 000 111 0?- 11?", 17);
        // Rule 1: separators 1 1 0, separator 3 summing to 1. ?01 reads as 101, p 2: one erased, which is below D, 2.
        refused(card_a(), "11 ?01 11 000 0?", 17);
        // Rule 2: separators 0 1 1, separator 3 summing to -1. 1?1 reads as 101, p 2.
        refused(card_a(), "00 000 11 1?1 1-", 17);
        // With separator 3 erased whole, 0 1 0.
        refused(card_a(), "00 000 11 1?1 ?-", 9);
    }

    /// Request P6: what is held against the parity of p is the separator's sum, not most of its bits.
    #[test]
    fn a_contradiction_goes_by_the_sum() {
        // As levels of 1 and -1, separators 1 1 1 with p 1. The words of 12 to 15 have 4, 3, 2 and 3 places differing.
        let mut word = levels("110 111 110 111 110");
        levels_read(card_b(), &word, [14, 2, 3], [Some(0), Some(0)]);
        // -1 - 1 + 5 is above zero: separators 1 1 0, rule 1. From 6 to 8, m has 14 - m places differing, from 9 to 14 it has
        // 2 + 14 - m; 15 has 3.
        word[14] = 5.0;
        levels_read(card_b(), &word, [14, 2, 1], [Some(0), None]);
        // 1 0 0: rule 2 with p 1, the last.
        word[8] = 5.0;
        assert_eq!(read_levels(&card_b(), &word), Err(12));
        // 0 0 0: rule 3, but p is 1.
        word[2] = 5.0;
        assert_eq!(read_levels(&card_b(), &word), Err(17));
        // The other way round: 1 + 1 - 5 is below zero, so separators 1 1 1, but p is 0.
        let word: Vec<f32> = word.iter().map(|level| -level).collect();
        assert_eq!(read_levels(&card_b(), &word), Err(17));
    }

    /// A separator goes by its sum, not by how many of its bits are 1, and each one's sum starts from zero.
    #[test]
    fn a_separator_goes_by_its_sum() {
        // The word of 1. -5 + 1 + 1 is below zero: separators 1 0 0.
        levels_read(card_b(), &levels_with("100 000 000 000 000", 0, &[-5.0]), [1, 0, 2], [None, Some(0)]);
        // The word of 2. -1 - 1 + 5 is above: 0 0 0.
        levels_read(card_b(), &levels_with("110 000 000 000 000", 2, &[5.0]), [2, 0, 3], [Some(0), Some(0)]);
        // The word of 6, separator 1 strong: 1 0 0, since its sum isn't added to the next one's.
        let strong = levels_with("111 111 000 000 000", 0, &[-1e6, -1e6, -1e6]);
        levels_read(card_b(), &strong, [6, 0, 2], [None, Some(0)]);
    }

    /// From 2^19 to 2^20 single-precision numbers stand 1/16 apart, and 1,000,000 is 16,000,000 of these. The bits of separator 1
    /// are 0 1 1, so that the word of 3 has one place differing and those of 0, 1, 2 and 4 have more.
    #[test]
    fn separator_sums_are_rounded() {
        let put = |separator: [f32; 3]| levels_with("000 000 000 000 000", 0, &separator);
        // 0.03 is less than half of 1/16: the sum stays at 1,000,000, then it is 0. Not rounded it would be below zero.
        levels_read(card_b(), &put([1e6, -0.03, -1e6]), [3, 1, 3], [Some(0), Some(0)]);
        // 0.04 is more than half: 1/16 is taken away.
        levels_read(card_b(), &put([1e6, -0.04, -1e6]), [3, 1, 2], [None, Some(0)]);
        // 1/32 is half: the even one, 1,000,000, is taken.
        levels_read(card_b(), &put([1e6, -0.03125, -1e6]), [3, 1, 3], [Some(0), Some(0)]);
    }

    /// The same three levels in three orders.
    #[test]
    fn separator_sums_go_in_order() {
        let put = |separator: [f32; 3]| levels_with("000 000 000 000 000", 0, &separator);
        // 0, then -0.03: separators 1 0 0. From the last place on, -0.03 would be rounded away.
        levels_read(card_b(), &put([1e6, -1e6, -0.03]), [3, 1, 2], [None, Some(0)]);
        // -0.03 is rounded away, which from the last place on it would not be: 0 0 0.
        levels_read(card_b(), &put([-0.03, -1e6, 1e6]), [2, 0, 3], [Some(0), Some(0)]);
        // The same, from either end.
        levels_read(card_b(), &put([1e6, -0.03, -1e6]), [3, 1, 3], [Some(0), Some(0)]);
    }

    /// The least magnitude above zero, 2^-149, is a level like another, and not erased.
    #[test]
    fn the_least_level_is_not_erased() {
        let least = f32::from_bits(1);
        // The word of 7 with place 10 damaged, chunk 2 faint: were those bits erased, they would not count.
        let faint = levels_with("111 111 100 000 000", 9, &[least, -least]);
        levels_read(card_b(), &faint, [7, 1, 2], [None, Some(1)]);
        // The word of 2: separator 1 sums to -2^-149, and reads 1.
        let faint = levels_with("000 000 000 000 000", 0, &[-least, -least, least]);
        levels_read(card_b(), &faint, [2, 0, 2], [None, Some(0)]);
    }

    /// Asserts the strength of levels that card B reads, bit for bit.
    fn strength_is(levels: &[f32], sum: f32, greatest: f32) {
        let (_, strength) = read_levels(&card_b(), levels).expect("the levels are read");
        let bits = [strength.sum, strength.greatest].map(f32::to_bits);
        assert_eq!(bits, [sum, greatest].map(f32::to_bits), "{strength:?} of levels {levels:?}");
    }

    #[test]
    fn strength_sums_magnitudes_and_finds_the_greatest() {
        strength_is(&levels("111 111 100 000 000"), 15.0, 1.0);
        // Three erased bits add nothing.
        strength_is(&levels("-11 1?1 100 000 00-"), 12.0, 1.0);
        // 14 + 7.5, the greatest negative and in the middle; 14 + 2.25, the greatest in the last place, then in the first.
        strength_is(&levels_with("111 111 100 000 000", 4, &[-7.5]), 21.5, 7.5);
        strength_is(&levels_with("111 111 100 000 000", 14, &[2.25]), 16.25, 2.25);
        strength_is(&levels_with("111 111 100 000 000", 0, &[-2.25]), 16.25, 2.25);
        // All below 1: 15 × 2^-20.
        let faint: Vec<f32> = levels("111 111 100 000 000").iter().map(|level| level / 1_048_576.0).collect();
        strength_is(&faint, 15.0 / 1_048_576.0, 1.0 / 1_048_576.0);
    }

    /// As in separators, numbers about 1,000,000 stand 1/16 apart.
    #[test]
    fn strength_sums_are_rounded_in_order() {
        // 1,000,000 + 1/16 is odd, so the first 1/32, a half, leads up to 1,000,000 + 2/16, which is even, and twelve more stay
        // there. Not rounded, they would add 13/32 to 1,000,000 + 1/16.
        let mut levels = [0.03125f32; 15];
        (levels[0], levels[1]) = (1e6, 0.0625);
        strength_is(&levels, 1e6 + 0.125, 1e6);
        // The other way round: 13/32 + 2/32 is 15/32, and the last sum, 7 1/2 sixteenths above 1,000,000, goes to 8, the even one.
        levels.reverse();
        strength_is(&levels, 1e6 + 0.5, 1e6);
    }

    /// No word that is erased whole is read, n being at least D, so the strength is asked by itself: both zeros are positive.
    #[test]
    fn strength_of_erased_bits_is_zero() {
        for erased in [vec![0.0; 15], vec![-0.0; 15], levels("?-? --- ??? -?- ---")] {
            let Strength { sum, greatest } = strength(&erased);
            assert_eq!([sum.to_bits(), greatest.to_bits()], [0, 0], "levels {erased:?}");
            assert_eq!(read_levels(&card_b(), &erased), Err(10));
        }
        assert_eq!(read_levels(&card_a(), &[-0.0; 12]), Err(10));
    }

    #[test]
    fn other_than_d_levels_are_refused() {
        let word = levels("111 111 100 000 000 00");
        for count in [0, 1, 2, 14, 16, 17] {
            assert_eq!(read_levels(&card_b(), &word[..count]), Err(15), "{count} levels");
        }
        // Card A: d is 12.
        for count in [0, 11, 13, 15] {
            assert_eq!(read_levels(&card_a(), &word[..count]), Err(15), "{count} levels");
        }
        levels_read(card_b(), &word[..15], [7, 0, 2], [None, Some(0)]);
    }

    /// Not a number, quiet or signalling, of either sign; infinite; and the next number above 1,000,000, of either sign.
    fn outside() -> [f32; 8] {
        let above = f32::from_bits(1e6f32.to_bits() + 1);
        let nans = [0x7FC0_0000, 0xFFC0_0000, 0x7F80_0001, 0xFF80_0001].map(f32::from_bits);
        [nans[0], nans[1], nans[2], nans[3], f32::INFINITY, f32::NEG_INFINITY, above, -above]
    }

    #[test]
    fn a_level_outside_the_limits_is_refused_in_every_place() {
        for place in 0..15 {
            for level in outside() {
                let word = levels_with("111 111 100 000 000", place, &[level]);
                assert_eq!(read_levels(&card_b(), &word), Err(16), "{level} in place {place}");
            }
        }
    }

    /// All fifteen at the limit: 15 × 1,000,000 is below 2^24, so every sum on the way is exact.
    #[test]
    fn a_level_at_the_limits_is_allowed() {
        let word: Vec<f32> = levels("111 111 100 000 000").iter().map(|level| level * 1e6).collect();
        levels_read(card_b(), &word, [7, 0, 2], [None, Some(0)]);
        strength_is(&word, 15e6, 1e6);
    }

    #[test]
    fn refusals_come_in_order() {
        // The card's, before 15 and 16: 511 bytes, a byte changed, all zeros, and rows 3 and 3, with check
        // 1 × 3 + 2 × 2 + 12 × 3 + 20 × 3 = 103.
        let mut changed = card_b();
        changed[3] = 15;
        let nans = [f32::NAN; 15];
        for count in [0, 15] {
            assert_eq!(read_levels(&card_b()[..511], &nans[..count]), Err(1));
            assert_eq!(read_levels(&changed, &nans[..count]), Err(2));
            assert_eq!(read_levels(&[0; 512], &nans[..count]), Err(3));
            assert_eq!(read_levels(&card(3, 0, &[3, 3], 103), &nans[..count]), Err(5));
        }
        // 15 before 16.
        assert_eq!(read_levels(&card_b(), &nans[..14]), Err(15));
        assert_eq!(read_levels(&card_b(), &[f32::INFINITY; 16]), Err(15));
        // 16 before 9, 10, 11, 12 and 17: these words would be refused so, but for their last level or their first.
        let words = [
            ("000 000 111 000 000", 9),
            ("111 111 100 01? 000", 10),
            ("000 ??1 000 000 000", 11),
            ("111 111 100 ??1 000", 12),
            ("000 1?1 000 111 000", 17),
        ];
        for (word, number) in words {
            refused(card_b(), word, number);
            assert_eq!(read_levels(&card_b(), &levels_with(word, 14, &[f32::INFINITY])), Err(16));
            assert_eq!(read_levels(&card_b(), &levels_with(word, 0, &[f32::NAN])), Err(16));
        }
    }

    /// The search may set out from any position: a word of each rule, and two that are refused.
    #[test]
    fn the_walk_may_stand_anywhere() {
        let track = Track::of_card(&card_b()).expect("card B is sound");
        let mut walk = Walk::new(&track);
        for position in 0..=15 {
            walk.go_to(position);
            let read = ["111 1?1 111 101 000", "111 ?10 100 0?0 000", "000 010 000 0?? -00"];
            for word in read.into_iter().chain(["000 01? 000 000 000", "000 111 000 1?1 000"]) {
                let levels = levels(word);
                assert_eq!(read_levels_from(&walk, &levels), read_levels(&card_b(), &levels), "{word} from {position}");
            }
        }
    }
}
