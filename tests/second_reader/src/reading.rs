//! Reading a plain received word, which travels as bytes: its bits, and how the rules see them.
use crate::code::Code;
use crate::rules::{self, Received};
use crate::walk::Walk;
use crate::word::{unlike, unpacked};
use crate::Refusal;

/// A received word's position, residual and rule, and the bits that its chunks needed.
#[derive(Clone, Copy, Debug, PartialEq, Eq)]
pub struct Reading {
    pub position: u32,
    pub residual: u32,
    pub rule: u32,
    /// Request P3: in how many places code chunk 1, as received, and the codeword that it reads as differ. None where the rule
    /// doesn't name the chunk, which is then not read, whatever it holds.
    pub chunk1_bits: Option<u32>,
    /// The same of code chunk 2.
    pub chunk2_bits: Option<u32>,
}

/// Reads a received word of a walk's track. The search sets out from where the walk stands, or from position 0 if that is past the
/// first allowed position. The answer is the same from anywhere; words read in the order of their positions take fewer steps.
pub fn read_from(walk: &Walk, bytes: &[u8]) -> Result<Reading, Refusal> {
    let code = &walk.track.card.code;
    if bytes.len() != code.word_bytes() {
        return Err(6);
    }
    let bits = unpacked(bytes);
    let (received, spare) = bits.split_at(code.word_bits());
    if spare.contains(&true) {
        return Err(8);
    }
    rules::read(walk, received)
}

impl Received for [bool] {
    /// A separator reads 1 if more than half its bits are 1, else 0; a tie reads 0.
    fn separator(&self) -> bool {
        self.len() < 2 * self.iter().filter(|&&bit| bit).count()
    }

    /// The codeword within t bits.
    fn code_chunk(&self, code: &Code) -> Option<(usize, usize)> {
        code.read_chunk(self)
    }

    /// All d bits count.
    fn unlike(&self, word: &[bool]) -> usize {
        unlike(word, self)
    }
}

/// Expected values are worked out by hand from document 01 and requests P3 and P6. In a word's chunks place 0 stands leftmost.
#[cfg(test)]
mod tests {
    use super::Reading;
    use crate::read_word;
    use crate::test_cards::{card_a, card_b, card_of_five, card_of_two_rows};

    /// Asserts what a word reads as: position, residual and rule, then the bits of both chunks.
    fn reads(card: [u8; 512], word: &[u8], [position, residual, rule]: [u32; 3], bits: [Option<u32>; 2]) {
        let [chunk1_bits, chunk2_bits] = bits;
        let expected = Reading { position, residual, rule, chunk1_bits, chunk2_bits };
        assert_eq!(read_word(&card, word), Ok(expected), "word {word:02X?}");
    }

    /// Rule 1 on card B, where p 1 allows 0 + 3 + 3 = 6 to 15: chunk 1 has a count, chunk 2 none.
    #[test]
    fn rule_1_counts_chunk_1_alone() {
        // 111 111 111 111 000 is the word of 12, undamaged.
        reads(card_b(), &[0xFF, 0x0F], [12, 0, 1], [Some(0), None]);
        // 111 101 111 111 000: 12 with place 4 damaged. 101 is one bit from 111; m from 6 to 15 has 1 + |12 - m| bits differing.
        reads(card_b(), &[0xEF, 0x0F], [12, 1, 1], [Some(1), None]);
        // 111 111 111 101 000: 12 with place 10 damaged. The damage is in chunk 2, which rule 1 doesn't name. The word of 10 has
        // one bit differing, at place 11, that of 12 one, at place 10: the smaller is the answer.
        reads(card_b(), &[0xFF, 0x0B], [10, 1, 1], [Some(0), None]);
    }

    /// Rule 2 on card B, where p 0 allows 0 to 2 × 3 + 3 = 9: chunk 2 has a count, chunk 1 none.
    #[test]
    fn rule_2_counts_chunk_2_alone() {
        // 111 111 100 000 000 is the word of 7, undamaged.
        reads(card_b(), &[0x7F, 0x00], [7, 0, 2], [None, Some(0)]);
        // 111 110 100 000 000: 7 with place 5 damaged. The damage is in chunk 1, which rule 2 doesn't name. The word of 5 has one
        // bit differing, at place 6, that of 7 one, at place 5: the smaller is the answer.
        reads(card_b(), &[0x5F, 0x00], [5, 1, 2], [None, Some(0)]);
        // 111 111 100 010 000: 7 with place 10 damaged. 010 is one bit from 000; m from 0 to 9 has 1 + |7 - m| bits differing.
        reads(card_b(), &[0x7F, 0x04], [7, 1, 2], [None, Some(1)]);
    }

    /// Rule 3 on card B: each chunk has its own count. p 0 allows 0 to 3, p 1 allows 12 to 15.
    #[test]
    fn rule_3_counts_each_chunk() {
        // 000 000 000 000 000 is the word of 0, undamaged.
        reads(card_b(), &[0x00, 0x00], [0, 0, 3], [Some(0), Some(0)]);
        // 000 010 000 000 000: place 4 damaged, in chunk 1. m from 0 to 3 has 1 + m bits differing.
        reads(card_b(), &[0x10, 0x00], [0, 1, 3], [Some(1), Some(0)]);
        // 000 000 000 010 000: place 10 damaged, in chunk 2. m from 0 to 3 has 1 + m bits differing.
        reads(card_b(), &[0x00, 0x04], [0, 1, 3], [Some(0), Some(1)]);
        // 000 010 000 010 000: both damaged. m from 0 to 3 has 2 + m bits differing.
        reads(card_b(), &[0x10, 0x04], [0, 2, 3], [Some(1), Some(1)]);
        // 111 011 111 111 111: the word of 15 with place 3 damaged, in chunk 1. 011 is one bit from 111; m from 12 to 15 has
        // 1 + (15 - m) bits differing.
        reads(card_b(), &[0xF7, 0x7F], [15, 1, 3], [Some(1), Some(0)]);
    }

    /// Rule 3 at t 2, with counts that differ and are not 0. p 0 allows 0 to 5, p 1 allows 20 to 25.
    #[test]
    fn rule_3_counts_more_than_one_bit() {
        // 00000 01010 00000 00100 00000: the word of 0 with places 6, 8 and 17 damaged. 01010 is two bits from 00000 and three from
        // 11111, 00100 one from 00000. m from 0 to 5 has 3 + m bits differing.
        reads(card_of_five(), &[0x40, 0x01, 0x02, 0x00], [0, 3, 3], [Some(2), Some(1)]);
        // 11111 11011 11111 10110 11111: the word of 25 with places 7, 16 and 19 damaged. 11011 is one bit from 11111, 10110 two.
        // m from 20 to 25 has 3 + (25 - m) bits differing.
        reads(card_of_five(), &[0x7F, 0xFF, 0xF6, 0x01], [25, 3, 3], [Some(1), Some(2)]);
    }

    /// A chunk that the rule doesn't name has no count even where it could not be read: on card A t is 0 and 100 is no codeword.
    #[test]
    fn an_unnamed_chunk_may_be_unreadable() {
        // 11 100 00 000 00: separators 1 0 0, so rule 2. w(0), all zeros, and w(1) = 11 110 11 110 11 first differ at places 0, 1
        // and 2, so this is the word of 3; p 0 allows 0 to 2 × 2 + 2 = 6.
        reads(card_a(), &[0x07, 0x00], [3, 0, 2], [None, Some(0)]);
        // 11 110 11 100 00: separators 1 1 0, so rule 1. Places 0 to 3, 5, 6 and 7 are taken from w(1), so this is the word of 7;
        // p 1 allows 0 + 2 + 2 = 4 to 10.
        reads(card_a(), &[0xEF, 0x00], [7, 0, 1], [Some(0), None]);
    }

    /// Asserts that a word is refused.
    fn refused(card: [u8; 512], word: &[u8], number: u32) {
        assert_eq!(read_word(&card, word), Err(number), "word {word:02X?}");
    }

    /// Request P6 by rule 3: separator 1 isn't the parity of the p that both chunks read.
    #[test]
    fn rule_3_finds_separator_1_in_contradiction() {
        // 000 111 000 111 000: p 1, separator 1 is 0. Among 12 to 15, the word of 12 would be nearest, with 6 bits differing.
        refused(card_b(), &[0x38, 0x0E], 17);
        // 100 110 001 101 010: the same with a place damaged in every chunk.
        refused(card_b(), &[0x19, 0x2B], 17);
        // 111 000 111 000 111: p 0, separator 1 is 1.
        refused(card_b(), &[0xC7, 0x71], 17);
        // 11 101 11 101 11: p 2, separator 1 is 1.
        refused(card_a(), &[0xF7, 0x0E], 17);
        // 10 110 01 110 10: p 1. All three separators tie and read 0.
        refused(card_a(), &[0xCD, 0x05], 17);
    }

    /// By rule 1: separator 1 isn't the parity of the p that chunk 1 reads.
    #[test]
    fn rule_1_finds_separator_1_in_contradiction() {
        // 000 111 000 000 111: separators 0 0 1, p 1.
        refused(card_b(), &[0x38, 0x70], 17);
        // 00 011 00 101 11: separators 0 0 1, p 3. Chunk 2, which isn't named, is c(2).
        refused(card_a(), &[0x98, 0x0E], 17);
        // 11 101 11 110 00: separators 1 1 0, p 2. Chunk 2 is c(1).
        refused(card_a(), &[0xF7, 0x01], 17);
        // 110 11010 011 00000 000: separators 1 1 0. 11010 is one bit from 11011, c(2), so p 2.
        refused(card_of_two_rows(), &[0x5B, 0x06, 0x00], 17);
    }

    /// By rule 2: separator 3 isn't the parity of the p that chunk 2 reads.
    #[test]
    fn rule_2_finds_separator_3_in_contradiction() {
        // 000 000 111 000 111: separators 0 1 1, p 0.
        refused(card_b(), &[0xC0, 0x71], 17);
        // 00 110 11 101 11: separators 0 1 1, p 2. Separator 1 is its parity, but by rule 2 that isn't asked.
        refused(card_a(), &[0xEC, 0x0E], 17);
        // 11 101 00 110 00: separators 1 0 0, p 1. Here too separator 1 is its parity.
        refused(card_a(), &[0x97, 0x01], 17);
    }

    /// 9 to 12 come before 17: in each of these words the codewords contradict the separators besides.
    #[test]
    fn a_contradiction_is_seen_last() {
        // 000 111 111 111 000: separators 0 1 0. Separators 1 and 3 are 0, both chunks read 1.
        refused(card_b(), &[0xF8, 0x0F], 9);
        // 11 000 11 100 11: rule 3. Chunk 1 reads 0, but separator 1 is 1; 100 is no codeword.
        refused(card_a(), &[0xE3, 0x0C], 10);
        // 111 000 111 111 111: rule 3. Chunk 1 reads 0, but separator 1 is 1; chunk 2 reads 1.
        refused(card_b(), &[0xC7, 0x7F], 11);
        // 00 110 00 011 00: rule 3. The chunks read 1 and 3, but separator 1 is 0.
        refused(card_a(), &[0x0C, 0x03], 11);
        // 111 000 111 000 000: rule 1 with p 0, but separator 1 is 1.
        refused(card_b(), &[0xC7, 0x01], 12);
        // 111 000 000 111 000: rule 2 with p 1, the last, but separator 3 is 0.
        refused(card_b(), &[0x07, 0x0E], 12);
        // 11 000 00 011 00: rule 2 with p 3, the last, but separator 3 is 0.
        refused(card_a(), &[0x03, 0x03], 12);
    }
}
