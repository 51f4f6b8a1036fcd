//! Words whose bits came as levels, request P5: cases worked by hand. In words place 0 stands leftmost.
mod cards;
mod readings;

use cards::{card_of, offset_card};
use dunnavish::{read_levels, read_word, Reading, Refusal, Strength};
use readings::{rule_1, rule_2, rule_3};

/// Card A: n 3, rows 3 and 6, so D 2, t 0 and d 12. c(0) to c(3) are 000, 110, 101 and 011; w(0) is all zeros and w(1) is
/// 11 110 11 110 11, of whose ones the word of position m, up to 10, has the first m.
fn card_a() -> Vec<u8> {
    card_of(3, 2, 0, &[3, 6])
}

/// Card B: n 3, row 7, so D 3, t 1 and d 15. c(0) is 000 and c(1) 111; the word of position m has ones in its first m places, up to
/// 15. Separators and code chunks take turns, three places each. Rule 1 with p 1 allows 6 to 15, rule 2 with p 0 allows 0 to 9,
/// rule 3 allows 0 to 3 with p 0 and 12 to 15 with p 1.
fn card_b() -> Vec<u8> {
    card_of(3, 1, 14, &[7])
}

/// The levels of a word: -1 for a 1, 1 for a 0, and for erased bits the two zeros, `?` the positive and `-` the negative one.
fn levels(word: &str) -> Vec<f32> {
    let level = |bit| match bit {
        '1' => -1.0,
        '0' => 1.0,
        '?' => 0.0,
        '-' => -0.0,
        _ => panic!("{bit} is no bit"),
    };
    word.chars().filter(|bit| *bit != ' ').map(level).collect()
}

/// The levels of a word, with these in the places from `start` on.
fn levels_with(word: &str, start: usize, put: &[f32]) -> Vec<f32> {
    let mut levels = levels(word);
    levels[start..start + put.len()].copy_from_slice(put);
    levels
}

/// The reading of levels, without the strength.
fn reading(card: &[u8], levels: &[f32]) -> Result<Reading, Refusal> {
    read_levels(card, levels).map(|(reading, _)| reading)
}

/// The reading of a word of levels 1, -1 and 0.
fn read(card: &[u8], word: &str) -> Result<Reading, Refusal> {
    reading(card, &levels(word))
}

#[test]
fn every_word_of_levels_1_and_minus_1_is_the_plain_word() {
    for (card, bits) in [(card_a(), 12), (card_b(), 15)] {
        for word in 0u16..1 << bits {
            let levels: Vec<f32> = (0..bits).map(|place| if word >> place & 1 == 1 { -1.0 } else { 1.0 }).collect();
            let plain =
                read_word(&card, &word.to_le_bytes()).map(|reading| (reading, Strength { sum: bits as f32, greatest: 1.0 }));
            assert_eq!(read_levels(&card, &levels), plain, "word {word:015b}, place 0 rightmost");
        }
    }
}

#[test]
fn an_erased_bit_in_each_chunk() {
    let card = card_b();
    // 111 111 111 100 000, position 10, rule 1
    assert_eq!(read(&card, "1?1 111 111 100 000"), rule_1(10, 0, 0));
    assert_eq!(read(&card, "111 1-1 111 100 000"), rule_1(10, 0, 0));
    assert_eq!(read(&card, "111 111 11? 100 000"), rule_1(10, 0, 0));
    assert_eq!(read(&card, "111 111 111 100 -00"), rule_1(10, 0, 0));
    // the words of 9 and 10 differ in place 9 alone: where it is erased, both have no bit differing, and the smaller is the answer
    assert_eq!(read(&card, "111 111 111 ?00 000"), rule_1(9, 0, 0));
    assert_eq!(read(&card, "111 111 111 -00 000"), rule_1(9, 0, 0));
    // 111 100 000 000 000, position 4, rule 2; the words of 3 and 4 differ in place 3, which is in the chunk that is not named
    assert_eq!(read(&card, "111 100 000 0?0 000"), rule_2(4, 0, 0));
    assert_eq!(read(&card, "111 -00 000 000 000"), rule_2(3, 0, 0));
    // 000 000 000 000 000, position 0, rule 3
    assert_eq!(read(&card, "000 0?0 000 00- 000"), rule_3(0, 0, [0, 0]));
    // position 15: where the last place is erased, the word of 14 is as near, and where the last three are, that of 12
    assert_eq!(read(&card, "111 111 111 111 11?"), rule_3(14, 0, [0, 0]));
    assert_eq!(read(&card, "111 111 111 111 ?-?"), rule_1(12, 0, 0));
}

#[test]
fn an_erased_bit_is_in_no_count() {
    let card = card_b();
    // position 10's word with place 4 damaged and place 10 erased, in which alone the words of 10 and 11 differ
    assert_eq!(read(&card, "111 101 111 1?0 000"), rule_1(10, 1, 1));
    // position 12's with place 4 erased and place 10 damaged: 10 differs in place 11, 12 in place 10, and 11 in both
    assert_eq!(read(&card, "111 1?1 111 101 000"), rule_1(10, 1, 0));
    // position 0's with one bit erased and one damaged, in either chunk
    assert_eq!(read(&card, "000 100 000 0?0 000"), rule_3(0, 1, [1, 0]));
    assert_eq!(read(&card, "000 ?00 000 010 000"), rule_3(0, 1, [0, 1]));
}

/// D is 3: one bit wrong, 2, is read, two erased, 2, are; one wrong and one erased, 3, and three erased, 3, are not.
#[test]
fn a_chunk_of_card_b_bears_2() {
    let card = card_b();
    // chunk 1 by rule 1; two bits wrong are one bit from the other codeword, p 0, before which there is no block
    assert_eq!(read(&card, "111 110 111 100 000"), rule_1(10, 1, 1));
    assert_eq!(read(&card, "111 ?1- 111 100 000"), rule_1(10, 0, 0));
    assert_eq!(read(&card, "111 10? 111 100 000"), Err(Refusal::ChunkUnreadable));
    assert_eq!(read(&card, "111 ?-? 111 100 000"), Err(Refusal::ChunkUnreadable));
    assert_eq!(read(&card, "111 ?0- 111 100 000"), Err(Refusal::NoBlock));
    // chunk 2 by rule 2; p 1 is the last
    assert_eq!(read(&card, "111 100 000 010 000"), rule_2(4, 1, 1));
    assert_eq!(read(&card, "111 100 000 0-? 000"), rule_2(4, 0, 0));
    assert_eq!(read(&card, "111 100 000 01- 000"), Err(Refusal::ChunkUnreadable));
    assert_eq!(read(&card, "111 100 000 ??? 000"), Err(Refusal::ChunkUnreadable));
    assert_eq!(read(&card, "111 100 000 -1? 000"), Err(Refusal::NoBlock));
    // both by rule 3
    assert_eq!(read(&card, "000 0?- 000 100 000"), rule_3(0, 1, [0, 1]));
    assert_eq!(read(&card, "000 ?10 000 000 000"), Err(Refusal::ChunkUnreadable));
    assert_eq!(read(&card, "000 000 000 1?0 000"), Err(Refusal::ChunkUnreadable));
    assert_eq!(read(&card, "000 ?1- 000 0?? 000"), Err(Refusal::ChunksDiffer));
    // a chunk that is not named may be erased whole: 3 to 6 have no bit differing, and 9 to 12
    assert_eq!(read(&card, "111 ??? 000 000 000"), rule_2(3, 0, 0));
    assert_eq!(read(&card, "111 111 111 -?- 000"), rule_1(9, 0, 0));
}

/// D is 2, t is 0: one bit erased, 1, is read, since any two bits of a codeword give the third; two erased or one wrong, 2, are not.
#[test]
fn a_chunk_of_card_a_bears_1() {
    let card = card_a();
    // 11 110 11 100 00, position 7, rule 1 with p 1
    assert_eq!(read(&card, "11 1?0 11 100 00"), rule_1(7, 0, 0));
    assert_eq!(read(&card, "11 11- 11 100 00"), rule_1(7, 0, 0));
    assert_eq!(read(&card, "11 1?- 11 100 00"), Err(Refusal::ChunkUnreadable));
    assert_eq!(read(&card, "11 100 11 100 00"), Err(Refusal::ChunkUnreadable));
    // 11 000 00 000 00, position 2, rule 2 with p 0
    assert_eq!(read(&card, "11 000 00 00? 00"), rule_2(2, 0, 0));
    assert_eq!(read(&card, "11 000 00 -0? 00"), Err(Refusal::ChunkUnreadable));
    // 11 011 11 011 11 is w(3), position 30, the last, rule 3
    assert_eq!(read(&card, "11 -11 11 01? 11"), rule_3(30, 0, [0, 0]));
}

/// D is 64: 31 bits wrong and 1 erased are 63; with 2 erased they are 64, as are the other 31 against the other codeword.
#[test]
fn a_chunk_of_64_bits_bears_63() {
    let card = card_of(64, 1, 65_535, &[u64::MAX]);
    for first in [64, 192] {
        let damaged = |wrong: usize, erased: usize| {
            let mut levels = vec![1.0; 320];
            levels[first..first + wrong].fill(-1.0);
            levels[first + wrong..first + wrong + erased].fill(0.0);
            reading(&card, &levels)
        };
        let wrong = |bits: u32| if first == 64 { [bits, 0] } else { [0, bits] };
        assert_eq!(damaged(31, 1), rule_3(0, 31, wrong(31)));
        assert_eq!(damaged(0, 63), rule_3(0, 0, wrong(0)));
        assert_eq!(damaged(1, 61), rule_3(0, 1, wrong(1)));
        for (wrong, erased) in [(31, 2), (0, 64), (1, 62), (32, 0)] {
            assert_eq!(damaged(wrong, erased), Err(Refusal::ChunkUnreadable), "{wrong} wrong, {erased} erased");
        }
    }
}

#[test]
fn a_separator_that_sums_to_zero_reads_0() {
    // card A: the words of 1, 5 and 9, each with one separator that ties
    assert_eq!(read(&card_a(), "10 000 00 000 00"), rule_3(1, 0, [0, 0]));
    assert_eq!(read(&card_a(), "11 110 10 000 00"), rule_2(5, 0, 0));
    assert_eq!(read(&card_a(), "11 110 11 110 10"), rule_1(9, 0, 0));
    // card B, with an erased bit: the words of 1, 7 and 13
    assert_eq!(read(&card_b(), "1?0 000 000 000 000"), rule_3(1, 0, [0, 0]));
    assert_eq!(read(&card_b(), "111 111 10- 000 000"), rule_2(7, 0, 0));
    assert_eq!(read(&card_b(), "111 111 111 111 1?0"), rule_1(13, 0, 0));
    // a separator that is erased whole: 0 1 1, rule 2, and chunk 2 reads the last p
    assert_eq!(read(&card_b(), "?-? 111 111 111 111"), Err(Refusal::NoBlock));
    // 2.5 - 1 - 1.5 is 0 though two of three are negative; place 0 differs from position 3's word
    assert_eq!(reading(&card_b(), &levels_with("000 000 000 000 000", 0, &[2.5, -1.0, -1.5])), rule_3(3, 1, [0, 0]));
}

#[test]
fn a_separator_goes_by_its_sum_alone() {
    let card = card_b();
    let first = |separator: [f32; 3]| reading(&card, &levels_with("000 000 000 000 000", 0, &separator));
    // one strong 1 of three; the word of 1
    assert_eq!(first([-2.5, 1.0, 1.0]), rule_2(1, 0, 0));
    // two weak ones of three; the word of 2
    assert_eq!(first([-1.0, -1.0, 2.5]), rule_3(2, 0, [0, 0]));
    // the least single-precision number, 2^-149, is not erased, and neither is its sum
    let least = f32::from_bits(1);
    assert_eq!(first([-least, -least, least]), rule_2(2, 0, 0));
    // each separator's sum starts from zero: the word of 6, separator 1 strong
    assert_eq!(reading(&card, &levels_with("111 111 000 000 000", 0, &[-1e6; 3])), rule_2(6, 0, 0));
}

/// About 1,000,000 single-precision numbers stand 1/16 apart, and 0.03 is less than half of that.
#[test]
fn separator_sums_are_rounded_in_order() {
    let card = card_b();
    let at = |place: usize, separator: [f32; 3]| reading(&card, &levels_with("000 000 000 000 000", place, &separator));
    // 1,000,000 - 0.03 is rounded to 1,000,000, so the sum is 0. The bits are 0 1 1: position 3 differs in place 0
    assert_eq!(at(0, [1e6, -0.03, -1e6]), rule_3(3, 1, [0, 0]));
    // in separators 2 and 3, position m from 0 to 3 has 2 + m bits differing
    assert_eq!(at(6, [1e6, -0.03, -1e6]), rule_3(0, 2, [0, 0]));
    assert_eq!(at(12, [1e6, -0.03, -1e6]), rule_3(0, 2, [0, 0]));
    // 0.04 is more than half, and 1/32 is half, when the even neighbour, 1,000,000, is taken
    assert_eq!(at(0, [1e6, -0.04, -1e6]), rule_2(3, 1, 0));
    assert_eq!(at(0, [1e6, -0.03125, -1e6]), rule_3(3, 1, [0, 0]));
    // the same three levels in other orders: -0.03 comes last and is left; it comes first and is rounded away, bits 1 0 1, when
    // position 1 differs in place 2
    assert_eq!(at(0, [1e6, -1e6, -0.03]), rule_2(3, 1, 0));
    assert_eq!(at(0, [-0.03, 1e6, -1e6]), rule_3(1, 1, [0, 0]));
}

/// Asserts the strength of levels that card B reads, bit for bit.
fn strength_is(levels: &[f32], sum: f32, greatest: f32) {
    let (_, strength) = read_levels(&card_b(), levels).unwrap();
    let bits = [strength.sum, strength.greatest].map(f32::to_bits);
    assert_eq!(bits, [sum, greatest].map(f32::to_bits), "{strength:?} of {levels:?}");
}

#[test]
fn strengths() {
    let word = "111 111 111 111 000";
    strength_is(&levels(word), 15.0, 1.0);
    strength_is(&levels("1?1 -11 111 111 00-"), 12.0, 1.0);
    // the greatest in the first place, in the middle and in the last, of either sign
    for (place, level) in [(0, -7.5), (4, -7.5), (10, -7.5), (12, 7.5), (14, 7.5)] {
        strength_is(&levels_with(word, place, &[level]), 21.5, 7.5);
    }
    // fifteen times 1,000,000 is below 2^24, so every sum is exact; so are fifteen times 2^-149 and 2^-20
    for unit in [1e6, f32::from_bits(1), 2f32.powi(-20)] {
        let scaled: Vec<f32> = levels(word).iter().map(|level| level * unit).collect();
        strength_is(&scaled, unit * 15.0, unit);
    }
    // 0.03 is rounded away fourteen times
    let mut one_strong = [0.03; 15];
    one_strong[0] = 1e6;
    strength_is(&one_strong, 1e6, 1e6);
    // the other way round they make about 0.42, which with 1,000,000 is rounded to 7/16 above it
    one_strong.reverse();
    strength_is(&one_strong, 1e6 + 0.4375, 1e6);
}

#[test]
fn another_count_of_levels_is_refused() {
    let word = levels("111 111 111 111 000");
    for count in [0, 1, 14, 16, 17, 320, 321] {
        let mut lent = word.clone();
        lent.resize(count, 1.0);
        assert_eq!(read_levels(&card_b(), &lent), Err(Refusal::LevelCount), "{count} levels");
    }
    for count in [0, 11, 13, 15] {
        assert_eq!(read_levels(&card_a(), &word.repeat(2)[..count]), Err(Refusal::LevelCount), "{count} levels");
    }
    assert_eq!(reading(&card_b(), &word), rule_1(12, 0, 0));
}

/// Not numbers, quiet and signalling, of either sign; infinite; the next number above 1,000,000, and the greatest.
fn outside() -> Vec<f32> {
    let magnitudes = [0x7fc0_0000, 0x7f80_0001, 0x7fff_ffff, 0x7f80_0000, 1e6f32.to_bits() + 1, f32::MAX.to_bits()];
    magnitudes.into_iter().flat_map(|bits: u32| [bits, 1 << 31 | bits]).map(f32::from_bits).collect()
}

#[test]
fn a_level_outside_the_limits_is_refused_in_every_place() {
    for (place, level) in (0..15).flat_map(|place| outside().into_iter().map(move |level| (place, level))) {
        let levels = levels_with("111 111 111 111 000", place, &[level]);
        assert_eq!(read_levels(&card_b(), &levels), Err(Refusal::LevelLimits), "{level} in place {place}");
    }
}

#[test]
fn a_level_of_a_million_is_allowed_in_every_place() {
    for place in 0..15 {
        let word = "111 111 111 111 000";
        let level = levels(word)[place] * 1e6;
        assert_eq!(reading(&card_b(), &levels_with(word, place, &[level])), rule_1(12, 0, 0));
        strength_is(&levels_with(word, place, &[level]), 1_000_014.0, 1e6);
    }
}

#[test]
fn the_cards_refusals_come_first() {
    let mut unchecked = card_b();
    unchecked[511] ^= 1;
    for (card, refusal) in [
        (card_b()[..511].to_vec(), Refusal::CardLength),
        (unchecked, Refusal::CardCheck),
        (vec![0; 512], Refusal::CardLimits),
        (card_of(3, 1, 14, &[8]), Refusal::CardStrayBits),
        (offset_card(20_001, 3, 1, 14, &[7]), Refusal::CardOffset),
        (card_of(3, 2, 14, &[3, 3]), Refusal::DependentRows),
    ] {
        for levels in [vec![], vec![1.0; 15], vec![f32::NAN; 14], vec![f32::NAN; 15]] {
            assert_eq!(read_levels(&card, &levels), Err(refusal), "{levels:?}");
        }
    }
}

#[test]
fn refusals_of_levels_come_in_order() {
    let card = card_b();
    // 15 before 16
    for count in [1, 14, 16, 321] {
        assert_eq!(read_levels(&card, &vec![f32::NAN; count]), Err(Refusal::LevelCount));
    }
    // 16 before 9 to 12 and 17, whatever the place; where 9 is answered, chunk 1 is unreadable, and where 10 is, chunk 2 reads another p
    for (word, refusal) in [
        ("000 ?-? 111 000 000", Refusal::Separators),
        ("000 01? 000 111 000", Refusal::ChunkUnreadable),
        ("000 000 000 111 000", Refusal::ChunksDiffer),
        ("000 000 000 000 111", Refusal::NoBlock),
        ("000 111 000 111 000", Refusal::ParityDiffers),
    ] {
        assert_eq!(read(&card, word), Err(refusal), "{word}");
        for place in 0..15 {
            let levels = levels_with(word, place, &[f32::INFINITY]);
            assert_eq!(read_levels(&card, &levels), Err(Refusal::LevelLimits), "{word}, place {place}");
        }
    }
}

/// An offset changes no reading of levels.
#[test]
fn readings_of_levels_know_no_offset() {
    for offset in [-20_000, -1, 20_000] {
        let card = offset_card(offset, 3, 1, 14, &[7]);
        assert_eq!(read(&card, "111 1?1 111 100 000"), rule_1(10, 0, 0));
    }
}
