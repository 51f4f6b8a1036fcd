//! How many bits each code chunk needed, request P3: cases worked by hand. In words place 0 stands leftmost.
mod cards;
mod readings;

use cards::card_of;
use dunnavish::{check_card, read_word, Refusal};
use readings::{rule_1, rule_2, rule_3};

/// Card B: n 3, row 7, so D 3 and t 1. c(0) is 000 and c(1) 111; the word of position m has ones in its first m places, up to
/// 15. Separators and code chunks take turns, three places each.
fn card_b() -> Vec<u8> {
    card_of(3, 1, 14, &[7])
}

#[test]
fn rule_1_counts_chunk_1() {
    // p is 1: allowed are 3 + 3 = 6 to 15
    let card = card_b();
    // 111 111 111 111 100, position 13
    assert_eq!(read_word(&card, &[0xff, 0x1f]), rule_1(13, 0, 0));
    // 111 101 111 111 100: place 4 of it damaged, so m from 6 on has 1 + |13 - m| bits differing
    assert_eq!(read_word(&card, &[0xef, 0x1f]), rule_1(13, 1, 1));
    // 111 111 111 101 100: place 10, in chunk 2, which is not read; 13 has one bit differing, 10 and 12 two, 11 three
    assert_eq!(read_word(&card, &[0xff, 0x1b]), rule_1(13, 1, 0));
    // 111 101 111 101 100: both
    assert_eq!(read_word(&card, &[0xef, 0x1b]), rule_1(13, 2, 1));
}

#[test]
fn rule_2_counts_chunk_2() {
    // p is 0: allowed are 0 to 6 + 3 = 9
    let card = card_b();
    // 111 111 100 000 000, position 7
    assert_eq!(read_word(&card, &[0x7f, 0x00]), rule_2(7, 0, 0));
    // 111 111 100 100 000: place 9 of it damaged, so m up to 9 has 1 + |7 - m| bits differing
    assert_eq!(read_word(&card, &[0x7f, 0x02]), rule_2(7, 1, 1));
    // 111 110 100 000 000: place 5, in chunk 1, which is not read; 5 and 7 have one bit differing
    assert_eq!(read_word(&card, &[0x5f, 0x00]), rule_2(5, 1, 0));
    // 111 110 100 100 000: both
    assert_eq!(read_word(&card, &[0x5f, 0x02]), rule_2(5, 2, 1));
}

#[test]
fn rule_3_counts_both() {
    let card = card_b();
    // all zeros, position 0, with place 4, in chunk 1, and place 10, in chunk 2; m from 1 to 3, allowed too, has m bits more differing
    assert_eq!(read_word(&card, &[0x00, 0x00]), rule_3(0, 0, [0, 0]));
    assert_eq!(read_word(&card, &[0x10, 0x00]), rule_3(0, 1, [1, 0]));
    assert_eq!(read_word(&card, &[0x00, 0x04]), rule_3(0, 1, [0, 1]));
    assert_eq!(read_word(&card, &[0x10, 0x04]), rule_3(0, 2, [1, 1]));
    // all ones, position 15, likewise; allowed are 12 to 15
    assert_eq!(read_word(&card, &[0xff, 0x7f]), rule_3(15, 0, [0, 0]));
    assert_eq!(read_word(&card, &[0xef, 0x7f]), rule_3(15, 1, [1, 0]));
    assert_eq!(read_word(&card, &[0xff, 0x7b]), rule_3(15, 1, [0, 1]));
    assert_eq!(read_word(&card, &[0xef, 0x7b]), rule_3(15, 2, [1, 1]));
}

#[test]
fn damage_of_separators_is_in_no_count() {
    let card = card_b();
    // 100 000 010 000 001: one bit of each separator; position 0 has three bits differing, 1 has two
    assert_eq!(read_word(&card, &[0x81, 0x40]), rule_3(1, 2, [0, 0]));
    // 110 111 100 000 010: position 7 with places 2 and 13 damaged; m from 3 to 9 has 2 + |7 - m| bits differing, others five or
    // more
    assert_eq!(read_word(&card, &[0x7b, 0x20]), rule_2(7, 2, 0));
}

#[test]
fn a_chunk_past_the_radius_is_read_as_another_codeword() {
    // t is 1. Chunk 2 of 111 111 100 110 000 is one bit from 111: p is 1, the last, and rule 2 has no block
    assert_eq!(read_word(&card_b(), &[0x7f, 0x06]), Err(Refusal::NoBlock));
    // chunk 1 of 111 001 111 111 100 is one bit from 000: p is 0, and rule 1 has no block
    assert_eq!(read_word(&card_b(), &[0xe7, 0x1f]), Err(Refusal::NoBlock));
    // chunks 110 and 011 of 000 110 000 011 000, between separators of zeros, are each one bit from 111: p is 1, whose parity the
    // separators have not
    assert_eq!(read_word(&card_b(), &[0x18, 0x0c]), Err(Refusal::ParityDiffers));
    // n 5, rows 7 and 28: D is 3, t 1. Chunks 11010 of 000 11010 000 11010 000, w(0) with three bits damaged in each, are one bit
    // from c(2), 11011: p is 2, of the separators' parity, allowed are 27 to 33 around start 30, which is two bits off, and each step
    // away one more
    assert_eq!(read_word(&card_of(5, 2, 14, &[7, 28]), &[0x58, 0x58, 0x00]), rule_3(30, 2, [1, 1]));
}

#[test]
fn a_chunk_that_is_not_named_may_be_unreadable() {
    // card A: rows 3 and 6, D 2, t 0; 100 is no codeword. w(1) is 11 110 11 110 11, and position m has the first m of its ones
    let card = card_of(3, 2, 0, &[3, 6]);
    // 11 100 10 000 00: rule 2, chunk 2 reads 0. 3 and 5 have one bit differing
    assert_eq!(read_word(&card, &[0x27, 0x00]), rule_2(3, 1, 0));
    // 11 110 11 100 00: rule 1, chunk 1 reads 1, and the word is that of 7
    assert_eq!(read_word(&card, &[0xef, 0x00]), rule_1(7, 0, 0));
    // 00 100 00 000 00 and 00 000 00 100 00: rule 3 names both
    assert_eq!(read_word(&card, &[0x04, 0x00]), Err(Refusal::ChunkUnreadable));
    assert_eq!(read_word(&card, &[0x80, 0x00]), Err(Refusal::ChunkUnreadable));
}

#[test]
fn counts_that_differ() {
    // n 5, row 31: D 5, t 2. Separators and code chunks take turns, five places each; position m has m ones, up to 25
    let card = card_of(5, 1, 0, &[31]);
    // 00000 10100 00000 01000 00000: places 5, 7 and 16 of position 0's word damaged
    assert_eq!(read_word(&card, &[0xa0, 0x00, 0x01, 0x00]), rule_3(0, 3, [2, 1]));
    // 00000 10000 00000 01010 00000: places 5, 16 and 18
    assert_eq!(read_word(&card, &[0x20, 0x00, 0x05, 0x00]), rule_3(0, 3, [1, 2]));
    // 11111 00111 11111 11011 00111: position 25's with places 5, 6, 17, 20 and 21 damaged; 20 differs in 5, 6, 17, 22, 23 and 24
    assert_eq!(read_word(&card, &[0x9f, 0xff, 0xcd, 0x01]), rule_3(25, 5, [2, 1]));
}

#[test]
fn the_greatest_count() {
    // n 64, a row of ones: D 64, t 31. Five chunks of eight bytes each
    let card = card_of(64, 1, 65_535, &[u64::MAX]);
    assert_eq!(check_card(&card).unwrap().radius, 31);
    // position 0's word with so many of the first bits of either code chunk damaged
    for (first, second) in [(31, 0), (0, 31), (31, 10), (9, 31), (31, 31)] {
        let ones = |count: u32| (u64::MAX >> (63 - count) >> 1).to_le_bytes();
        let word = [[0; 8], ones(first), [0; 8], ones(second), [0; 8]].concat();
        assert_eq!(read_word(&card, &word), rule_3(0, first + second, [first, second]));
    }
    // 32 bits are as far from 00 … 0 as from 11 … 1
    for damaged in [1, 3] {
        let mut chunks = [[0; 8]; 5];
        chunks[damaged] = u64::from(u32::MAX).to_le_bytes();
        assert_eq!(read_word(&card, &chunks.concat()), Err(Refusal::ChunkUnreadable));
    }
}
