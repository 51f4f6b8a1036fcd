//! Separators that contradict the codeword, request P6: every word of two small cards, and words mixed from two. Single words
//! stand in cases.txt.
mod cards;
mod codes;
mod random;
mod words;

use cards::card_of;
use codes::{golay, reed_muller};
use dunnavish::{block_start, check_card, read_levels, read_word, CardSummary, Reading, Refusal};
use random::Random;
use words::{chunks, packed, word_at};

/// Card A: n 3, rows 3 and 6, so D 2, t 0 and d 12. c(0) to c(3) are 000, 110, 101 and 011.
fn card_a() -> Vec<u8> {
    card_of(3, 2, 0, &[3, 6])
}

/// Card B: n 3, row 7, so D 3, t 1 and d 15. c(0) is 000 and c(1) 111.
fn card_b() -> Vec<u8> {
    card_of(3, 1, 14, &[7])
}

/// Of all words of a card, how many are read, and how many refused by 9 to 12 and 17.
fn counts(card: &[u8], bits: usize) -> [usize; 6] {
    let refusals =
        [Refusal::Separators, Refusal::ChunkUnreadable, Refusal::ChunksDiffer, Refusal::NoBlock, Refusal::ParityDiffers];
    let mut counts = [0; 6];
    for word in 0u16..1 << bits {
        let place = match read_word(card, &word.to_le_bytes()) {
            Ok(_) => 0,
            Err(refusal) => 1 + refusals.iter().position(|known| *known == refusal).expect("another refusal"),
        };
        counts[place] += 1;
    }
    counts
}

/// Every word of cards A and B, counted by hand. On both, as many are refused by 17 as are read.
#[test]
fn every_word() {
    // Card B: separators and chunks read 0 or 1, each in four of eight ways, so each of 32 patterns stands for 4^5 words. 9: 0 1 0
    // and 1 0 1, with 4 pairs of codewords; 11: two of each 4 by rule 3; 12: by rule 1 p 0, and by rule 2 p 1, each 2 × 2. By each
    // rule two are read, those with the parity of p, and two are 17.
    assert_eq!(counts(&card_b(), 15), [6 * 1024, 8 * 1024, 0, 4 * 1024, 8 * 1024, 6 * 1024]);
    // Card A: a separator reads 0 in three ways and 1 in one; four of a chunk's eight ways are codewords. By rule 3, in 27 + 1
    // ways, both chunks are codewords in 16 of 64 ways, alike in 4, and two of these have the parity. By rule 1, 0 0 1 in 9 ways
    // allows p 2, and 1 1 0 in 3 ways p 1 and 3, with 8 ways of chunk 2. By rule 2, 1 0 0 in 9 ways allows p 0 and 2, and 0 1 1 in
    // 3 ways p 1.
    let read = 28 * 2 + (9 + 3 * 2) * 8 + (9 * 2 + 3) * 8;
    let contradicted = 28 * 2 + (9 * 2 + 3) * 8 + (9 + 3 * 2) * 8;
    let unreadable = 28 * 48 + 12 * 4 * 8 + 12 * 4 * 8;
    assert_eq!(counts(&card_a(), 12), [read, 12 * 64, unreadable, 28 * 12, 12 * 8 + 12 * 8, contradicted]);
}

/// The bits of the word at which a block starts, w(i).
fn whole(card: &[u8], summary: &CardSummary, i: u32) -> Vec<bool> {
    word_at(card, summary, block_start(card, i).unwrap())
}

/// A word whose separators, from w(i) and, where the rule has another, from a word of the other parity, name a rule, and whose code
/// chunks that the rule names are w(j)'s. In each chunk t bits are damaged.
fn mixed(card: &[u8], summary: &CardSummary, rule: usize, [i, j]: [u32; 2], random: &mut Random) -> Vec<bool> {
    let (one, other, code) = (whole(card, summary, i), whole(card, summary, i ^ 1), whole(card, summary, j));
    let noise: Vec<bool> = one.iter().map(|_| random.below(2) == 1).collect();
    let parts = match rule {
        1 => [&one, &code, &one, &noise, &other],
        2 => [&other, &noise, &one, &code, &one],
        _ => [&one, &code, &one, &code, &one],
    };
    let mut word = Vec::new();
    for (part, places) in parts.into_iter().zip(chunks(summary)) {
        let mut chunk = part[places].to_vec();
        for place in random.some_below(summary.radius as usize, chunk.len()) {
            chunk[place] ^= true;
        }
        word.extend(chunk);
    }
    word
}

/// Words mixed from two: read if the separator has the parity of j, and refused otherwise, by 12 where there is no block.
#[test]
fn words_mixed_from_two() {
    let mut random = Random(17);
    for (n, rows) in [(8, reed_muller(1, 3)), (16, reed_muller(1, 4)), (24, golay()), (64, reed_muller(1, 6)), (5, vec![7, 28])] {
        let card = card_of(n, rows.len() as u8, 14, &rows);
        let summary = check_card(&card).unwrap();
        let last = (1 << summary.rows) - 1;
        for round in 0..300 {
            let (rule, i) = (1 + round % 3, random.below(last + 1) as u32);
            let j = [0, last, random.below(last + 1), random.below(last + 1)][random.below(4)] as u32;
            let word = mixed(&card, &summary, rule, [i, j], &mut random);
            let bytes = packed(&word);
            let levels: Vec<f32> = word.iter().map(|bit| if *bit { -1.0 } else { 1.0 }).collect();
            let no_block = rule == 1 && j == 0 || rule == 2 && j == last as u32;
            let expected = match i % 2 == j % 2 {
                _ if no_block => Err(Refusal::NoBlock),
                true => Ok(rule as u32),
                false => Err(Refusal::ParityDiffers),
            };
            let by_rule = |reading: Reading| reading.rule.number();
            assert_eq!(read_word(&card, &bytes).map(by_rule), expected, "n {n}, rule {rule}, {i} and {j}");
            assert_eq!(read_levels(&card, &levels).map(|(reading, _)| by_rule(reading)), expected);
        }
    }
}
