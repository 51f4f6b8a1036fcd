//! Which chunk of a position's word is divided, found from the words that the library writes.
use crate::words::{chunks, word_at};
use dunnavish::{block_start, CardSummary};

/// Which chunk of the word of a position is divided, if one is: some of the places in which w(i) and w(i+1) differ there have
/// the bit of w(i+1), and some have not, i being the position's block. After the last w(i) there is none, and it stands in for
/// the next itself.
pub fn divided(card: &[u8], summary: &CardSummary, position: u32) -> Option<usize> {
    let blocks = 0..1u32 << summary.rows;
    let i = blocks.clone().rev().find(|&i| block_start(card, i).unwrap() <= position).unwrap();
    let whole = |i| word_at(card, summary, block_start(card, i).unwrap());
    let (this, next) = (whole(i), whole(blocks.end.min(i + 2) - 1));
    let word = word_at(card, summary, position);
    let mut found = chunks(summary).into_iter().enumerate().filter(|(_, places)| {
        let differ: Vec<usize> = places.clone().filter(|&place| this[place] != next[place]).collect();
        let taken = differ.iter().filter(|&&place| word[place] == next[place]).count();
        0 < taken && taken < differ.len()
    });
    let first = found.next().map(|(chunk, _)| chunk);
    assert!(found.next().is_none(), "two chunks are divided at {position}");
    first
}
