//! Words for the counts of bits that code chunks need: a codeword in both chunks, with so many bits damaged in each of them,
//! between whole separators of each rule.
use super::damage::{turn, Places};
use super::random;
use second_reader::code::Code;
use second_reader::word::{packed, Word};

/// A word, the rule that its separators name, and how many bits of code chunks 1 and 2 are damaged.
pub struct Counted {
    pub bytes: Vec<u8>,
    pub rule: u32,
    pub damaged: [u32; 2],
}

/// The words of codeword p, of card `id`: under each rule every two numbers of bits at the borders.
pub fn of_codeword(code: &Code, p: usize, id: u64) -> Vec<Counted> {
    let parity = p % 2 == 1;
    let rules = [(1, [parity, parity, !parity]), (2, [!parity, parity, parity]), (3, [parity; 3])];
    let seed = random(id, p as u64);
    let mut words = Vec::new();
    for (rule, separators) in rules {
        let whole = code.word_of_chunks(separators, [code.codeword(p); 2]);
        for first in borders(code.radius()) {
            for second in borders(code.radius()) {
                let word = damaged(code, &whole, [first, second], random(seed, words.len() as u64));
                words.push(Counted { bytes: packed(&word), rule, damaged: [first, second].map(|bits| bits as u32) });
            }
        }
    }
    words
}

/// Numbers of bits at the borders: 0 and 1, t and its neighbours.
fn borders(radius: usize) -> Vec<usize> {
    let mut borders = vec![0, 1, radius.saturating_sub(1), radius, radius + 1];
    borders.sort_unstable();
    borders.dedup();
    borders
}

/// A word with so many bits of code chunks 1 and 2 damaged, at places that follow each other.
fn damaged(code: &Code, word: &Word, counts: [usize; 2], seed: u64) -> Word {
    let mut word = word.clone();
    for (chunk, count) in [1, 3].into_iter().zip(counts) {
        turn(&mut word, code.chunks()[chunk].clone(), count, Places::Run, random(seed, chunk as u64));
    }
    word
}
