//! What the library and the second reader are tried on: cards of every shape, with faults and with offsets, the positions of a
//! track that are tried, and the words that are read there, damaged in many ways, with the divided chunk damaged arbitrarily,
//! with counts of code chunks at their borders, and as levels; the chunks of the Reed-Muller codes; lists of trams, and the marks
//! at which they are searched; yards, what is requested and released in them, and long days. All of it follows from numbers that
//! count the cards, positions, words, chunks, lists, yards and days, so that every run tries the same.
pub mod cards;
pub mod choice;
pub mod chunks;
pub mod counts;
mod damage;
pub mod days;
pub mod divided;
pub mod faults;
pub mod levels;
pub mod magnitudes;
pub mod offsets;
pub mod releases;
pub mod shapes;
pub mod trams;
pub mod words;
pub mod yards;

/// A number that looks random, of two numbers: four steps of a multiply-with-carry generator.
pub fn random(a: u64, b: u64) -> u64 {
    let stirred = |x: u64| x % (1 << 32) * 4_294_957_665 + (x >> 32);
    let x = stirred(stirred(a ^ 0x9E37_79B9_7F4A_7C15) ^ b);
    let y = stirred(stirred(x));
    y ^ (y >> 32)
}

/// A number below `count` that looks random, of two numbers. It is stirred twice: the lowest bits of `random` say too much about
/// each other where one of the numbers is the same and the others are neighbours.
pub fn draw(a: u64, b: u64, count: usize) -> usize {
    (random(random(a, b), 0) % count as u64) as usize
}
