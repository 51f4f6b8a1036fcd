//! Shapes of cards: codes of every size, by n, k and the kind of their rows.
use super::random;

/// A card's code before its rows are spelt out.
#[derive(Clone, Copy)]
pub struct Shape {
    pub n: u64,
    pub k: u64,
    rows: Rows,
}

#[derive(Clone, Copy)]
enum Rows {
    /// Row z is a word shifted by z: of a cyclic code the generator.
    Shifted(u64),
    /// Row z is a word shifted by 2z.
    ShiftedByTwos(u64),
    /// The monomials of at most this degree in the bits of a place, as numbers in rising order: a Reed-Muller code.
    Monomials(u32),
    /// Random, of a seed.
    Random(u64),
    /// Random below bit z, which is set, of a seed.
    Triangular(u64),
}

use Rows::{Monomials, Random, Shifted, ShiftedByTwos, Triangular};

/// Codes that are given one by one: n, k and rows.
const GIVEN: [(u64, u64, Rows); 18] = [
    // RM(1, m) for m from 1 to 6, then RM(2, 2), RM(2, 3) and RM(2, 4).
    (2, 2, Monomials(1)),
    (4, 3, Monomials(1)),
    (8, 4, Monomials(1)),
    (16, 5, Monomials(1)),
    (32, 6, Monomials(1)),
    (64, 7, Monomials(1)),
    (4, 4, Monomials(2)),
    (8, 7, Monomials(2)),
    (16, 11, Monomials(2)),
    // The Hamming codes of length 7 and 15; BCH codes of length 15; the Golay code of length 23; BCH codes of lengths 31 and 63.
    (7, 4, Shifted(0xB)),
    (15, 11, Shifted(0x13)),
    (15, 7, Shifted(0x1D1)),
    (15, 5, Shifted(0x537)),
    (23, 12, Shifted(0xC75)),
    (31, 11, Shifted(0o5423325)),
    (31, 6, Shifted(0o313365047)),
    (63, 10, Shifted(0o157464165547)),
    (63, 7, Shifted(0o5231045543503271737)),
];

/// The sizes, n and k, of the largest cards, with random rows.
const LARGEST: [(u64, u64); 6] = [(13, 12), (20, 12), (33, 9), (40, 10), (63, 11), (64, 12)];

/// Every shape. Random rows are made from the shape's number, so a new shape comes last.
pub fn all() -> Vec<Shape> {
    let mut shapes = Vec::new();
    // Repetition codes of every length; the codes of all words (D 1) and of all words of even weight (D 2) for every k.
    shapes.extend((1..=64).map(|n| (n, 1, Shifted(u64::MAX))));
    shapes.extend((1..=12).map(|k| (k, k, Shifted(1))));
    shapes.extend((1..=12).map(|k| (k + 1, k, Shifted(3))));
    shapes.extend(GIVEN);
    // Random rows: n up to 20 and k up to 6, of which some are dependent; k = n; n from 21 to 64 and k up to 8; the largest.
    shapes.extend((106..226).map(|i| (random(i, 100) % 20 + 1, (random(i, 100) % 20).min(random(i, 101) % 6) + 1, Random(i))));
    shapes.extend((226..238).map(|i| (i - 225, i - 225, Triangular(i))));
    shapes.extend((238..262).map(|i| (random(i, 100) % 44 + 21, random(i, 101) % 8 + 1, Random(i))));
    shapes.extend((262..).zip(LARGEST).map(|(i, (n, k))| (n, k, Random(i))));
    // Rows 7 and 28, D 3: the smallest words of a code that corrects a bit and has a block with another on either side.
    shapes.push((5, 2, ShiftedByTwos(7)));
    shapes.into_iter().map(|(n, k, rows)| Shape { n, k, rows }).collect()
}

impl Shape {
    /// Row z, without the bits at n and above.
    pub fn row(&self, z: u64) -> u64 {
        let row = match self.rows {
            Shifted(word) => word << z,
            ShiftedByTwos(word) => word << (2 * z),
            Monomials(degree) => monomial((0..64).filter(|set: &u64| set.count_ones() <= degree).nth(z as usize).unwrap()),
            Random(seed) => random(seed, z),
            Triangular(seed) => (random(seed, z) % (1 << z)) | (1 << z),
        };
        row & (u64::MAX >> (64 - self.n))
    }
}

/// The word whose bit at place p is 1 where p has every bit of `set`.
fn monomial(set: u64) -> u64 {
    (0..64).filter(|p| p & set == set).map(|p| 1 << p).sum()
}
