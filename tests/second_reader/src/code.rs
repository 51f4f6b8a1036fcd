//! The linear code of a card: the Gray order of its codewords, its least distance, and the search for a chunk's codeword.
//!
//! A codeword or row is a number whose bit worth 2^p is position p.
use crate::word::bits_of;

/// A code of length n with k rows, no nonempty set of which sums to zero, and its least distance D.
#[derive(Clone, Debug)]
pub struct Code {
    pub n: usize,
    pub rows: Vec<u64>,
    pub distance: usize,
}

impl Code {
    /// The code of these rows; none if some nonempty set of them sums to zero. D is the least weight over all nonempty sets, each
    /// summed anew.
    pub fn of_rows(n: usize, rows: &[u64]) -> Option<Code> {
        let distance = (1..1 << rows.len()).map(|set| weight(sum_of(rows, set))).min()?;
        (distance != 0).then(|| Code { n, rows: rows.to_vec(), distance })
    }

    /// How many codewords there are: 2^k.
    pub fn codewords(&self) -> usize {
        1 << self.rows.len()
    }

    /// The radius t: (D - 1) / 2, rounded down.
    pub fn radius(&self) -> usize {
        (self.distance - 1) / 2
    }

    /// Codeword c(i): the sum of the rows that Gray(i), i exclusive-or (i halved, rounded down), names.
    pub fn codeword(&self, i: usize) -> u64 {
        sum_of(&self.rows, i ^ (i / 2))
    }

    /// A(i): the weight of the row in which c(i) and c(i+1) differ, which is their sum.
    pub fn step_weight(&self, i: usize) -> usize {
        weight(self.codeword(i) ^ self.codeword(i + 1))
    }

    /// What a code chunk reads as: the first p whose c(p) lies within t bits of it, if there is one; and, for request P3, the
    /// number of bits in which the chunk and that c(p) differ.
    pub fn read_chunk(&self, chunk: &[bool]) -> Option<(usize, usize)> {
        let wrong = |p| bits_of(self.codeword(p), self.n).zip(chunk).filter(|(sent, came)| sent != *came).count();
        (0..self.codewords()).map(|p| (p, wrong(p))).find(|&(_, bits)| bits <= self.radius())
    }
}

/// The sum, modulo 2, of the rows z whose bit 2^z is set in `set`.
fn sum_of(rows: &[u64], set: usize) -> u64 {
    rows.iter().enumerate().filter(|(z, _)| set >> z & 1 == 1).fold(0, |sum, (_, row)| sum ^ row)
}

fn weight(x: u64) -> usize {
    x.count_ones() as usize
}
