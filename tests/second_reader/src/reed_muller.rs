//! The Reed-Muller codes of request P1: the rows that r and m give, and the codeword of a chunk, found by trying all.
use crate::card::reaches;
use crate::code::Code;
use crate::Refusal;

/// A chunk's codeword: its number, and in how many bits the two differ.
#[derive(Clone, Copy, Debug, PartialEq, Eq)]
pub struct Vote {
    pub number: u32,
    pub bits: u32,
}

/// The code of order r in m variables, and its codewords c(0) to c(2^k - 1).
#[derive(Clone, Debug)]
pub struct ReedMuller {
    pub code: Code,
    pub codewords: Vec<u64>,
}

impl ReedMuller {
    /// Refusal 13 where m is not 1 to 6, r not 0 to m, or k above 12.
    pub fn of_order(r: u32, m: u32) -> Result<ReedMuller, Refusal> {
        if !(1..=6).contains(&m) || m < r {
            return Err(13);
        }
        let n = 1 << m;
        // Rows go by size of S, then by S.
        let sets = (0..=r).flat_map(|size| (0..n).filter(move |set: &usize| set.count_ones() == size));
        let rows: Vec<u64> = sets.map(|set| product(set, n)).collect();
        if 12 < rows.len() {
            return Err(13);
        }
        let code = Code::of_rows(n, &rows).expect("products of variables are independent");
        let codewords = (0..code.codewords()).map(|i| code.codeword(i)).collect();
        Ok(ReedMuller { code, codewords })
    }

    /// What a chunk reads as: the codeword within t bits of it. All are tried, so that there is seen to be no second one.
    pub fn read_chunk(&self, chunk: u64) -> Result<Vote, Refusal> {
        if reaches(chunk, self.code.n) {
            return Err(8);
        }
        let radius = self.code.radius() as u32;
        let votes = (0..).zip(&self.codewords).map(|(number, codeword)| Vote { number, bits: (codeword ^ chunk).count_ones() });
        let mut within = votes.filter(|vote| vote.bits <= radius);
        let found = within.next();
        assert_eq!(within.next(), None, "two codewords lie within t bits of {chunk}");
        found.ok_or(10)
    }
}

/// The product of the variables of a set S: position p is 1 exactly when p has every bit of S.
fn product(set: usize, n: usize) -> u64 {
    (0..n).filter(|p| p & set == set).map(|p| 1 << p).sum()
}
