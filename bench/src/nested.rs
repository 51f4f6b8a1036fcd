//! The baseline with document 01's nested search, in C (nested.c): `KeptNested` keeps its decoded card as `Kept` does; `EachCall` holds
//! the rows alone and is decoded anew for each word, which is what a public call has to do with its card.
use crate::baseline::{Code, Found, Kept, Order};

/// As `Kept`, with the chunk search of nested.c.
pub struct KeptNested(pub Kept);

/// The rows alone, and the chunk search of nested.c.
pub struct EachCall(pub Code);

extern "C" {
    fn nested_search(rows: *const u64, n: u32, k: u32, t: u32, x: u64, bits: *mut u32) -> i32;
    fn nested_search_unerased(rows: *const u64, n: u32, k: u32, t: u32, x: u64, unerased: u64, bits: *mut u32) -> i32;
}

fn find_nested(code: &Code, chunk: u64) -> Option<Found> {
    let (n, k, radius) = (code.n as u32, code.k as u32, code.radius as u32);
    let mut bits = 0;
    let found = unsafe { nested_search(code.rows.as_ptr(), n, k, radius, chunk, &mut bits) };
    usize::try_from(found).ok().map(|number| Found { number, bits })
}

fn find_nested_unerased(code: &Code, chunk: u64, unerased: u64, most: u32) -> Option<Found> {
    let (n, k) = (code.n as u32, code.k as u32);
    let mut bits = 0;
    let found = unsafe { nested_search_unerased(code.rows.as_ptr(), n, k, most, chunk, unerased, &mut bits) };
    usize::try_from(found).ok().map(|number| Found { number, bits })
}

impl Order for KeptNested {
    fn code(&self) -> &Code {
        self.0.code()
    }
    fn codeword(&self, i: usize) -> u64 {
        self.0.codeword(i)
    }
    fn start(&self, i: usize) -> usize {
        self.0.start(i)
    }
    fn block_of(&self, position: usize) -> usize {
        self.0.block_of(position)
    }
    fn find(&self, chunk: u64) -> Option<Found> {
        find_nested(self.0.code(), chunk)
    }
    fn find_unerased(&self, chunk: u64, unerased: u64, most: u32) -> Option<Found> {
        find_nested_unerased(self.0.code(), chunk, unerased, most)
    }
}

impl Order for EachCall {
    fn code(&self) -> &Code {
        &self.0
    }
    fn codeword(&self, i: usize) -> u64 {
        self.0.codeword(i)
    }
    fn start(&self, i: usize) -> usize {
        self.0.start(i)
    }
    fn block_of(&self, position: usize) -> usize {
        let (mut below, mut above) = (0, 1 << self.0.k);
        while above - below > 1 {
            let middle = (below + above) / 2;
            if self.0.start(middle) <= position {
                below = middle;
            } else {
                above = middle;
            }
        }
        below
    }
    fn find(&self, chunk: u64) -> Option<Found> {
        find_nested(&self.0, chunk)
    }
    fn find_unerased(&self, chunk: u64, unerased: u64, most: u32) -> Option<Found> {
        find_nested_unerased(&self.0, chunk, unerased, most)
    }
}
