//! The chunks of a Reed-Muller code that are read, and the numbers that are tried as r and m.
use super::random;
use second_reader::reed_muller::ReedMuller;
use std::iter::once;

/// Up to this length every chunk is read.
const READ_ALL: usize = 16;

/// Of a longer code, about so many damaged codewords are read, and so many random chunks.
const MANY: usize = 20_000;

/// Chunks of n bits: all of them, or every codeword, codewords with up to t + 2 bits damaged, and random bits.
pub fn of_code(reed_muller: &ReedMuller) -> Vec<u64> {
    let n = reed_muller.code.n;
    if n <= READ_ALL {
        return (0..1 << n).collect();
    }
    let mut chunks = reed_muller.codewords.clone();
    let counts = 1..=reed_muller.code.radius() + 2;
    let rounds = MANY / (chunks.len() * counts.end()) + 1;
    for round in 0..rounds as u64 {
        for count in counts.clone() {
            let seed = random(n as u64 + round, count as u64);
            chunks.extend((0..reed_muller.codewords.len()).map(|i| damaged(reed_muller, i, count, random(seed, i as u64))));
        }
    }
    chunks.extend((0..MANY as u64).map(|q| random(n as u64, q) & ones(n)));
    chunks
}

/// A codeword with exactly so many bits damaged, in one of three ways: anywhere; at places that follow each other; or at places
/// where another codeword differs from it, so that the damage leads from the one to the other.
fn damaged(reed_muller: &ReedMuller, i: usize, count: usize, seed: u64) -> u64 {
    let (n, codewords) = (reed_muller.code.n, &reed_muller.codewords);
    let codeword = codewords[i];
    let start = random(seed, 1) as usize % n;
    let other = codewords[(i + 1 + random(seed, 2) as usize % (codewords.len() - 1)) % codewords.len()];
    let places: Vec<usize> = match seed % 3 {
        0 => shuffled((0..n).collect(), seed),
        1 => (start..n).chain(0..start).collect(),
        _ => shuffled((0..n).filter(|p| (codeword ^ other) >> p & 1 == 1).collect(), seed),
    };
    places[..count].iter().fold(codeword, |chunk, place| chunk ^ 1 << place)
}

/// The same places in any order.
pub fn shuffled(mut places: Vec<usize>, seed: u64) -> Vec<usize> {
    for left in (1..places.len()).rev() {
        places.swap(left, (random(seed, left as u64 + 3) % (left as u64 + 1)) as usize);
    }
    places
}

/// Chunks with a bit at n or above: each such bit alone, with every bit above it, and with some of these; beside n bits that are
/// read without it (zeros, ones, the last codeword, and that with t bits damaged), and beside n bits that are not, if the code has
/// such.
pub fn past_end(reed_muller: &ReedMuller) -> Vec<u64> {
    let n = reed_muller.code.n;
    let last = reed_muller.codewords[reed_muller.codewords.len() - 1];
    let unreadable = (0..=ones(READ_ALL.min(n))).find(|&chunk| reed_muller.read_chunk(chunk) == Err(10));
    let below = [0, last, last ^ ones(reed_muller.code.radius()), ones(n)].into_iter().chain(unreadable);
    let past = (n..64).flat_map(|p| [1, u64::MAX, random(n as u64, p as u64) | 1].map(|bits| bits << p));
    let past: Vec<u64> = past.collect();
    below.flat_map(|chunk| past.iter().map(move |bits| bits | chunk)).collect()
}

/// The lowest bits set, up to 64 of them.
fn ones(count: usize) -> u64 {
    (0..count).map(|p| 1 << p).sum()
}

/// What is tried as r and as m: small numbers, small ones with one high bit set, all bits below that one, and all bits.
pub fn numbers() -> Vec<u32> {
    let high = [5, 6, 7, 8, 16, 31].into_iter().flat_map(|bit| (1 << bit) - 1..=(1 << bit) + 6);
    (0..=20).chain(high).chain(once(u32::MAX)).collect()
}
