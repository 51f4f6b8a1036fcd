//! Rows of codes of great distance.

/// The Reed-Muller code of order r and length 2^m: for each set of at most r bits of a place, the places that have them all.
/// Smaller sets stand first, and sets of one size by their numbers. D is 2^(m-r).
pub fn reed_muller(r: u32, m: u32) -> Vec<u64> {
    let mut sets: Vec<u64> = (0..1 << m).filter(|set: &u64| set.count_ones() <= r).collect();
    sets.sort_by_key(|set| set.count_ones());
    sets.into_iter().map(|set| (0..1 << m).filter(|p| p & set == set).fold(0, |row, p| row | 1u64 << p)).collect()
}

/// The extended Golay code: n 24, k 12, D 8.
pub fn golay() -> Vec<u64> {
    (0..12)
        .map(|z| {
            let row = 0xc75u64 << z;
            row | u64::from(row.count_ones() % 2) << 23
        })
        .collect()
}
