//! Where blocks start, request P4: starts that follow one another, block by block. Starts summed row by row stand in cases.txt.
mod cards;

use cards::card_of;
use dunnavish::{block_start, Refusal};

/// Row z has place z, as no other row, and places 12 to 12 + z: its weight is z + 2, and D is 2. From codeword i to the next the row is
/// added whose number is the count of trailing zeros of i + 1, so that block i has 3 × 2 steps and twice that row's weight.
#[test]
fn blocks_of_twelve_rows_follow_one_another() {
    let rows: Vec<u64> = (0..12).map(|z| (1 << z) + (((2 << z) - 1) << 12)).collect();
    let card = card_of(24, 12, 14, &rows);
    let mut start = 0;
    for block in 0..4095u32 {
        assert_eq!(block_start(&card, block), Ok(start), "block {block}");
        start += 6 + 2 * ((block + 1).trailing_zeros() + 2);
    }
    assert_eq!(block_start(&card, 4095), Ok(start));
    assert_eq!(block_start(&card, 4096), Err(Refusal::OffTheTrack));
}
