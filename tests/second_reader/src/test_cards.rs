//! Small cards for tests of readings, their bytes and what follows from these worked out by hand from document 01.

/// A card with rows below 256, which stand in the last byte of their eight, and a check added up by hand.
pub fn card(n: u8, track: u8, rows: &[u8], check: u16) -> [u8; 512] {
    let mut card = [0; 512];
    card[0] = n;
    card[1] = rows.len() as u8;
    card[3] = track;
    for (z, &row) in rows.iter().enumerate() {
        card[11 + 8 * z] = row;
    }
    card[510..].copy_from_slice(&check.to_be_bytes());
    card
}

/// Card A, rows 3 and 6, track 0: check 1 × 3 + 2 × 2 + 12 × 3 + 20 × 6 = 163. D 2, t 0, places 0-1, 2-4, 5-6, 7-9, 10-11.
pub fn card_a() -> [u8; 512] {
    card(3, 0, &[3, 6], 163)
}

/// Card B, row 7, track 14: check 1 × 3 + 2 × 1 + 4 × 14 + 12 × 7 = 145. D 3, t 1, places 0-2, 3-5, 6-8, 9-11, 12-14.
/// c(0) is 000 and c(1) 111, so the word of position m has ones in its first m places and zeros in the rest.
pub fn card_b() -> [u8; 512] {
    card(3, 14, &[7], 145)
}

/// Rows 7 and 28, track 0: check 1 × 5 + 2 × 2 + 12 × 7 + 20 × 28 = 653. c(0) to c(3) are 00000, 11100, 11011 and 00111, so D is 3,
/// t 1, places 0-2, 3-7, 8-10, 11-15, 16-18. The starts are 0, 15, 30 and 45, as each block has 3 × 3 + 2 × 3 steps.
pub fn card_of_two_rows() -> [u8; 512] {
    card(5, 0, &[7, 28], 653)
}

/// Row 31, track 0: check 1 × 5 + 2 × 1 + 12 × 31 = 379. D 5, t 2, places 0-4, 5-9, 10-14, 15-19, 20-24. The last position is
/// 3 × 5 + 2 × 5 = 25. c(0) is 00000 and c(1) 11111, so here too the word of position m has m ones and then zeros.
pub fn card_of_five() -> [u8; 512] {
    card(5, 0, &[31], 379)
}

/// Row 1, track 0: check 1 × 1 + 2 × 1 + 12 × 1 = 15. D 1, t 0, and each of the places 0 to 4 is a chunk. The last position is
/// 3 × 1 + 2 × 1 = 5. c(0) is 0 and c(1) 1, so here too the word of position m has m ones and then zeros.
pub fn card_of_one() -> [u8; 512] {
    card(1, 0, &[1], 15)
}

/// Rows 1 and 6, track 0: check 1 × 3 + 2 × 2 + 12 × 1 + 20 × 6 = 139. c(0) to c(3) are 000, 100, 111 and 011, so D is 1, t 0,
/// places 0, 1-3, 4, 5-7, 8. A is 1, 2 and 1, so the blocks have 5, 7 and 5 steps, and the starts are 0, 5, 12 and 17.
pub fn card_of_weights_one_and_two() -> [u8; 512] {
    card(3, 0, &[1, 6], 139)
}

/// Rows 3 and 14, track 0: check 1 × 4 + 2 × 2 + 12 × 3 + 20 × 14 = 324. c(0) to c(3) are 0000, 1100, 1011 and 0111, so D is 2,
/// t 0, places 0-1, 2-5, 6-7, 8-11, 12-13. A is 2, 3 and 2, so the blocks have 10, 12 and 10 steps, and the starts are 0, 10, 22
/// and 32.
pub fn card_of_weights_two_and_three() -> [u8; 512] {
    card(4, 0, &[3, 14], 324)
}
