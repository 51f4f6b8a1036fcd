//! Cards with the right check, sound or not.

/// The check that 510 bytes should carry.
pub fn check_of(bytes: &[u8]) -> u32 {
    let sum: u64 = (0..510).map(|place| (place as u64 + 1) * bytes[place] as u64).sum();
    (sum % 65_521) as u32
}

/// A card with these rows, offset 0 and the right check, sound or not.
pub fn card_of(n: u8, k: u8, track: u16, rows: &[u64]) -> Vec<u8> {
    offset_card(0, n, k, track, rows)
}

/// A card with this offset, these rows and the right check, sound or not.
pub fn offset_card(offset: i32, n: u8, k: u8, track: u16, rows: &[u64]) -> Vec<u8> {
    let mut bytes = vec![0u8; 512];
    bytes[0] = n;
    bytes[1] = k;
    bytes[2..4].copy_from_slice(&track.to_be_bytes());
    for (z, row) in rows.iter().enumerate() {
        bytes[4 + 8 * z..12 + 8 * z].copy_from_slice(&row.to_be_bytes());
    }
    bytes[100..104].copy_from_slice(&offset.to_be_bytes());
    seal(&mut bytes);
    bytes
}

/// Sets the check of 512 bytes.
pub fn seal(bytes: &mut [u8]) {
    let check = check_of(bytes) as u16;
    bytes[510..512].copy_from_slice(&check.to_be_bytes());
}
