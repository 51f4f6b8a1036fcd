//! Offsets of cards: numbers in bytes 100 to 103, within their range, -20,000 to 20,000, and outside it.

/// The ends of the range, and the first offsets past them.
pub const ENDS: [i32; 4] = [-20_000, 20_000, -20_001, 20_001];

/// Offsets at other borders: within the range those beside its ends, around 0, and around 256 and -256; outside it the furthest,
/// and some that a reader could take for one within.
pub const BORDERS: [i32; 24] = [
    -19_999,
    -257,
    -256,
    -255,
    -1,
    0,
    1,
    255,
    256,
    257,
    19_999,
    i32::MIN,
    i32::MIN + 1,
    i32::MAX,
    // byte 102, 101 or 100 alone set
    0x8000,
    0x1_0000,
    0x100_0000,
    -0x100_0000,
    // the lower two bytes of -20,000 under zeros, and those of 20,000 under ones
    0xB1E0,
    -0xB1E0,
    // 20,000 and -20,000 with the low byte first
    20_000i32.swap_bytes(),
    (-20_000i32).swap_bytes(),
    // -20,000 as a sign and a magnitude, and 20,000 with the bit below the sign
    i32::MIN + 20_000,
    (1 << 30) + 20_000,
];

/// How far past the ends of the range every offset is tried.
const PAST: i32 = 300;

/// Every offset of the range, and some past its ends. Then, for each bit of the four bytes: this bit alone, all bits below it,
/// and all but these.
pub fn every() -> impl Iterator<Item = i32> {
    let bits = (0..32).map(|place| 1u32 << place);
    let patterns = bits.flat_map(|bit| [bit, bit - 1, !bit, !(bit - 1)]);
    (-20_000 - PAST..=20_000 + PAST).chain(patterns.map(|bytes| bytes as i32))
}
