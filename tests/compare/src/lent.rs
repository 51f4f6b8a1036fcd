//! The library's two calls on a yard as a program in C makes them, with lent numbers of any count, which the Rust crate doesn't
//! let through.

extern "C" {
    fn dunnavish_request(yard: *mut u16, yard_count: usize, tram: u16, track: u32, values: *mut u32, values_count: usize) -> u32;

    fn dunnavish_release(
        yard: *mut u16,
        yard_count: usize,
        tram: u16,
        word: *const u8,
        word_bytes: usize,
        mark: u32,
        card: *const u8,
        card_bytes: usize,
        values: *mut u32,
        values_count: usize,
    ) -> u32;
}

/// A request: its status.
pub fn request(yard: &mut [u16], tram: u16, track: u32, values: &mut [u32]) -> u32 {
    // SAFETY: each pointer is that of a slice with its own count of elements, borrowed until the call returns.
    unsafe { dunnavish_request(yard.as_mut_ptr(), yard.len(), tram, track, values.as_mut_ptr(), values.len()) }
}

/// A release: its status.
pub fn release(yard: &mut [u16], tram: u16, word: &[u8], mark: u32, card: &[u8], values: &mut [u32]) -> u32 {
    let (yard_start, values_start) = (yard.as_mut_ptr(), values.as_mut_ptr());
    let (word_start, card_start) = (word.as_ptr(), card.as_ptr());
    // SAFETY: each pointer is that of a slice with its own count of elements, borrowed until the call returns.
    unsafe {
        dunnavish_release(
            yard_start,
            yard.len(),
            tram,
            word_start,
            word.len(),
            mark,
            card_start,
            card.len(),
            values_start,
            values.len(),
        )
    }
}
