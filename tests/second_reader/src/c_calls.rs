//! The second reader's answers for a program in C: tests/program takes from here what tramread should print and tramcard write.
//!
//! Each call returns a status, 0 or the refusal's number, and puts the values of the answer into numbers or bytes that the caller
//! lends. Lent numbers that are not exactly as many as the answer has values, or a lent card that has not 512 bytes, are answered
//! 100, before anything else is looked at.
//! Whenever the status is not 0, nothing that was lent has changed.
//!
//! SAFETY, of every call: each pointer is that of its count of elements, which nothing else writes, and of a `*mut` one nothing else
//! reads, until the call returns. A count of 0 may come with any pointer.
use crate::{Facts, Reading, Refusal};
use std::slice;

/// The status of a call whose lent numbers, or bytes of a card, are too few or too many.
pub const WRONG_COUNT: u32 = 100;

/// Stands where a chunk that the rule doesn't name would have its count of bits. No chunk has so many: n is at most 64.
const NO_BITS: u32 = u32::MAX;

/// Checks a card: n, k, track, D, t, d and last position into seven numbers.
///
/// # Safety
/// As above.
#[no_mangle]
pub unsafe extern "C" fn second_check_card(card: *const u8, card_bytes: usize, values: *mut u32, count: usize) -> u32 {
    let (card, values) = unsafe { (lent(card, card_bytes), lent_mut(values, count)) };
    put(values, || {
        let Facts { n, k, track, distance, radius, bits, last } = crate::check_card(card)?;
        Ok([n, k, track, distance, radius, bits, last])
    })
}

/// Writes the word of a position into the lent word.
///
/// # Safety
/// As above.
#[no_mangle]
pub unsafe extern "C" fn second_write_word(
    card: *const u8,
    card_bytes: usize,
    position: u32,
    word: *mut u8,
    word_bytes: usize,
) -> u32 {
    let (card, word) = unsafe { (lent(card, card_bytes), lent_mut(word, word_bytes)) };
    status(crate::write_word(card, position, word))
}

/// Reads a received word: position, residual, rule, bits of chunk 1 and bits of chunk 2 into five numbers. A chunk that the rule
/// doesn't name has 4,294,967,295.
///
/// # Safety
/// As above.
#[no_mangle]
pub unsafe extern "C" fn second_read_word(
    card: *const u8,
    card_bytes: usize,
    word: *const u8,
    word_bytes: usize,
    values: *mut u32,
    count: usize,
) -> u32 {
    let (card, word, values) = unsafe { (lent(card, card_bytes), lent(word, word_bytes), lent_mut(values, count)) };
    put(values, || {
        let Reading { position, residual, rule, chunk1_bits, chunk2_bits } = crate::read_word(card, word)?;
        Ok([position, residual, rule, chunk1_bits.unwrap_or(NO_BITS), chunk2_bits.unwrap_or(NO_BITS)])
    })
}

/// Makes the card of a Reed-Muller code for a track, into the lent card.
///
/// # Safety
/// As above.
#[no_mangle]
pub unsafe extern "C" fn second_make_card(track: u16, r: u32, m: u32, card: *mut u8, card_bytes: usize) -> u32 {
    let card = unsafe { lent_mut(card, card_bytes) };
    put(card, || crate::make_card(track, r, m))
}

/// The status of a call, whose values go into the lent numbers or bytes.
fn put<T: Copy, const COUNT: usize>(lent: &mut [T], answer: impl FnOnce() -> Result<[T; COUNT], Refusal>) -> u32 {
    if lent.len() != COUNT {
        return WRONG_COUNT;
    }
    status(answer().map(|values| lent.copy_from_slice(&values)))
}

fn status(answer: Result<(), Refusal>) -> u32 {
    answer.err().unwrap_or(0)
}

unsafe fn lent<'a, T>(start: *const T, count: usize) -> &'a [T] {
    if count == 0 {
        return &[];
    }
    unsafe { slice::from_raw_parts(start, count) }
}

unsafe fn lent_mut<'a, T>(start: *mut T, count: usize) -> &'a mut [T] {
    if count == 0 {
        return &mut [];
    }
    unsafe { slice::from_raw_parts_mut(start, count) }
}

#[cfg(test)]
mod tests {
    use super::second_read_word;

    /// Reads a word of document 01's card B (n 3, k 1, track 14, row 7, check 145 or `00 91`) into as many numbers as are lent.
    fn read(word: [u8; 2], values: &mut [u32]) -> u32 {
        let mut card = [0; 512];
        (card[0], card[1], card[3], card[11], card[511]) = (3, 1, 14, 7, 0x91);
        // SAFETY: each pointer is that of an array or slice with its own count of elements, borrowed until the call returns.
        unsafe { second_read_word(card.as_ptr(), card.len(), word.as_ptr(), word.len(), values.as_mut_ptr(), values.len()) }
    }

    /// A word of each rule, worked out by hand in the tests of src/reading.rs; the two counts of the last one differ.
    #[test]
    fn a_word_read_leaves_five_numbers() {
        let read_five = |word| {
            let mut values = [7; 5];
            assert_eq!(read(word, &mut values), 0);
            values
        };
        assert_eq!(read_five([0xEF, 0x0F]), [12, 1, 1, 1, 4_294_967_295]);
        assert_eq!(read_five([0x7F, 0x00]), [7, 0, 2, 4_294_967_295, 0]);
        assert_eq!(read_five([0x10, 0x00]), [0, 1, 3, 1, 0]);
    }

    /// Document 01 refuses `C0 01` with 9. Any count but five is answered 100.
    #[test]
    fn another_status_changes_nothing() {
        let mut values = [7; 6];
        assert_eq!(read([0xC0, 0x01], &mut values[..5]), 9);
        for count in [0, 3, 4, 6] {
            assert_eq!(read([0x7F, 0x00], &mut values[..count]), 100);
        }
        assert_eq!(values, [7; 6]);
    }
}
