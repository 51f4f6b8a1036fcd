//! Cards made of r and m, and chunks read by majority votes: cases worked by hand.
mod cards;

use cards::card_of;
use dunnavish::{check_card, make_card, vote_chunk, CardSummary, Refusal, Vote};

/// The sixteen codes within the limits: r, m and k.
const CODES: [(u32, u32, u32); 16] = [
    (0, 1, 1),
    (1, 1, 2),
    (0, 2, 1),
    (1, 2, 3),
    (2, 2, 4),
    (0, 3, 1),
    (1, 3, 4),
    (2, 3, 7),
    (3, 3, 8),
    (0, 4, 1),
    (1, 4, 5),
    (2, 4, 11),
    (0, 5, 1),
    (1, 5, 6),
    (0, 6, 1),
    (1, 6, 7),
];

fn is_code(r: u32, m: u32) -> bool {
    CODES.iter().any(|&(order, variables, _)| (order, variables) == (r, m))
}

fn voted(number: u32, bits: u32) -> Result<Vote, Refusal> {
    Ok(Vote { number, bits })
}

#[test]
fn the_bytes_of_a_small_card() {
    let mut expected = [0; 512];
    expected[..4].copy_from_slice(&[4, 3, 1, 14]);
    // position p is 1 where p has every bit of S: everywhere for 0, at 1 and 3 for 1, at 2 and 3 for 2
    expected[11] = 0b1111;
    expected[19] = 0b1010;
    expected[27] = 0b1100;
    // 1 × 4 + 2 × 3 + 3 × 1 + 4 × 14 + 12 × 15 + 20 × 10 + 28 × 12 = 785 = 3 × 256 + 17
    expected[510..].copy_from_slice(&[3, 17]);
    assert_eq!(make_card(256 + 14, 1, 2), Ok(expected));
}

#[test]
fn rows_go_by_size_then_by_number() {
    // the sets 0; 1, 2, 4; 3, 5, 6; 7
    let rows = [0xff, 0xaa, 0xcc, 0xf0, 0x88, 0xa0, 0xc0, 0x80];
    for (r, k) in [(0, 1), (1, 4), (2, 7), (3, 8)] {
        assert_eq!(make_card(65_535, r, 3).unwrap()[..], card_of(8, k, 65_535, &rows[..k.into()]));
    }
    // n 64: row 0 has every bit of the eight bytes, row 6 the upper half
    let card = make_card(0, 1, 6).unwrap();
    assert_eq!(card[4..12], [0xff; 8]);
    assert_eq!(card[52..60], [0xff, 0xff, 0xff, 0xff, 0, 0, 0, 0]);
}

#[test]
fn a_made_card_is_sound() {
    for (r, m, k) in CODES {
        let summary = check_card(&make_card(513, r, m).unwrap()).unwrap();
        let (n, distance) = (1 << m, 1 << (m - r));
        let expected = CardSummary {
            length: n,
            rows: k,
            track: 513,
            distance,
            radius: (distance - 1) / 2,
            word_bits: 2 * n + 3 * distance,
            last: summary.last,
        };
        assert_eq!(summary, expected, "r {r} m {m}");
    }
    // k 1: one block of 3D + 2n steps
    assert_eq!(check_card(&make_card(0, 0, 6).unwrap()).unwrap().last, 3 * 64 + 2 * 64);
}

#[test]
fn votes_of_first_order_in_three_variables() {
    // D 4, t 1; c(0) to c(4) are 00, FF, 55, AA and 66: Gray(0) to Gray(4) are 0, 1, 3, 2 and 6
    for (number, codeword) in (0..).zip([0x00, 0xff, 0x55, 0xaa, 0x66]) {
        assert_eq!(vote_chunk(1, 3, codeword), voted(number, 0));
        for place in 0..8 {
            assert_eq!(vote_chunk(1, 3, codeword ^ 1 << place), voted(number, 1));
        }
    }
    // the last number: Gray(15) is 8, row 3 alone
    assert_eq!(vote_chunk(1, 3, 0xf0), voted(15, 0));
    // two bits from 00, and one bit from no codeword
    assert_eq!(vote_chunk(1, 3, 0x03), Err(Refusal::ChunkUnreadable));
}

#[test]
fn votes_of_repetition_and_of_all_words() {
    // r 0: two codewords, read up to one bit less than half the length
    assert_eq!(vote_chunk(0, 6, u64::MAX >> 33), voted(0, 31));
    assert_eq!(vote_chunk(0, 6, u64::MAX >> 32), Err(Refusal::ChunkUnreadable));
    assert_eq!(vote_chunk(0, 6, u64::MAX >> 31), voted(1, 31));
    assert_eq!(vote_chunk(0, 6, u64::MAX), voted(1, 0));
    assert_eq!(vote_chunk(0, 1, 0b01), Err(Refusal::ChunkUnreadable));
    // r = m: every chunk is a codeword. 01 is the sum of the rows 11 and 10, Gray(2); 10 is one of them, Gray(3)
    assert_eq!([0b00, 0b11, 0b01, 0b10].map(|chunk| vote_chunk(1, 1, chunk)), [0, 1, 2, 3].map(|number| voted(number, 0)));
}

#[test]
fn a_bit_at_n_or_above_is_refused() {
    for (r, m, _) in CODES {
        for place in 1 << m..64 {
            // alone, before a chunk that would be read, and before one that would not
            for below in [0, 1, 3] {
                assert_eq!(vote_chunk(r, m, 1 << place | below), Err(Refusal::SpareBit), "r {r} m {m} place {place}");
            }
        }
    }
}

#[test]
fn codes_outside_the_limits() {
    let borders = [255, 256, 257, 65_535, 65_536, 65_537, 1 << 31, u32::MAX - 1, u32::MAX];
    let numbers = || (0..=70).chain(borders);
    for (r, m) in numbers().flat_map(|r| numbers().map(move |m| (r, m))) {
        if is_code(r, m) {
            continue;
        }
        assert_eq!(make_card(14, r, m), Err(Refusal::CodeLimits), "r {r} m {m}");
        // before a bit at n or above, and before a chunk without a codeword
        for chunk in [0, 1, u64::MAX] {
            assert_eq!(vote_chunk(r, m, chunk), Err(Refusal::CodeLimits), "r {r} m {m} chunk {chunk}");
        }
    }
}
