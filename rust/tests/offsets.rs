//! Tracks laid with position 0 away from the buffer face, request P2: cases worked by hand.
mod cards;

use cards::{card_of, offset_card, seal};
use dunnavish::{block_start, check_card, make_card, millimetres, read_levels, read_word, write_word};
use dunnavish::{nearest_tram, trams_crossing, trams_within, CardSummary, Reading, Refusal, Rule, Stretch, Yard, YARD_NUMBERS};

/// Offsets within their range: its ends, 0, and the numbers beside these.
const WITHIN: [i32; 7] = [-20_000, -19_999, -1, 0, 1, 19_999, 20_000];

/// Offsets outside it: the first on either side, and the furthest that four bytes hold.
const OUTSIDE: [i32; 4] = [-20_001, 20_001, i32::MIN, i32::MAX];

/// Card B laid with this offset: n 3, k 1, row 7, so D 3 and one block of 3 × 3 + 2 × 3 = 15 steps.
fn card_b(offset: i32) -> Vec<u8> {
    offset_card(offset, 3, 1, 14, &[7])
}

/// Card B with these bytes 100 to 103.
fn card_b_bytes(bytes: [u8; 4]) -> Vec<u8> {
    let mut card = card_of(3, 1, 14, &[7]);
    card[100..104].copy_from_slice(&bytes);
    seal(&mut card);
    card
}

/// Every call that takes a card refuses this one so, whatever else it is given; a refused write leaves the lent word as it was, a
/// refused release the yard.
fn every_call_refuses(card: &[u8], refusal: Refusal) {
    assert_eq!(check_card(card), Err(refusal));
    for number in [0, 15, 16, u32::MAX] {
        assert_eq!(block_start(card, number), Err(refusal));
        assert_eq!(millimetres(card, number), Err(refusal));
        for length in [0, 1, 2, 3] {
            let mut word = vec![0xaa; length];
            assert_eq!(write_word(card, number, &mut word), Err(refusal));
            assert_eq!(word, vec![0xaa; length]);
        }
    }
    for word in [&[][..], &[0x7f, 0x00], &[0xc0, 0x01], &[0x00, 0x80]] {
        assert_eq!(read_word(card, word), Err(refusal));
    }
    for levels in [&[][..], &[1.0; 15], &[f32::NAN; 15]] {
        assert_eq!(read_levels(card, levels), Err(refusal));
    }
    for trams in [&[][..], &[Stretch { low: 0, high: 15 }], &[Stretch { low: 1, high: 0 }; 65]] {
        for mark in [0, 16, u32::MAX] {
            assert_eq!(trams_crossing(card, trams, mark), Err(refusal));
            assert_eq!(trams_within(card, trams, mark, 15), Err(refusal));
            assert_eq!(nearest_tram(card, trams, mark), Err(refusal));
        }
    }
    for (number, word) in [(0, &[][..]), (33, &[0x7f, 0x00]), (u16::MAX, &[0x00, 0x80])] {
        let mut yard = Yard::from_numbers([number; YARD_NUMBERS]);
        assert_eq!(yard.release(number, word, 0, card), Err(refusal));
        assert_eq!(yard.numbers(), &[number; YARD_NUMBERS]);
    }
}

#[test]
fn distances_of_card_b() {
    // the offset, and the distances of positions 0, 1, 7 and 15
    for (offset, distances) in [
        (-20_000, [-20_000, -19_950, -19_650, -19_250]),
        (-19_999, [-19_999, -19_949, -19_649, -19_249]),
        (-750, [-750, -700, -400, 0]),
        (-350, [-350, -300, 0, 400]),
        (-1, [-1, 49, 349, 749]),
        (0, [0, 50, 350, 750]),
        (1, [1, 51, 351, 751]),
        (19_999, [19_999, 20_049, 20_349, 20_749]),
        (20_000, [20_000, 20_050, 20_350, 20_750]),
    ] {
        let card = card_b(offset);
        assert_eq!([0, 1, 7, 15].map(|position| millimetres(&card, position)), distances.map(Ok));
        assert_eq!(millimetres(&card, 16), Err(Refusal::OffTheTrack));
        assert_eq!(millimetres(&card, u32::MAX), Err(Refusal::OffTheTrack));
    }
}

#[test]
fn distances_of_a_long_track() {
    // n 64, k 12, and row z has every place but z: an even number of rows sums to their places z, an odd number to all but these.
    // So D is 2, and 4,095 blocks of 3 × 2 + 2 × 63 = 132 steps lead to 540,540.
    let rows: Vec<u64> = (0..12).map(|z| u64::MAX ^ 1 << z).collect();
    for (offset, first, last) in [(-20_000, -20_000, 27_007_000), (0, 0, 27_027_000), (20_000, 20_000, 27_047_000)] {
        let card = offset_card(offset, 64, 12, 14, &rows);
        assert_eq!(check_card(&card).unwrap().last, 540_540);
        assert_eq!(millimetres(&card, 0), Ok(first));
        assert_eq!(millimetres(&card, 540_540), Ok(last));
        assert_eq!(millimetres(&card, 540_541), Err(Refusal::OffTheTrack));
    }
}

#[test]
fn four_bytes_in_twos_complement_high_byte_first() {
    for (bytes, offset) in [
        ([0, 0, 0, 1], 1),
        ([0, 0, 0, 255], 255),
        ([0, 0, 1, 0], 256),
        ([0, 0, 0x4e, 0], 19_968),
        ([0, 0, 0x4e, 0x20], 20_000),
        ([255, 255, 255, 255], -1),
        ([255, 255, 255, 1], -255),
        ([255, 255, 255, 0], -256),
        ([255, 255, 0xb1, 0xe0], -20_000),
    ] {
        assert_eq!(millimetres(&card_b_bytes(bytes), 0), Ok(offset));
    }
    for bytes in [
        // one past either end
        [0, 0, 0x4e, 0x21],
        [255, 255, 0xb1, 0xdf],
        // one byte alone
        [0, 0, 0x4f, 0],
        [0, 0, 255, 0],
        [0, 1, 0, 0],
        [0, 255, 0, 0],
        [1, 0, 0, 0],
        [255, 0, 0, 0],
        // -20,000 in 16 bits, 20,000 under the wrong high bytes, and both with the low byte first
        [0, 0, 0xb1, 0xe0],
        [255, 255, 0x4e, 0x20],
        [0x20, 0x4e, 0, 0],
        [0xe0, 0xb1, 255, 255],
        // -20,000 as a sign and a magnitude
        [0x80, 0, 0x4e, 0x20],
    ] {
        assert_eq!(check_card(&card_b_bytes(bytes)), Err(Refusal::CardOffset), "{bytes:?}");
    }
}

#[test]
fn an_offset_outside_its_range_is_refused_by_every_call() {
    for offset in OUTSIDE {
        every_call_refuses(&card_b(offset), Refusal::CardOffset);
    }
}

#[test]
fn words_starts_and_readings_know_no_offset() {
    let summary = CardSummary { length: 3, rows: 1, track: 14, distance: 3, radius: 1, word_bits: 15, last: 15 };
    for card in WITHIN.map(card_b) {
        assert_eq!(check_card(&card), Ok(summary));
        for (position, expected) in [(0, [0x00, 0x00]), (7, [0x7f, 0x00]), (15, [0xff, 0x7f])] {
            let mut word = [0xaa, 0xaa];
            assert_eq!(write_word(&card, position, &mut word), Ok(()));
            assert_eq!(word, expected);
        }
        let mut word = [0xaa, 0xaa];
        assert_eq!(write_word(&card, 16, &mut word), Err(Refusal::OffTheTrack));
        assert_eq!(word, [0xaa, 0xaa]);
        let (rule, chunk1_bits, chunk2_bits) = (Rule::FirstDiffers, None, Some(0));
        let read = |position, residual| Ok(Reading { position, residual, rule, chunk1_bits, chunk2_bits });
        assert_eq!(read_word(&card, &[0x7f, 0x00]), read(7, 0));
        assert_eq!(read_word(&card, &[0x5f, 0x00]), read(5, 1));
        assert_eq!(read_word(&card, &[0x00, 0x80]), Err(Refusal::SpareBit));
        assert_eq!(read_word(&card, &[0xc0, 0x01]), Err(Refusal::Separators));
        assert_eq!(read_word(&card, &[0x00, 0x0e]), Err(Refusal::ChunksDiffer));
        assert_eq!(read_word(&card, &[0x00, 0x70]), Err(Refusal::NoBlock));
        assert_eq!([0, 1, 2].map(|block| block_start(&card, block)), [Ok(0), Ok(15), Err(Refusal::OffTheTrack)]);
    }
}

#[test]
fn the_offset_is_tested_between_4_and_5() {
    let dependent = |offset| offset_card(offset, 3, 2, 14, &[3, 3]);
    for offset in WITHIN {
        every_call_refuses(&dependent(offset), Refusal::DependentRows);
    }
    for offset in OUTSIDE {
        every_call_refuses(&dependent(offset), Refusal::CardOffset);
        // the first byte behind the offset; a row's bit at n; an unused row
        let mut stray = card_b(offset);
        stray[104] = 1;
        seal(&mut stray);
        every_call_refuses(&stray, Refusal::CardStrayBits);
        every_call_refuses(&offset_card(offset, 3, 1, 14, &[8]), Refusal::CardStrayBits);
        every_call_refuses(&offset_card(offset, 3, 1, 14, &[7, 1]), Refusal::CardStrayBits);
        every_call_refuses(&offset_card(offset, 65, 1, 14, &[7]), Refusal::CardLimits);
        let mut unchecked = card_b(offset);
        unchecked[511] ^= 1;
        every_call_refuses(&unchecked, Refusal::CardCheck);
        every_call_refuses(&card_b(offset)[..511], Refusal::CardLength);
    }
}

#[test]
fn unused_bytes_begin_behind_the_offset() {
    for place in 104..510 {
        let mut card = card_b(-20_000);
        card[place] = 1;
        seal(&mut card);
        assert_eq!(check_card(&card), Err(Refusal::CardStrayBits), "byte {place}");
    }
}

#[test]
fn a_made_card_has_offset_0() {
    let pairs = (1..=6).flat_map(|m| (0..=m).map(move |r| (r, m)));
    let made: Vec<_> = pairs.filter_map(|(r, m)| make_card(65_535, r, m).ok()).collect();
    assert_eq!(made.len(), 16);
    for card in made {
        assert_eq!(card[100..104], [0; 4]);
        assert_eq!([0, 1, 2].map(|position| millimetres(&card, position)), [Ok(0), Ok(50), Ok(100)]);
    }
}
