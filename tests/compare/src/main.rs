//! Compares the library's public calls with the second reader, on cards of every shape, with faults and with offsets, on words
//! damaged in many ways, in bits and in levels, on the Reed-Muller codes and their chunks, on lists of trams at marks, and on
//! yards at every border and over long days, and prints counts. A call is compared in `calls.rs` or `yard_calls.rs`, a count is a
//! line of `tally.rs`, and what is tried stands in `trials`.
//!
//! How the file `expected` was made: every count but the last thirty-four follows from how the cards, words, chunks, lists, yards
//! and days are made and from what the second reader answers, and none of them from the library. The last thirty-four are of the
//! library, and are 0 where it is right. So the file has the former as the program printed them with a library that refused every
//! call, and 0 for each of the latter.
#![deny(unsafe_code)]

mod calls;
mod cleared;
mod codes;
mod counts;
mod days;
mod divided;
mod ledger;
#[allow(unsafe_code)]
mod lent;
mod levels;
mod library;
mod parity;
mod positions;
mod small_cards;
mod stood;
mod tally;
mod ties;
mod trams;
mod trials;
mod yard_calls;
mod yards;

use second_reader::track::Track;
use tally::Tally;
use trials::shapes::{self, Shape};
use trials::{cards, faults, offsets};

/// The shapes whose cards are also tried with every two faults at once.
const WITH_FAULTS: [usize; 4] = [WIDEST, 65, CARD_A, 90];

/// The shapes of card A (n 3, k 2, D 2), of card B (n 3, k 1, D 3), of the card with the widest words (n 64, k 1, D 64), and of the
/// largest card (n 64, k 12).
const CARD_A: usize = 77;
const CARD_B: usize = 2;
const WIDEST: usize = 63;
const LARGEST: usize = 267;
const TWO_ROWS: usize = 268;

/// The shapes whose cards are also tried with offsets at the borders: card B's, that of the widest words, two with several rows,
/// and one with rows that are dependent.
const WITH_OFFSETS: [usize; 5] = [CARD_B, WIDEST, CARD_A, 90, 199];

/// The shapes whose cards are also tried with levels at their limits in every place: those of n 1 and 2, card A's, card B's and the
/// one with the widest words. Cards A and B and the one of n 5, D 5, are also tried with many words of levels.
const WITH_LIMITS: [usize; 5] = [0, 1, CARD_A, CARD_B, WIDEST];
const WITH_MANY: [usize; 3] = [CARD_A, CARD_B, 4];

/// The shapes on whose tracks lists of trams of each kind are tried, and trams that stood somewhere: those of n 1 and of card A,
/// with t 0; the repetition codes of n 3, which is card B, of 5 and 63, on which 10t is 5 less than the last position, and of 64;
/// the Reed-Muller code of order 1 with n 64; the Hamming code of length 7; the BCH code of length 15 with D 7; the largest; and
/// the one of two rows with D 3. On no track is 10t above the last position: it is at most 5D - 5, and block 0 alone has at least
/// 5D steps.
const WITH_TRAMS: [usize; 11] = [0, CARD_A, CARD_B, 4, 62, WIDEST, 93, 97, 100, LARGEST, TWO_ROWS];

/// The shapes of the smallest tracks, on which every list of up to two trams is tried.
const WITH_EVERY_LIST: [usize; 3] = [0, CARD_B, CARD_A];

/// The shapes on whose tracks releases are tried with marks at their borders, and whose cards are laid on long days: those of n 1
/// and of card A, with t 0; the repetition codes of n 3, which is card B, of 5 and of 64; the Hamming code of length 7; the BCH
/// code of length 15 with D 7; and the one of two rows with D 3.
const WITH_RELEASES: [usize; 8] = [0, CARD_A, CARD_B, 4, WIDEST, 97, 100, TWO_ROWS];

/// Every word of levels 1, -1 and 0 is tried up to this number of bits, and of card A, with its twelve.
const EVERY_WORD: usize = 10;

/// Every plain word whose divided chunk is damaged arbitrarily is tried up to this number of bits.
const EVERY_TURN: usize = 20;

fn main() {
    let mut tally = Tally::new();
    let shapes = shapes::all();
    for (id, shape) in (0..).zip(&shapes) {
        card(&mut tally, &cards::sealed(cards::of_shape(shape, trials::random(id, 0) as u16)), id);
    }
    for i in WITH_FAULTS {
        let right = cards::of_shape(&shapes[i], i as u16);
        for (a, b) in faults::pairs() {
            card(&mut tally, &faults::faulty(right, a, b), shapes.len() as u64);
        }
    }
    with_offsets(&mut tally, &shapes);
    with_levels(&mut tally, &shapes);
    with_divided_chunks(&mut tally, &shapes);
    codes::all(&mut tally);
    with_trams(&mut tally, &shapes);
    with_yards(&mut tally, &shapes);
    tally.print();
}

/// Cards of some shapes with offsets at the borders, and the largest with those at the ends of the range. Then every offset on
/// card B: its check, and the distances at both ends of its track.
fn with_offsets(tally: &mut Tally, shapes: &[Shape]) {
    let laid = |i: usize, offset| cards::sealed(cards::with_offset(cards::of_shape(&shapes[i], i as u16), offset));
    for i in WITH_OFFSETS {
        for (id, offset) in (shapes.len() as u64..).zip(offsets::ENDS.into_iter().chain(offsets::BORDERS)) {
            card(tally, &laid(i, offset), id);
        }
    }
    for offset in offsets::ENDS {
        card(tally, &laid(LARGEST, offset), shapes.len() as u64);
    }
    for offset in offsets::every() {
        let card = laid(CARD_B, offset);
        calls::check(tally, &card, second_reader::check_card(&card));
        calls::distance(tally, &card, 0);
        calls::distance(tally, &card, 15);
    }
}

/// Levels on cards of some shapes: every word of 1, -1 and 0, limits in every place, and many words.
fn with_levels(tally: &mut Tally, shapes: &[Shape]) {
    for (i, shape) in shapes.iter().enumerate().filter(|&(i, shape)| shape.n <= 5 || i == WIDEST) {
        let card = cards::sealed(cards::of_shape(shape, i as u16));
        let Ok(track) = Track::of_card(&card) else { continue };
        if track.card.code.word_bits() <= EVERY_WORD || i == CARD_A {
            small_cards::every_word(tally, &card, &track);
        }
        if WITH_LIMITS.contains(&i) {
            small_cards::limits(tally, &card, &track);
        }
        if WITH_MANY.contains(&i) {
            small_cards::many(tally, &card, &track, 50);
        }
    }
}

/// Every word whose divided chunk is damaged arbitrarily, the others within the radius, of the smallest cards.
fn with_divided_chunks(tally: &mut Tally, shapes: &[Shape]) {
    for (i, shape) in shapes.iter().enumerate() {
        let card = cards::sealed(cards::of_shape(shape, i as u16));
        let small = Track::of_card(&card).ok().filter(|track| track.card.code.word_bits() <= EVERY_TURN);
        if let Some(track) = small {
            divided::every_word(tally, &card, &track);
        }
    }
}

/// Trams at marks on cards of some shapes: lists of each kind, trams where they stood, and every list of the smallest cards.
fn with_trams(tally: &mut Tally, shapes: &[Shape]) {
    let laid = |i: usize| cards::sealed(cards::of_shape(&shapes[i], i as u16));
    for i in WITH_TRAMS {
        let card = laid(i);
        let track = Track::of_card(&card).expect("the rows are independent");
        trams::of_each_kind(tally, &card, &track, i as u64);
        stood::lists(tally, &card, &track, i as u64);
    }
    for i in WITH_EVERY_LIST {
        let card = laid(i);
        let track = Track::of_card(&card).expect("the rows are independent");
        trams::every_list(tally, &card, &track);
    }
}

/// Yards at every border, with card A and that of two rows, of both of which some chunks are not read; marks on cards of some
/// shapes, of the largest one in 400 of what is tried there; and long days.
fn with_yards(tally: &mut Tally, shapes: &[Shape]) {
    yards::of_every_kind(tally, &shapes[CARD_A]);
    yards::requests_refused_at_once(tally);
    for i in [CARD_A, TWO_ROWS] {
        yards::releases_refused_at_once(tally, &shapes[i]);
        yards::of_counts(tally, &shapes[i]);
    }
    for i in WITH_RELEASES {
        yards::about_marks(tally, &shapes[i], i as u64, 1);
    }
    yards::about_marks(tally, &shapes[LARGEST], LARGEST as u64, 400);
    yards::of_every_word(tally, &shapes[CARD_B], 1);
    yards::of_every_word(tally, &shapes[TWO_ROWS], 5);
    days::all(tally, &WITH_RELEASES.map(|i| &shapes[i]));
}

/// A card of any bytes. What is tried of it is chosen by `id`.
fn card(tally: &mut Tally, card: &[u8], id: u64) {
    let track = Track::of_card(card);
    calls::check(tally, card, track.as_ref().map(Track::facts).map_err(|&refusal| refusal));
    match track {
        Ok(track) => {
            positions::blocks(tally, card, &track);
            positions::from_end_to_end(tally, card, &track, id);
            ends(tally, card, &track);
            trams::some(tally, card, &track, id);
        }
        Err(_) => {
            of_length(tally, card, 0, 2);
            calls::numbers(tally, card, 0);
            levels::on_refused(tally, card);
            trams::on_refused(tally, card);
        }
    }
}

/// Blocks and positions at the ends of what there is, and past them, with a right and a wrong length; words of other lengths, and
/// of other counts of levels.
fn ends(tally: &mut Tally, card: &[u8], track: &Track) {
    let (last, past) = (track.last(), track.last() + 1);
    for number in [0, track.starts.len() as u32, last, past, u32::MAX] {
        calls::numbers(tally, card, number);
    }
    let len = track.card.code.word_bytes();
    of_length(tally, card, last, 0);
    of_length(tally, card, past, len - 1);
    of_length(tally, card, 0, len + 1);
    calls::write(tally, card, past, len);
    calls::write(tally, card, u32::MAX, len);
    levels::of_counts(tally, card, track);
}

/// A write into, and a read of, `len` bytes.
fn of_length(tally: &mut Tally, card: &[u8], position: u32, len: usize) {
    calls::write(tally, card, position, len);
    let word = vec![0; len];
    calls::read(tally, library::read_word(card, &word), second_reader::read_word(card, &word));
}
