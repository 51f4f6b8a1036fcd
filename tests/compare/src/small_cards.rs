//! Small cards: every word of levels 1, -1 and 0, levels at their limits in every place, and many words of levels.
use crate::levels::{as_plain, at, both_read, promised};
use crate::library;
use crate::tally::Tally;
use crate::trials::{levels, magnitudes};
use second_reader::track::Track;
use second_reader::walk::Walk;
use second_reader::word;

/// Every word of levels 1, -1 and 0 of a small card, with what is promised of it against every position. Those without a 0 are also
/// held to the plain words.
pub fn every_word(tally: &mut Tally, card: &[u8], track: &Track) {
    let code = &track.card.code;
    let start = Walk::new(track);
    let walks: Vec<Walk> = (0..=track.last()).map(|position| standing_at(&start, position)).collect();
    for levels in levels::every(code.word_bits()) {
        let answers = both_read(tally, card, &start, &levels);
        for here in &walks {
            promised(tally, here, &levels, answers);
        }
        if !levels.contains(&0.0) {
            let bits: Vec<bool> = levels.iter().map(|&level| level < 0.0).collect();
            let bytes = word::packed(&bits);
            as_plain(tally, card, code, &bytes, library::read_word(card, &bytes));
        }
    }
}

/// A level at and outside the limits in every place of a word: of one that is read, and of such as are refused by 9 to 12 and 17.
pub fn limits(tally: &mut Tally, card: &[u8], track: &Track) {
    let code = &track.card.code;
    let of = |separators, p, q| levels::of_bits(&code.word_of_chunks(separators, [code.codeword(p), code.codeword(q)]));
    let (zero, one) = (false, true);
    let words = [
        of([zero; 3], 0, 0),
        of([zero, one, zero], 0, 0),
        vec![0.0; code.word_bits()],
        of([zero; 3], 0, 1),
        of([zero, zero, one], 0, 0),
        of([zero; 3], 1, 1),
    ];
    for (word, place) in words.iter().flat_map(|word| (0..word.len()).map(move |place| (word, place))) {
        for level in magnitudes::outside().chain(magnitudes::within()) {
            let mut levels = word.clone();
            levels[place] = level;
            both_read(tally, card, &Walk::new(track), &levels);
        }
    }
}

/// Positions of a small card, and again, with words of levels that are new each time.
pub fn many(tally: &mut Tally, card: &[u8], track: &Track, rounds: u64) {
    let start = Walk::new(track);
    for (round, position) in (0..rounds).flat_map(|round| (0..=track.last()).map(move |position| (round, position))) {
        at(tally, card, &start, &standing_at(&start, position), 1_000 + round);
    }
}

/// A walk that has gone on to a position.
fn standing_at<'a>(walk: &Walk<'a>, position: u32) -> Walk<'a> {
    let mut walk = walk.clone();
    walk.go_to(position);
    walk
}
