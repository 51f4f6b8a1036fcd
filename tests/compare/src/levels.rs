//! Words of levels: by the library and by the second reader, against the plain words, and what is promised of levels 1, -1 and 0.
use crate::calls;
use crate::library;
use crate::parity;
use crate::tally::Tally;
use crate::trials::{levels, magnitudes};
use second_reader::code::Code;
use second_reader::levels::read_levels_from;
use second_reader::separator_promise::separator_agrees_in_levels;
use second_reader::track::Track;
use second_reader::walk::Walk;
use second_reader::{word, Reading, Refusal, Strength};

/// What is answered of levels.
type Answer = Result<(Reading, Strength), Refusal>;

/// What the library and the second reader answer of the same levels.
#[derive(Clone, Copy)]
pub struct Answers {
    library: Answer,
    second: Answer,
}

/// The words of levels that are read at a position of card `id`. The walk `behind` stands further back.
pub fn at(tally: &mut Tally, card: &[u8], behind: &Walk, here: &Walk, id: u64) {
    for levels in levels::at(behind, here, id) {
        let answers = both_read(tally, card, behind, &levels);
        promised(tally, here, &levels, answers);
    }
    for levels in magnitudes::at(behind, here, id) {
        both_read(tally, card, behind, &levels);
    }
}

/// Levels, by the library and by the second reader, whose search sets out from a walk.
pub fn both_read(tally: &mut Tally, card: &[u8], walk: &Walk, levels: &[f32]) -> Answers {
    let (library, second) = (library::read_levels(card, levels), read_levels_from(walk, levels));
    calls::read_levels(tally, library, second);
    if !matches!(second, Err(15 | 16)) {
        parity::held(tally, walk.track, library, || separator_agrees_in_levels(walk.track, levels));
    }
    Answers { library, second }
}

/// Levels 1, -1 and 0, against the word of the position at which a walk stands: where 2 × wrong + erased is below D in every chunk,
/// they must be read, no further off than 2 × wrong + erased over the whole word.
pub fn promised(tally: &mut Tally, here: &Walk, levels: &[f32], answers: Answers) {
    let Some(damage) = levels::damage_below_distance(&here.track.card.code, &here.word, levels) else { return };
    let off = |answer: Answer| answer.map_or(u64::MAX, |(reading, _)| here.position.abs_diff(reading.position).into());
    let (damage, by_library, by_second) = (damage as u64, off(answers.library), off(answers.second));
    tally.add("words of levels damaged below D in every chunk", true);
    tally.greatest("most damage of one of them", damage);
    tally.greatest("greatest error of one of them in steps", by_second);
    tally.add("errors of as many steps as the damage", damage != 0 && by_second == damage);
    tally.add("errors above the damage or refused", damage < by_library);
}

/// A plain word as levels 1 and -1, by the library alone: it must answer as it does of the word itself, and the strength of d levels
/// of magnitude 1 beside it. A word with a spare bit set has no such levels.
pub fn as_plain(tally: &mut Tally, card: &[u8], code: &Code, bytes: &[u8], plain: Result<Reading, Refusal>) {
    let bits = word::unpacked(bytes);
    let (word, spare) = bits.split_at(code.word_bits());
    if spare.contains(&true) {
        return;
    }
    let strength = Strength { sum: word.len() as f32, greatest: 1.0 };
    let expected = plain.map(|reading| (reading, strength));
    let answer = library::read_levels(card, &levels::of_bits(word));
    tally.add("words of levels 1 and -1 held to the plain word", true);
    tally.add("words of levels 1 and -1 unlike the plain word", answer != expected);
}

/// Other counts of levels than the card's, and the most that a card has: levels that are allowed, and such as are not.
pub fn of_counts(tally: &mut Tally, card: &[u8], track: &Track) {
    let d = track.card.code.word_bits();
    for count in [0, 1, d - 1, d + 1, 320, 321] {
        for level in [1.0, -1.0, 0.0, f32::NAN, f32::INFINITY] {
            both_read(tally, card, &Walk::new(track), &vec![level; count]);
        }
    }
}

/// Levels on a card that is not sound, whose refusal comes before theirs.
pub fn on_refused(tally: &mut Tally, card: &[u8]) {
    for levels in [vec![], vec![1.0; 15], vec![f32::NAN; 15], vec![f32::INFINITY; 321]] {
        calls::read_levels(tally, library::read_levels(card, &levels), second_reader::read_levels(card, &levels));
    }
}
