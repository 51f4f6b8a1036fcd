//! One call of the library against the same call of the second reader. Those on a yard are in `yard_calls.rs`.
use crate::library;
use crate::tally::Tally;
use second_reader::{Facts, Reading, Refusal, Strength, Vote, WRONG_COUNT};

/// The lent bytes of every write, of which the word is to fill the first ones: what they hold before it, and how many they are.
const HELD: u8 = 170;
const LENT: usize = 48;
pub type Lent = [u8; LENT];

/// Counts a call by what the second reader answered, and whether the library's answer differs from that. `served` names the line of
/// calls that are served; the lines of refusals begin with `calls`, and that of the mismatches ends with it. A card's own refusals
/// are told apart where it is checked only.
pub fn counted<T>(tally: &mut Tally, calls: &str, served: &str, second: Result<T, Refusal>, unlike: bool) {
    match second {
        Ok(_) => tally.add(served, true),
        Err(1..=5 | 14) if calls != CARDS => tally.add(&format!("{calls} on refused cards"), true),
        Err(WRONG_COUNT) => tally.add(&format!("{calls} with a wrong count"), true),
        Err(refusal) => tally.add(&format!("{calls} refused {refusal}"), true),
    }
    tally.add(&format!("mismatches of {calls}"), unlike);
}

/// The same, of a call on a card or a code.
fn answered<T>(tally: &mut Tally, calls: &str, served: &str, second: Result<T, Refusal>, unlike: bool) {
    counted(tally, calls, served, second, unlike);
    tally.add("answers compared", true);
}

const CARDS: &str = "cards";

pub fn check(tally: &mut Tally, card: &[u8], second: Result<Facts, Refusal>) {
    answered(tally, CARDS, "cards sound", second, library::check_card(card) != second);
}

/// A block start or a distance.
pub fn number<T: PartialEq>(tally: &mut Tally, answer: Result<T, Refusal>, second: Result<T, Refusal>) {
    let unlike = answer != second;
    answered(tally, "starts and distances", "starts and distances", second, unlike);
}

/// The distance of a position.
pub fn distance(tally: &mut Tally, card: &[u8], position: u32) {
    let second = second_reader::millimetres(card, position);
    number(tally, library::millimetres(card, position), second);
    tally.add("distances below 0", second.map_or(false, |distance| distance < 0));
}

/// A number as a block, whose start is asked for, and as a position, whose distance is.
pub fn numbers(tally: &mut Tally, card: &[u8], x: u32) {
    number(tally, library::block_start(card, x), second_reader::block_start(card, x));
    distance(tally, card, x);
}

/// A write into `len` bytes.
pub fn write(tally: &mut Tally, card: &[u8], position: u32, len: usize) {
    written(tally, card, position, len, |word| second_reader::write_word(card, position, word));
}

/// A write into `len` bytes against what `second` answers and leaves in as many. Bytes after these must stay as they are, and all
/// where it is refused. Answers what the library left.
pub fn written<F>(tally: &mut Tally, card: &[u8], position: u32, len: usize, second: F) -> Lent
where
    F: FnOnce(&mut [u8]) -> Result<(), Refusal>,
{
    let (mut left, mut right) = ([HELD; LENT], [HELD; LENT]);
    let answer = library::write_word(card, position, &mut left[..len]);
    let second = second(&mut right[..len]);
    answered(tally, "writes", "positions written", second, answer != second || left != right);
    left
}

/// What both read.
pub fn read(tally: &mut Tally, answer: Result<Reading, Refusal>, second: Result<Reading, Refusal>) {
    answered(tally, "words", "words read", second, answer != second);
    if let Ok(reading) = second {
        tally.add(&format!("words read by rule {}", reading.rule), true);
    }
}

/// What both read of levels. Strengths are compared bit for bit.
pub fn read_levels(
    tally: &mut Tally,
    answer: Result<(Reading, Strength), Refusal>,
    second: Result<(Reading, Strength), Refusal>,
) {
    let in_bits = |(reading, strength): (Reading, Strength)| (reading, [strength.sum, strength.greatest].map(f32::to_bits));
    let unlike = answer.map(in_bits) != second.map(in_bits);
    answered(tally, "words of levels", "words of levels read", second, unlike);
    if let Ok((reading, _)) = second {
        tally.add(&format!("words of levels read by rule {}", reading.rule), true);
    }
}

/// The card of a Reed-Muller code.
pub fn make(tally: &mut Tally, track: u16, r: u32, m: u32, second: Result<[u8; 512], Refusal>) {
    answered(tally, "made cards", "cards made", second, library::make_card(track, r, m) != second);
}

/// What a chunk is read as, by the library's votes and by the second reader.
pub fn vote(tally: &mut Tally, answer: Result<Vote, Refusal>, second: Result<Vote, Refusal>) {
    answered(tally, "chunks", "chunks read", second, answer != second);
    if let Ok(vote) = second {
        tally.greatest("most bits damaged in a chunk that is read", vote.bits.into());
    }
}

/// Yes or no for each tram of a list, or the nearest one's place in it.
pub type EachTram = Result<Vec<bool>, Refusal>;
pub type Nearest = Result<Option<usize>, Refusal>;

/// Which trams both tell to cross a mark.
pub fn crossing(tally: &mut Tally, answer: &EachTram, second: &EachTram) {
    told(tally, "searches for crossing trams", answer, second);
    tally.add_all("trams reported as crossing a mark", trams_told(second, true));
    tally.add_all("trams reported as not crossing a mark", trams_told(second, false));
}

/// Which trams both tell to be wholly within two marks.
pub fn within(tally: &mut Tally, answer: &EachTram, second: &EachTram) {
    told(tally, "searches within two marks", answer, second);
    tally.add_all("trams reported as within two marks", trams_told(second, true));
    tally.add_all("trams reported as not within two marks", trams_told(second, false));
}

/// Which tram both tell to be the nearest to a mark.
pub fn nearest(tally: &mut Tally, answer: Nearest, second: Nearest) {
    told(tally, "searches for the nearest tram", &answer, &second);
    tally.add("searches for the nearest of no trams", second == Ok(None));
}

/// What both tell of a list of trams.
fn told<T: PartialEq>(tally: &mut Tally, searches: &str, answer: &Result<T, Refusal>, second: &Result<T, Refusal>) {
    answered(tally, searches, &format!("{searches} answered"), second.as_ref().map_err(|&refusal| refusal), answer != second);
}

/// How many trams have this answer.
fn trams_told(answer: &EachTram, told: bool) -> u64 {
    answer.iter().flatten().filter(|&&one| one == told).count() as u64
}

/// What both read of a damaged word of an end of a tram.
pub fn end(tally: &mut Tally, answer: Result<Reading, Refusal>, second: Result<Reading, Refusal>) {
    answered(tally, "ends of trams", "ends of trams read", second, answer != second);
}
