//! What a release promises of where the tram stood, if no chunk of its word has more bits damaged than the radius: accepted, the
//! tram stood above the mark; and with 20t steps to spare it is accepted. For the word is read off by at most 2 × 5t steps.
use crate::tally::Tally;
use crate::trials::releases::Telegram;
use crate::yard_calls::Both;
use second_reader::track::Track;
use second_reader::yard::Released;
use second_reader::Refusal;

/// Holds to it a release of which nothing but the word could be refused.
pub fn held(tally: &mut Tally, track: &Track, telegram: &Telegram, mark: u32, answers: Both<Released>) {
    met(tally, track, telegram, mark, answers.second);
    broken(tally, track, telegram, mark, answers.library);
}

/// Whether the track is given away.
fn is_accepted(answer: Result<Released, Refusal>) -> bool {
    matches!(answer, Ok(Released::Freed | Released::HandedTo(_)))
}

/// How many steps a tram stood above the mark, and how many less 20t. None where a chunk has more bits damaged than the radius.
fn above(track: &Track, telegram: &Telegram, mark: u32) -> Option<[i64; 2]> {
    let above = i64::from(telegram.sent_from?) - i64::from(mark);
    Some([above, above - 20 * track.card.code.radius() as i64])
}

/// Counts what has been met, by the second reader's answer.
pub fn met(tally: &mut Tally, track: &Track, telegram: &Telegram, mark: u32, answer: Result<Released, Refusal>) {
    let Some([above, with_20t_off]) = above(track, telegram, mark) else { return };
    let (accepted, corrects) = (is_accepted(answer), track.card.code.radius() > 0);
    assert!(answer.is_ok() && (!accepted || above > 0) && (accepted || with_20t_off <= 0), "{answer:?} at {above} above {mark}");
    tally.add("releases of words damaged within the radius", true);
    tally.add("releases of these accepted", accepted);
    tally.add("releases of these accepted one step above the mark", accepted && above == 1);
    tally.add("releases of these not clear at the mark", !accepted && above == 0);
    tally.add("releases of these not clear above the mark", !accepted && above > 0);
    tally.add("releases of these above the mark less 20t", with_20t_off > 0);
    tally.add("releases of these one step above the mark less 20t, with t above 0", corrects && with_20t_off == 1);
    let beyond = telegram.read.map_or(0, |reading| reading.position.saturating_sub(telegram.sent_from.unwrap_or(0)));
    tally.add("releases of these accepted that were read beyond where the tram stood", accepted && beyond > 0);
    if accepted {
        tally.greatest("most steps by which one of them is read beyond", beyond.into());
    }
}

/// Counts what the library got wrong.
pub fn broken(tally: &mut Tally, track: &Track, telegram: &Telegram, mark: u32, answer: Result<Released, Refusal>) {
    let Some([above, with_20t_off]) = above(track, telegram, mark) else { return };
    let accepted = is_accepted(answer);
    tally.add("tracks given away with the tram not above the mark", accepted && above <= 0);
    tally.add("releases not accepted with the tram above the mark by more than 20t", !accepted && with_20t_off > 0);
}
