//! Words whose divided chunk is damaged arbitrarily, the others within the radius: each must be read, and both distances of request
//! P7 hold.
use crate::counts;
use crate::tally::Tally;
use crate::trials::divided as words;
use second_reader::divided::{damaged_within_limit, divided};
use second_reader::track::Track;
use second_reader::walk::Walk;
use second_reader::word::{packed, unlike, unpacked};
use second_reader::{Reading, Refusal};

/// The words of the position at which a walk stands, of card `id`. The walk `behind` stands further back.
pub fn at(tally: &mut Tally, card: &[u8], behind: &Walk, here: &Walk, id: u64) {
    for word in words::at(here, id) {
        read(tally, card, behind, here, &packed(&word));
    }
}

/// Every such word of every position of a small card.
pub fn every_word(tally: &mut Tally, card: &[u8], track: &Track) {
    let start = Walk::new(track);
    let mut here = start.clone();
    for position in 0..=track.last() {
        here.go_to(position);
        for word in words::every(&here) {
            read(tally, card, &start, &here, &packed(&word));
        }
    }
}

fn read(tally: &mut Tally, card: &[u8], behind: &Walk, here: &Walk, bytes: &[u8]) {
    let [answer, second] = counts::both_read(tally, card, behind, bytes);
    held(tally, here, bytes, answer, second);
}

/// A word that was received at a position: where each chunk that is not divided has at most t bits damaged, it must be read, no
/// further off than the bits damaged and the residual together, and than twice the bits damaged.
pub fn held(tally: &mut Tally, here: &Walk, bytes: &[u8], answer: Result<Reading, Refusal>, second: Result<Reading, Refusal>) {
    let received = unpacked(bytes);
    let Some(damaged) = damaged_within_limit(here, &received) else { return };
    let damaged = damaged as u64;
    tally.add("words within the limits of the chunks that are not divided", true);
    in_divided(tally, here, &received);
    let off = |reading: Reading| u64::from(here.position.abs_diff(reading.position));
    let both = |reading: Reading| damaged + u64::from(reading.residual);
    if let Ok(reading) = second {
        tally.greatest("most bits damaged in one within these limits", damaged);
        tally.greatest("greatest error of one within these limits in steps", off(reading));
        tally.add("errors of the bits damaged and the residual together", damaged != 0 && off(reading) == both(reading));
    }
    tally.add("words within these limits refused", answer.is_err());
    tally.add(
        "errors above the bits damaged and the residual together",
        answer.map_or(false, |reading| both(reading) < off(reading)),
    );
    tally.add(
        "errors above twice the bits damaged within these limits",
        answer.map_or(false, |reading| 2 * damaged < off(reading)),
    );
    tally.add(
        "residuals above the bits damaged within these limits",
        answer.map_or(false, |reading| damaged < u64::from(reading.residual)),
    );
}

/// Counts a word by the bits damaged in the divided chunk, if there is one.
fn in_divided(tally: &mut Tally, here: &Walk, received: &[bool]) {
    let code = &here.track.card.code;
    for (places, _) in code.chunks().into_iter().zip(divided(here)).filter(|&(_, divided)| divided) {
        let damaged = unlike(&here.word[places.clone()], &received[places.clone()]);
        tally.add("words of these with a divided chunk", true);
        tally.add("words of these with more than t bits damaged in the divided chunk", code.radius() < damaged);
        tally.add("words of these with the divided chunk damaged whole", damaged == places.len());
    }
}
