//! Long days: from the empty yard, requests and releases, each given the yard that the last call left. What calls answer and
//! leave is compared, and held to what request P9 promises of waiting trams, and of trams whose words are damaged within the
//! radius.
use crate::cleared;
use crate::ledger::{queue_length, Ledger, Seen};
use crate::library;
use crate::tally::Tally;
use crate::trials::days::{Call, Card, Day, LaidCode, CALLS, DAYS};
use crate::trials::random;
use crate::trials::releases::{Laid, Telegram};
use crate::trials::shapes::Shape;
use crate::yard_calls::{release, request, told, Both, Release, Yards};
use second_reader::yard::{Released, Yard};
use second_reader::yard_numbers::{yard_of, Numbers, COUNT, FLAGS, HOLDERS};

/// The yard of a day, as the library and as the second reader leave it, and what each one's calls are held to.
struct Kept {
    yards: Yards,
    by_library: Ledger,
    by_second: Ledger,
}

/// Days on which cards of these shapes are laid.
pub fn all(tally: &mut Tally, shapes: &[&Shape]) {
    let codes: Vec<LaidCode> = (0..).zip(shapes).map(|(id, shape)| LaidCode::new(shape, id)).collect();
    for (number, drawn_from) in (0..).zip(DAYS) {
        let day = Day::new(&codes, drawn_from, random(number, 9));
        let empty = library::empty_yard();
        assert_eq!(yard_of(&empty), Some(Yard::empty()), "the library's empty yard");
        let mut kept = Kept { yards: Yards::of(empty), by_library: Ledger::new(empty), by_second: Ledger::new(empty) };
        tally.add("days", true);
        for call in 0..CALLS {
            let call = day.call(call, &kept.yards.second);
            one(tally, &mut kept, call);
            told(tally, &kept.yards);
        }
        tally.add_all("trams that still wait at the end of a day", kept.by_second.waiting() as u64);
    }
}

/// A call of a day.
fn one(tally: &mut Tally, kept: &mut Kept, call: Call) {
    tally.add("calls of a day", true);
    let Kept { yards, by_library, by_second } = kept;
    let (refusal, seen_of_library, seen_of_second) = match call {
        Call::Request { tram, track } => {
            let Both { library, second } = request(tally, yards, tram, track);
            let of_library = by_library.requested(tram, track, library, &yards.library);
            (library.err(), of_library, by_second.requested(tram, track, second, &yards.second))
        }
        Call::Release { tram, track, card, telegram, mark } => {
            let Both { library, second } = with_card(tally, yards, tram, telegram, mark, &card);
            let of_library = by_library.released(tram, track, library, &yards.library);
            tally.add("releases of a day that free the track", second == Ok(Released::Freed));
            tally.add("releases of a day that hand the track on", matches!(second, Ok(Released::HandedTo(_))));
            (library.err(), of_library, by_second.released(tram, track, second, &yards.second))
        }
    };
    tally.add("yards of a day refused 26", refusal == Some(26));
    lengths(tally, &yards.second);
    met(tally, seen_of_second);
    broken(tally, seen_of_library);
}

/// A release with a card. Where the tram holds the card's track, so that nothing but the word could be refused, the answers are
/// held to where the tram stood.
fn with_card(tally: &mut Tally, yards: &mut Yards, tram: u16, telegram: &Telegram, mark: u32, card: &Card) -> Both<Released> {
    let before = *yards;
    let given = Release { tram, word: &telegram.bytes, mark, card: &card.laid().bytes };
    let answers = release(tally, yards, given, card.laid().walk().as_ref().map_err(|&refusal| refusal));
    if let Card::Sound(Laid { track: Ok(track), .. }) = card {
        let slot = track.card.track as usize;
        let holds = |numbers: &Numbers| slot < 16 && numbers[FLAGS + slot] != 0 && numbers[HOLDERS + slot] == tram;
        if holds(&before.second) {
            cleared::met(tally, track, telegram, mark, answers.second);
        }
        if holds(&before.library) {
            cleared::broken(tally, track, telegram, mark, answers.library);
        }
    }
    answers
}

/// The longest queue, and the most trams that wait.
fn lengths(tally: &mut Tally, numbers: &Numbers) {
    let longest = (0..16).map(|track| queue_length(numbers, track)).max().unwrap_or(0);
    tally.greatest("longest queue of a day", longest as u64);
    tally.greatest("most trams waiting at once", numbers[COUNT].into());
    tally.add("yards of a day in which 32 trams wait", numbers[COUNT] == 32);
}

/// Counts what was seen of the second reader's calls, among which nothing may be wrong.
fn met(tally: &mut Tally, Seen { in_turn, still_waiting, not_in_turn, out_of_turn, changed }: Seen) {
    assert!(not_in_turn == 0 && !out_of_turn && !changed, "the second reader's yards");
    for ahead in in_turn {
        tally.add("waiting trams with q ahead that held their track after q + 1 accepted releases", true);
        tally.add("trams of these with none ahead", ahead == 0);
        tally.add("trams of these with eight or more ahead", ahead >= 8);
        tally.greatest("most trams ahead of one of them", ahead as u64);
    }
    tally.add_all("waiting trams that did not hold their track after q accepted releases or fewer", still_waiting);
}

/// Counts what the library got wrong.
fn broken(tally: &mut Tally, seen: Seen) {
    tally.add_all("waiting trams that held their track sooner or later than they should", seen.not_in_turn);
    tally.add("tracks handed on, freed or taken out of turn", seen.out_of_turn);
    tally.add("calls refused or not clear that changed the yard", seen.changed);
}
