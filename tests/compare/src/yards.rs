//! Requests and releases at every border: yards, sound and refused, several refusals at once, marks about the position less 10t,
//! and in C also other counts of lent numbers.
use crate::cleared;
use crate::tally::Tally;
use crate::trials::releases::{border_positions, every_telegram, marks, refused_cards, refused_words, telegrams, Laid};
use crate::trials::shapes::Shape;
use crate::trials::yards::{self, by_turns, holder, waiting, NEW};
use crate::yard_calls::{release, release_lent, request, request_lent, told, Release, Yards};
use crate::yard_calls::{RIGHT_COUNTS, VALUE_COUNTS, YARD_COUNTS};
use second_reader::track::Track;
use second_reader::walk::Walk;
use second_reader::word::packed;
use second_reader::yard_numbers::{yard_of, Numbers, COUNT, HOLDERS, TRAMS, WAITED_FOR};

/// The word of a track's last position, which is clear of mark 0: 10t is below it on every track.
fn clear_word(track: &Track) -> Vec<u8> {
    let mut walk = Walk::new(track);
    walk.go_to(track.last());
    packed(&walk.word)
}

/// Yards of every kind: all requests and releases of sound ones, and some of those with a border.
pub fn of_every_kind(tally: &mut Tally, shape: &Shape) {
    let cards = [0, 7, 15, 16, 65_535].map(|track| Laid::sound(shape, track));
    let word = clear_word(cards[0].sound_track());
    for numbers in yards::sound() {
        assert!(yard_of(&numbers).map_or(false, |yard| yard.is_sound()), "{numbers:?}");
        told(tally, &Yards::of(numbers));
        for tram in yards::trams(&numbers) {
            for track in yards::TRACKS {
                request(tally, &mut Yards::of(numbers), tram, track);
            }
            cards.iter().for_each(|card| released(tally, numbers, tram, &word, 0, card));
            // Not clear, and with a word that is refused.
            released(tally, numbers, tram, &word, u32::MAX, &cards[0]);
            released(tally, numbers, tram, &[], 0, &cards[0]);
        }
        request_lent(tally, &numbers, RIGHT_COUNTS, NEW, 7);
        let given = Release { tram: numbers[HOLDERS], word: &word, mark: 0, card: &cards[0].bytes };
        release_lent(tally, &numbers, RIGHT_COUNTS, given);
    }
    let with_borders = yards::with_counts().into_iter().chain(yards::with_a_tram_twice()).chain(yards::waiting_for_free());
    for numbers in with_borders {
        for (tram, track) in [(NEW, 15), (NEW, 0), (NEW, 16), (holder(0), 1)] {
            request(tally, &mut Yards::of(numbers), tram, track);
        }
        request_lent(tally, &numbers, RIGHT_COUNTS, NEW, 0);
        released(tally, numbers, holder(0), &word, 0, &cards[0]);
        released(tally, numbers, holder(0), &word, 0, &cards[3]);
    }
}

/// A release with a card, in the same yard for both.
fn released(tally: &mut Tally, numbers: Numbers, tram: u16, word: &[u8], mark: u32, card: &Laid) {
    let given = Release { tram, word, mark, card: &card.bytes };
    release(tally, &mut Yards::of(numbers), given, card.walk().as_ref().map_err(|&refusal| refusal));
}

/// Makes a yard one that 26 refuses: two holders, a holder and a waiting tram, or two waiting trams are the same; a tram waits
/// for track 15, which is free, or for one above; or there are too many waiting.
const FAULTS: [fn(&mut Numbers); 7] = [
    |yard| yard[HOLDERS + 3] = holder(2),
    |yard| yard[TRAMS + 3] = holder(2),
    |yard| yard[TRAMS + 3] = waiting(2),
    |yard| yard[WAITED_FOR + 3] = 15,
    |yard| yard[WAITED_FOR + 3] = 16,
    |yard| yard[COUNT] = 33,
    |yard| yard[COUNT] = 65_535,
];

/// The yard with track 15 free and so many waiting for the others, sound and with each of the faults; and whether 26 refuses it.
fn sound_and_not(count: u16) -> Vec<(Numbers, bool)> {
    let sound = by_turns(15, count);
    let mut yards = vec![(sound, false)];
    for fault in FAULTS {
        let mut yard = sound;
        fault(&mut yard);
        yards.push((yard, true));
    }
    yards
}

/// Requests that several of 26, 20, 21 and 22 refuse at once, in every combination; a track above 15 isn't held, so 20 and 22
/// never come together.
pub fn requests_refused_at_once(tally: &mut Tally) {
    for (numbers, unsound) in sound_and_not(31).into_iter().chain(sound_and_not(32)) {
        for tram in [NEW, holder(0), holder(5), waiting(0), waiting(30)] {
            for track in [0, 5, 15, 16, u32::MAX] {
                request(tally, &mut Yards::of(numbers), tram, track);
                request_lent(tally, &numbers, RIGHT_COUNTS, tram, track);
                let is_full = numbers[COUNT] >= 32 && track < 15;
                at_once(tally, "requests", &[("26", unsound), ("20", track > 15), ("21", tram != NEW), ("22", is_full)]);
            }
        }
    }
}

/// Releases that several of the card, 26, 20, 21 and the word refuse at once, in every combination, on a card of a shape of which
/// some chunk is not read. What is refused of a faulty card's track, and of the word, is that of the same card without the fault.
pub fn releases_refused_at_once(tally: &mut Tally, shape: &Shape) {
    let sound = Laid::sound(shape, 0);
    let (code, last) = (&sound.sound_track().card.code, clear_word(sound.sound_track()));
    let mut words: Vec<(Vec<u8>, u32, bool)> = refused_words(code).into_iter().map(|word| (word, 0, true)).collect();
    words.extend([(last.clone(), 0, false), (last, u32::MAX, false)]);
    for track in [0, 15, 16, 65_535] {
        let cards: Vec<Laid> = refused_cards(shape, track).into_iter().chain([Laid::sound(shape, track)]).collect();
        for (card, (word, mark, refused)) in cards.iter().flat_map(|card| words.iter().map(move |word| (card, word))) {
            for (numbers, unsound) in sound_and_not(31) {
                for tram in [NEW, holder(0), holder(5), waiting(0)] {
                    released(tally, numbers, tram, word, *mark, card);
                    release_lent(tally, &numbers, RIGHT_COUNTS, Release { tram, word, mark: *mark, card: &card.bytes });
                    let (no_slot, no_holder) = (track > 15, track != 0 || tram != holder(0));
                    let holds = [("the card", card.track.is_err()), ("26", unsound), ("20", no_slot), ("21", no_holder)];
                    at_once(tally, "releases", &[&holds[..], &[("the word", *refused)]].concat());
                }
            }
        }
    }
}

/// Counts each two refusals that hold of a call at once.
fn at_once(tally: &mut Tally, calls: &str, refusals: &[(&str, bool)]) {
    let holding: Vec<&str> = refusals.iter().filter(|(_, holds)| *holds).map(|(refusal, _)| *refusal).collect();
    for (one, other) in (0..holding.len()).flat_map(|other| (0..other).map(move |one| (one, other))) {
        tally.add(&format!("{calls} that {} and {} refuse", holding[one], holding[other]), true);
    }
}

/// Releases with marks at their borders, of words of positions at the borders, by the holder of a track for which nobody waits,
/// or one tram or two do. Of card `id`, one in so many of them is tried.
pub fn about_marks(tally: &mut Tally, shape: &Shape, id: u64, one_in: usize) {
    let number = if id % 2 == 0 { 0 } else { 15 };
    let card = Laid::sound(shape, number);
    let track = card.sound_track();
    let yards = [by_turns(16, 0), by_turns(16, 16), by_turns(16, 32)];
    let mut which = 0;
    for (behind, words) in telegrams(track, &border_positions(track), id) {
        let with_marks =
            words.iter().flat_map(|word| marks(word, track.card.code.radius()).into_iter().map(move |mark| (word, mark)));
        for (telegram, mark) in with_marks {
            which += 1;
            if which % one_in == 0 {
                let given = Release { tram: holder(number.into()), word: &telegram.bytes, mark, card: &card.bytes };
                let answers = release(tally, &mut Yards::of(yards[which / one_in % 3]), given, Ok(&behind));
                cleared::held(tally, track, telegram, mark, answers);
            }
        }
    }
}

/// Releases of every word of a small card that is damaged within the radius in every chunk, of one in so many positions: with the
/// highest mark that it is clear of, and with the lowest that it isn't.
pub fn of_every_word(tally: &mut Tally, shape: &Shape, one_in: usize) {
    let card = Laid::sound(shape, 0);
    let track = card.sound_track();
    let less = 10 * track.card.code.radius() as u32;
    for telegram in every_telegram(track, one_in) {
        let read = telegram.read.expect("a word damaged within the radius is read").position;
        let clear = read.checked_sub(less + 1);
        for mark in clear.into_iter().chain([read.saturating_sub(less)]) {
            let given = Release { tram: holder(0), word: &telegram.bytes, mark, card: &card.bytes };
            let answers = release(tally, &mut Yards::of(by_turns(16, 16)), given, Ok(&Walk::new(track)));
            cleared::held(tally, track, &telegram, mark, answers);
        }
    }
}

/// Requests and releases in C with other counts of lent numbers: such as would be served, and such as would be refused.
pub fn of_counts(tally: &mut Tally, shape: &Shape) {
    let cards = [0, 16].map(|track| Laid::sound(shape, track));
    let word = clear_word(cards[0].sound_track());
    let counts = YARD_COUNTS.into_iter().flat_map(|yard| VALUE_COUNTS.map(|values| [yard, values]));
    for (counts, (numbers, _)) in counts.flat_map(|counts| sound_and_not(31).into_iter().map(move |yard| (counts, yard))) {
        for (tram, track) in [(NEW, 0), (NEW, 15), (NEW, 16), (holder(0), 0)] {
            request_lent(tally, &numbers, counts, tram, track);
        }
        for (card, tram) in cards.iter().flat_map(|card| [NEW, holder(0)].map(|tram| (card, tram))) {
            for (word, bytes) in [(&word[..], &card.bytes[..]), (&[], &card.bytes), (&word, &[])] {
                release_lent(tally, &numbers, counts, Release { tram, word, mark: 0, card: bytes });
            }
        }
    }
}
