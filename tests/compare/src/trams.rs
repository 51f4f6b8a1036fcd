//! Trams at marks: the library's three searches of a list of trams, against the second reader's.
use crate::calls::{self, EachTram, Nearest};
use crate::library;
use crate::tally::Tally;
use crate::ties;
use crate::trials::trams as trials;
use crate::trials::{draw, random};
use second_reader::track::Track;
use second_reader::trams::Trams;
use second_reader::{Refusal, Stretch};

/// How many lists of each kind and count are tried on a track.
const ROUNDS: u64 = 3;

/// The lists of two trams of a small card share about so many marks, and as many pairs of them. A sound list has three shares.
const OF_TWO_TRAMS: usize = 1_500_000;

/// A list of trams that is searched, and what the second reader takes it for.
pub struct List<'a> {
    card: &'a [u8],
    given: &'a [Stretch],
    second: Result<Trams<'a>, Refusal>,
}

impl<'a> List<'a> {
    pub fn new(card: &'a [u8], track: &'a Track, given: &'a [Stretch]) -> List<'a> {
        List { card, given, second: Trams::of_list(track, given) }
    }

    /// The widened stretch of the tram at a place, if there is one.
    pub fn widened(&self, place: usize) -> Option<Stretch> {
        self.second.as_ref().ok().and_then(|trams| trams.widened.get(place).copied())
    }

    /// Searches for the trams that cross a mark, and for the nearest to it. Answers what the library told of both.
    pub fn at(&self, tally: &mut Tally, mark: u32) -> (EachTram, Nearest) {
        let crossing = library::trams_crossing(self.card, self.given, mark);
        calls::crossing(tally, &crossing, &self.by_second(|trams| trams.crossing(mark)));
        let nearest = library::nearest_tram(self.card, self.given, mark);
        let second = self.by_second(|trams| trams.nearest(mark));
        calls::nearest(tally, nearest, second);
        if let (Ok(trams), Ok(Some(place))) = (&self.second, second) {
            ties::met(tally, self.given, trams, mark, place);
        }
        (crossing, nearest)
    }

    /// Searches for the trams within two marks. Answers what the library told.
    pub fn between(&self, tally: &mut Tally, [first, second]: [u32; 2]) -> EachTram {
        let within = library::trams_within(self.card, self.given, first, second);
        calls::within(tally, &within, &self.by_second(|trams| trams.within(first, second)));
        within
    }

    /// At each of these marks, then between each of these pairs.
    fn searched(&self, tally: &mut Tally, marks: impl IntoIterator<Item = u32>, pairs: impl IntoIterator<Item = [u32; 2]>) {
        for mark in marks {
            let _ = self.at(tally, mark);
        }
        for pair in pairs {
            let _ = self.between(tally, pair);
        }
    }

    fn by_second<T>(&self, search: impl Fn(&Trams) -> Result<T, Refusal>) -> Result<T, Refusal> {
        self.second.as_ref().map_err(|&refusal| refusal).and_then(search)
    }
}

/// Some lists of the track of any sound card, `id`: one of each count, at the ends of the track and at some marks of the list.
pub fn some(tally: &mut Tally, card: &[u8], track: &Track, id: u64) {
    for (which, count) in (0..).zip(trials::COUNTS) {
        let seed = random(id + 4, which);
        let given = trials::list(track, count, draw(seed, 0, trials::KINDS), seed);
        let (marks, pairs) = (trials::marks(track, &given), trials::pairs(track, &given, seed));
        let marks = trials::marks_of_track(track).into_iter().chain(drawn(&marks, 4, seed));
        List::new(card, track, &given).searched(tally, marks, drawn(&pairs, 8, seed));
    }
}

/// Lists of each kind and count on a track, at all marks and pairs of marks that they give; and lists with a refused stretch.
pub fn of_each_kind(tally: &mut Tally, card: &[u8], track: &Track, id: u64) {
    let rounds = (0..ROUNDS).flat_map(|round| (0..trials::KINDS).map(move |kind| (round, kind)));
    for ((round, kind), count) in rounds.flat_map(|which| trials::COUNTS.map(|count| (which, count))) {
        let seed = random(random(id, round), (100 * kind + count) as u64);
        let given = trials::list(track, count, kind, seed);
        let (marks, pairs) = (trials::marks(track, &given), trials::pairs(track, &given, seed));
        List::new(card, track, &given).searched(tally, marks, pairs);
    }
    for (bad, count) in trials::bad(track).into_iter().flat_map(|bad| trials::COUNTS.map(|count| (bad, count))) {
        for given in trials::with_bad(track, count, bad, random(id, count as u64)) {
            let (marks, pairs) = (trials::marks_of_track(track), trials::pairs_of_track(track));
            List::new(card, track, &given).searched(tally, marks, pairs);
        }
    }
}

/// Every list of up to two trams of a small card, sound and refused, up to one past the last position: no tram and one, at every
/// mark and between every two of them; two trams, at and between as many of these as are their share.
pub fn every_list(tally: &mut Tally, card: &[u8], track: &Track) {
    let marks: Vec<u32> = (0..=track.last() + 1).collect();
    let pairs = trials::every_two(&marks);
    let stretches: Vec<Stretch> = pairs.iter().map(|&[low, high]| Stretch { low, high }).collect();
    List::new(card, track, &[]).searched(tally, marks.clone(), pairs.clone());
    for one in &stretches {
        List::new(card, track, &[*one]).searched(tally, marks.clone(), pairs.clone());
    }
    let share = OF_TWO_TRAMS / (stretches.len() * stretches.len());
    let two = stretches.iter().flat_map(|&one| stretches.iter().map(move |&other| [one, other]));
    for (which, given) in (0..).zip(two) {
        let list = List::new(card, track, &given);
        let most = if list.second.is_ok() { 3 * share } else { share };
        list.searched(tally, at_most(&marks, most, which), at_most(&pairs, most, which));
    }
}

/// All of these if they are at most so many, else so many at random.
fn at_most<T: Copy>(all: &[T], most: usize, seed: u64) -> Vec<T> {
    if all.len() <= most {
        all.to_vec()
    } else {
        drawn(all, most as u64, seed).collect()
    }
}

/// So many of these, at random.
fn drawn<T: Copy>(all: &[T], count: u64, seed: u64) -> impl Iterator<Item = T> + '_ {
    (0..count).map(move |which| all[draw(seed, which, all.len())])
}

/// Searches on a card that is not sound, whose refusal comes before theirs: of lists that are sound, too long, and with a stretch
/// that is refused, at marks that are sound and that are refused.
pub fn on_refused(tally: &mut Tally, card: &[u8]) {
    let (sound, bad) = (Stretch { low: 0, high: 0 }, Stretch { low: 1, high: 0 });
    for trams in [vec![], vec![sound], vec![bad], vec![sound; 65], vec![bad; 65]] {
        for mark in [0, u32::MAX] {
            let (answer, second) =
                (library::trams_crossing(card, &trams, mark), second_reader::trams_crossing(card, &trams, mark));
            calls::crossing(tally, &answer, &second);
            calls::nearest(tally, library::nearest_tram(card, &trams, mark), second_reader::nearest_tram(card, &trams, mark));
        }
        for [a, b] in [[0, 0], [1, 0], [0, u32::MAX], [u32::MAX, u32::MAX]] {
            let (answer, second) = (library::trams_within(card, &trams, a, b), second_reader::trams_within(card, &trams, a, b));
            calls::within(tally, &answer, &second);
        }
    }
}
