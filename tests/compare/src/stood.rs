//! Trams that stood somewhere: the words of both their ends are damaged within the radius in every chunk and read, and what is
//! told of the stretches so read is held to where the trams stood. That is what a stretch is widened for: with at most t bits
//! damaged in each of five chunks, an end is read off by at most 2 × 5t steps.
use crate::calls::{self, EachTram, Nearest};
use crate::library;
use crate::positions::follow;
use crate::tally::Tally;
use crate::trams::List;
use crate::trials::trams::{marks, pairs};
use crate::trials::{choice, draw, random, words};
use second_reader::reading::read_from;
use second_reader::track::Track;
use second_reader::walk::Walk;
use second_reader::Stretch;

/// How many trams are drawn for a list, and how many lists of each count. Those that are read out of order are left out.
const COUNTS: [u64; 4] = [1, 2, 8, 64];
const ROUNDS: u64 = 8;

/// A position, and what its damaged words are read as, the smallest first.
struct End {
    position: u32,
    read: Vec<u32>,
}

/// Where a tram stood, and its stretch as read.
#[derive(Clone, Copy)]
struct Tram {
    stood: Stretch,
    read: Stretch,
}

/// Lists of trams on card `id`, at the marks that they and their stretches give.
pub fn lists(tally: &mut Tally, card: &[u8], track: &Track, id: u64) {
    let ends = ends(tally, card, track, id);
    for (round, count) in (0..ROUNDS).flat_map(|round| COUNTS.map(|count| (round, count))) {
        let seed = random(id + round, count);
        let trams = (0..count).map(|place| tram(&ends, random(seed, place)));
        let in_order: Vec<Tram> = trams.filter(|tram| is_in_order(tally, tram)).collect();
        searched(tally, card, track, &in_order, seed);
    }
}

/// The words damaged within the radius of some positions of a track, in their order, as the second reader reads them. The library
/// must read them so.
fn ends(tally: &mut Tally, card: &[u8], track: &Track, id: u64) -> Vec<End> {
    let (mut here, mut behind) = (Walk::new(track), Walk::new(track));
    let mut ends = Vec::new();
    for position in 0..=track.last() {
        here.go_to(position);
        if choice::is_read(&here, id + 5) {
            follow(&mut behind, position);
            let damaged = words::at(&behind, &here, id + 5).filter(|word| word.damaged_within_radius.is_some());
            let mut read: Vec<u32> = damaged.map(|word| read(tally, card, &behind, &word.bytes)).collect();
            read.sort_unstable();
            ends.push(End { position, read });
        }
    }
    ends
}

/// The position that a word damaged within the radius is read as.
fn read(tally: &mut Tally, card: &[u8], behind: &Walk, bytes: &[u8]) -> u32 {
    let second = read_from(behind, bytes);
    calls::end(tally, library::read_word(card, bytes), second);
    second.expect("a word damaged within the radius is read").position
}

/// A tram from one end to the same or another one further on, a near one or any. Half of the ends are read so that the stretch is
/// as short as can be.
fn tram(ends: &[End], seed: u64) -> Tram {
    let draw = |which, count| draw(seed, which, count);
    let from = draw(0, ends.len());
    let on = ends.len() - from;
    let to = from + draw(1, if draw(2, 2) == 0 { on } else { on.min(8) });
    let (from, to) = (&ends[from], &ends[to]);
    let low = if draw(3, 2) == 0 { from.read.len() - 1 } else { draw(4, from.read.len()) };
    let high = if draw(5, 2) == 0 { 0 } else { draw(6, to.read.len()) };
    Tram { stood: Stretch { low: from.position, high: to.position }, read: Stretch { low: from.read[low], high: to.read[high] } }
}

/// Whether a tram's stretch is read in order. Counts how it is read.
fn is_in_order(tally: &mut Tally, Tram { stood, read }: &Tram) -> bool {
    let in_order = read.low <= read.high;
    tally.add("trams read in order", in_order);
    tally.add("trams read out of order", !in_order);
    if in_order {
        let short = read.low.saturating_sub(stood.low).max(stood.high.saturating_sub(read.high));
        tally.add("trams read shorter than they stood", short != 0);
        tally.greatest("most steps by which one of them is read short at an end", short.into());
    }
    in_order
}

/// A list of trams, at every mark and between every two that the trams and their stretches give, where these are sound.
fn searched(tally: &mut Tally, card: &[u8], track: &Track, trams: &[Tram], seed: u64) {
    let (stood, read): (Vec<Stretch>, Vec<Stretch>) = trams.iter().map(|tram| (tram.stood, tram.read)).unzip();
    let list = List::new(card, track, &read);
    for mark in marks(track, &stood).into_iter().chain(marks(track, &read)).filter(|&mark| mark <= track.last()) {
        let (crossing, nearest) = list.at(tally, mark);
        found_at(tally, trams, mark, &crossing);
        found_nearest(tally, &list, trams, mark, nearest);
    }
    let sound = |[first, second]: &[u32; 2]| first <= second && *second <= track.last();
    for marks in pairs(track, &stood, seed).into_iter().chain(pairs(track, &read, seed)).filter(sound) {
        let within = list.between(tally, marks);
        found_within(tally, trams, marks, &within);
    }
}

/// A tram that stood at a mark must be reported as crossing it.
fn found_at(tally: &mut Tally, trams: &[Tram], mark: u32, crossing: &EachTram) {
    for (place, tram) in trams.iter().enumerate().filter(|(_, tram)| tram.stood.crosses(mark)) {
        tally.add("trams that stood at a mark", true);
        tally.add("trams of these whose stretch as read is not at the mark", !tram.read.crosses(mark));
        tally.add("trams that stood at a mark not reported as crossing it", !is_told(crossing, place));
    }
}

/// A tram that did not stand within two marks must not be reported as within.
fn found_within(tally: &mut Tally, trams: &[Tram], [first, second]: [u32; 2], within: &EachTram) {
    let is_within = |stretch: Stretch| first <= stretch.low && stretch.high <= second;
    for (place, tram) in trams.iter().enumerate().filter(|(_, tram)| !is_within(tram.stood)) {
        tally.add("trams that did not stand within two marks", true);
        tally.add("trams of these whose stretch as read is within the marks", is_within(tram.read));
        tally.add("trams that did not stand within two marks reported as within", is_told(within, place));
    }
}

/// The widened stretch of the tram that is answered as the nearest to a mark must be no further from it than any tram stood.
fn found_nearest(tally: &mut Tally, list: &List, trams: &[Tram], mark: u32, nearest: Nearest) {
    let Some(stood) = trams.iter().map(|tram| tram.stood.distance(mark)).min() else { return };
    let told = nearest.ok().flatten().and_then(|place| list.widened(place));
    tally.add("nearest trams held to where trams stood", true);
    let nearer = trams.iter().all(|tram| stood < tram.read.distance(mark));
    tally.add("marks of these that are nearer to where a tram stood than to any stretch as read", nearer);
    let is_further = told.map_or(true, |stretch| stood < stretch.distance(mark));
    tally.add("nearest trams further off than where a tram stood, or none", is_further);
}

/// Whether the tram at a place of the list is reported as asked for.
fn is_told(answer: &EachTram, place: usize) -> bool {
    answer.as_ref().map_or(false, |told| told.get(place) == Some(&true))
}
