//! Lists of trams on a track, sound ones and such as are refused, and the marks at which they are searched.
use super::{draw, random};
use second_reader::track::Track;
use second_reader::trams::widened;
use second_reader::Stretch;

/// How many trams a list has: few, as many as a track holds and one less, and more than that.
pub const COUNTS: [usize; 8] = [0, 1, 2, 3, 63, 64, 65, 70];

/// How many kinds of sound lists there are.
pub const KINDS: usize = 8;

/// A sound list of so many trams, of a kind from 0 to 7.
pub fn list(track: &Track, count: usize, kind: usize, seed: u64) -> Vec<Stretch> {
    let last = track.last();
    let at = |place: usize| {
        let (low, high) = ends(last, widening(track), kind, seed, place);
        let low = low.min(last);
        Stretch { low, high: high.clamp(low, last) }
    };
    (0..count).map(at).collect()
}

/// The low and high of the tram at a place of a list, not yet cut to the track nor put in order: anywhere; of at most 10t + 3
/// steps; at one position; with ends at quarters of the track, so that many are alike; close around one position, which all trams
/// of the list have in common; all in the same stretch; with both ends about 10t from those of the track, so that some are cut;
/// and by turns below and above the common position, at much the same distance once they are widened.
fn ends(last: u32, widening: u32, kind: usize, seed: u64, place: usize) -> (u32, u32) {
    let own = random(seed, place as u64 + 2);
    let up_to = |which, most: u32| draw(own, which, most as usize + 1) as u32;
    let of_all = |which, most: u32| draw(seed, which, most as usize + 1) as u32;
    let (any, common) = (up_to(0, last), of_all(0, last));
    let (gap, length) = (widening + up_to(1, 2), up_to(2, 3));
    match kind {
        0 => (any, up_to(1, last)),
        1 => (any, any + up_to(1, widening + 3)),
        2 => (any, any),
        3 => (up_to(1, 4) * last / 4, up_to(2, 4) * last / 4),
        4 => (common.saturating_sub(up_to(1, 3)), common + length),
        5 => (common, of_all(1, last)),
        6 => (up_to(1, widening + 1), last - up_to(2, widening + 1)),
        7 if place % 2 == 0 => (common.saturating_sub(gap + length), common.saturating_sub(gap)),
        7 => (common + gap, common + gap + length),
        _ => unreachable!("there are {KINDS} kinds"),
    }
}

/// By how much a stretch is widened at an end that is not cut: 10t.
fn widening(track: &Track) -> u32 {
    10 * track.card.code.radius() as u32
}

/// Stretches that are refused: low above high, by one and by as much as there is; high above the last position, by one and by as
/// much as there is; both. Some of them would be in order or on the track if they were widened first, if a sum came round at
/// 2^32, or if numbers were signed.
pub fn bad(track: &Track) -> Vec<Stretch> {
    let (last, max, sign) = (track.last(), u32::MAX, 1 << 31);
    let round = max - widening(track).saturating_sub(1);
    let out_of_order =
        [[1, 0], [last / 2 + 1, last / 2], [last, last - 1], [last, 0], [last + 1, last], [max, 0], [max, last], [sign, 0]];
    let too_high =
        [[0, last + 1], [last, last + 1], [last + 1, last + 1], [0, max], [max, max], [0, sign], [0, round], [round, max]];
    let both = [[last + 2, last + 1], [max, last + 1], [max, max - 1]];
    let ends = out_of_order.into_iter().chain(too_high).chain(both);
    ends.map(|[low, high]| Stretch { low, high }).collect()
}

/// The lists of so many trams of which one is refused, as `bad` is: at the first place, in the middle, at the last place, and at
/// the first one past those that a track holds.
pub fn with_bad(track: &Track, count: usize, bad: Stretch, seed: u64) -> Vec<Vec<Stretch>> {
    let mut places = vec![0, count / 2, count.saturating_sub(1), 64];
    places.sort_unstable();
    places.dedup();
    let at = |place: usize| {
        let mut trams = list(track, count, draw(seed, 0, KINDS), seed);
        trams[place] = bad;
        trams
    };
    places.into_iter().filter(|&place| place < count).map(at).collect()
}

/// Marks at the ends of a track and past them: one above the last position, and such as a reader of signed numbers could take for
/// one below it.
pub fn marks_of_track(track: &Track) -> [u32; 5] {
    [0, track.last(), track.last() + 1, 1 << 31, u32::MAX]
}

/// Marks at all ends of sound trams too: at every low and high, as they are given and as they are widened, at one to either side
/// of each, and halfway between a tram and the next of the list.
pub fn marks(track: &Track, trams: &[Stretch]) -> Vec<u32> {
    let wide: Vec<Stretch> = trams.iter().map(|&tram| widened(track, tram)).collect();
    let ends = trams.iter().chain(&wide).flat_map(|stretch| [stretch.low, stretch.high]);
    let beside = ends.flat_map(|end| [end.wrapping_sub(1), end, end + 1]);
    let halfway = wide.windows(2).map(|two| {
        let (low, high) = (two[0].low.max(two[1].low), two[0].high.min(two[1].high));
        (low + high) / 2
    });
    let mut marks: Vec<u32> = marks_of_track(track).into_iter().chain(beside).chain(halfway).collect();
    marks.sort_unstable();
    marks.dedup();
    marks
}

/// Pairs of marks at the ends of a track and past them, equal, in order and out of order.
pub fn pairs_of_track(track: &Track) -> Vec<[u32; 2]> {
    every_two(&marks_of_track(track))
}

/// Pairs of marks for sound trams too. Of at most two trams every two marks. Else those about the widened ends of each tram, and
/// its ends as they are given, out of order, alike, and with the next tram's; and some of any two marks.
pub fn pairs(track: &Track, trams: &[Stretch], seed: u64) -> Vec<[u32; 2]> {
    let marks = marks(track, trams);
    if trams.len() <= 2 {
        return every_two(&marks);
    }
    let next = trams.iter().cycle().skip(1);
    let of_trams =
        trams.iter().zip(next).flat_map(|(&tram, &next)| pairs_of_tram(tram, widened(track, tram), widened(track, next)));
    let any = |which| marks[draw(seed, which, marks.len())];
    let of_any = (0..trams.len() as u64).map(|which| [any(2 * which), any(2 * which + 1)]);
    pairs_of_track(track).into_iter().chain(of_trams).chain(of_any).collect()
}

fn pairs_of_tram(given: Stretch, Stretch { low, high }: Stretch, next: Stretch) -> impl Iterator<Item = [u32; 2]> {
    let about = |end: u32| [end.wrapping_sub(1), end, end + 1];
    let own = about(low).into_iter().flat_map(move |first| about(high).map(|second| [first, second]));
    own.chain([[given.low, given.high], [high, low], [low, low], [high, high], [low, next.high], [next.low, high]])
}

/// Every two of these marks, in either order, and each with itself.
pub fn every_two(marks: &[u32]) -> Vec<[u32; 2]> {
    marks.iter().flat_map(|&first| marks.iter().map(move |&second| [first, second])).collect()
}
