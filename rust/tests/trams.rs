//! What stands at a mark, request P8: trams whose ends are read from words damaged within the radius. Every such reading of a small card,
//! and many of larger ones. Lists with their answers stand in cases.txt.
mod cards;
mod codes;
mod random;
mod words;

use cards::card_of;
use codes::{golay, reed_muller};
use dunnavish::{check_card, nearest_tram, read_word, trams_crossing, trams_within, CardSummary, Stretch};
use random::Random;
use std::collections::BTreeSet;
use words::{chunks, packed, word_at};

/// A tram: the true positions of its ends, and the stretch between those that were read.
struct Tram {
    a: u32,
    b: u32,
    read: Stretch,
}

/// How far a mark is from the nearest position from `low` to `high`.
fn distance(mark: u32, low: u32, high: u32) -> u32 {
    low.saturating_sub(mark).max(mark.saturating_sub(high))
}

/// Asserts what is promised of these trams and marks: none that stands at the first mark is missed; one that is reported as within the
/// marks is; none is nearer to the first mark than the widened stretch of the nearest. How many stood at the mark, and were reported as
/// within.
fn as_promised(card: &[u8], summary: &CardSummary, trams: &[Tram], [first, second]: [u32; 2]) -> [usize; 2] {
    let list: Vec<Stretch> = trams.iter().map(|tram| tram.read).collect();
    let crossing = trams_crossing(card, &list, first).unwrap();
    let within = trams_within(card, &list, first, second).unwrap();
    let nearest = list[nearest_tram(card, &list, first).unwrap().unwrap()];
    let reach = 10 * summary.radius;
    let least = distance(first, nearest.low.saturating_sub(reach), summary.last.min(nearest.high + reach));
    let mut counts = [0; 2];
    for ((tram, crosses), is_within) in trams.iter().zip(crossing).zip(within) {
        let Tram { a, b, read } = *tram;
        let at_mark = a <= first && first <= b;
        assert!(crosses || !at_mark, "{a} to {b}, read as {read:?}, is not reported as crossing {first}");
        assert!(!is_within || first <= a && b <= second, "{a} to {b}, read as {read:?}, is not within {first} and {second}");
        assert!(distance(first, a, b) >= least, "{a} to {b}, read as {read:?}, is nearer to {first} than {nearest:?}");
        counts[0] += usize::from(at_mark);
        counts[1] += usize::from(is_within);
    }
    counts
}

/// Card B: n 3, row 7, so D 3 and t 1. Five chunks of three places, in each of which none or one is damaged: 4^5 words a position.
#[test]
fn every_reading_of_card_b() {
    let card = card_of(3, 1, 14, &[7]);
    let summary = check_card(&card).unwrap();
    let readings = |position| -> BTreeSet<u32> {
        let sent = word_at(&card, &summary, position);
        let damaged = |way: usize| {
            let is_damaged = |place: usize| way >> (2 * (place / 3)) & 3 == place % 3 + 1;
            let word: Vec<bool> = sent.iter().enumerate().map(|(place, bit)| bit ^ is_damaged(place)).collect();
            read_word(&card, &packed(&word)).unwrap().position
        };
        (0..1 << 10).map(damaged).collect()
    };
    let readings: Vec<BTreeSet<u32>> = (0..16).map(readings).collect();
    let mut trams = Vec::new();
    for (a, b) in (0..16).flat_map(|a| (a..16).map(move |b| (a, b))) {
        for &low in &readings[a] {
            trams.extend(readings[b].range(low..).map(|&high| Tram { a: a as u32, b: b as u32, read: Stretch { low, high } }));
        }
    }
    let mut counts = [0; 2];
    for list in trams.chunks(64) {
        for marks in (0..16).flat_map(|first| (first..16).map(move |second| [first, second])) {
            let [at_mark, within] = as_promised(&card, &summary, list, marks);
            counts = [counts[0] + at_mark, counts[1] + within];
        }
    }
    assert!(counts.iter().all(|&count| count > trams.len()), "{counts:?} of {} trams", trams.len());
}

/// The position that is read from a word with up to t bits damaged in each chunk.
fn read_damaged(card: &[u8], summary: &CardSummary, position: u32, random: &mut Random) -> u32 {
    let mut word = word_at(card, summary, position);
    for places in chunks(summary) {
        let count = random.below(summary.radius as usize + 1);
        random.some_below(count, places.len()).into_iter().for_each(|place| word[places.start + place] ^= true);
    }
    read_word(card, &packed(&word)).unwrap().position
}

#[test]
fn many_readings_of_larger_cards() {
    let mut random = Random(8);
    for (n, rows) in [(8, reed_muller(1, 3)), (16, reed_muller(1, 4)), (24, golay()), (64, reed_muller(1, 6)), (3, vec![3, 6])] {
        let card = card_of(n, rows.len() as u8, 14, &rows);
        let summary = check_card(&card).unwrap();
        let mut counts = [0; 2];
        for _ in 0..30 {
            let mut trams = Vec::new();
            while trams.len() < 64 {
                let a = random.below(summary.last as usize + 1) as u32;
                let b = summary.last.min(a + random.below(summary.last as usize / 8) as u32);
                let [low, high] = [a, b].map(|position| read_damaged(&card, &summary, position, &mut random));
                // of a short tram the low may be read above the high, and is refused
                if low <= high {
                    trams.push(Tram { a, b, read: Stretch { low, high } });
                }
            }
            for _ in 0..30 {
                // a mark at the end of a tram, and another
                let first = trams.iter().flat_map(|tram| [tram.a, tram.b]).nth(random.below(128)).unwrap();
                let second = first + random.below((summary.last - first) as usize + 1) as u32;
                let [at_mark, within] = as_promised(&card, &summary, &trams, [first, second]);
                counts = [counts[0] + at_mark, counts[1] + within];
            }
        }
        assert!(counts.iter().all(|&count| count >= 900), "n {n}: {counts:?}");
    }
}
