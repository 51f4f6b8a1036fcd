//! The slot queue, request P9: days from the empty yard, in which every tram that waits holds its track after exactly as many
//! accepted releases as stand to it; words that are damaged within the radius, every such word of a small card; and who holds,
//! who waits, and for what. Single yards with their answers stand in cases.txt.
mod cards;
mod codes;
mod random;
mod words;

use cards::card_of;
use codes::{golay, reed_muller};
use dunnavish::{check_card, write_word, CardSummary, Refusal, Released, Requested, Yard, MOST_WAITING, TRACKS, YARD_NUMBERS};
use random::Random;
use std::collections::HashMap;
use words::{chunks, packed, word_at};

/// Card B for a track: n 3, row 7, t 1, and the last position is 15. 15 less 10 is above 4, and not above 5.
fn card_b(track: u32) -> Vec<u8> {
    card_of(3, 1, track as u16, &[7])
}

/// The word of its last position.
const LAST: [u8; 2] = [0xff, 0x7f];
/// The highest mark that it is clear of.
const CLEAR: u32 = 4;

/// Releases a track from its last position.
fn release(yard: &mut Yard, tram: u16, track: u32) -> Result<Released, Refusal> {
    yard.release(tram, &LAST, CLEAR, &card_b(track))
}

/// The tracks that are held, with their holders.
fn held(yard: &Yard) -> Vec<(u32, u16)> {
    (0..TRACKS as u32).filter_map(|track| yard.holder(track).map(|tram| (track, tram))).collect()
}

/// The yard has just these tracks held, each by a tram, and these trams wait, each for a track.
fn expect(yard: &Yard, holders: &[(u32, u16)], waiting: &[(u16, u16)]) {
    assert_eq!(held(yard), holders);
    assert_eq!(yard.waiting().collect::<Vec<_>>(), waiting);
}

#[test]
fn a_queue_of_five_trams() {
    let mut yard = Yard::empty();
    assert_eq!(yard.request(100, 14), Ok(Requested::Holds));
    for tram in 101..=105 {
        assert_eq!(yard.request(tram, 14), Ok(Requested::Waits));
    }
    // with q trams ahead of it tram 101 + q holds the track after q + 1 releases, and not before
    for q in 0..5 {
        let tram = 101 + q;
        assert_eq!(yard.queue(14).collect::<Vec<_>>(), (tram..=105).collect::<Vec<_>>());
        assert_eq!(release(&mut yard, tram - 1, 14), Ok(Released::HandedTo(tram)));
        assert_eq!(yard.holder(14), Some(tram));
    }
    assert_eq!(release(&mut yard, 105, 14), Ok(Released::Freed));
    assert_eq!(yard, Yard::empty());
}

#[test]
fn calls_that_leave_the_order_as_it_is() {
    let mut yard = Yard::empty();
    for (tram, track) in [(7, 14), (5, 3), (8, 14), (6, 3), (9, 14)] {
        yard.request(tram, track).unwrap();
    }
    let before = yard.clone();
    expect(&yard, &[(3, 5), (14, 7)], &[(8, 14), (6, 3), (9, 14)]);
    // refused: 21, of trams that wait and hold, of one that isn't the holder; 20; the card; the word; and then one that isn't clear
    assert_eq!(yard.request(9, 14), Err(Refusal::WrongTram));
    assert_eq!(yard.request(5, 0), Err(Refusal::WrongTram));
    assert_eq!(release(&mut yard, 8, 14), Err(Refusal::WrongTram));
    assert_eq!(yard.request(10, 16), Err(Refusal::NoSuchTrack));
    assert_eq!(yard.release(7, &LAST, CLEAR, &card_b(16)), Err(Refusal::NoSuchTrack));
    assert_eq!(yard.release(7, &LAST, CLEAR, &card_b(14)[..511]), Err(Refusal::CardLength));
    assert_eq!(yard.release(7, &LAST[..1], CLEAR, &card_b(14)), Err(Refusal::WordLength));
    assert_eq!(yard.release(7, &LAST, CLEAR + 1, &card_b(14)), Ok(Released::NotClear));
    assert_eq!(yard, before);
    // releases of another track, and requests behind them
    assert_eq!(release(&mut yard, 5, 3), Ok(Released::HandedTo(6)));
    assert_eq!(yard.request(5, 14), Ok(Requested::Waits));
    assert_eq!(release(&mut yard, 6, 3), Ok(Released::Freed));
    expect(&yard, &[(14, 7)], &[(8, 14), (9, 14), (5, 14)]);
    // a tram that released its track may request it again, and is the last then
    assert_eq!(release(&mut yard, 7, 14), Ok(Released::HandedTo(8)));
    assert_eq!(yard.request(7, 14), Ok(Requested::Waits));
    expect(&yard, &[(14, 8)], &[(9, 14), (5, 14), (7, 14)]);
}

/// What is known of a yard from the answers alone: who holds each track, and, of each tram that waits, for which track, and how
/// many accepted releases of it are still to come before the tram holds it.
#[derive(Default)]
struct Known {
    holders: HashMap<u32, u16>,
    waiting: HashMap<u16, (u32, usize)>,
}

impl Known {
    fn knows(&self, tram: u16) -> bool {
        self.waiting.contains_key(&tram) || self.holders.values().any(|&holder| holder == tram)
    }

    /// A request: what is answered must be so, and a tram that waits has all others of its track ahead of it.
    fn request(&mut self, yard: &mut Yard, tram: u16, track: u32) {
        let expected = match self.holders.get(&track) {
            _ if track >= TRACKS as u32 => Err(Refusal::NoSuchTrack),
            _ if self.knows(tram) => Err(Refusal::WrongTram),
            None => Ok(Requested::Holds),
            Some(_) if self.waiting.len() == MOST_WAITING => Err(Refusal::WaitingFull),
            Some(_) => Ok(Requested::Waits),
        };
        assert_eq!(yard.request(tram, track), expected);
        let ahead = self.waiting.values().filter(|&&(waited_for, _)| waited_for == track).count();
        match expected {
            Ok(Requested::Holds) => assert_eq!(self.holders.insert(track, tram), None),
            Ok(Requested::Waits) => assert_eq!(self.waiting.insert(tram, (track, ahead + 1)), None),
            Err(_) => {}
        }
    }

    /// A release by the holder that is accepted: one release less is to come for those that wait for the track. The one for which
    /// none is holds it, and no other does.
    fn release(&mut self, yard: &mut Yard, track: u32) {
        let Some(&holder) = self.holders.get(&track) else {
            return;
        };
        let of_track = self.waiting.iter_mut().filter(|(_, (waited_for, _))| *waited_for == track);
        let next: Vec<u16> = of_track.filter_map(|(&tram, (_, to_come))| (step(to_come) == 0).then_some(tram)).collect();
        let answer = release(yard, holder, track).unwrap();
        match next[..] {
            [tram] => {
                assert_eq!(answer, Released::HandedTo(tram));
                self.holders.insert(track, tram);
                self.waiting.remove(&tram);
            }
            _ => {
                assert_eq!((answer, next.len()), (Released::Freed, 0));
                self.holders.remove(&track);
            }
        }
    }

    /// The yard has these holders and these trams that wait, and no others.
    fn agrees(&self, yard: &Yard) {
        for track in 0..TRACKS as u32 {
            assert_eq!(yard.holder(track), self.holders.get(&track).copied());
            for (ahead, tram) in yard.queue(track).enumerate() {
                assert_eq!(self.waiting.get(&tram), Some(&(track, ahead + 1)));
            }
        }
        assert_eq!(yard.waiting().count(), self.waiting.len());
    }
}

/// One less, and that number.
fn step(count: &mut usize) -> usize {
    *count -= 1;
    *count
}

#[test]
fn every_waiting_tram_of_a_day_gets_its_track_in_its_turn() {
    let mut random = Random(11);
    for day in 0..60 {
        let tracks = [1, 3, 16][day % 3];
        let (mut yard, mut known) = (Yard::empty(), Known::default());
        for _ in 0..400 {
            let track = random.below(tracks) as u32;
            let tram = [random.below(70) as u16, u16::MAX][usize::from(random.below(30) == 0)];
            match random.below(8) {
                0..=3 => known.request(&mut yard, tram, track),
                4..=5 => known.release(&mut yard, track),
                // calls that change nothing
                6 => known.request(&mut yard, tram, 16 + random.below(3) as u32),
                _ => {
                    let before = yard.clone();
                    let holder = yard.holder(track).unwrap_or(tram);
                    let answer = yard.release(holder, &LAST, CLEAR + 1, &card_b(track));
                    assert_eq!(answer, known.holders.get(&track).map(|_| Released::NotClear).ok_or(Refusal::WrongTram));
                    assert_eq!(yard, before);
                }
            }
            known.agrees(&yard);
        }
    }
}

/// The most that wait: one more is refused, but not for a free track; and after a release one more may wait.
#[test]
fn thirty_two_trams_wait() {
    let mut yard = Yard::empty();
    assert_eq!(yard.request(1000, 3), Ok(Requested::Holds));
    assert_eq!(yard.request(1001, 14), Ok(Requested::Holds));
    for tram in 0..MOST_WAITING as u16 {
        assert_eq!(yard.request(tram, if tram % 2 == 0 { 3 } else { 14 }), Ok(Requested::Waits));
    }
    let full = yard.clone();
    assert_eq!(yard.request(32, 3), Err(Refusal::WaitingFull));
    assert_eq!(yard.request(31, 3), Err(Refusal::WrongTram));
    assert_eq!(yard, full);
    assert_eq!(yard.request(32, 15), Ok(Requested::Holds));
    assert_eq!(release(&mut yard, 32, 15), Ok(Released::Freed));
    assert_eq!(yard, full);
    assert_eq!(release(&mut yard, 1001, 14), Ok(Released::HandedTo(1)));
    assert_eq!(yard.request(32, 3), Ok(Requested::Waits));
    assert_eq!(yard.waiting().last(), Some((32, 3)));
    assert_eq!(yard.request(33, 3), Err(Refusal::WaitingFull));
}

/// The tram at a true position releases its track by a word with these places damaged, of which each chunk has at most t, for
/// each mark about where that begins to be accepted. How often it is accepted.
fn as_promised(card: &[u8], summary: &CardSummary, position: u32, damaged: &[usize]) -> usize {
    let mut word = word_at(card, summary, position);
    damaged.iter().for_each(|&place| word[place] ^= true);
    let (word, t) = (packed(&word), summary.radius);
    let mut numbers = [0; YARD_NUMBERS];
    (numbers[0], numbers[16]) = (1, 7);
    let least = position.saturating_sub(20 * t + 2);
    let marks = least..=position + 1;
    let accepted = |mark: &u32| {
        let mut yard = Yard::from_numbers(numbers);
        let accepted = yard.release(7, &word, *mark, card).unwrap() == Released::Freed;
        assert_eq!(yard.holder(0).is_none(), accepted);
        assert!(position > *mark || !accepted, "{position} is released at the mark {mark}");
        assert!(accepted || position <= mark + 20 * t, "{position} is not released at the mark {mark}");
        accepted
    };
    marks.filter(accepted).count()
}

/// n 5, rows 7 and 1C: D 3, t 1, the last position is 45. Chunks of 3, 5, 3, 5 and 3 places, in each of which none or one is
/// damaged.
#[test]
fn every_word_within_the_radius_of_a_small_card() {
    let card = card_of(5, 2, 0, &[7, 0x1c]);
    let summary = check_card(&card).unwrap();
    assert_eq!((summary.track, summary.radius, summary.last), (0, 1, 45));
    let mut accepted = 0;
    for position in 0..=summary.last {
        for way in 0..4 * 6 * 4 * 6 * 4 {
            let mut rest = way;
            let mut damaged = Vec::new();
            for places in chunks(&summary) {
                let choice = rest % (places.len() + 1);
                rest /= places.len() + 1;
                damaged.extend(places.clone().nth(choice));
            }
            accepted += as_promised(&card, &summary, position, &damaged);
        }
    }
    assert!(accepted > 300_000, "{accepted}");
}

#[test]
fn many_words_within_the_radius_of_larger_cards() {
    let mut random = Random(12);
    for (n, rows) in [(16, reed_muller(1, 4)), (24, golay()), (64, reed_muller(1, 6))] {
        let card = card_of(n, rows.len() as u8, 0, &rows);
        let summary = check_card(&card).unwrap();
        let mut accepted = 0;
        for _ in 0..30 {
            let position = random.below(summary.last as usize + 1) as u32;
            let mut damaged = Vec::new();
            for places in chunks(&summary) {
                let some = random.some_below(summary.radius as usize, places.len());
                damaged.extend(some.into_iter().map(|place| places.start + place));
            }
            accepted += as_promised(&card, &summary, position, &damaged);
        }
        assert!(accepted > 100, "n {n}: {accepted}");
    }
}

#[test]
fn who_holds_and_who_waits() {
    let empty = Yard::empty();
    assert_eq!(empty.numbers(), &[0; YARD_NUMBERS]);
    expect(&empty, &[], &[]);
    let mut numbers = [0; YARD_NUMBERS];
    // tracks 0 and 15 are held, by trams 0 and 65,535; track 3 is free, though it has a number for its holder
    (numbers[0], numbers[16]) = (1, 0);
    (numbers[15], numbers[31]) = (256, u16::MAX);
    numbers[16 + 3] = 9;
    // three trams wait, and an entry past the count
    numbers[32] = 3;
    numbers[33..37].copy_from_slice(&[5, 6, 7, 8]);
    numbers[65..69].copy_from_slice(&[15, 0, 15, 15]);
    let yard = Yard::from_numbers(numbers);
    assert_eq!(yard.numbers(), &numbers);
    expect(&yard, &[(0, 0), (15, u16::MAX)], &[(5, 15), (6, 0), (7, 15)]);
    for (track, queue) in [(0, vec![6]), (15, vec![5, 7]), (3, vec![]), (16, vec![]), (u32::MAX, vec![])] {
        assert_eq!(yard.queue(track).collect::<Vec<_>>(), queue);
    }
    for track in [3, 16, 17, 31, 32, 65_536, u32::MAX] {
        assert_eq!(yard.holder(track), None);
    }
    // an unsound yard: 32 entries are told, however great the count is, and tracks above 15 with their numbers
    for count in [33, u16::MAX] {
        numbers[32] = count;
        numbers[65] = u16::MAX;
        let yard = Yard::from_numbers(numbers);
        assert_eq!((yard.waiting().count(), yard.waiting().next()), (MOST_WAITING, Some((5, u16::MAX))));
        assert_eq!(yard.queue(u32::from(u16::MAX)).collect::<Vec<_>>(), [5]);
    }
}

/// The same from positions of the whole track: a tram releases its track where the position less 10 is above the mark.
#[test]
fn every_position_and_mark_of_card_b() {
    let card = card_b(14);
    let mut numbers = [0; YARD_NUMBERS];
    (numbers[14], numbers[30]) = (2, 7);
    let ends = (u32::MAX - 30)..=u32::MAX;
    for position in 0..16 {
        let mut word = [0; 2];
        write_word(&card, position, &mut word).unwrap();
        for mark in (0..20).chain(ends.clone()) {
            let mut yard = Yard::from_numbers(numbers);
            let clear = i64::from(position) - 10 > i64::from(mark);
            let answer = yard.release(7, &word, mark, &card);
            assert_eq!(answer, Ok(if clear { Released::Freed } else { Released::NotClear }), "{position} at the mark {mark}");
            assert_eq!(yard, if clear { Yard::empty() } else { Yard::from_numbers(numbers) });
        }
    }
}
