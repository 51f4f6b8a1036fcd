//! The slot queue, request P9: which trams hold the sixteen tracks and which wait, a tram's request for a track, and the release
//! by which a track is handed on or freed.
//!
//! The yard is two plain lists. A tram that is in it twice is found by holding each against every other, and the first waiting
//! tram of a track by going through all that wait, in their order.
use crate::reading::read_from;
use crate::track::Track;
use crate::walk::Walk;
use crate::Refusal;

/// So many tracks have a slot: 0 to 15.
pub const TRACKS: usize = 16;

/// At most so many trams wait, over all tracks.
pub const MOST_WAITING: usize = 32;

/// A waiting tram, and the track that it waits for.
#[derive(Clone, Copy, Debug, PartialEq, Eq)]
pub struct Waiting {
    pub tram: u16,
    pub track: u16,
}

/// A yard, sound or not.
#[derive(Clone, Debug, PartialEq, Eq)]
pub struct Yard {
    /// The tram that holds each track, or none where the track is free.
    pub holders: [Option<u16>; TRACKS],
    /// The waiting trams of all tracks, in their order of arrival.
    pub waiting: Vec<Waiting>,
}

/// What a request is answered.
#[derive(Clone, Copy, Debug, PartialEq, Eq)]
pub enum Requested {
    /// The track was free, and the tram holds it.
    Holds,
    /// The track was held, and the tram is the last of its queue.
    Waits,
}

/// What a release is answered.
#[derive(Clone, Copy, Debug, PartialEq, Eq)]
pub enum Released {
    /// The position less 10t isn't above the mark.
    NotClear,
    /// Accepted, and no tram waited for the track.
    Freed,
    /// Accepted, and this tram, the first of the queue, holds the track.
    HandedTo(u16),
}

impl Yard {
    /// The yard in which all tracks are free and no tram waits.
    pub fn empty() -> Yard {
        Yard { holders: [None; TRACKS], waiting: vec![] }
    }

    /// The tram that holds a track. A track above 15 has no slot, and nobody holds it.
    pub fn holder(&self, track: u32) -> Option<u16> {
        self.holders.get(track as usize).copied().flatten()
    }

    /// The trams that wait for a track, the first one first.
    pub fn queue(&self, track: u32) -> Vec<u16> {
        self.waiting.iter().filter(|waiting| u32::from(waiting.track) == track).map(|waiting| waiting.tram).collect()
    }

    /// Whether a tram holds or waits for any track.
    pub fn has(&self, tram: u16) -> bool {
        self.trams().contains(&tram)
    }

    /// Whether no tram is in it twice, none waits for a free track, and at most 32 wait.
    pub fn is_sound(&self) -> bool {
        let trams = self.trams();
        let twice = (0..trams.len()).any(|place| trams[..place].contains(&trams[place]));
        let for_free = self.waiting.iter().any(|waiting| self.holder(waiting.track.into()).is_none());
        !twice && !for_free && self.waiting.len() <= MOST_WAITING
    }

    /// The trams that hold a track, then those that wait. One that is there twice is named twice.
    fn trams(&self) -> Vec<u16> {
        self.holders.iter().flatten().copied().chain(self.waiting.iter().map(|waiting| waiting.tram)).collect()
    }

    /// A tram's request for a track. The refusals are 26, 20, 21 and 22, in that order.
    pub fn request(&mut self, tram: u16, track: u32) -> Result<Requested, Refusal> {
        if !self.is_sound() {
            return Err(26);
        }
        if TRACKS <= track as usize {
            return Err(20);
        }
        if self.has(tram) {
            return Err(21);
        }
        if self.holder(track).is_none() {
            self.holders[track as usize] = Some(tram);
            return Ok(Requested::Holds);
        }
        if MOST_WAITING <= self.waiting.len() {
            return Err(22);
        }
        self.waiting.push(Waiting { tram, track: track as u16 });
        Ok(Requested::Waits)
    }

    /// A tram's release of the track that the card is of. The refusals are the card's, 26, 20, 21 and the word's, in that order.
    pub fn release(&mut self, tram: u16, word: &[u8], mark: u32, card: &[u8]) -> Result<Released, Refusal> {
        self.release_from(&Walk::new(&Track::of_card(card)?), tram, word, mark)
    }

    /// The same with a sound card, on whose track a walk stands. The search for the word's position sets out from there.
    pub fn release_from(&mut self, walk: &Walk, tram: u16, word: &[u8], mark: u32) -> Result<Released, Refusal> {
        if !self.is_sound() {
            return Err(26);
        }
        let card = &walk.track.card;
        if TRACKS <= card.track as usize {
            return Err(20);
        }
        if self.holder(card.track) != Some(tram) {
            return Err(21);
        }
        let less = i64::from(read_from(walk, word)?.position) - 10 * card.code.radius() as i64;
        if less <= i64::from(mark) {
            return Ok(Released::NotClear);
        }
        Ok(self.handed_on(card.track))
    }

    /// Takes a track from its holder and gives it to the first tram that waits for it, if there is one.
    fn handed_on(&mut self, track: u32) -> Released {
        let first = self.waiting.iter().position(|waiting| u32::from(waiting.track) == track);
        let next = first.map(|place| self.waiting.remove(place).tram);
        self.holders[track as usize] = next;
        next.map_or(Released::Freed, Released::HandedTo)
    }
}

/// Expected values are worked out by hand from document 01 and request P9. Card B has t 1 and last position 15, so position less
/// 10t is from -10 to 5. Its word of position m has ones in its first m places and zeros in the rest. Card A has t 0.
#[cfg(test)]
mod tests {
    use super::Released::{Freed, HandedTo, NotClear};
    use super::Requested::{Holds, Waits};
    use super::{Released, Waiting, Yard};
    use crate::test_cards::{card, card_a, card_of_five};
    use crate::Refusal;

    /// Card B's words of positions 15, 11 and 10: with mark 0 the first two are clear, by 5 and by 1, and the third isn't, by 0.
    const AT_15: [u8; 2] = [0xFF, 0x7F];
    const AT_11: [u8; 2] = [0xFF, 0x07];
    const AT_10: [u8; 2] = [0xFF, 0x03];

    /// Card B for another track than 14, of whose check of 145 the track is 4 × 14 = 56.
    fn card_b(track: u8) -> [u8; 512] {
        card(3, track, &[7], 145 - 56 + 4 * u16::from(track))
    }

    /// Card B for track 65,535: 3 × 255 + 4 × 255 = 1785.
    fn card_b_of_highest_track() -> [u8; 512] {
        let mut card = card(3, 255, &[7], 145 - 56 + 1785);
        card[2] = 255;
        card
    }

    /// The yard with these holders, each after its track, and these waiting trams, each before its track.
    fn yard(holders: &[(usize, u16)], waiting: &[(u16, u16)]) -> Yard {
        let mut yard = Yard::empty();
        for &(track, tram) in holders {
            yard.holders[track] = Some(tram);
        }
        yard.waiting = waiting.iter().map(|&(tram, track)| Waiting { tram, track }).collect();
        yard
    }

    /// Asserts what a request is answered, and the yard that it leaves.
    fn requests(mut given: Yard, tram: u16, track: u32, answer: Result<super::Requested, Refusal>, left: Yard) {
        assert_eq!((given.request(tram, track), &given), (answer, &left), "tram {tram}, track {track}");
    }

    /// Asserts that a request is refused and leaves the yard as it was.
    fn request_refused(given: &Yard, tram: u16, track: u32, number: Refusal) {
        requests(given.clone(), tram, track, Err(number), given.clone());
    }

    /// Asserts what a release of one of card B's tracks is answered, with the word of position 15 and mark 0, and what it leaves.
    fn releases(mut given: Yard, tram: u16, track: u8, answer: Result<Released, Refusal>, left: Yard) {
        let told = given.release(tram, &AT_15, 0, &card_b(track));
        assert_eq!((told, &given), (answer, &left), "tram {tram}, track {track}");
    }

    /// Asserts what a release is answered that leaves the yard as it was.
    fn unchanged(given: &Yard, tram: u16, word: &[u8], mark: u32, card: &[u8], answer: Result<Released, Refusal>) {
        let mut left = given.clone();
        assert_eq!(left.release(tram, word, mark, card), answer, "tram {tram}, mark {mark}, word {word:02X?}");
        assert_eq!(&left, given, "tram {tram}, mark {mark}, word {word:02X?}");
    }

    #[test]
    fn a_free_track_is_held_and_a_held_one_waited_for() {
        requests(Yard::empty(), 0, 0, Ok(Holds), yard(&[(0, 0)], &[]));
        requests(Yard::empty(), 65_535, 15, Ok(Holds), yard(&[(15, 65_535)], &[]));
        requests(yard(&[(0, 0)], &[]), 65_535, 0, Ok(Waits), yard(&[(0, 0)], &[(65_535, 0)]));
        // Another track's queue does not matter, and the new tram comes after all.
        let given = yard(&[(0, 5), (3, 6)], &[(7, 3), (8, 0)]);
        requests(given.clone(), 9, 3, Ok(Waits), yard(&[(0, 5), (3, 6)], &[(7, 3), (8, 0), (9, 3)]));
        requests(given, 9, 15, Ok(Holds), yard(&[(0, 5), (3, 6), (15, 9)], &[(7, 3), (8, 0)]));
    }

    #[test]
    fn a_track_goes_to_the_first_of_its_own_queue() {
        // None waits; one waits for another track.
        releases(yard(&[(14, 5)], &[]), 5, 14, Ok(Freed), Yard::empty());
        releases(yard(&[(14, 5), (2, 6)], &[(7, 2)]), 5, 14, Ok(Freed), yard(&[(2, 6)], &[(7, 2)]));
        // 7 came before 9 for track 14; 8 came before both, but for track 2.
        let given = yard(&[(14, 5), (2, 6)], &[(8, 2), (7, 14), (10, 2), (9, 14)]);
        let left = yard(&[(14, 7), (2, 6)], &[(8, 2), (10, 2), (9, 14)]);
        releases(given, 5, 14, Ok(HandedTo(7)), left.clone());
        releases(left.clone(), 7, 14, Ok(HandedTo(9)), yard(&[(14, 9), (2, 6)], &[(8, 2), (10, 2)]));
        releases(left, 6, 2, Ok(HandedTo(8)), yard(&[(14, 7), (2, 8)], &[(10, 2), (9, 14)]));
        // Trams 0 and 65,535 are trams as others are.
        releases(yard(&[(0, 65_535)], &[(0, 0)]), 65_535, 0, Ok(HandedTo(0)), yard(&[(0, 0)], &[]));
        releases(yard(&[(15, 0)], &[(65_535, 15)]), 0, 15, Ok(HandedTo(65_535)), yard(&[(15, 65_535)], &[]));
    }

    /// Tram 40 joins with 2 ahead of it, 20 and 30. It holds track 14 after 3 accepted releases, whatever else happens: 31 joins
    /// behind it, track 2 is handed on, and releases are refused or not clear.
    #[test]
    fn a_tram_with_two_ahead_holds_after_three_releases() {
        let mut yard = yard(&[(14, 10), (2, 11)], &[(20, 14), (12, 2), (30, 14)]);
        assert_eq!(yard.request(40, 14), Ok(Waits));
        assert_eq!(yard.release(10, &AT_15, 0, &card_b(14)), Ok(HandedTo(20)));
        assert_eq!(yard.request(31, 14), Ok(Waits));
        assert_eq!(yard.release(10, &AT_15, 0, &card_b(14)), Err(21));
        assert_eq!(yard.release(20, &AT_10, 0, &card_b(14)), Ok(NotClear));
        assert_eq!(yard.release(20, &AT_11, 0, &card_b(14)), Ok(HandedTo(30)));
        assert_eq!(yard.release(11, &AT_15, 0, &card_b(2)), Ok(HandedTo(12)));
        assert_eq!(yard.request(10, 14), Ok(Waits));
        assert_eq!(yard.queue(14), [40, 31, 10]);
        assert_eq!(yard.release(30, &AT_15, 0, &card_b(14)), Ok(HandedTo(40)));
        assert_eq!(yard.holder(14), Some(40));
        assert_eq!(yard.queue(14), [31, 10]);
    }

    /// So many trams, from 100 on, that wait for tracks 0, 1 and 2 by turns.
    fn with_waiting(count: u16) -> Yard {
        let waiting: Vec<(u16, u16)> = (0..count).map(|place| (100 + place, place % 3)).collect();
        yard(&[(0, 10), (1, 11), (2, 12)], &waiting)
    }

    #[test]
    fn thirty_two_trams_wait_over_all_tracks() {
        requests(with_waiting(31), 131, 1, Ok(Waits), with_waiting(32));
        request_refused(&with_waiting(32), 7, 1, 22);
        // Free tracks, whose request nothing hinders.
        for track in [3, 15] {
            let mut held = with_waiting(32);
            held.holders[track] = Some(7);
            requests(with_waiting(32), 7, track as u32, Ok(Holds), held);
        }
        // 100 is the first of track 0.
        let mut left = with_waiting(32);
        left.holders[0] = Some(100);
        left.waiting.remove(0);
        releases(with_waiting(32), 10, 0, Ok(HandedTo(100)), left);
        request_refused(&with_waiting(33), 7, 1, 26);
    }

    /// Each request has the refusals that come after the one that is answered too, as far as they can hold with it: a track above
    /// 15 isn't held, so 20 and 22 don't hold together.
    #[test]
    fn a_request_is_refused_by_the_first_of_26_20_21_and_22() {
        request_refused(&with_waiting(33), 10, 16, 26);
        request_refused(&with_waiting(33), 10, 0, 26);
        for track in [16, 17, 255, 256, 65_535, 65_536, 65_551, 1 << 31, u32::MAX] {
            request_refused(&with_waiting(32), 10, track, 20);
            request_refused(&Yard::empty(), 10, track, 20);
        }
        // 10 holds track 0, and 131 waits for track 1: for the same track, for another that is held, and for a free one.
        for (tram, track) in [(10, 0), (10, 1), (10, 9), (131, 1), (131, 0), (131, 9)] {
            request_refused(&with_waiting(32), tram, track, 21);
        }
        request_refused(&with_waiting(32), 9, 0, 22);
    }

    /// The yards that 26 refuses: 5 holds two tracks, holds one and waits, or waits twice; a tram waits for track 9, 16 or
    /// 65,535, which nobody holds.
    fn unsound() -> Vec<Yard> {
        let waits = |waiting: &[(u16, u16)]| yard(&[(0, 5), (14, 6)], waiting);
        vec![
            yard(&[(0, 5), (14, 5)], &[]),
            waits(&[(7, 0), (5, 14)]),
            waits(&[(5, 0)]),
            waits(&[(8, 0), (9, 14), (8, 14)]),
            waits(&[(8, 0), (8, 0)]),
            waits(&[(8, 9)]),
            waits(&[(8, 0), (7, 16)]),
            waits(&[(8, 65_535)]),
            with_waiting(33),
        ]
    }

    #[test]
    fn an_unsound_yard_is_refused() {
        for given in unsound() {
            for (tram, track) in [(4, 3), (4, 0), (5, 0), (8, 16)] {
                request_refused(&given, tram, track, 26);
            }
            for tram in [4, 5, 6, 8] {
                unchanged(&given, tram, &AT_15, 0, &card_b(14), Err(26));
                unchanged(&given, tram, &[], 0, &card_b(16), Err(26));
            }
        }
        assert!(yard(&[(0, 5), (14, 6)], &[(7, 0), (8, 14), (9, 0)]).is_sound());
    }

    #[test]
    fn only_the_holder_releases_a_track() {
        let given = yard(&[(0, 5), (14, 6)], &[(7, 0), (8, 14)]);
        // The first of the queue, one of another queue, the holder of another track, and trams that aren't in the yard.
        for tram in [8, 7, 5, 0, 65_535] {
            unchanged(&given, tram, &AT_15, 0, &card_b(14), Err(21));
        }
        // A free track has no holder.
        unchanged(&given, 5, &AT_15, 0, &card_b(1), Err(21));
        unchanged(&Yard::empty(), 0, &AT_15, 0, &card_b(0), Err(21));
        for tram in [5, 8, 0] {
            unchanged(&given, tram, &AT_15, 0, &card_b(16), Err(20));
            unchanged(&given, tram, &AT_15, 0, &card_b_of_highest_track(), Err(20));
        }
    }

    /// Each release has all the refusals that come after the one that is answered, but for the yard, which is sound from 20 on.
    #[test]
    fn a_release_is_refused_by_the_first_that_holds() {
        let sound = yard(&[(0, 5), (14, 6)], &[]);
        for unsound in unsound() {
            unchanged(&unsound, 9, &[0], 0, &card_b(16)[..511], Err(1));
            // Check 144 for 145; n 3 with k 0, of track 16; row 8; rows 3 and 3.
            unchanged(&unsound, 9, &[0], 0, &card(3, 14, &[7], 144), Err(2));
            unchanged(&unsound, 9, &[0], 0, &card(3, 16, &[], 3 + 4 * 16), Err(3));
            unchanged(&unsound, 9, &[0], 0, &card(3, 16, &[8], 3 + 2 + 4 * 16 + 12 * 8), Err(4));
            unchanged(&unsound, 9, &[0], 0, &card(3, 16, &[3, 3], 3 + 4 + 4 * 16 + 12 * 3 + 20 * 3), Err(5));
            unchanged(&unsound, 9, &[0], 0, &card_b(16), Err(26));
        }
        unchanged(&sound, 9, &[0], 0, &card_b(16), Err(20));
        unchanged(&sound, 9, &[0], 0, &card_b(14), Err(21));
        unchanged(&sound, 6, &[0], 0, &card_b(14), Err(6));
    }

    /// Document 01's refused words of cards A and B, and request P6's, with a mark that no position is above.
    #[test]
    fn a_refused_word_changes_nothing() {
        let given = yard(&[(0, 5), (14, 6)], &[(7, 14), (8, 0)]);
        let words: [(&[u8], Refusal); 7] = [
            (&[0], 6),
            (&[0, 0, 0], 6),
            (&[0x00, 0x80], 8),
            (&[0xC0, 0x01], 9),
            (&[0x00, 0x0E], 11),
            (&[0x00, 0x70], 12),
            (&[0x38, 0x0E], 17),
        ];
        for (word, number) in words {
            unchanged(&given, 6, word, 0, &card_b(14), Err(number));
            unchanged(&given, 6, word, u32::MAX, &card_b(14), Err(number));
        }
        // 00 100 00 000 00.
        unchanged(&given, 5, &[0x04, 0x00], 0, &card_a(), Err(10));
    }

    #[test]
    fn position_less_10t_must_be_above_the_mark() {
        let given = yard(&[(14, 6)], &[(7, 14)]);
        let left = yard(&[(14, 7)], &[]);
        let is_clear = |word: [u8; 2], mark| {
            let mut after = given.clone();
            assert_eq!(after.release(6, &word, mark, &card_b(14)), Ok(HandedTo(7)), "word {word:02X?}, mark {mark}");
            assert_eq!(after, left, "word {word:02X?}, mark {mark}");
        };
        let is_not = |word: [u8; 2], mark| unchanged(&given, 6, &word, mark, &card_b(14), Ok(NotClear));
        // 15 - 10 = 5 and 11 - 10 = 1.
        (0..=4).for_each(|mark| is_clear(AT_15, mark));
        is_clear(AT_11, 0);
        // mark + 10t is 4,294,967,296 for the third of these marks, and one less for the second.
        for mark in [5, 4_294_967_285, 4_294_967_286, u32::MAX, 1 << 31, 6, 15] {
            is_not(AT_15, mark);
        }
        is_not(AT_11, 1);
        is_not(AT_10, 0);
        // 9 - 10 = -1 and 0 - 10 = -10 are not above 0, nor are they large numbers.
        for word in [[0xFF, 0x01], [0x00, 0x00]] {
            [0, 1, 1 << 31, 4_294_967_284, u32::MAX].into_iter().for_each(|mark| is_not(word, mark));
        }
    }

    /// With t 0 the position itself is held against the mark. Card A's word of 5 is 11 110 10 000 00, or `2F 00`.
    #[test]
    fn without_a_radius_the_position_counts_in_full() {
        let given = yard(&[(0, 6)], &[]);
        let mut after = given.clone();
        assert_eq!(after.release(6, &[0x2F, 0x00], 4, &card_a()), Ok(Freed));
        assert_eq!(after, Yard::empty());
        unchanged(&given, 6, &[0x2F, 0x00], 5, &card_a(), Ok(NotClear));
        // Position 0 is above no mark.
        unchanged(&given, 6, &[0x00, 0x00], 0, &card_a(), Ok(NotClear));
    }

    /// With t 2, 10t is 20: the last position, 25, less that is 5.
    #[test]
    fn ten_times_the_radius_is_taken_off() {
        let (given, ones) = (yard(&[(0, 6)], &[]), [0xFF, 0xFF, 0xFF, 0x01]);
        assert_eq!(given.clone().release(6, &ones, 4, &card_of_five()), Ok(Freed));
        unchanged(&given, 6, &ones, 5, &card_of_five(), Ok(NotClear));
    }
}
