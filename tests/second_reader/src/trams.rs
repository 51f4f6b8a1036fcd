//! What stands at a mark, request P8: the trams of a track, each a stretch from a low to a high position, and which of them cross
//! a mark, are wholly within two marks, or are the nearest to a mark.
//!
//! A stretch is widened one step at a time, and the nearest tram is the one that no other beats, each being held against all.
use crate::track::Track;
use crate::Refusal;

/// A track holds up to so many trams.
const MOST: usize = 64;

/// Where a tram stands: from a low to a high position.
#[derive(Clone, Copy, Debug, PartialEq, Eq)]
pub struct Stretch {
    pub low: u32,
    pub high: u32,
}

impl Stretch {
    /// Whether a tram that stands here crosses a mark.
    pub fn crosses(&self, mark: u32) -> bool {
        self.low <= mark && mark <= self.high
    }

    /// From a mark to the nearer end, or 0 for a crossing tram.
    pub fn distance(&self, mark: u32) -> u32 {
        if self.crosses(mark) {
            0
        } else {
            mark.abs_diff(self.low).min(mark.abs_diff(self.high))
        }
    }
}

/// A list of trams on a track, in its order, each with its widened stretch.
#[derive(Clone, Debug)]
pub struct Trams<'a> {
    pub track: &'a Track,
    pub widened: Vec<Stretch>,
}

impl<'a> Trams<'a> {
    /// Checks a list of trams and widens their stretches. Refusal 18 where there are over 64 trams. Refusal 19 where some
    /// stretch, as it is given, has its low above its high, or its high above the last position.
    pub fn of_list(track: &'a Track, given: &[Stretch]) -> Result<Trams<'a>, Refusal> {
        if MOST < given.len() {
            return Err(18);
        }
        if given.iter().any(|stretch| stretch.high < stretch.low || track.last() < stretch.high) {
            return Err(19);
        }
        Ok(Trams { track, widened: given.iter().map(|&stretch| widened(track, stretch)).collect() })
    }

    /// Whether each tram crosses a mark: its low is at most the mark, its high at least the mark.
    pub fn crossing(&self, mark: u32) -> Result<Vec<bool>, Refusal> {
        self.has_mark(mark)?;
        Ok(self.widened.iter().map(|stretch| stretch.crosses(mark)).collect())
    }

    /// Whether each tram is wholly within two marks: its low is at least the first, its high at most the second.
    pub fn within(&self, first: u32, second: u32) -> Result<Vec<bool>, Refusal> {
        self.has_mark(first)?;
        self.has_mark(second)?;
        if second < first {
            return Err(19);
        }
        Ok(self.widened.iter().map(|stretch| first <= stretch.low && stretch.high <= second).collect())
    }

    /// The place in the list of the tram nearest to a mark, the one that no other beats; of no trams none. All are tried, so that
    /// there is seen to be no second one.
    pub fn nearest(&self, mark: u32) -> Result<Option<usize>, Refusal> {
        self.has_mark(mark)?;
        let places = 0..self.widened.len();
        let is_beaten = |place: usize| places.clone().any(|other| self.beats(other, place, mark));
        let unbeaten: Vec<usize> = places.clone().filter(|&place| !is_beaten(place)).collect();
        assert_eq!(unbeaten.len(), places.len().min(1), "trams {unbeaten:?} of {:?} at mark {mark}", self.widened);
        Ok(unbeaten.first().copied())
    }

    /// Whether the tram at one place of the list comes before that at another place for a mark: it is nearer, or as near with the
    /// smaller low end, or as near with the same low end and earlier in the list.
    fn beats(&self, place: usize, other: usize, mark: u32) -> bool {
        let (stretch, beaten) = (self.widened[place], self.widened[other]);
        let (distance, beaten_distance) = (stretch.distance(mark), beaten.distance(mark));
        if distance != beaten_distance {
            distance < beaten_distance
        } else if stretch.low != beaten.low {
            stretch.low < beaten.low
        } else {
            place < other
        }
    }

    /// Refusal 19 where a mark is above the last position, whether or not there are trams.
    fn has_mark(&self, mark: u32) -> Result<(), Refusal> {
        if mark <= self.track.last() {
            Ok(())
        } else {
            Err(19)
        }
    }
}

/// A stretch of a track widened by 10t at both ends, step by step. An end that has come to 0 or to the last position stays there,
/// which cuts it to these.
pub fn widened(track: &Track, given: Stretch) -> Stretch {
    let Stretch { mut low, mut high } = given;
    for _ in 0..10 * track.card.code.radius() {
        low = low.saturating_sub(1);
        high = track.last().min(high + 1);
    }
    Stretch { low, high }
}

/// Expected values are worked out by hand from document 01 and request P8. Card A has t 0 and last position 30, so its stretches
/// stay as they are given. Card B has t 1 and last position 15, the card of two rows t 1 and 45: both widen by 10.
#[cfg(test)]
mod tests {
    use super::{widened, Stretch, Trams};
    use crate::level_promises::{damaged, plain, track_of, words_of};
    use crate::reading::read_from;
    use crate::test_cards::{card, card_a, card_b, card_of_five, card_of_two_rows};
    use crate::track::Track;
    use crate::walk::Walk;
    use crate::word::Word;
    use crate::{nearest_tram, trams_crossing, trams_within, Refusal};

    /// A list of trams from their lows and highs.
    fn list(ends: &[[u32; 2]]) -> Vec<Stretch> {
        ends.iter().map(|&[low, high]| Stretch { low, high }).collect()
    }

    #[test]
    fn a_stretch_is_widened_and_cut() {
        let widens = |card: [u8; 512], given: [u32; 2]| {
            let Stretch { low, high } = widened(&track_of(card), list(&[given])[0]);
            [low, high]
        };
        assert_eq!(widens(card_of_two_rows(), [20, 25]), [10, 35]);
        // To the ends of the track without a cut, and one step short of that.
        assert_eq!(widens(card_of_two_rows(), [10, 35]), [0, 45]);
        assert_eq!(widens(card_of_two_rows(), [11, 34]), [1, 44]);
        // -1 is cut to 0, and 46 to 45.
        assert_eq!(widens(card_of_two_rows(), [9, 34]), [0, 44]);
        assert_eq!(widens(card_of_two_rows(), [11, 36]), [1, 45]);
        assert_eq!(widens(card_of_two_rows(), [0, 45]), [0, 45]);
        // -10 to 10, 5 to 25 and -3 to 18.
        assert_eq!(widens(card_b(), [0, 0]), [0, 10]);
        assert_eq!(widens(card_b(), [15, 15]), [5, 15]);
        assert_eq!(widens(card_b(), [7, 8]), [0, 15]);
        // t is 2 and the last position 25: 2 to 42, and -17 to 23.
        assert_eq!(widens(card_of_five(), [22, 22]), [2, 25]);
        assert_eq!(widens(card_of_five(), [3, 3]), [0, 23]);
        assert_eq!(widens(card_a(), [4, 9]), [4, 9]);
    }

    /// Asserts which trams cross a mark.
    fn crosses(card: [u8; 512], trams: &[[u32; 2]], mark: u32, expected: &[bool]) {
        assert_eq!(trams_crossing(&card, &list(trams), mark), Ok(expected.to_vec()), "{trams:?}, mark {mark}");
    }

    #[test]
    fn a_tram_crosses_from_end_to_end() {
        for (mark, expected) in [(3, false), (4, true), (7, true), (9, true), (10, false)] {
            crosses(card_a(), &[[4, 9]], mark, &[expected]);
        }
        // 10 to 35.
        for (mark, expected) in [(9, false), (10, true), (35, true), (36, false)] {
            crosses(card_of_two_rows(), &[[20, 25]], mark, &[expected]);
        }
        // 0 to 10 and 5 to 15.
        for (mark, expected) in [
            (0, [true, false]),
            (4, [true, false]),
            (5, [true, true]),
            (10, [true, true]),
            (11, [false, true]),
            (15, [false, true]),
        ] {
            crosses(card_b(), &[[0, 0], [15, 15]], mark, &expected);
        }
    }

    #[test]
    fn crossing_is_told_in_list_order() {
        crosses(card_a(), &[[4, 9], [10, 30], [9, 9], [0, 8], [0, 30]], 9, &[true, false, true, false, true]);
        crosses(card_a(), &[[0, 30], [0, 8], [9, 9], [10, 30], [4, 9]], 9, &[true, false, true, false, true]);
        crosses(card_a(), &[[0, 8], [0, 8], [4, 9]], 9, &[false, false, true]);
        crosses(card_a(), &[], 9, &[]);
    }

    /// Asserts which trams are wholly within two marks.
    fn is_within(card: [u8; 512], trams: &[[u32; 2]], [first, second]: [u32; 2], expected: &[bool]) {
        let answer = trams_within(&card, &list(trams), first, second);
        assert_eq!(answer, Ok(expected.to_vec()), "{trams:?}, marks {first} and {second}");
    }

    #[test]
    fn a_tram_is_within_marks_at_its_ends() {
        for (marks, expected) in [([4, 9], true), ([0, 30], true), ([5, 9], false), ([4, 8], false), ([6, 6], false)] {
            is_within(card_a(), &[[4, 9]], marks, &[expected]);
        }
        is_within(card_a(), &[[6, 6]], [6, 6], &[true]);
        // 2 to 15, of which 23 is cut: within the marks as it is given, 12 to 13, it isn't.
        for (marks, expected) in [([2, 15], true), ([0, 15], true), ([3, 15], false), ([2, 14], false), ([12, 13], false)] {
            is_within(card_b(), &[[12, 13]], marks, &[expected]);
        }
        // 0 to 13, of which -8 is cut.
        for (marks, expected) in [([0, 13], true), ([0, 15], true), ([1, 13], false), ([0, 12], false), ([2, 3], false)] {
            is_within(card_b(), &[[2, 3]], marks, &[expected]);
        }
    }

    #[test]
    fn being_within_is_told_in_list_order() {
        is_within(card_a(), &[[4, 9], [3, 8], [5, 8], [8, 10], [9, 9]], [4, 9], &[true, false, true, false, true]);
        // 5 to 25, 10 to 30 and 4 to 24.
        is_within(card_of_two_rows(), &[[15, 15], [20, 20], [14, 14]], [5, 29], &[true, false, false]);
        is_within(card_a(), &[], [4, 9], &[]);
    }

    /// Asserts the nearest tram's place in the list.
    fn nearest(card: [u8; 512], trams: &[[u32; 2]], mark: u32, expected: usize) {
        assert_eq!(nearest_tram(&card, &list(trams), mark), Ok(Some(expected)), "{trams:?}, mark {mark}");
    }

    #[test]
    fn the_nearest_has_the_least_distance() {
        assert_eq!(nearest_tram(&card_a(), &[], 0), Ok(None));
        assert_eq!(nearest_tram(&card_b(), &[], 15), Ok(None));
        nearest(card_a(), &[[30, 30]], 0, 0);
        // Distances 8 and 10, then 10 and 8.
        nearest(card_a(), &[[0, 2], [20, 30]], 10, 0);
        nearest(card_a(), &[[0, 2], [20, 30]], 12, 1);
        // 1 and 0: a crossing tram beats one with the smaller low end.
        nearest(card_a(), &[[0, 9], [10, 12]], 10, 1);
        // 0 to 10 and 5 to 15: distances 0 and 2, then 2 and 0.
        nearest(card_b(), &[[0, 0], [15, 15]], 3, 0);
        nearest(card_b(), &[[0, 0], [15, 15]], 12, 1);
        // 0 to 15, of which -5 is cut, and 20 to 40: distances 2 and 3, then 3 and 2.
        nearest(card_of_two_rows(), &[[30, 30], [5, 5]], 17, 1);
        nearest(card_of_two_rows(), &[[30, 30], [5, 5]], 18, 0);
    }

    #[test]
    fn a_tie_goes_to_the_smaller_low_end() {
        // 9 to either side.
        nearest(card_a(), &[[0, 2], [20, 30]], 11, 0);
        nearest(card_a(), &[[20, 30], [0, 2]], 11, 1);
        // 3 above the high end of both.
        nearest(card_a(), &[[8, 12], [5, 12]], 15, 1);
        nearest(card_a(), &[[5, 12], [8, 12]], 15, 0);
        // All cross. The last one's nearer end is nearest, but its distance is 0 as the others' are.
        nearest(card_a(), &[[10, 20], [3, 16], [12, 13]], 13, 1);
        nearest(card_b(), &[[15, 15], [0, 0]], 7, 1);
        // 2 to 23 and 1 to 22 both cross.
        nearest(card_of_two_rows(), &[[12, 13], [11, 12]], 22, 1);
        // 20 to 40 and 0 to 14, of which -6 is cut, 3 to either side.
        nearest(card_of_two_rows(), &[[30, 30], [4, 4]], 17, 1);
    }

    #[test]
    fn a_second_tie_goes_to_the_earlier_in_the_list() {
        // 5 below the low end of both, whichever is the longer.
        nearest(card_a(), &[[20, 22], [20, 21]], 15, 0);
        nearest(card_a(), &[[20, 21], [20, 22]], 15, 0);
        // All cross.
        nearest(card_a(), &[[11, 11], [10, 20], [10, 30], [10, 12]], 11, 1);
        // The same stretch: alone, and behind one that is further off.
        nearest(card_a(), &[[5, 6], [5, 6], [5, 6]], 9, 0);
        nearest(card_a(), &[[0, 3], [5, 6], [5, 6]], 9, 1);
        // Distances 2, 2, 3, 2 and 2, with the low ends 17, 9, 8, 10 and 9.
        nearest(card_a(), &[[17, 18], [9, 13], [8, 12], [10, 13], [9, 13]], 15, 1);
    }

    /// Both low ends are cut to 0, so that the smaller one as it is given doesn't settle the tie.
    #[test]
    fn low_ends_are_compared_as_they_are_widened() {
        // 0 to 16 and 0 to 14, both cross.
        nearest(card_of_two_rows(), &[[6, 6], [3, 4]], 12, 0);
        nearest(card_of_two_rows(), &[[3, 4], [6, 6]], 12, 0);
        // 0 to 19 twice, 1 below the mark.
        nearest(card_of_two_rows(), &[[6, 9], [3, 9]], 20, 0);
        nearest(card_b(), &[[10, 11], [0, 15]], 7, 0);
        // 1 to 21 and 0 to 20: the first isn't cut.
        nearest(card_of_two_rows(), &[[11, 11], [10, 10]], 15, 1);
    }

    /// Asserts that all three calls are refused with this number. The first of the two marks is also the one mark.
    fn refused(card: &[u8], trams: &[Stretch], [first, second]: [u32; 2], number: Refusal) {
        let told = format!("{} trams, marks {first} and {second}", trams.len());
        assert_eq!(trams_crossing(card, trams, first), Err(number), "{told}");
        assert_eq!(trams_within(card, trams, first, second), Err(number), "{told}");
        assert_eq!(nearest_tram(card, trams, first), Err(number), "{told}");
    }

    /// So many trams, all at 3.
    fn many(count: usize) -> Vec<Stretch> {
        list(&[[3, 3]].repeat(count))
    }

    #[test]
    fn a_track_holds_64_trams() {
        let mut trams = many(64);
        trams[63] = Stretch { low: 8, high: 9 };
        let mut last_alone = vec![false; 64];
        last_alone[63] = true;
        assert_eq!(trams_crossing(&card_a(), &trams, 9), Ok(last_alone.clone()));
        assert_eq!(trams_within(&card_a(), &trams, 4, 30), Ok(last_alone));
        assert_eq!(nearest_tram(&card_a(), &trams, 9), Ok(Some(63)));
        refused(&card_a(), &many(65), [0, 30], 18);
        refused(&card_a(), &many(70), [0, 30], 18);
    }

    #[test]
    fn a_bad_stretch_is_refused_wherever_it_stands() {
        // Low above high, also where the widened one, 0 to 15, would be in order; the high above the last; both.
        let bad = [[8, 7], [15, 0], [16, 15], [7, 16], [16, 16], [17, 16], [0, u32::MAX], [u32::MAX, 0], [u32::MAX, u32::MAX]];
        for bad in list(&bad) {
            refused(&card_b(), &[bad], [0, 15], 19);
            for place in [0, 1, 31, 62, 63] {
                let mut trams = many(64);
                trams[place] = bad;
                refused(&card_b(), &trams, [0, 15], 19);
            }
        }
    }

    #[test]
    fn a_bad_mark_is_refused_with_trams_or_none() {
        for trams in [vec![], many(1), many(64)] {
            for mark in [16, u32::MAX] {
                refused(&card_b(), &trams, [mark, mark], 19);
                for marks in [[0, mark], [mark, 15]] {
                    assert_eq!(trams_within(&card_b(), &trams, marks[0], marks[1]), Err(19), "{trams:?}, marks {marks:?}");
                }
            }
            for marks in [[1, 0], [15, 14], [15, 0]] {
                assert_eq!(trams_within(&card_b(), &trams, marks[0], marks[1]), Err(19), "{trams:?}, marks {marks:?}");
            }
            assert!(trams_crossing(&card_b(), &trams, 15).is_ok());
            assert!(trams_within(&card_b(), &trams, 15, 15).is_ok());
        }
    }

    /// Each of these has every fault that comes after the one that is answered.
    #[test]
    fn the_card_comes_before_18_and_18_before_19() {
        let mut trams = many(64);
        trams.push(Stretch { low: 31, high: 4 });
        // Card A with 511 bytes, with 162 for its check of 163, and with byte 100 set, which makes the offset 16,777,216 and adds
        // 101 to the check.
        refused(&card_a()[..511], &trams, [31, 0], 1);
        refused(&card(3, 0, &[3, 6], 162), &trams, [31, 0], 2);
        let mut card_of_offset = card(3, 0, &[3, 6], 163 + 101);
        card_of_offset[100] = 1;
        refused(&card_of_offset, &trams, [31, 0], 14);
        // n 3 with k 0, with row 8, and with rows 3 and 3.
        refused(&card(3, 0, &[], 3), &trams, [31, 0], 3);
        refused(&card(3, 0, &[8], 3 + 2 + 12 * 8), &trams, [31, 0], 4);
        refused(&card(3, 0, &[3, 3], 3 + 4 + 12 * 3 + 20 * 3), &trams, [31, 0], 5);
        refused(&card_a(), &trams, [31, 0], 18);
        refused(&card_a(), &trams[..64], [31, 0], 19);
        refused(&card_a(), &trams[64..], [0, 30], 19);
    }

    /// For each position of a track, the positions that its word is read as, with at most t bits damaged in every chunk.
    fn answers(track: &Track) -> Vec<Vec<u32>> {
        let read = |levels: Vec<f32>| read_from(&Walk::new(track), &plain(&levels)).expect("the word is read").position;
        let answers = |word: &Word| {
            let mut answers: Vec<u32> = damaged(track, word, 2).into_iter().map(read).collect();
            answers.sort_unstable();
            answers.dedup();
            answers
        };
        words_of(track).iter().map(answers).collect()
    }

    /// Asserts of a tram that stood from one position to another and whose stretch is read as this: it crosses every mark at
    /// which it stood, it stood within any two marks that it is within, and no mark is nearer to where it stood than to the
    /// widened stretch.
    fn is_found(track: &Track, stretch: Stretch, from: u32, to: u32) {
        let trams = Trams::of_list(track, &[stretch]).expect("the stretch is in order");
        let stood = Stretch { low: from, high: to };
        for mark in 0..=track.last() {
            assert!(!stood.crosses(mark) || trams.crossing(mark) == Ok(vec![true]), "{stretch:?} of {stood:?}, mark {mark}");
            assert!(trams.widened[0].distance(mark) <= stood.distance(mark), "{stretch:?} of {stood:?}, mark {mark}");
            for second in mark..=track.last() {
                let told = trams.within(mark, second) == Ok(vec![true]);
                assert!(!told || (mark <= from && to <= second), "{stretch:?} of {stood:?}, marks {mark} and {second}");
            }
        }
    }

    /// What a stretch is widened for: with at most t bits damaged in each of five chunks, a position is read off by at most
    /// 2 × 5t. On card B, of every two positions between which a tram may stand, with every answer of either that leaves the
    /// stretch in order.
    #[test]
    fn a_tram_is_found_where_it_stood() {
        let track = track_of(card_b());
        let answers = answers(&track);
        for (from, lows) in (0..).zip(&answers) {
            for (to, highs) in (0..).zip(&answers).skip(from as usize) {
                let stretches = lows.iter().flat_map(|&low| highs.iter().map(move |&high| Stretch { low, high }));
                stretches.filter(|read| read.low <= read.high).for_each(|read| is_found(&track, read, from, to));
            }
        }
    }

    /// Card B's 5F 00 of document 01 reads 5, but is 7 with a bit turned. A tram at 7 that is read as one at 5 would not be found
    /// at 7 if it weren't widened.
    #[test]
    fn a_tram_would_be_missed_without_widening() {
        assert!(answers(&track_of(card_b()))[7].contains(&5));
        assert!(!Stretch { low: 5, high: 5 }.crosses(7));
        crosses(card_b(), &[[5, 5]], 7, &[true]);
    }
}
