//! The yard as the C interface has it, 97 numbers of 16 bits, and what a request or a release leaves in them.
//!
//! They are 16 flags, of which any but 0 says that the track is held, 16 holders, the count of the waiting trams, and 32 places
//! with the waiting trams, then with their tracks. A free track's holder means nothing, nor does a place past the count.
use crate::track::Track;
use crate::walk::Walk;
use crate::yard::{Released, Requested, Waiting, Yard, MOST_WAITING};
use crate::{Refusal, WRONG_COUNT};
use std::array;

/// How many numbers a yard has.
pub const NUMBERS: usize = 97;

/// The numbers of a yard.
pub type Numbers = [u16; NUMBERS];

/// Where the flags, the holders, the count, the waiting trams and their tracks begin.
pub const FLAGS: usize = 0;
pub const HOLDERS: usize = 16;
pub const COUNT: usize = 32;
pub const TRAMS: usize = 33;
pub const WAITED_FOR: usize = 65;

/// The yard that numbers stand for. None where the count is above the 32 places, for which the answer is 26.
pub fn yard_of(numbers: &Numbers) -> Option<Yard> {
    let holder = |track: usize| (numbers[FLAGS + track] != 0).then_some(numbers[HOLDERS + track]);
    let waiting = places(numbers).get(..numbers[COUNT].into())?.to_vec();
    Some(Yard { holders: array::from_fn(holder), waiting })
}

/// What stands in the 32 places, those past the count too.
fn places(numbers: &Numbers) -> Vec<Waiting> {
    let at = |place| Waiting { tram: numbers[TRAMS + place], track: numbers[WAITED_FOR + place] };
    (0..MOST_WAITING).map(at).collect()
}

/// A request.
pub fn request(numbers: &mut Numbers, tram: u16, track: u32) -> Result<Requested, Refusal> {
    called(numbers, |yard| yard.request(tram, track))
}

/// A release.
pub fn release(numbers: &mut Numbers, tram: u16, word: &[u8], mark: u32, card: &[u8]) -> Result<Released, Refusal> {
    release_from(numbers, &Walk::new(&Track::of_card(card)?), tram, word, mark)
}

/// A release with a sound card, on whose track a walk stands.
pub fn release_from(numbers: &mut Numbers, walk: &Walk, tram: u16, word: &[u8], mark: u32) -> Result<Released, Refusal> {
    called(numbers, |yard| yard.release_from(walk, tram, word, mark))
}

/// A request with lent numbers as a program in C lends them. The status is 0 or the refusal's number; before anything else it is
/// 100 where there are not 97 numbers of the yard and one value. The value is 0 where the tram holds the track and 1 where it
/// waits. Where the status is not 0, nothing that was lent has changed.
pub fn request_lent(yard: &mut [u16], tram: u16, track: u32, values: &mut [u32]) -> u32 {
    put(yard, values, |numbers| {
        Ok(match request(numbers, tram, track)? {
            Requested::Holds => 0,
            Requested::Waits => 1,
        })
    })
}

/// A release with lent numbers, likewise. The value is 0 where it isn't clear, 1 where the track is freed, 2 where it is handed
/// on.
pub fn release_lent(yard: &mut [u16], tram: u16, word: &[u8], mark: u32, card: &[u8], values: &mut [u32]) -> u32 {
    put(yard, values, |numbers| {
        Ok(match release(numbers, tram, word, mark, card)? {
            Released::NotClear => 0,
            Released::Freed => 1,
            Released::HandedTo(_) => 2,
        })
    })
}

/// The status of a call, whose value goes into the lent one.
fn put(yard: &mut [u16], values: &mut [u32], call: impl FnOnce(&mut Numbers) -> Result<u32, Refusal>) -> u32 {
    let (Ok(numbers), [value]) = (<&mut Numbers>::try_from(yard), values) else { return WRONG_COUNT };
    match call(numbers) {
        Ok(answer) => {
            *value = answer;
            0
        }
        Err(refusal) => refusal,
    }
}

/// What a call on the yard answers. Where the yard is as it was, so are all of the numbers.
fn called<T>(numbers: &mut Numbers, call: impl FnOnce(&mut Yard) -> Result<T, Refusal>) -> Result<T, Refusal> {
    let before = yard_of(numbers).ok_or(26u32)?;
    let mut after = before.clone();
    let answer = call(&mut after);
    assert!(answer.is_ok() || after == before, "a refused call changed {before:?} to {after:?}");
    if after != before {
        *numbers = left(numbers, &before, &after);
    }
    answer
}

/// What a call leaves of the numbers of a yard, having made it another one: every flag is 0 or 1, and the holder of a track that
/// has been freed is 0. The other holders stay, of free tracks too.
fn left(numbers: &Numbers, before: &Yard, after: &Yard) -> Numbers {
    let mut left = *numbers;
    for (track, holder) in after.holders.into_iter().enumerate() {
        left[FLAGS + track] = holder.is_some().into();
        if holder != before.holders[track] {
            left[HOLDERS + track] = holder.unwrap_or(0);
        }
    }
    left[COUNT] = after.waiting.len() as u16;
    for (place, Waiting { tram, track }) in places_left(numbers, before, after).into_iter().enumerate() {
        (left[TRAMS + place], left[WAITED_FOR + place]) = (tram, track);
    }
    left
}

/// What is left in the 32 places. Where a tram has joined, it stands after the others, and the places past it stay. Where one has
/// been taken out, those after it move up, the ones past the count too, and the last place has tram 0 and track 0.
fn places_left(numbers: &Numbers, before: &Yard, after: &Yard) -> Vec<Waiting> {
    let (before, after) = (&before.waiting, &after.waiting);
    let mut places = places(numbers);
    if before.len() < after.len() {
        places[before.len()] = after[before.len()];
    } else if after.len() < before.len() {
        let stays = before.iter().zip(after).take_while(|(one, other)| one == other).count();
        places.remove(stays);
        places.push(Waiting { tram: 0, track: 0 });
    }
    places
}

/// Expected numbers are worked out by hand.
#[cfg(test)]
mod tests {
    use super::{release, release_lent, request, request_lent, yard_of, Numbers};
    use crate::test_cards::card_b;
    use crate::yard::{Released, Requested, Waiting, Yard};

    /// Card B's word of position 15, which is clear of mark 4 and not of mark 5.
    const AT_15: [u8; 2] = [0xFF, 0x7F];

    /// Track 3 is held by tram 30 under the flag 2, track 14 by tram 50 under the flag 65,535. The other tracks are free; the
    /// slots of 0 and 15 name trams 30 and 7. 60 waits for track 14 after 61 for 3. Places 2 and 31, past the count, have tram 61
    /// for track 9 and tram 30 for track 65,535.
    fn numbers() -> Numbers {
        let mut numbers = [0; 97];
        (numbers[3], numbers[14]) = (2, 65_535);
        (numbers[16], numbers[16 + 3], numbers[16 + 14], numbers[16 + 15]) = (30, 30, 50, 7);
        numbers[32] = 2;
        (numbers[33], numbers[34], numbers[35], numbers[64]) = (61, 60, 61, 30);
        (numbers[65], numbers[66], numbers[67], numbers[96]) = (3, 14, 9, 65_535);
        numbers
    }

    /// The same with the flags that a call writes.
    fn with_plain_flags() -> Numbers {
        let mut numbers = numbers();
        (numbers[3], numbers[14]) = (1, 1);
        numbers
    }

    #[test]
    fn numbers_stand_for_a_yard() {
        let mut yard = Yard::empty();
        (yard.holders[3], yard.holders[14]) = (Some(30), Some(50));
        yard.waiting = vec![Waiting { tram: 61, track: 3 }, Waiting { tram: 60, track: 14 }];
        assert_eq!(yard_of(&numbers()), Some(yard));
        assert_eq!(yard_of(&[0; 97]), Some(Yard::empty()));
        let with_count = |count| {
            let mut numbers = numbers();
            numbers[32] = count;
            numbers
        };
        assert_eq!(yard_of(&with_count(32)).map(|yard| yard.waiting.len()), Some(32));
        for count in [33, 34, 256, 65_535] {
            assert_eq!(yard_of(&with_count(count)), None);
            assert_eq!(request(&mut with_count(count), 1, 16), Err(26));
            assert_eq!(release(&mut with_count(count), 1, &[], 0, &card_b()), Err(26));
        }
    }

    #[test]
    fn a_request_leaves_all_numbers() {
        // 7 is named by the free slot of track 15 alone. It holds track 0, whose slot named 30.
        let (mut left, mut expected) = (numbers(), with_plain_flags());
        assert_eq!(request(&mut left, 7, 0), Ok(Requested::Holds));
        (expected[0], expected[16]) = (1, 7);
        assert_eq!(left, expected);
        // It waits for track 3, at place 2, where 61 for 9 stood. Place 31 stays.
        let (mut left, mut expected) = (numbers(), with_plain_flags());
        assert_eq!(request(&mut left, 7, 3), Ok(Requested::Waits));
        (expected[32], expected[35], expected[67]) = (3, 7, 3);
        assert_eq!(left, expected);
        for (tram, track, refusal) in [(7, 16, 20), (50, 0, 21), (60, 3, 21), (30, 14, 21)] {
            let mut left = numbers();
            assert_eq!(request(&mut left, tram, track), Err(refusal));
            assert_eq!(left, numbers(), "tram {tram}, track {track}");
        }
    }

    #[test]
    fn a_release_leaves_all_numbers() {
        // 60, at place 1, is handed track 14. Places 2 to 31 move up to 1 to 30, and 31 is cleared.
        let (mut left, mut expected) = (numbers(), with_plain_flags());
        assert_eq!(release(&mut left, 50, &AT_15, 4, &card_b()), Ok(Released::HandedTo(60)));
        (expected[16 + 14], expected[32]) = (60, 1);
        (expected[34], expected[35], expected[63], expected[64]) = (61, 0, 30, 0);
        (expected[66], expected[67], expected[95], expected[96]) = (9, 0, 65_535, 0);
        assert_eq!(left, expected);
        // Nobody waits for it any more: the slot of track 14 has flag 0 and tram 0. The other free slots keep their trams.
        assert_eq!(release(&mut left, 60, &AT_15, 4, &card_b()), Ok(Released::Freed));
        (expected[14], expected[16 + 14]) = (0, 0);
        assert_eq!(left, expected);
        let mut left = numbers();
        assert_eq!(release(&mut left, 50, &AT_15, 5, &card_b()), Ok(Released::NotClear));
        assert_eq!(release(&mut left, 60, &AT_15, 4, &card_b()), Err(21));
        assert_eq!(release(&mut left, 50, &[0xC0, 0x01], 4, &card_b()), Err(9));
        assert_eq!(release(&mut left, 50, &AT_15, 4, &card_b()[..511]), Err(1));
        assert_eq!(left, numbers());
    }

    /// The first of three places is taken out, then the last of two.
    #[test]
    fn places_move_up_from_the_one_taken_out() {
        let mut left = [0; 97];
        (left[14], left[30], left[32]) = (1, 5, 3);
        (left[33], left[34], left[35], left[36]) = (6, 7, 8, 9);
        (left[65], left[66], left[67], left[68]) = (14, 2, 14, 1);
        (left[2], left[18]) = (1, 4);
        assert_eq!(release(&mut left, 5, &AT_15, 4, &card_b()), Ok(Released::HandedTo(6)));
        assert_eq!((&left[30..37], &left[65..69]), (&[6, 0, 2, 7, 8, 9, 0][..], &[2, 14, 1, 0][..]));
        assert_eq!(release(&mut left, 6, &AT_15, 4, &card_b()), Ok(Released::HandedTo(8)));
        assert_eq!((&left[30..37], &left[65..69]), (&[8, 0, 1, 7, 9, 0, 0][..], &[2, 1, 0, 0][..]));
    }

    /// 7 holds track 0 and 8 waits for it. Track 14 goes from 50 to 60 and is freed.
    #[test]
    fn a_lent_call_leaves_its_value() {
        let mut values = [9];
        let mut left = numbers();
        assert_eq!((request_lent(&mut left, 7, 0, &mut values), values), (0, [0]));
        assert_eq!((request_lent(&mut left, 8, 0, &mut values), values), (0, [1]));
        assert_eq!((release_lent(&mut left, 50, &AT_15, 4, &card_b(), &mut values), values), (0, [2]));
        assert_eq!((release_lent(&mut left, 60, &AT_15, 4, &card_b(), &mut values), values), (0, [1]));
        // The freed slot names tram 0, which holds the track once the flag is set.
        left[14] = 1;
        assert_eq!((release_lent(&mut left, 0, &AT_15, 5, &card_b(), &mut values), values), (0, [0]));
        let before = left;
        let mut values = [9];
        assert_eq!((request_lent(&mut left, 7, 16, &mut values), values), (20, [9]));
        assert_eq!((release_lent(&mut left, 7, &AT_15, 5, &card_b(), &mut values), values), (21, [9]));
        assert_eq!(left, before);
    }

    /// 100 comes before the refusals, here 20 and 1.
    #[test]
    fn other_counts_are_answered_100() {
        for (numbers, count) in [(0, 1), (1, 1), (96, 1), (98, 1), (97, 0), (97, 2)] {
            let (mut yard, mut values) = (vec![0; numbers], vec![9; count]);
            assert_eq!(request_lent(&mut yard, 1, 16, &mut values), 100);
            assert_eq!(request_lent(&mut yard, 1, 15, &mut values), 100);
            assert_eq!(release_lent(&mut yard, 1, &AT_15, 4, &[], &mut values), 100);
            assert_eq!((yard, values), (vec![0; numbers], vec![9; count]));
        }
    }
}
