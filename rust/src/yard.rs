//! The yard: sixteen tracks, who holds each of them, and who waits. A request and a release change it, by the library's calls.
use crate::{exported, Refusal};

/// The numbers of a yard.
pub const YARD_NUMBERS: usize = 97;

/// The tracks of a yard, which are numbered from 0.
pub const TRACKS: usize = 16;

/// The most trams that wait, over all tracks.
pub const MOST_WAITING: usize = 32;

// Where the parts of a yard begin in its numbers: DUNNAVISH_YARD_HELD and so on, of the header.
const HELD: usize = 0;
const HOLDERS: usize = 16;
const COUNT: usize = 32;
const TRAMS: usize = 33;
const WAITED_FOR: usize = 65;

/// A yard: for each of [`TRACKS`] tracks whether a tram holds it, and which; and the trams that wait, at most [`MOST_WAITING`]
/// over all tracks, in the order in which they came, each for one track. Those that wait for a track are its queue. All numbers
/// of 16 bits are trams, and none stands for nobody.
///
/// Where a yard was [empty](Yard::empty) at first, a tram that waits with q trams ahead of it in its queue holds its track after
/// exactly q + 1 accepted releases of that track, and not before, whatever other calls fall between. Such a yard is never refused
/// as [`Refusal::YardUnsound`].
///
/// Two yards are equal if all their numbers are, those that mean nothing too: the holder of a free track, and entries from the
/// count of waiting trams on.
#[derive(Clone, Debug, PartialEq, Eq)]
pub struct Yard {
    numbers: [u16; YARD_NUMBERS],
}

/// What a request was answered.
#[derive(Clone, Copy, Debug, PartialEq, Eq, Hash)]
pub enum Requested {
    /// The tram holds the track.
    Holds,
    /// The track was held, and the tram waits for it.
    Waits,
}

/// What a release was answered.
#[derive(Clone, Copy, Debug, PartialEq, Eq, Hash)]
pub enum Released {
    /// The position less 10 × [`CardSummary::radius`](crate::CardSummary::radius) isn't above the mark, and the yard is as it was.
    NotClear,
    /// It was accepted: no tram waited for the track, and it is free.
    Freed,
    /// It was accepted: this tram, the first of the track's queue, holds it.
    HandedTo(u16),
}

/// The status of a call as a result, as of the calls on a card. (Both calls lend exactly the numbers that 100 would miss.)
fn served(status: u32) -> Result<(), Refusal> {
    match status {
        0 => Ok(()),
        _ => Err(Refusal::from_number_at_a_yard(status).unwrap_or(Refusal::UnknownStatus(status))),
    }
}

/// The value of a request as its answer. Any other number is an error.
fn requested(value: u32) -> Result<Requested, Refusal> {
    match value {
        0 => Ok(Requested::Holds),
        1 => Ok(Requested::Waits),
        _ => Err(Refusal::UnknownYardAnswer(value)),
    }
}

/// The value of a release as its answer, beside who holds the track after it. Any other number is an error, and so is a track
/// that was handed on to nobody.
fn released(value: u32, holder: Option<u16>) -> Result<Released, Refusal> {
    match (value, holder) {
        (0, _) => Ok(Released::NotClear),
        (1, _) => Ok(Released::Freed),
        (2, Some(tram)) => Ok(Released::HandedTo(tram)),
        _ => Err(Refusal::UnknownYardAnswer(value)),
    }
}

/// The number of a card's track. A card that is served has the bytes for it.
fn track_of(card: &[u8]) -> Option<u32> {
    match *card {
        [_, _, high, low, ..] => Some(u32::from(u16::from_be_bytes([high, low]))),
        _ => None,
    }
}

// SAFETY, of both calls below: the pointers and counts are those of live arrays and slices, never null; what the library writes is
// borrowed mutably, so that it overlaps nothing else; the library keeps no pointer.

impl Yard {
    /// The yard in which every track is free and no tram waits.
    pub fn empty() -> Yard {
        Yard { numbers: [0; YARD_NUMBERS] }
    }

    /// The yard of these numbers, as [`Yard::numbers`] gives them. Any numbers are taken; a yard with a tram twice, as holder or
    /// waiting, with one that waits for a track that is free or above 15, or with more than [`MOST_WAITING`] that wait is refused
    /// by its calls.
    pub fn from_numbers(numbers: [u16; YARD_NUMBERS]) -> Yard {
        Yard { numbers }
    }

    /// The numbers of the yard: 16 flags, of tracks 0 to 15, of which 0 is free and any other number held; the 16 holders; how
    /// many trams wait; 32 trams that wait; and the 32 tracks that they wait for. The holder of a free track and entries from the
    /// count on mean nothing.
    pub fn numbers(&self) -> &[u16; YARD_NUMBERS] {
        &self.numbers
    }

    /// Requests a track for a tram, which holds it if it is free, and joins the end of its queue otherwise. A free track is given
    /// away however many trams wait for others. A refused request leaves every number of the yard as it was.
    ///
    /// Refused, in this order: [`Refusal::YardUnsound`]; [`Refusal::NoSuchTrack`]; [`Refusal::WrongTram`], the tram already holds
    /// or waits for any track; [`Refusal::WaitingFull`].
    pub fn request(&mut self, tram: u16, track: u32) -> Result<Requested, Refusal> {
        let mut values = [0u32; 1];
        let Yard { numbers } = self;
        served(unsafe {
            exported::dunnavish_request(numbers.as_mut_ptr(), numbers.len(), tram, track, values.as_mut_ptr(), values.len())
        })?;
        requested(values[0])
    }

    /// Releases the card's track, which a tram holds that sends a word. The word is read as by [`read_word`](crate::read_word).
    /// If the position less 10 × [`CardSummary::radius`](crate::CardSummary::radius) is above the mark, the release is accepted:
    /// the track is handed to the first tram of its queue, or freed if none waits for it. Otherwise it is [`Released::NotClear`].
    /// The comparison is exact: the difference may be negative, and any mark may be given. A refused release, and one that isn't
    /// clear, leave every number of the yard as it was.
    ///
    /// If the word is that of a true position, and each of its five chunks has at most as many damaged bits as the radius is, an
    /// accepted release means that the true position is above the mark; and where the true position less 20 × radius is above the
    /// mark, and no reason holds that is tested before the word's, the release is accepted.
    ///
    /// Refused, in this order: the card; [`Refusal::YardUnsound`]; [`Refusal::NoSuchTrack`], the card's track is above 15;
    /// [`Refusal::WrongTram`], the tram isn't the holder; and the word, as by [`read_word`](crate::read_word).
    pub fn release(&mut self, tram: u16, word: &[u8], mark: u32, card: &[u8]) -> Result<Released, Refusal> {
        let mut values = [0u32; 1];
        let Yard { numbers } = self;
        served(unsafe {
            exported::dunnavish_release(
                numbers.as_mut_ptr(),
                numbers.len(),
                tram,
                word.as_ptr(),
                word.len(),
                mark,
                card.as_ptr(),
                card.len(),
                values.as_mut_ptr(),
                values.len(),
            )
        })?;
        released(values[0], track_of(card).and_then(|track| self.holder(track)))
    }

    /// The tram that holds a track; none of a free one, nor of any above 15.
    pub fn holder(&self, track: u32) -> Option<u16> {
        let track = usize::try_from(track).ok().filter(|&track| track < TRACKS)?;
        (self.numbers[HELD + track] != 0).then_some(self.numbers[HOLDERS + track])
    }

    /// The trams that wait, each with the track that it waits for, in the order in which they came; of an unsound yard at most
    /// [`MOST_WAITING`].
    pub fn waiting(&self) -> impl Iterator<Item = (u16, u16)> + '_ {
        let (trams, tracks) = (&self.numbers[TRAMS..WAITED_FOR], &self.numbers[WAITED_FOR..]);
        trams.iter().copied().zip(tracks.iter().copied()).take(usize::from(self.numbers[COUNT]))
    }

    /// The trams that wait for a track, in the order in which they came.
    pub fn queue(&self, track: u32) -> impl Iterator<Item = u16> + '_ {
        self.waiting().filter(move |&(_, waited_for)| u32::from(waited_for) == track).map(|(tram, _)| tram)
    }
}

#[cfg(test)]
mod tests {
    use super::{released, requested, served, track_of, Refusal, Released, Requested};

    #[test]
    fn an_unknown_status_is_an_error() {
        assert_eq!(served(0), Ok(()));
        for refusal in Refusal::ALL.iter().chain(Refusal::OF_A_YARD) {
            assert_eq!(served(refusal.number().unwrap()), Err(*refusal));
        }
        for status in [23, 24, 25, 27, 99, 100, 101, u32::MAX] {
            assert_eq!(served(status), Err(Refusal::UnknownStatus(status)));
        }
    }

    #[test]
    fn an_unknown_answer_is_an_error() {
        assert_eq!(requested(0), Ok(Requested::Holds));
        assert_eq!(requested(1), Ok(Requested::Waits));
        for value in [2, 3, u32::MAX] {
            assert_eq!(requested(value), Err(Refusal::UnknownYardAnswer(value)));
            assert_eq!(Refusal::UnknownYardAnswer(value).number(), None);
        }
        for holder in [None, Some(0), Some(7), Some(u16::MAX)] {
            assert_eq!(released(0, holder), Ok(Released::NotClear));
            assert_eq!(released(1, holder), Ok(Released::Freed));
            assert_eq!(released(2, holder), holder.map(Released::HandedTo).ok_or(Refusal::UnknownYardAnswer(2)));
            for value in [3, u32::MAX] {
                assert_eq!(released(value, holder), Err(Refusal::UnknownYardAnswer(value)));
            }
        }
        let text = "the library answered 2 of a track, which this crate has no name for or the yard shows otherwise";
        assert_eq!(Refusal::UnknownYardAnswer(2).to_string(), text);
    }

    #[test]
    fn the_track_of_a_card() {
        assert_eq!(track_of(&[3, 1, 0, 14, 9]), Some(14));
        assert_eq!(track_of(&[3, 1, 1, 2]), Some(258));
        assert_eq!(track_of(&[3, 1, 0]), None);
    }
}
