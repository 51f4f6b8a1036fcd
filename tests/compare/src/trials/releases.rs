//! What releases hand in: cards, words received at a position or made up, and marks.
use super::cards::{of_shape, sealed};
use super::damage::damaged_within_radius;
use super::divided;
use super::faults::{faulty, pairs, Fault};
use super::shapes::Shape;
use super::words;
use crate::positions::follow;
use second_reader::code::Code;
use second_reader::reading::read_from;
use second_reader::track::Track;
use second_reader::walk::Walk;
use second_reader::word::{bits_of, packed, Word};
use second_reader::{Reading, Refusal};

/// A card for some track, sound or refused, and what the second reader takes it for.
pub struct Laid {
    pub bytes: Vec<u8>,
    pub track: Result<Track, Refusal>,
}

impl Laid {
    fn of(bytes: Vec<u8>) -> Laid {
        let track = Track::of_card(&bytes);
        Laid { bytes, track }
    }

    /// The card of a shape.
    pub fn sound(shape: &Shape, track: u16) -> Laid {
        Laid::of(sealed(of_shape(shape, track)).to_vec())
    }

    /// The card of a shape with a fault.
    pub fn with_fault(shape: &Shape, track: u16, fault: Fault) -> Laid {
        Laid::of(faulty(of_shape(shape, track), fault, Fault::None))
    }

    /// A walk at the start of the card's track, or the card's refusal.
    pub fn walk(&self) -> Result<Walk<'_>, Refusal> {
        self.track.as_ref().map(Walk::new).map_err(|&refusal| refusal)
    }

    pub fn sound_track(&self) -> &Track {
        self.track.as_ref().expect("the card is sound")
    }
}

/// Every fault that a card can have alone.
pub fn faults() -> Vec<Fault> {
    pairs().filter(|(_, other)| matches!(other, Fault::None)).map(|(fault, _)| fault).collect()
}

/// Cards of a shape for some track, one for each number with which a card is refused.
pub fn refused_cards(shape: &Shape, track: u16) -> Vec<Laid> {
    let mut cards: Vec<Laid> = faults().into_iter().map(|fault| Laid::with_fault(shape, track, fault)).collect();
    cards.retain(|card| card.track.is_err());
    let number = |card: &Laid| card.track.as_ref().err().copied();
    cards.sort_by_key(number);
    cards.dedup_by_key(|card| number(card));
    cards
}

/// A word that is received, the position that it was sent from if no chunk of it has more bits damaged than the radius, and what
/// the second reader reads.
pub struct Telegram {
    pub bytes: Vec<u8>,
    pub sent_from: Option<u32>,
    pub read: Result<Reading, Refusal>,
}

/// The words of some positions of a track, in rising order, undamaged and damaged in many ways, and words made up. Those of each
/// position come with a walk that stands behind it.
pub fn telegrams<'a>(track: &'a Track, positions: &[u32], id: u64) -> Vec<(Walk<'a>, Vec<Telegram>)> {
    let (mut here, mut behind) = (Walk::new(track), Walk::new(track));
    let mut all = Vec::new();
    for &position in positions {
        here.go_to(position);
        follow(&mut behind, position);
        let words = words::at(&behind, &here, id).map(|word| Telegram {
            sent_from: word.damaged_within_radius.map(|_| position),
            read: read_from(&behind, &word.bytes),
            bytes: word.bytes,
        });
        all.push((behind.clone(), words.collect()));
    }
    all
}

/// Every word of a small card that is damaged within the radius in every chunk, of one in so many positions.
pub fn every_telegram(track: &Track, one_in: usize) -> Vec<Telegram> {
    let (code, start) = (&track.card.code, Walk::new(track));
    let mut all = Vec::new();
    for position in (0..=track.last()).step_by(one_in) {
        let mut here = start.clone();
        here.go_to(position);
        let within = divided::every(&here).into_iter().filter(|word| damaged_within_radius(code, &here.word, word).is_some());
        all.extend(within.map(|word| {
            let bytes = packed(&word);
            Telegram { sent_from: Some(position), read: read_from(&start, &bytes), bytes }
        }));
    }
    all
}

/// Positions of a track at which the position less 10t or 20t is about 0, in the middle, and at the ends, in rising order.
pub fn border_positions(track: &Track) -> Vec<u32> {
    let (last, less) = (track.last(), 10 * track.card.code.radius() as u32);
    let about_less = [less.saturating_sub(1), less, less + 1, 2 * less, 2 * less + 1, 2 * less + 2];
    let mut positions: Vec<u32> = about_less.into_iter().chain([0, 1, last / 2, last - 1, last]).collect();
    positions.retain(|&position| position <= last);
    positions.sort_unstable();
    positions.dedup();
    positions
}

/// Marks for a word, of a card with this radius: about the position less 10t, at the position, about the position that it was
/// sent from and that less 20t, and at the ends of all marks, where a mark plus 10t comes round at 2^32. Those below 0 are left
/// out.
pub fn marks(telegram: &Telegram, radius: usize) -> Vec<u32> {
    let less = 10 * radius as i64;
    let read = telegram.read.map(|reading| i64::from(reading.position)).ok();
    let of_read = read.into_iter().flat_map(|read| [read - less - 1, read - less, read - less + 1, read]);
    let of_sent = telegram.sent_from.into_iter().flat_map(|sent| {
        let sent = i64::from(sent);
        [sent - 1, sent, sent - 2 * less - 1, sent - 2 * less]
    });
    let round = (1 << 32) - less;
    let ends = [0, (1 << 31) - 1, 1 << 31, round - 1, round, u32::MAX.into()];
    let mut marks: Vec<u32> = of_read.chain(of_sent).chain(ends).filter_map(|mark| mark.try_into().ok()).collect();
    marks.sort_unstable();
    marks.dedup();
    marks
}

/// Words of a code that are refused, one for each number. The code must have a chunk that is not read.
pub fn refused_words(code: &Code) -> Vec<Vec<u8>> {
    let (zero, one) = (false, true);
    let (first, second) = (code.codeword(0), code.codeword(1));
    let chunk_of = |number: u64| -> Word { bits_of(number, code.n).collect() };
    let unread = (0..1 << code.n).find(|&number| code.read_chunk(&chunk_of(number)).is_none()).expect("some chunk is not read");
    let of = |separators, chunks| packed(&code.word_of_chunks(separators, chunks));
    let mut with_spare_bit = of([zero; 3], [first; 2]);
    *with_spare_bit.last_mut().expect("a word has bytes") |= 0x80;
    vec![
        vec![0; code.word_bytes() - 1],
        with_spare_bit,
        of([zero, one, zero], [first; 2]),
        of([zero; 3], [unread, first]),
        of([zero; 3], [first, second]),
        of([zero, zero, one], [first; 2]),
        of([zero; 3], [second; 2]),
    ]
}
