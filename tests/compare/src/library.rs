//! The library's public calls, with answers in the second reader's form.
use second_reader::yard::{Released, Requested, Waiting, Yard};
use second_reader::yard_numbers::Numbers;
use second_reader::{Facts, Reading, Refusal, Strength, Stretch, Vote};
use std::array;

/// What the Rust crate has no number for (an unknown status or rule, or counts of other chunks than the rule names) is a refusal
/// that the second reader never answers.
fn number(refusal: dunnavish::Refusal) -> Refusal {
    refusal.number().unwrap_or(u32::MAX)
}

pub fn check_card(card: &[u8]) -> Result<Facts, Refusal> {
    let summary = dunnavish::check_card(card).map_err(number)?;
    Ok(Facts {
        n: summary.length,
        k: summary.rows,
        track: summary.track,
        distance: summary.distance,
        radius: summary.radius,
        bits: summary.word_bits,
        last: summary.last,
    })
}

pub fn write_word(card: &[u8], position: u32, word: &mut [u8]) -> Result<(), Refusal> {
    dunnavish::write_word(card, position, word).map_err(number)
}

pub fn read_word(card: &[u8], word: &[u8]) -> Result<Reading, Refusal> {
    dunnavish::read_word(card, word).map(reading).map_err(number)
}

pub fn read_levels(card: &[u8], levels: &[f32]) -> Result<(Reading, Strength), Refusal> {
    let (read, strength) = dunnavish::read_levels(card, levels).map_err(number)?;
    Ok((reading(read), Strength { sum: strength.sum, greatest: strength.greatest }))
}

fn reading(reading: dunnavish::Reading) -> Reading {
    Reading {
        position: reading.position,
        residual: reading.residual,
        rule: reading.rule.number(),
        chunk1_bits: reading.chunk1_bits,
        chunk2_bits: reading.chunk2_bits,
    }
}

pub fn block_start(card: &[u8], block: u32) -> Result<u32, Refusal> {
    dunnavish::block_start(card, block).map_err(number)
}

pub fn millimetres(card: &[u8], position: u32) -> Result<i32, Refusal> {
    dunnavish::millimetres(card, position).map_err(number)
}

pub fn make_card(track: u16, r: u32, m: u32) -> Result<[u8; 512], Refusal> {
    dunnavish::make_card(track, r, m).map_err(number)
}

pub fn vote_chunk(r: u32, m: u32, chunk: u64) -> Result<Vote, Refusal> {
    let vote = dunnavish::vote_chunk(r, m, chunk).map_err(number)?;
    Ok(Vote { number: vote.number, bits: vote.bits })
}

pub fn trams_crossing(card: &[u8], trams: &[Stretch], mark: u32) -> Result<Vec<bool>, Refusal> {
    dunnavish::trams_crossing(card, &lent(trams), mark).map_err(number)
}

pub fn trams_within(card: &[u8], trams: &[Stretch], first: u32, second: u32) -> Result<Vec<bool>, Refusal> {
    dunnavish::trams_within(card, &lent(trams), first, second).map_err(number)
}

pub fn nearest_tram(card: &[u8], trams: &[Stretch], mark: u32) -> Result<Option<usize>, Refusal> {
    dunnavish::nearest_tram(card, &lent(trams), mark).map_err(number)
}

fn lent(trams: &[Stretch]) -> Vec<dunnavish::Stretch> {
    trams.iter().map(|&Stretch { low, high }| dunnavish::Stretch { low, high }).collect()
}

/// The numbers of the empty yard.
pub fn empty_yard() -> Numbers {
    *dunnavish::Yard::empty().numbers()
}

/// A request of the yard of these numbers, which become those that it leaves.
pub fn request(numbers: &mut Numbers, tram: u16, track: u32) -> Result<Requested, Refusal> {
    let mut yard = dunnavish::Yard::from_numbers(*numbers);
    let answer = yard.request(tram, track).map_err(number);
    *numbers = *yard.numbers();
    Ok(match answer? {
        dunnavish::Requested::Holds => Requested::Holds,
        dunnavish::Requested::Waits => Requested::Waits,
    })
}

/// A release in the yard of these numbers, likewise.
pub fn release(numbers: &mut Numbers, tram: u16, word: &[u8], mark: u32, card: &[u8]) -> Result<Released, Refusal> {
    let mut yard = dunnavish::Yard::from_numbers(*numbers);
    let answer = yard.release(tram, word, mark, card).map_err(number);
    *numbers = *yard.numbers();
    Ok(match answer? {
        dunnavish::Released::NotClear => Released::NotClear,
        dunnavish::Released::Freed => Released::Freed,
        dunnavish::Released::HandedTo(tram) => Released::HandedTo(tram),
    })
}

/// Who holds the tracks of the yard of these numbers and who waits, and each track's queue.
pub fn yard_told(numbers: &Numbers) -> (Yard, Vec<Vec<u16>>) {
    let yard = dunnavish::Yard::from_numbers(*numbers);
    let waiting = yard.waiting().map(|(tram, track)| Waiting { tram, track }).collect();
    let told = Yard { holders: array::from_fn(|track| yard.holder(track as u32)), waiting };
    (told, (0..16).map(|track| yard.queue(track).collect()).collect())
}
