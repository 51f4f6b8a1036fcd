//! P9's yard in straightforward Rust, written apart from the library: the baseline of the benchmark, and what the tests of the
//! Rust crate hold the library against. A yard is 97 numbers: 16 flags of held tracks, their 16 holders, how many trams wait, 32
//! trams that wait, and the 32 tracks that they wait for.
use crate::baseline::{read, Order};

pub type Yard = [u16; 97];

// Where the parts of a yard begin.
const HELD: usize = 0;
const HOLDERS: usize = 16;
const COUNT: usize = 32;
const TRAMS: usize = 33;
const WAITED_FOR: usize = 65;

/// What a request is answered.
#[derive(Clone, Copy, Debug, PartialEq, Eq)]
pub enum Requested {
    Holds,
    Waits,
}

/// What a release is answered.
#[derive(Clone, Copy, Debug, PartialEq, Eq)]
pub enum Released {
    NotClear,
    Freed,
    HandedTo(u16),
}

fn is_held(yard: &Yard, track: usize) -> bool {
    yard[HELD + track] != 0
}

/// The trams of a yard with at most 32 waiting, the holders first, and how many they are.
fn trams(yard: &Yard) -> ([u16; 48], usize) {
    let (mut trams, mut count) = ([0; 48], 0);
    for track in 0..16 {
        if is_held(yard, track) {
            trams[count] = yard[HOLDERS + track];
            count += 1;
        }
    }
    let waiting = usize::from(yard[COUNT]);
    trams[count..count + waiting].copy_from_slice(&yard[TRAMS..TRAMS + waiting]);
    (trams, count + waiting)
}

/// Whether a yard has more than 32 waiting, a tram that waits for a track that is free or isn't there, or a tram twice.
fn is_unsound(yard: &Yard) -> bool {
    let waiting = usize::from(yard[COUNT]);
    if waiting > 32 {
        return true;
    }
    if yard[WAITED_FOR..WAITED_FOR + waiting].iter().any(|&track| track > 15 || !is_held(yard, usize::from(track))) {
        return true;
    }
    let (trams, count) = trams(yard);
    (1..count).any(|place| trams[..place].contains(&trams[place]))
}

/// Makes each flag 0 or 1.
fn settle_flags(yard: &mut Yard) {
    for flag in &mut yard[HELD..HELD + 16] {
        *flag = u16::from(*flag != 0);
    }
}

/// A tram requests a track.
pub fn request(yard: &mut Yard, tram: u16, track: u32) -> Result<Requested, u32> {
    if is_unsound(yard) {
        return Err(26);
    }
    let Some(track) = usize::try_from(track).ok().filter(|&track| track < 16) else {
        return Err(20);
    };
    let (trams, met) = trams(yard);
    if trams[..met].contains(&tram) {
        return Err(21);
    }
    let waiting = usize::from(yard[COUNT]);
    if !is_held(yard, track) {
        settle_flags(yard);
        (yard[HELD + track], yard[HOLDERS + track]) = (1, tram);
        Ok(Requested::Holds)
    } else if waiting == 32 {
        Err(22)
    } else {
        settle_flags(yard);
        (yard[TRAMS + waiting], yard[WAITED_FOR + waiting]) = (tram, track as u16);
        yard[COUNT] += 1;
        Ok(Requested::Waits)
    }
}

/// A tram releases the track of a card that was decoded, by a word.
pub fn release(order: &impl Order, yard: &mut Yard, tram: u16, word: &[u8], mark: u32) -> Result<Released, u32> {
    if is_unsound(yard) {
        return Err(26);
    }
    let track = order.code().track as usize;
    if track > 15 {
        return Err(20);
    }
    if !is_held(yard, track) || yard[HOLDERS + track] != tram {
        return Err(21);
    }
    let position = u64::from(read(order, word)?.position);
    if position <= u64::from(mark) + 10 * order.code().radius as u64 {
        return Ok(Released::NotClear);
    }
    settle_flags(yard);
    Ok(hand_on(yard, track))
}

/// Hands a track to the first tram that waits for it, or frees it.
fn hand_on(yard: &mut Yard, track: usize) -> Released {
    let waiting = usize::from(yard[COUNT]);
    let queue = &yard[WAITED_FOR..WAITED_FOR + waiting];
    let Some(place) = queue.iter().position(|&waited_for| usize::from(waited_for) == track) else {
        (yard[HELD + track], yard[HOLDERS + track]) = (0, 0);
        return Released::Freed;
    };
    let tram = yard[TRAMS + place];
    yard[HOLDERS + track] = tram;
    for list in [TRAMS, WAITED_FOR] {
        yard.copy_within(list + place + 1..list + 32, list + place);
        yard[list + 31] = 0;
    }
    yard[COUNT] -= 1;
    Released::HandedTo(tram)
}
