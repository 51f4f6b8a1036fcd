//! Yards as the C interface has them, sound and refused by 26, and the trams and tracks that are requested of them.
use super::{draw, random};
use second_reader::yard_numbers::{Numbers, COUNT, FLAGS, HOLDERS, TRAMS, WAITED_FOR};

/// How many trams wait in the sound yards.
const COUNTS: [usize; 7] = [0, 1, 2, 3, 30, 31, 32];

/// How many ways there are in which the waiting trams' tracks follow each other.
const ORDERS: usize = 8;

/// How many yards there are of each count and order, with other flags, trams, and numbers that mean nothing.
const VARIANTS: u64 = 4;

/// The tracks that are requested: the first and the last, some between, and such as have no slot, of which a reader of fewer bits
/// could take some for others.
pub const TRACKS: [u32; 14] = [0, 1, 7, 14, 15, 16, 17, 255, 256, 65_535, 65_536, 65_536 + 15, 1 << 31, u32::MAX];

/// A tram that is in no yard.
pub const NEW: u16 = 9;

/// The tram that holds a track, the one that waits at a place, and those that the slots of free tracks and the places past the
/// count have where these are nowhere else.
pub fn holder(track: usize) -> u16 {
    1000 + track as u16
}

pub fn waiting(place: usize) -> u16 {
    2000 + place as u16
}

fn not_holding(track: usize) -> u16 {
    3000 + track as u16
}

fn not_waiting(place: usize) -> u16 {
    4000 + place as u16
}

/// The yard in which some tracks are held and trams wait for some, in this order.
pub fn of(is_held: impl Fn(usize) -> bool, waited_for: &[u16]) -> Numbers {
    let mut numbers = [0; 97];
    for track in 0..16 {
        let held = is_held(track);
        numbers[FLAGS + track] = held.into();
        numbers[HOLDERS + track] = if held { holder(track) } else { not_holding(track) };
    }
    numbers[COUNT] = waited_for.len() as u16;
    for place in 0..32 {
        let entry = waited_for.get(place).map_or((not_waiting(place), 9), |&track| (waiting(place), track));
        (numbers[TRAMS + place], numbers[WAITED_FOR + place]) = entry;
    }
    numbers
}

/// The yard in which so many tracks, from 0 on, are held, and so many trams wait for them by turns.
pub fn by_turns(tracks: u16, count: u16) -> Numbers {
    let waited_for: Vec<u16> = (0..count).map(|place| place % tracks).collect();
    of(|track| track < tracks.into(), &waited_for)
}

/// Sound yards: of each count and order, with all tracks held and with no more than tracks 0, 7 and 15.
pub fn sound() -> Vec<Numbers> {
    let mut yards = Vec::new();
    for (count, kind) in COUNTS.into_iter().flat_map(|count| (0..ORDERS).map(move |kind| (count, kind))) {
        let waited_for: Vec<u16> = (0..count).map(|place| order(kind, place, count)).collect();
        for all in [true, false] {
            let few = |track| track == 0 || track == 7 || track == 15;
            let yard = of(|track| all || few(track) || kind == 3, &waited_for);
            let seed = random(yards.len() as u64, 7);
            yards.extend((0..VARIANTS).map(|which| variant(yard, random(seed, which))));
        }
    }
    let none_held = of(|_| false, &[]);
    yards.extend((0..VARIANTS).map(|which| variant(none_held, which)));
    yards.push([0; 97]);
    yards
}

/// The track that the tram at a place of so many waits for: all for the first or the last track; for these by turns; for all
/// tracks by turns; the first half for 15 and the others for 0; the last or the first one for 0 and the others for 15; and for
/// three tracks, mixed.
fn order(kind: usize, place: usize, count: usize) -> u16 {
    match kind {
        0 => 0,
        1 => 15,
        2 => [0, 15][place % 2],
        3 => place as u16 % 16,
        4 => [15, 0][usize::from(2 * place >= count)],
        5 => [15, 0][usize::from(place + 1 == count)],
        6 => [0, 15][usize::from(place != 0)],
        7 => [15, 7, 0, 15, 0, 7, 7][place % 7],
        _ => unreachable!("there are {ORDERS} orders"),
    }
}

/// The same yard in other numbers: with other flags of held tracks, with trams 0 and 65,535 in it, and with other numbers that
/// mean nothing.
fn variant(mut numbers: Numbers, seed: u64) -> Numbers {
    let flags =
        [[1; 16], [2; 16], [256; 16], [65_535; 16], [1, 2, 3, 4, 255, 256, 257, 32_767, 32_768, 65_280, 65_535, 1, 9, 5, 7, 128]];
    let flags = flags[draw(seed, 0, flags.len())];
    for track in 0..16 {
        numbers[FLAGS + track] *= flags[track];
    }
    let count: usize = numbers[COUNT].into();
    meaning_nothing(&mut numbers, count, draw(seed, 1, 4));
    let (lowest, highest) = match draw(seed, 2, 3) {
        0 => (holder(0), holder(15)),
        1 => (waiting(0), waiting(count.saturating_sub(1))),
        _ => (holder(15), waiting(0)),
    };
    for tram in &mut numbers[HOLDERS..COUNT] {
        *tram = renamed(*tram, lowest, highest);
    }
    for tram in &mut numbers[TRAMS..WAITED_FOR] {
        *tram = renamed(*tram, lowest, highest);
    }
    numbers
}

/// A tram's other number.
fn renamed(tram: u16, lowest: u16, highest: u16) -> u16 {
    match tram {
        _ if tram == highest => 65_535,
        _ if tram == lowest => 0,
        _ => tram,
    }
}

/// Puts other numbers where they mean nothing: the trams that are there anyway; zeros; trams that stand elsewhere, past the count
/// for tracks that are free or have no slot; and the highest numbers.
fn meaning_nothing(numbers: &mut Numbers, count: usize, kind: usize) {
    let place_of = |which: usize| if count == 0 { holder(7) } else { waiting(which % count) };
    for track in (0..16).filter(|track| numbers[FLAGS + track] == 0).collect::<Vec<usize>>() {
        numbers[HOLDERS + track] = [not_holding(track), 0, [holder(0), place_of(track)][track % 2], 65_535][kind];
    }
    for place in count..32 {
        let (tram, track) =
            [(not_waiting(place), 9), (0, 0), ([holder(0), place_of(place)][place % 2], 16), (65_535, 65_535)][kind];
        (numbers[TRAMS + place], numbers[WAITED_FOR + place]) = (tram, track);
    }
}

/// Yards with a count of waiting trams at its borders, in which the places have as many trams as they can.
pub fn with_counts() -> Vec<Numbers> {
    let counts = [0, 1, 31, 32, 33, 34, 63, 64, 97, 255, 256, 256 + 31, 288, 32_767, 32_768, 65_504, 65_535];
    let with_count = |mut numbers: Numbers, count| {
        numbers[COUNT] = count;
        numbers
    };
    counts
        .into_iter()
        .flat_map(|count| [by_turns(16, 32), by_turns(15, 32), [0; 97]].map(|yard| with_count(yard, count)))
        .collect()
}

/// Yards with a tram twice: as two holders, as a holder and a waiting tram, as two waiting trams. The latter two also with the
/// second one at the last place of the count, and past it, which is sound.
pub fn with_a_tram_twice() -> Vec<Numbers> {
    let mut yards = Vec::new();
    for (track, other) in (0..16).flat_map(|other| (0..other).map(move |track| (track, other))) {
        let mut yard = by_turns(16, 32 * (other as u16 % 2));
        yard[HOLDERS + other] = holder(track);
        yards.push(yard);
        // The second slot is free, which is sound: it only names the tram.
        let mut yard = by_turns(other as u16, 32 * (track as u16 % 2));
        yard[HOLDERS + other] = holder(track);
        yards.push(yard);
    }
    for (place, tram) in
        (0..32).flat_map(|place| (0..16).map(holder).chain((0..place).map(waiting)).map(move |tram| (place, tram)))
    {
        for count in counts_about(place, tram) {
            let mut yard = by_turns(16, count);
            yard[TRAMS + place] = tram;
            yards.push(yard);
        }
    }
    yards
}

/// Counts of waiting trams for a fault at a place: all of them, and by turns the fewest with it and the most without it.
fn counts_about(place: usize, which: u16) -> [u16; 2] {
    [32, place as u16 + which % 2]
}

/// Yards with a tram that waits for a free track, one below 16 or one above 15, at each place; also at the last place of the
/// count, and past it, which is sound.
pub fn waiting_for_free() -> Vec<Numbers> {
    let mut yards = Vec::new();
    for (place, track) in (0..32).flat_map(|place| [15, 16, 17, 255, 256, 271, 32_768, 65_535].map(|track| (place, track))) {
        for count in [32, place as u16, place as u16 + 1] {
            let mut yard = by_turns(15, count);
            yard[WAITED_FOR + place] = track;
            yards.push(yard);
        }
    }
    yards
}

/// The trams that call: holders, waiting trams, those of slots and places that mean nothing or are at a border, and others.
pub fn trams(numbers: &Numbers) -> Vec<u16> {
    let past = usize::from(numbers[COUNT]).min(31);
    let places = [
        HOLDERS,
        HOLDERS + 1,
        HOLDERS + 7,
        HOLDERS + 15,
        TRAMS,
        TRAMS + 1,
        TRAMS + past.saturating_sub(1),
        TRAMS + past,
        TRAMS + 31,
    ];
    let mut trams: Vec<u16> = places.into_iter().map(|place| numbers[place]).chain([0, 65_535, NEW]).collect();
    trams.sort_unstable();
    trams.dedup();
    trams
}
