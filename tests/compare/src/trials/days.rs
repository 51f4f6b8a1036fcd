//! Long days of a depot: the trams and tracks of a day, and each call of it, drawn so that queues grow long, the waiting list
//! fills up, and tracks are handed on and freed often.
use super::releases::{faults, marks, telegrams, Laid, Telegram};
use super::shapes::Shape;
use super::{draw, random};
use second_reader::track::Track;
use second_reader::yard_numbers::{Numbers, FLAGS, HOLDERS, TRAMS};

/// Of each day: among how many tracks most calls are drawn, and among how many trams. With few trams tracks are freed often, with
/// many the waiting list is full for long.
pub const DAYS: [(usize, usize); 18] = [
    (1, 3),
    (1, 10),
    (1, 40),
    (1, 64),
    (2, 8),
    (2, 50),
    (3, 64),
    (4, 12),
    (4, 48),
    (4, 80),
    (6, 30),
    (8, 20),
    (8, 64),
    (16, 24),
    (16, 40),
    (16, 60),
    (16, 80),
    (16, 300),
];

/// So many calls are made on a day.
pub const CALLS: u64 = 4_000;

/// Cards are laid for tracks 0 to 17.
const TRACKS: usize = 18;

/// How many positions of a track words are received from.
const POSITIONS: u64 = 40;

/// A code that is laid: its cards for every track, and the words that are received on them.
pub struct LaidCode<'a> {
    shape: &'a Shape,
    pub cards: Vec<Laid>,
    within: Vec<Telegram>,
    beyond: Vec<Telegram>,
}

impl<'a> LaidCode<'a> {
    pub fn new(shape: &'a Shape, id: u64) -> LaidCode<'a> {
        let cards: Vec<Laid> = (0..TRACKS).map(|track| Laid::sound(shape, track as u16)).collect();
        let track = cards[0].sound_track();
        let all = telegrams(track, &positions(track, id), id).into_iter().flat_map(|(_, telegrams)| telegrams);
        let (within, mut beyond): (Vec<Telegram>, Vec<Telegram>) = all.partition(|telegram| telegram.sent_from.is_some());
        let bytes = track.card.code.word_bytes();
        let lengths = [0, bytes - 1, bytes + 1];
        beyond.extend(lengths.map(|length| Telegram { bytes: vec![0; length], sent_from: None, read: Err(6) }));
        LaidCode { shape, cards, within, beyond }
    }

    fn radius(&self) -> usize {
        self.cards[0].sound_track().card.code.radius()
    }
}

/// Positions of a track in rising order, every other one above 10t, so that it is clear of a low mark.
fn positions(track: &Track, id: u64) -> Vec<u32> {
    let (last, less) = (track.last() as usize, 10 * track.card.code.radius());
    let any = |which| if which % 2 == 0 { draw(id, which, last + 1) } else { last - draw(id, which, last - less) };
    let mut positions: Vec<u32> = (0..POSITIONS).map(|which| any(which) as u32).chain([0, track.last()]).collect();
    positions.sort_unstable();
    positions.dedup();
    positions
}

/// A call of a day.
pub enum Call<'a> {
    Request { tram: u16, track: u32 },
    Release { tram: u16, track: u32, card: Card<'a>, telegram: &'a Telegram, mark: u32 },
}

/// The card of a release: the one that is laid, or one with a fault, which is refused or has another code or offset.
pub enum Card<'a> {
    Sound(&'a Laid),
    Faulty(Laid),
}

impl Card<'_> {
    pub fn laid(&self) -> &Laid {
        match self {
            Card::Sound(laid) => laid,
            Card::Faulty(laid) => laid,
        }
    }
}

/// A day: its seed, its tracks, its trams, and the code that is laid on each track.
pub struct Day<'a> {
    seed: u64,
    busy: Vec<usize>,
    trams: Vec<u16>,
    codes: Vec<&'a LaidCode<'a>>,
}

impl<'a> Day<'a> {
    /// A day with so many busy tracks and so many trams, of which two are 0 and 65,535.
    pub fn new(codes: &'a [LaidCode<'a>], (busy, trams): (usize, usize), seed: u64) -> Day<'a> {
        let first = draw(seed, 0, 16);
        let named = (2..trams as u64).map(|which| (random(random(seed, which), 1) >> 16) as u16);
        Day {
            seed,
            busy: (0..busy).map(|which| (first + 5 * which) % 16).collect(),
            trams: [0, 65_535].into_iter().chain(named).collect(),
            codes: (0..TRACKS as u64).map(|track| &codes[draw(seed, 1_000_000 + track, codes.len())]).collect(),
        }
    }

    /// Call `number` of the day, in the yard of these numbers. In turn most calls are requests, less than half are, and few are,
    /// the longer the more trams there are.
    pub fn call(&self, number: u64, numbers: &Numbers) -> Call<'a> {
        let seed = random(self.seed, 2_000_000 + number);
        let phase = (3 * self.trams.len()).clamp(40, 200);
        let requests_in_ten = [7, 4, 2][number as usize / phase % 3];
        if draw(seed, 0, 10) < requests_in_ten {
            Call::Request { tram: self.tram(seed), track: self.requested(seed) }
        } else {
            self.release(seed, numbers)
        }
    }

    fn tram(&self, seed: u64) -> u16 {
        self.trams[draw(seed, 1, self.trams.len())]
    }

    /// The track that is requested: a busy one, or any; rarely one of far above 15.
    fn requested(&self, seed: u64) -> u32 {
        match draw(seed, 2, 64) {
            0 => [255, 65_535, 65_536, u32::MAX][draw(seed, 3, 4)],
            1..=6 => draw(seed, 3, TRACKS) as u32,
            _ => self.busy[draw(seed, 3, self.busy.len())] as u32,
        }
    }

    /// The track that is released: a busy one, held if one is; rarely any.
    fn released(&self, seed: u64, numbers: &Numbers) -> usize {
        let first = draw(seed, 3, self.busy.len());
        let in_turn = || self.busy.iter().cycle().skip(first).take(self.busy.len());
        match draw(seed, 2, 12) {
            0 => draw(seed, 3, TRACKS),
            _ => *in_turn().find(|&&track| numbers[FLAGS + track] != 0).unwrap_or(&self.busy[first]),
        }
    }

    /// A release, by the track's holder more often than not, else by a waiting tram or any.
    fn release(&self, seed: u64, numbers: &Numbers) -> Call<'a> {
        let track = self.released(seed, numbers);
        let tram = match draw(seed, 4, 16) {
            0 => self.tram(seed),
            1 => numbers[TRAMS + draw(seed, 5, 4)],
            _ if track < 16 && numbers[FLAGS + track] != 0 => numbers[HOLDERS + track],
            _ => self.tram(seed),
        };
        let code = self.codes[track];
        let words = if draw(seed, 6, 5) == 0 { &code.beyond } else { &code.within };
        let telegram = &words[draw(seed, 7, words.len())];
        let marks = marks(telegram, code.radius());
        let mark = if draw(seed, 8, 2) == 0 { 0 } else { marks[draw(seed, 9, marks.len())] };
        Call::Release { tram, track: track as u32, card: card(code, track, seed), telegram, mark }
    }
}

/// The card of a track, one in sixteen with a fault.
fn card<'a>(code: &'a LaidCode, track: usize, seed: u64) -> Card<'a> {
    let faults = faults();
    match draw(seed, 10, 16) {
        0 => Card::Faulty(Laid::with_fault(code.shape, track as u16, faults[draw(seed, 11, faults.len())])),
        _ => Card::Sound(&code.cards[track]),
    }
}
