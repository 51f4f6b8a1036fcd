//! The calls on a card that are measured, by the library and by the baselines, on the same words, positions and trams.
use crate::baseline::{self, decode, Kept, Order, Strength, Stretch};
use crate::inputs;
use crate::nested::{EachCall, KeptNested};
use std::hint::black_box;
use std::time::Instant;

/// Each call with its ways, the library's first. A baseline that keeps its card has nothing to check. `levels` is a read of the
/// words of `read` as levels of 1 and -1, so that both answer alike, and `levels-erased` one of the same words with the bits erased
/// that are damaged there.
pub const CALLS: [(&str, &[&str]); 7] = [
    ("check", &["library", "each-call"]),
    ("read", &["library", "kept", "kept-nested", "each-call"]),
    ("levels", &["library", "kept", "kept-nested", "each-call"]),
    ("levels-erased", &["library", "kept", "kept-nested", "each-call"]),
    ("write", &["library", "kept", "each-call"]),
    ("start", &["library", "kept", "each-call"]),
    ("millimetres", &["library", "kept", "each-call"]),
];

/// Those on a list of 64 trams, with the positions for marks. They are measured on two cards alone: it is by the card's check that their
/// cost depends on the code.
pub const TRAM_CALLS: [(&str, &[&str]); 3] = [
    ("crossing", &["library", "kept", "each-call"]),
    ("within", &["library", "kept", "each-call"]),
    ("nearest", &["library", "kept", "each-call"]),
];

/// Calls of several kinds, each of which can be made in several ways.
pub trait Calls {
    /// How many can be made.
    fn count(&self) -> usize;

    /// The first `count` of one kind by one way; the answers mixed into one number.
    fn all(&self, call: &str, way: &str, count: usize) -> u64;

    /// Seconds a call: the best of several batches, so that what else the machine does counts little.
    fn seconds(&self, call: &str, way: &str) -> f64 {
        let count = self.count();
        let mut best = f64::INFINITY;
        let begun = Instant::now();
        let mut batches = 0;
        while batches < 5 || begun.elapsed().as_secs_f64() < 0.6 {
            let start = Instant::now();
            self.all(call, way, count);
            best = best.min(start.elapsed().as_secs_f64() / count as f64);
            batches += 1;
        }
        best
    }
}

/// A card, positions and words, the words as levels, trams, and the card as the baselines keep it.
pub struct Work {
    card: Vec<u8>,
    positions: Vec<u32>,
    words: Vec<Vec<u8>>,
    levels: Vec<Vec<f32>>,
    levels_erased: Vec<Vec<f32>>,
    trams: Vec<dunnavish::Stretch>,
    /// The same in the baselines' form.
    plain_trams: Vec<Stretch>,
    kept: Kept,
    nested: KeptNested,
}

impl Work {
    pub fn new(name: &str, count: usize) -> Work {
        let card = inputs::card(name);
        let (positions, words) = inputs::positions_and_words(&card, count);
        let code = decode(&card).unwrap();
        let (kept, nested) = (Kept::new(code), KeptNested(Kept::new(code)));
        let levels = words.iter().map(|word| inputs::levels(&code, word)).collect();
        let erased = |(&position, word): (&u32, &Vec<u8>)| inputs::levels_erased(&kept, position, word);
        let levels_erased = positions.iter().zip(&words).map(erased).collect();
        let plain_trams = inputs::trams(&kept);
        let trams = plain_trams.iter().map(|&Stretch { low, high }| dunnavish::Stretch { low, high }).collect();
        Work { card, positions, words, levels, levels_erased, trams, plain_trams, kept, nested }
    }

    fn check_card(&self, way: &str) -> u64 {
        let card = black_box(&self.card[..]);
        let values = match way {
            "library" => dunnavish::check_card(card)
                .map(|card| [card.length, card.rows, card.track, card.distance, card.radius, card.word_bits, card.last])
                .map_err(number),
            "kept" => Ok(values(&self.kept)),
            _ => decode(card).map(|code| values(&EachCall(code))),
        };
        values.map_or_else(refused, |values| values.into_iter().fold(0, |sum, value| sum * 31 + u64::from(value)))
    }

    fn read(&self, way: &str, word: &[u8]) -> u64 {
        one_number(match way {
            "library" => dunnavish::read_word(&self.card, word).map(as_read).map_err(number),
            "kept" => baseline::read(&self.kept, word),
            "kept-nested" => baseline::read(&self.nested, word),
            _ => decode(&self.card).and_then(|code| baseline::read(&EachCall(code), word)),
        })
    }

    fn read_levels(&self, way: &str, levels: &[f32]) -> u64 {
        let answer = match way {
            "library" => dunnavish::read_levels(&self.card, levels).map(as_read_levels).map_err(number),
            "kept" => baseline::read_levels(&self.kept, levels),
            "kept-nested" => baseline::read_levels(&self.nested, levels),
            _ => decode(&self.card).and_then(|code| baseline::read_levels(&EachCall(code), levels)),
        };
        let strength =
            answer.map_or(0, |(_, Strength { sum, greatest })| u64::from(sum.to_bits()) << 32 | u64::from(greatest.to_bits()));
        one_number(answer.map(|(read, _)| read)) ^ strength.rotate_left(13)
    }

    fn write(&self, way: &str, position: u32, word: &mut [u8]) -> u64 {
        let answer = match way {
            "library" => dunnavish::write_word(&self.card, position, word).map_err(number),
            "kept" => baseline::write(&self.kept, position, word),
            _ => decode(&self.card).and_then(|code| baseline::write(&EachCall(code), position, word)),
        };
        answer.map_or_else(u64::from, |()| 0)
    }

    fn block_start(&self, way: &str, block: u32) -> u64 {
        let card = black_box(&self.card[..]);
        let start = match way {
            "library" => dunnavish::block_start(card, block).map_err(number),
            "kept" => baseline::block_start(&self.kept, block),
            _ => decode(card).and_then(|code| baseline::block_start(&EachCall(code), block)),
        };
        start.map_or_else(refused, u64::from)
    }

    fn millimetres(&self, way: &str, position: u32) -> u64 {
        let card = black_box(&self.card[..]);
        let distance = match way {
            "library" => dunnavish::millimetres(card, position).map_err(number),
            "kept" => baseline::millimetres(&self.kept, position),
            _ => decode(card).and_then(|code| baseline::millimetres(&EachCall(code), position)),
        };
        distance.map_or_else(refused, |distance| u64::from(distance as u32))
    }

    fn trams_crossing(&self, way: &str, mark: u32) -> u64 {
        let (card, trams) = black_box((&self.card[..], &self.plain_trams[..]));
        yes_or_no(match way {
            "library" => dunnavish::trams_crossing(card, black_box(&self.trams), mark).map_err(number),
            "kept" => baseline::trams_crossing(&self.kept, trams, mark),
            _ => decode(card).and_then(|code| baseline::trams_crossing(&EachCall(code), trams, mark)),
        })
    }

    fn trams_within(&self, way: &str, [first, second]: [u32; 2]) -> u64 {
        let (card, trams) = black_box((&self.card[..], &self.plain_trams[..]));
        yes_or_no(match way {
            "library" => dunnavish::trams_within(card, black_box(&self.trams), first, second).map_err(number),
            "kept" => baseline::trams_within(&self.kept, trams, first, second),
            _ => decode(card).and_then(|code| baseline::trams_within(&EachCall(code), trams, first, second)),
        })
    }

    fn nearest_tram(&self, way: &str, mark: u32) -> u64 {
        let (card, trams) = black_box((&self.card[..], &self.plain_trams[..]));
        let place = match way {
            "library" => dunnavish::nearest_tram(card, black_box(&self.trams), mark).map_err(number),
            "kept" => baseline::nearest_tram(&self.kept, trams, mark),
            _ => decode(card).and_then(|code| baseline::nearest_tram(&EachCall(code), trams, mark)),
        };
        place.map_or_else(refused, |place| place.map_or(64, |place| place as u64))
    }

    /// Fails unless a way answers as the baseline that keeps its card does.
    pub fn check(&self, call: &str, way: &str) {
        let count = self.count();
        assert_eq!(self.all(call, way, count), self.all(call, "kept", count), "{call} {way}");
    }
}

impl Calls for Work {
    fn count(&self) -> usize {
        self.words.len()
    }

    fn all(&self, call: &str, way: &str, count: usize) -> u64 {
        let positions = self.positions[..count].iter().map(|&position| black_box(position));
        let (last_block, last) = (self.kept.code().last_block() as u32, self.kept.last() as u32);
        let mut word = vec![0; self.words[0].len()];
        let read_levels =
            |words: &[Vec<f32>]| mixed(words[..count].iter().map(|levels| self.read_levels(way, black_box(levels))));
        black_box(match call {
            "check" => mixed(positions.map(|_| self.check_card(way))),
            "read" => mixed(self.words[..count].iter().map(|word| self.read(way, black_box(word)))),
            "levels" => read_levels(&self.levels),
            "levels-erased" => read_levels(&self.levels_erased),
            "write" => mixed(positions.map(|position| {
                let answer = self.write(way, position, &mut word);
                word.iter().fold(answer, |sum, &byte| sum.wrapping_mul(31) ^ u64::from(byte))
            })),
            "start" => mixed(positions.map(|position| self.block_start(way, position & last_block))),
            "millimetres" => mixed(positions.map(|position| self.millimetres(way, position))),
            "crossing" => mixed(positions.map(|position| self.trams_crossing(way, position))),
            // a position, and the one that is as far from the other end of the track
            "within" => mixed(positions.map(|position| {
                let other = last - position;
                self.trams_within(way, [position.min(other), position.max(other)])
            })),
            "nearest" => mixed(positions.map(|position| self.nearest_tram(way, position))),
            _ => panic!("no call {call}"),
        })
    }
}

/// Answers mixed into one number, so that they are compared and not optimized away.
pub fn mixed(answers: impl Iterator<Item = u64>) -> u64 {
    answers.fold(0, |sum: u64, answer| sum.rotate_left(1) ^ answer)
}

/// What a sound card is answered with.
fn values(order: &impl Order) -> [u32; 7] {
    let code = order.code();
    let [n, k, distance, radius] = [code.n, code.k, code.distance, code.radius].map(|value| value as u32);
    [n, k, code.track, distance, radius, code.bits() as u32, order.last() as u32]
}

/// The number of the library's refusal.
fn number(refusal: dunnavish::Refusal) -> u32 {
    refusal.number().unwrap()
}

/// A refusal as a number that is no answer's.
fn refused(refusal: u32) -> u64 {
    u64::MAX - u64::from(refusal)
}

/// What is answered of 64 trams in one number.
fn yes_or_no(answer: Result<Vec<bool>, u32>) -> u64 {
    answer.map_or_else(refused, |yes| yes.into_iter().fold(0, |bits, yes| bits << 1 | u64::from(yes)))
}

/// The library's reading in the baseline's form.
fn as_read(reading: dunnavish::Reading) -> baseline::Read {
    let dunnavish::Reading { position, residual, rule, chunk1_bits, chunk2_bits } = reading;
    baseline::Read { position, residual, rule: rule.number(), chunk1_bits, chunk2_bits }
}

/// The same of a word of levels, with the receiver's strength.
fn as_read_levels((reading, strength): (dunnavish::Reading, dunnavish::Strength)) -> (baseline::Read, Strength) {
    let dunnavish::Strength { sum, greatest } = strength;
    (as_read(reading), Strength { sum, greatest })
}

/// A read's answer in one number: a residual is at most 320, and a chunk's count at most 31, so that 63 can stand for none.
fn one_number(answer: Result<baseline::Read, u32>) -> u64 {
    let count = |bits: Option<u32>| u64::from(bits.unwrap_or(63));
    match answer {
        Ok(read) => {
            let counts = count(read.chunk1_bits) << 6 | count(read.chunk2_bits);
            u64::from(read.position) << 32 | counts << 20 | u64::from(read.residual) << 8 | u64::from(read.rule)
        }
        Err(refusal) => refused(refusal),
    }
}
