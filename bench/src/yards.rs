//! The calls on a yard that are measured, by the library and by the baselines: requests that join, and releases that hand a track
//! on. All sixteen tracks are held, and 31 or 32 trams wait: the most that a call can serve, so that as many trams as there can
//! be are compared to see whether one stands there twice.
use crate::baseline::{self, decode, Kept, Order};
use crate::calls::{mixed, Calls};
use crate::inputs;
use crate::nested::{EachCall, KeptNested};
use crate::plain_yard::{self, Released, Requested};
use std::hint::black_box;

/// The cards that tracks are released by: one of small t, and one of great t.
pub const CARDS: [&str; 2] = ["B", "rm64"];

/// The ways of a release, the library's first, and of the read of its word.
pub const WAYS: [&str; 4] = ["library", "kept", "kept-nested", "each-call"];

/// Yards, a card whose track is released, words that are clear of the mark 0, and the card as the baselines keep it.
pub struct Yards {
    card: Vec<u8>,
    words: Vec<Vec<u8>>,
    /// 31 trams wait.
    joined: plain_yard::Yard,
    /// 32 trams wait.
    full: plain_yard::Yard,
    kept: Kept,
    nested: KeptNested,
}

impl Yards {
    /// Those of the name `yard-` and a card's, if it is such a name, with so many words.
    pub fn named(name: &str, count: usize) -> Option<Yards> {
        let card = inputs::card(name.strip_prefix("yard-")?);
        let code = decode(&card).unwrap();
        let (kept, nested) = (Kept::new(code), KeptNested(Kept::new(code)));
        let words = inputs::clear_words(&card, &kept, count);
        Some(Yards { card, words, joined: inputs::yard(31), full: inputs::yard(32), kept, nested })
    }

    /// A tram that is not in the yard requests a track.
    fn request(&self, way: &str, call: usize) -> u64 {
        let (tram, track) = black_box((1000 + (call % 1000) as u16, (call % 16) as u32));
        match way {
            "library" => {
                let mut yard = dunnavish::Yard::from_numbers(*black_box(&self.joined));
                let answer = yard.request(tram, track);
                black_box(&yard);
                u64::from(answer == Ok(dunnavish::Requested::Waits))
            }
            _ => {
                let mut yard = *black_box(&self.joined);
                let answer = plain_yard::request(&mut yard, tram, track);
                black_box(&yard);
                u64::from(answer == Ok(Requested::Waits))
            }
        }
    }

    /// The holder of the card's track releases it, by the library: the tram that it is handed to, or none.
    fn release_by_library(&self, word: &[u8]) -> Option<u16> {
        let mut yard = dunnavish::Yard::from_numbers(*black_box(&self.full));
        let answer = yard.release(self.holder(), word, black_box(0), black_box(&self.card));
        black_box(&yard);
        match answer {
            Ok(dunnavish::Released::HandedTo(tram)) => Some(tram),
            _ => None,
        }
    }

    /// The same by a baseline.
    fn release_by(&self, order: &impl Order, word: &[u8]) -> Option<u16> {
        let mut yard = *black_box(&self.full);
        let answer = plain_yard::release(order, &mut yard, self.holder(), word, black_box(0));
        black_box(&yard);
        match answer {
            Ok(Released::HandedTo(tram)) => Some(tram),
            _ => None,
        }
    }

    fn release(&self, way: &str, word: &[u8]) -> u64 {
        let tram = match way {
            "library" => self.release_by_library(word),
            "kept" => self.release_by(&self.kept, word),
            "kept-nested" => self.release_by(&self.nested, word),
            _ => decode(&self.card).ok().and_then(|code| self.release_by(&EachCall(code), word)),
        };
        tram.map_or(0, u64::from)
    }

    /// The word of a release read alone: its position.
    fn read(&self, way: &str, word: &[u8]) -> u64 {
        let position = |read: Result<baseline::Read, u32>| read.map_or(0, |read| u64::from(read.position));
        match way {
            "library" => dunnavish::read_word(black_box(&self.card), word).map_or(0, |reading| u64::from(reading.position)),
            "kept" => position(baseline::read(&self.kept, word)),
            "kept-nested" => position(baseline::read(&self.nested, word)),
            _ => position(decode(&self.card).and_then(|code| baseline::read(&EachCall(code), word))),
        }
    }

    /// The tram that holds the card's track.
    fn holder(&self) -> u16 {
        inputs::holder(self.kept.code().track as u16)
    }

    /// Fails unless every request waits and every release is handed on, by library and baseline, and both leave the same yards.
    pub fn check(&self) {
        for (place, word) in self.words.iter().enumerate() {
            let (tram, track) = (1000 + (place % 1000) as u16, (place % 16) as u32);
            let (mut yard, mut plain) = (dunnavish::Yard::from_numbers(self.joined), self.joined);
            assert_eq!(yard.request(tram, track), Ok(dunnavish::Requested::Waits));
            assert_eq!(plain_yard::request(&mut plain, tram, track), Ok(Requested::Waits));
            assert_eq!(*yard.numbers(), plain);
            let (mut yard, mut plain) = (dunnavish::Yard::from_numbers(self.full), self.full);
            let answer = plain_yard::release(&self.kept, &mut plain, self.holder(), word, 0);
            let Ok(Released::HandedTo(tram)) = answer else { panic!("{answer:?}") };
            assert_eq!(yard.release(self.holder(), word, 0, &self.card), Ok(dunnavish::Released::HandedTo(tram)));
            assert_eq!(*yard.numbers(), plain);
        }
        for way in WAYS {
            for call in ["release", "read"] {
                assert_eq!(self.all(call, way, self.count()), self.all(call, "kept", self.count()), "{call} {way}");
            }
        }
    }
}

impl Calls for Yards {
    fn count(&self) -> usize {
        self.words.len()
    }

    fn all(&self, call: &str, way: &str, count: usize) -> u64 {
        let words = self.words[..count].iter().map(|word| black_box(&word[..]));
        black_box(match call {
            "request" => mixed((0..count).map(|place| self.request(way, place))),
            "release" => mixed(words.map(|word| self.release(way, word))),
            "read" => mixed(words.map(|word| self.read(way, word))),
            _ => panic!("no call {call}"),
        })
    }
}
