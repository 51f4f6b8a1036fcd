//! What is measured on: five cards with a negative offset, positions of their tracks, words with damage within the radius, in
//! bits and in levels, and trams; yards in which every track is held; three Reed-Muller codes, and chunks of them without a
//! codeword within the radius. They are the same in every run.
use crate::baseline::{self, decode, Code, Kept, Order as _, Stretch};
use crate::cards::offset_card;
use crate::codes::{golay, reed_muller};
use crate::plain_yard::Yard;

pub const CARDS: [&str; 5] = ["B", "rm16", "rm64", "random64", "golay24"];

/// The cards' offset in millimetres.
const OFFSET: i32 = -12_345;

/// Reed-Muller codes: a name, the order r and the number of variables m.
pub const CODES: [(&str, u32, u32); 3] = [("rm-2-4", 2, 4), ("rm-1-5", 1, 5), ("rm-1-6", 1, 6)];

struct Random(u64);

impl Random {
    fn next(&mut self) -> u64 {
        self.0 ^= self.0 << 13;
        self.0 ^= self.0 >> 7;
        self.0 ^= self.0 << 17;
        self.0
    }

    fn below(&mut self, bound: usize) -> usize {
        (self.next() % bound as u64) as usize
    }
}

pub fn card(name: &str) -> Vec<u8> {
    let (n, rows) = match name {
        "B" => (3, vec![7]),
        "rm16" => (16, reed_muller(1, 4)),
        "rm64" => (64, reed_muller(1, 6)),
        "random64" => {
            let mut random = Random(0x1234_5678_9abc_def1);
            (64, (0..12).map(|_| random.next()).collect())
        }
        "golay24" => (24, golay()),
        _ => panic!("no card {name}: {CARDS:?}"),
    };
    offset_card(OFFSET, n, rows.len() as u8, 14, &rows)
}

/// Whether a card has so many codewords (k is 12) that fewer of its words are measured.
pub fn is_large(name: &str) -> bool {
    matches!(name, "random64" | "golay24")
}

/// Whether the calls on trams are measured on a card: one of small t and a short track, and one of great t and a long one.
pub fn has_trams(name: &str) -> bool {
    matches!(name, "B" | "rm64")
}

/// 64 trams on a track, of up to a sixteenth of it each.
pub fn trams(kept: &Kept) -> Vec<Stretch> {
    let mut random = Random(2463534242);
    let tram = |_| {
        let low = random.below(kept.last() + 1);
        let high = kept.last().min(low + random.below(kept.last() / 16 + 1));
        Stretch { low: low as u32, high: high as u32 }
    };
    (0..64).map(tram).collect()
}

/// Positions of a track, and their words with up to t bits damaged in each chunk.
pub fn positions_and_words(card: &[u8], count: usize) -> (Vec<u32>, Vec<Vec<u8>>) {
    let code = decode(card).unwrap();
    let kept = Kept::new(code);
    let mut random = Random(88172645463325252);
    let positions: Vec<u32> = (0..count).map(|_| random.below(kept.last() + 1) as u32).collect();
    let words = positions
        .iter()
        .map(|&position| {
            let mut word = vec![0; code.bytes()];
            baseline::write(&kept, position, &mut word).unwrap();
            for (from, length) in code.chunks() {
                for _ in 0..random.below(code.radius + 1) {
                    let place = from + random.below(length);
                    word[place / 8] ^= 1 << (place % 8);
                }
            }
            word
        })
        .collect();
    (positions, words)
}

/// So many of a card's words, each with up to t bits damaged in each chunk, that read as a position which, less 10t, is above 0.
pub fn clear_words(card: &[u8], kept: &Kept, count: usize) -> Vec<Vec<u8>> {
    let (_, words) = positions_and_words(card, 8 * count);
    let is_clear = |word: &Vec<u8>| baseline::read(kept, word).unwrap().position as usize > 10 * kept.code().radius;
    let clear: Vec<Vec<u8>> = words.into_iter().filter(is_clear).take(count).collect();
    assert_eq!(clear.len(), count, "too few words are clear");
    clear
}

/// The tram that holds a track of a yard.
pub fn holder(track: u16) -> u16 {
    100 + track
}

/// A yard in which every track is held, and so many trams wait, for tracks 0 to 15 in turn. No tram stands there twice.
pub fn yard(waiting: u16) -> Yard {
    let mut yard = [0; 97];
    for track in 0..16 {
        yard[usize::from(track)] = 1;
        yard[16 + usize::from(track)] = holder(track);
    }
    yard[32] = waiting;
    for place in 0..waiting {
        yard[33 + usize::from(place)] = 200 + place;
        yard[65 + usize::from(place)] = place % 16;
    }
    yard
}

/// The levels of a word's bits: -1 for a 1, 1 for a 0.
pub fn levels(code: &Code, word: &[u8]) -> Vec<f32> {
    (0..code.bits()).map(|place| if word[place / 8] >> (place % 8) & 1 == 1 { -1.0 } else { 1.0 }).collect()
}

/// The levels of a position's word, with zeros for the bits in which a damaged word differs from it.
pub fn levels_erased(kept: &Kept, position: u32, damaged: &[u8]) -> Vec<f32> {
    let mut word = vec![0; damaged.len()];
    baseline::write(kept, position, &mut word).unwrap();
    let (sent, received) = (levels(kept.code(), &word), levels(kept.code(), damaged));
    sent.into_iter().zip(received).map(|(sent, received)| if sent == received { sent } else { 0.0 }).collect()
}

/// A card and words of it, as tramread reads them.
pub fn card_and_words(name: &str, count: usize) -> Vec<u8> {
    let card = card(name);
    let (_, words) = positions_and_words(&card, count);
    [card, words.concat()].concat()
}

/// Random chunks without a codeword within the radius.
pub fn unreadable_chunks(kept: &Kept, count: usize) -> Vec<u64> {
    let mut random = Random(88172645463325252);
    let chunks = std::iter::repeat_with(|| random.next() >> (64 - kept.code().n));
    chunks.filter(|&chunk| kept.find(chunk).is_none()).take(count).collect()
}

/// The word with these separators, and with this chunk in both code chunks.
pub fn word_of(code: &Code, separators: [bool; 3], chunk: u64) -> Vec<u8> {
    let mut word = vec![0; code.bytes()];
    let [s1, s2, s3] = separators.map(|one| if one { u64::MAX } else { 0 });
    for ((from, length), bits) in code.chunks().into_iter().zip([s1, chunk, s2, chunk, s3]) {
        for place in (0..length).filter(|place| bits >> place & 1 == 1) {
            word[(from + place) / 8] |= 1 << ((from + place) % 8);
        }
    }
    word
}
