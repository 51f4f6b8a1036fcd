//! Words of levels 1, -1 and 0, with bits damaged and erased up to the borders of what a chunk bears. The damage of some levels,
//! against a word's bits, is 2 × wrong + erased: each place has 0, 1 or 2.
use super::chunks::shuffled;
use super::random;
use super::words::{made_up, word_at};
use second_reader::code::Code;
use second_reader::walk::Walk;
use second_reader::word::Word;
use std::ops::Range;

/// How many words of such levels are read at a position.
const COUNT: u64 = 22;

/// The levels of a word's bits: -1 for a 1, 1 for a 0.
pub fn of_bits(word: &[bool]) -> Vec<f32> {
    word.iter().map(|&bit| if bit { -1.0 } else { 1.0 }).collect()
}

/// Every word of d levels 1, -1 and 0. Zeros are of either sign.
pub fn every(d: usize) -> impl Iterator<Item = Vec<f32>> {
    (0..3u64.pow(d as u32)).map(move |number| {
        let digits = (0..d as u32).map(|place| number / 3u64.pow(place) % 3);
        digits.enumerate().map(|(place, digit)| [1.0, -1.0, zero(random(number, place as u64))][digit as usize]).collect()
    })
}

/// The damage of levels over a whole word if it is below D in every chunk. It is none if a level is not 1, -1 or 0.
pub fn damage_below_distance(code: &Code, sent: &Word, levels: &[f32]) -> Option<usize> {
    let in_place = |(&bit, &level): (&bool, &f32)| match level {
        _ if level == 0.0 => Some(1),
        _ if level.abs() != 1.0 => None,
        _ => Some(if bit == (level < 0.0) { 0 } else { 2 }),
    };
    let in_chunk = |places: Range<usize>| sent[places.clone()].iter().zip(&levels[places]).map(in_place).sum::<Option<usize>>();
    let chunks = code.chunks().into_iter().map(in_chunk);
    chunks.map(|damage| damage.filter(|&damage| damage < code.distance)).sum()
}

/// The words of the position at which `here` stands, of card `id`. The walk `behind` stands further back.
pub fn at<'a>(behind: &'a Walk, here: &'a Walk, id: u64) -> impl Iterator<Item = Vec<f32>> + 'a {
    let seed = random(id + 1, here.position.into());
    (0..COUNT).map(move |q| word_number(q, behind, here, random(seed, q)))
}

/// Word q: the position's own; one chunk damaged by D - 1, then by D; every chunk by D - 1, scattered or towards another
/// codeword; code chunks by D towards another codeword; every chunk by less than D, then by up to D + 1; words made up, damaged by
/// D - 1 in every chunk, or by 1, or by up to D; levels at random; a separator erased whole; and the places erased that tell
/// neighbours apart.
fn word_number(q: u64, behind: &Walk, here: &Walk, seed: u64) -> Vec<f32> {
    let code = &here.track.card.code;
    let up_to = |most: usize| move |c: u64| (random(seed, c + 9) % (most as u64 + 1)) as usize;
    let most = code.distance - 1;
    let one = |c: u64, damage: usize| damaged(code, &here.word, seed, false, |chunk| if chunk == c { damage } else { 0 });
    let all = |word: &Word, near, damage: &dyn Fn(u64) -> usize| damaged(code, word, seed, near, damage);
    match q {
        0 => of_bits(&here.word),
        1..=5 => one(q - 1, most),
        6..=10 => one(q - 6, code.distance),
        11 => all(&here.word, false, &|_| most),
        12 => all(&here.word, true, &|_| most),
        13 => all(&here.word, true, &|c| most + c as usize % 2),
        14 => all(&here.word, false, &up_to(most)),
        15 => all(&here.word, seed % 2 == 0, &up_to(code.distance + 1)),
        16 => all(&made_up(23, here, seed), true, &|_| most),
        17 => all(&made_up(24, here, seed), false, &|_| 1),
        18 => all(&made_up(26, here, seed), seed % 2 == 0, &up_to(code.distance)),
        19 => (0..here.word.len() as u64).map(|place| [1.0, -1.0, zero(seed)][(random(seed, place) % 3) as usize]).collect(),
        20 => erased(&here.word, code.chunks()[(seed % 3 * 2) as usize].clone(), seed),
        21 => neighbours_alike(behind, here, seed),
        _ => unreachable!("there are {COUNT} words"),
    }
}

/// The levels of a word with so much damage in each chunk, 0 to 4, of which any part is wrong bits. It is scattered, or, if `near`,
/// stands in a code chunk where some codeword of least weight has ones, so that it leads towards another codeword.
fn damaged(code: &Code, word: &Word, seed: u64, near: bool, damage: impl Fn(u64) -> usize) -> Vec<f32> {
    let mut levels = of_bits(word);
    for (c, chunk) in (0..).zip(code.chunks()) {
        let (seed, damage) = (random(seed, c), damage(c));
        let mut places = shuffled(chunk.clone().collect(), seed);
        if near && c % 2 == 1 {
            let least = least_codeword(code, seed);
            places.sort_by_key(|place| least >> (place - chunk.start) & 1 == 0);
        }
        let fewest = damage.saturating_sub(chunk.len());
        let wrong = fewest + random(seed, 2) as usize % (damage / 2 - fewest + 1);
        for (i, &place) in places[..damage - wrong].iter().enumerate() {
            levels[place] = if i < wrong { -levels[place] } else { zero(random(seed, i as u64)) };
        }
    }
    levels
}

/// A codeword of weight D.
fn least_codeword(code: &Code, seed: u64) -> u64 {
    let count = code.codewords();
    let codewords = (0..count).map(|i| code.codeword((i + seed as usize % count) % count));
    let mut least = codewords.filter(|codeword| codeword.count_ones() as usize == code.distance);
    least.next().expect("D is the weight of a codeword")
}

/// The levels of a word with these places erased.
fn erased(word: &Word, places: Range<usize>, seed: u64) -> Vec<f32> {
    let mut levels = of_bits(word);
    levels[places].fill(zero(seed));
    levels
}

/// The levels of a position's word with the places erased in which it differs from those of positions up to t before and up to t
/// after it, so that all of these are as near as it is: as many as bits may be erased where they stand in one chunk.
fn neighbours_alike(behind: &Walk, here: &Walk, seed: u64) -> Vec<f32> {
    let steps = here.track.card.code.radius() as u32;
    let back = word_at(behind, behind.position.max(here.position.saturating_sub(steps)));
    let on = word_at(here, here.position + steps);
    let told_apart = back.iter().zip(&on).map(|(a, b)| a != b);
    of_bits(&here.word).into_iter().zip(told_apart).map(|(level, apart)| if apart { zero(seed) } else { level }).collect()
}

/// A zero of either sign.
fn zero(seed: u64) -> f32 {
    [0.0, -0.0][(seed >> 7) as usize % 2]
}
