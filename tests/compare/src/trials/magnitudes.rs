//! Words of levels of many magnitudes, sums of separators that cancel or are rounded, and levels at and outside the limits.
use super::levels;
use super::random;
use second_reader::code::Code;
use second_reader::walk::Walk;

/// How many words of such levels are read at a position.
const COUNT: u64 = 10;

/// Levels that are refused, by their bits: not numbers, quiet and signalling; infinite; the next above 1,000,000, 1,000,001, and
/// the greatest. Each has either sign.
const OUTSIDE: [u32; 8] =
    [0x7FC0_0000, 0x7FC0_0001, 0x7F80_0001, 0x7FFF_FFFF, 0x7F80_0000, MILLION + 1, 0x4974_2410, 0x7F7F_FFFF];

/// Levels that are not: 1,000,000, the next below it, 1, the least normal number and the greatest and the least below that, and 0.
const WITHIN: [u32; 7] = [MILLION, MILLION - 1, 0x3F80_0000, 0x0080_0000, 0x007F_FFFF, 1, 0];

/// The bits of 1,000,000.
const MILLION: u32 = 0x4974_2400;

/// Three levels of a separator whose sum depends on its order, or on that each addition is rounded once; and such as cancel.
const THREES: [[f32; 3]; 12] = [
    [1e6, -0.03, -1e6],
    [1e6, -0.04, -1e6],
    [1e6, -0.03125, -1e6],
    [1e6, -1e6, -0.03],
    [-0.03, 1e6, -1e6],
    [-1e6, 0.03, 1e6],
    [-1e6, 1e6, 1e-45],
    [-1e6, 1e6, -1e-45],
    [1e-45, -1e-45, 0.0],
    [1e-38, -1.1e-38, 0.9e-39],
    [0.1, 0.2, -0.3],
    [0.5, 0.25, -0.75],
];

/// The levels that are refused, and those that are not.
pub fn outside() -> impl Iterator<Item = f32> {
    of_either_sign(&OUTSIDE)
}

pub fn within() -> impl Iterator<Item = f32> {
    of_either_sign(&WITHIN)
}

fn of_either_sign(magnitudes: &[u32]) -> impl Iterator<Item = f32> + '_ {
    magnitudes.iter().flat_map(|&bits| [bits, 1 << 31 | bits]).map(f32::from_bits)
}

/// The words of the position at which `here` stands, of card `id`. The walk `behind` stands further back.
pub fn at<'a>(behind: &'a Walk, here: &'a Walk, id: u64) -> impl Iterator<Item = Vec<f32>> + 'a {
    let seed = random(id + 2, here.position.into());
    let units: Vec<Vec<f32>> = levels::at(behind, here, seed % 1024).collect();
    (0..COUNT).map(move |q| word_number(q, &here.track.card.code, &units, random(seed, q)))
}

/// Word q, from words of levels 1, -1 and 0: the position's own, and one with damage below D in every chunk, of magnitudes at
/// random; the latter with every magnitude 1,000,000, or the least, or one of four; with three levels of the list above in each
/// separator; the former with sums of separators that are cancelled; any of these words of magnitudes at random; and two with a level
/// outside the limits.
fn word_number(q: u64, code: &Code, units: &[Vec<f32>], seed: u64) -> Vec<f32> {
    let (own, damaged, any) = (&units[0], &units[14], &units[(seed % units.len() as u64) as usize]);
    match q {
        0 => scaled(own, |place| magnitude(random(seed, place))),
        1 => scaled(damaged, |place| magnitude(random(seed, place))),
        2 => scaled(damaged, |_| 1e6),
        3 => scaled(damaged, |_| f32::from_bits(1)),
        4 => scaled(damaged, |place| [1e6, 999_999.94, 0.04, 0.03][(random(seed, place) % 4) as usize]),
        5 => with_threes(code, damaged.clone(), seed),
        6 => cancelled(code, scaled(own, |place| magnitude(random(seed, place))), seed),
        7 => scaled(any, |place| magnitude(random(seed, place))),
        8 => with_outside(scaled(damaged, |place| magnitude(random(seed, place))), seed),
        9 => with_outside(any.clone(), seed),
        _ => unreachable!("there are {COUNT} words"),
    }
}

/// Levels with these magnitudes. Those of 0 stay.
fn scaled(units: &[f32], magnitude: impl Fn(u64) -> f32) -> Vec<f32> {
    units.iter().zip(0..).map(|(unit, place)| unit * magnitude(place)).collect()
}

/// Any magnitude above 0 and up to 1,000,000, of any exponent or of one of few.
fn magnitude(seed: u64) -> f32 {
    let bits = if seed % 2 == 0 { (seed >> 8) as u32 % MILLION } else { MILLION - (seed >> 8) as u32 % (1 << 26) };
    f32::from_bits(bits.max(1))
}

/// Levels with three of those above in the first places of each separator, or in the last, if it has so many.
fn with_threes(code: &Code, mut levels: Vec<f32>, seed: u64) -> Vec<f32> {
    for c in [0, 2, 4] {
        let (chunk, seed) = (code.chunks()[c].clone(), random(seed, c as u64));
        let three = THREES[(seed % THREES.len() as u64) as usize];
        let count = chunk.len().min(3);
        let start = if seed >> 32 & 1 == 0 { chunk.start } else { chunk.end - count };
        levels[start..start + count].copy_from_slice(&three[..count]);
    }
    levels
}

/// Levels with a last one in each separator that takes the sum of those before it to 0, or next to 0 on either side, where that is
/// within the limits.
fn cancelled(code: &Code, mut levels: Vec<f32>, seed: u64) -> Vec<f32> {
    for c in [0, 2, 4] {
        let places = code.chunks()[c].clone();
        let before = levels[places.start..places.end - 1].iter().fold(0.0, |sum: f32, level| sum + level);
        let beside = [0, 1, u32::MAX][(random(seed, c as u64) % 3) as usize];
        let last = f32::from_bits((-before).to_bits().wrapping_add(beside));
        if last.abs() <= 1e6 {
            levels[places.end - 1] = last;
        }
    }
    levels
}

/// Levels with one that is refused, in any place.
fn with_outside(mut levels: Vec<f32>, seed: u64) -> Vec<f32> {
    let place = random(seed, 1) as usize % levels.len();
    levels[place] = outside().nth(random(seed, 2) as usize % (2 * OUTSIDE.len())).expect("each has either sign");
    levels
}
