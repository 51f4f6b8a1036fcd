//! The words that are read at a position: its own, undamaged and damaged in many ways, and words made up.
use super::damage::{damaged, damaged_within_radius, turn, Places};
use super::random;
use second_reader::walk::Walk;
use second_reader::word::{packed, Word};

/// How many words are read at a position, beside those with a spare bit set.
const COUNT: u64 = 29;

/// A word that is received, and how many bits of each chunk are damaged if no chunk has more of them than the radius.
pub struct Received {
    pub bytes: Vec<u8>,
    pub damaged_within_radius: Option<[u32; 5]>,
}

/// The words of the position at which `here` stands, of card `id`. The walk `behind` stands further back. The last two have a spare bit
/// set, if there is one, and count as damaged beyond the radius: the position's own word, and one that is refused without it more often
/// than not, so that 8 is seen to come before 9 to 12 and 17.
pub fn at<'a>(behind: &'a Walk, here: &'a Walk, id: u64) -> impl Iterator<Item = Received> + 'a {
    let seed = random(id, here.position.into());
    let words = (0..COUNT).map(move |q| {
        let word = word_number(q, behind, here, random(seed, q));
        let damaged_within_radius = damaged_within_radius(&here.track.card.code, &here.word, &word);
        Received { bytes: packed(&word), damaged_within_radius }
    });
    words.chain([with_spare_bit(&here.word), with_spare_bit(&made_up(24, here, random(seed, COUNT)))])
}

/// Word q.
fn word_number(q: u64, behind: &Walk, here: &Walk, seed: u64) -> Word {
    let code = &here.track.card.code;
    let (t, any) = (code.radius(), (seed % 5) as usize);
    let up_to = |most: usize| (seed % (most as u64 + 1)) as usize;
    let one = |c: usize, count, which| damaged(code, &here.word, c..c + 1, count, which, seed);
    let all = |count, which| damaged(code, &here.word, 0..5, count, which, seed);
    match q {
        0 => here.word.clone(),
        1..=5 => one(q as usize - 1, t, Places::Run),
        6..=10 => one(q as usize - 6, t + 1, Places::Scattered),
        11 => all(t, Places::First),
        12 => all(t, Places::Last),
        13 => all(t, Places::Scattered),
        14 => all(up_to(t), Places::Run),
        15 => one(any, 1, Places::Scattered),
        16 => all(up_to(code.distance), Places::Scattered),
        17 => one(any, code.chunks()[any].len(), Places::First),
        18..=21 => moved(q, behind, here),
        22..=26 => made_up(q, here, seed),
        27 => mixed(here, code.chunks()[1 + any % 4].start, seed),
        28 => mixed(here, seed as usize % code.word_bits(), seed),
        _ => unreachable!("there are {COUNT} words"),
    }
}

/// Words 18 to 21, whose damage leads away from the position, across chunks and block starts: the word of the position t before it
/// or t after it (1 where t is 0); and its word with the flips before the last t undone, or those after the next t done, which
/// lies as near to the position 2t away.
fn moved(q: u64, behind: &Walk, here: &Walk) -> Word {
    let step = here.track.card.code.radius().max(1) as u32;
    let back = |steps| word_at(behind, behind.position.max(here.position.saturating_sub(steps)));
    let on = |steps| word_at(here, here.position + steps);
    match q {
        18 => back(step),
        19 => on(step),
        20 => sum_of_three(&here.word, &back(step), &back(2 * step)),
        _ => sum_of_three(&here.word, &on(step), &on(2 * step)),
    }
}

/// The word of a position, or of the last, sought from where a walk stands.
pub fn word_at(from: &Walk, position: u32) -> Word {
    let mut walk = from.clone();
    walk.go_to(position);
    walk.word
}

/// The sum, modulo 2, of three words.
fn sum_of_three(a: &Word, b: &Word, c: &Word) -> Word {
    a.iter().zip(b).zip(c).map(|((x, y), z)| x ^ y ^ z).collect()
}

/// Words 22 to 26, not made from a position's word: random bits; one codeword in both chunks, two codewords, the first and the last
/// codeword, with whole separators of any values; and one codeword in both chunks, damaged within the radius.
pub fn made_up(q: u64, here: &Walk, seed: u64) -> Word {
    let code = &here.track.card.code;
    let any = |which| (random(seed, which) % code.codewords() as u64) as usize;
    let of = |a, b| code.word_of_chunks([0, 1, 2].map(|bit| seed >> bit & 1 == 1), [code.codeword(a), code.codeword(b)]);
    match q {
        22 => {
            let mut word = vec![false; code.word_bits()];
            turn(&mut word, 0..code.word_bits(), code.word_bits(), Places::Scattered, seed);
            word
        }
        23 => of(any(1), any(1)),
        24 => of(any(1), any(2)),
        25 => of(0, code.codewords() - 1),
        _ => damaged(code, &of(any(1), any(1)), 0..5, code.radius(), Places::Scattered, seed),
    }
}

/// Words 27 and 28, mixed from two telegrams: the position's word up to where a chunk begins, or up to any place, and from there on
/// that of some codeword.
fn mixed(here: &Walk, place: usize, seed: u64) -> Word {
    let code = &here.track.card.code;
    let other = code.whole_word((random(seed, 1) % code.codewords() as u64) as usize);
    [&here.word[..place], &other[place..]].concat()
}

/// A word with its first spare bit set.
fn with_spare_bit(word: &Word) -> Received {
    let mut bytes = packed(word);
    if word.len() % 8 != 0 {
        bytes[word.len() / 8] |= 1 << (word.len() % 8);
    }
    Received { bytes, damaged_within_radius: None }
}
