//! Words of a position whose divided chunk is damaged arbitrarily, the others within the radius.
use super::damage::{turn, Places};
use super::random;
use second_reader::divided::divided;
use second_reader::walk::Walk;
use second_reader::word::{bits_of, Word};

/// How many such words are read at a position.
const COUNT: u64 = 12;

/// The words of the position at which `here` stands, of card `id`: none where no chunk of its word is divided.
pub fn at<'a>(here: &'a Walk, id: u64) -> impl Iterator<Item = Word> + 'a {
    let seed = random(id + 2, here.position.into());
    let chunk = divided(here).into_iter().position(|divided| divided);
    chunk.into_iter().flat_map(move |chunk| (0..COUNT).map(move |q| word_number(q, here, chunk, random(seed, q))))
}

/// Word q. The divided chunk is damaged in every bit, is made that of some codeword's word, or has bits damaged at random; the
/// others are as they were sent in words 0 to 3, have t bits damaged in words 4 to 7, and at most t, scattered, in the rest.
fn word_number(q: u64, here: &Walk, chunk: usize, seed: u64) -> Word {
    let code = &here.track.card.code;
    let mut word = here.word.clone();
    let places = code.chunks()[chunk].clone();
    match q % 4 {
        0 => turn(&mut word, places.clone(), places.len(), Places::First, seed),
        1 => {
            let other = code.whole_word((random(seed, 5) % code.codewords() as u64) as usize);
            word[places.clone()].copy_from_slice(&other[places]);
        }
        _ => turn(&mut word, places.clone(), places.len(), Places::Scattered, seed),
    }
    let which = [Places::Run, Places::Scattered][(q / 8) as usize % 2];
    for (other, places) in code.chunks().into_iter().enumerate().filter(|&(other, _)| q >= 4 && other != chunk) {
        turn(&mut word, places, code.radius(), which, random(seed, other as u64));
    }
    word
}

/// Every word of the position at which `here` stands: the divided chunk damaged in all ways, any other in all ways with at most
/// t bits.
pub fn every(here: &Walk) -> Vec<Word> {
    let code = &here.track.card.code;
    let mut words = vec![Word::new()];
    for (places, divided) in code.chunks().into_iter().zip(divided(here)) {
        let size = places.len();
        let ways = (0u64..1 << size).filter(|damaged| divided || damaged.count_ones() as usize <= code.radius());
        let came: Vec<Word> = ways
            .map(|damaged| {
                here.word[places.clone()].iter().zip(bits_of(damaged, size)).map(|(sent, damaged)| sent ^ damaged).collect()
            })
            .collect();
        words = words.iter().flat_map(|before| came.iter().map(move |chunk| [&before[..], chunk].concat())).collect();
    }
    words
}
