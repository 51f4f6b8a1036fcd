//! Which positions of a track are written, at which of them words are read, and words whose divided chunk is damaged arbitrarily,
//! and of which codewords there are words with counts at their borders. `id` is the card's number.
use super::random;
use second_reader::track::Track;
use second_reader::walk::Walk;

/// Up to this last position every position is written; on longer tracks about 2,000 are.
const WRITE_ALL: u64 = 25_000;

/// Whether the position at which a walk stands is written. On long tracks neighbours are written two by two.
pub fn is_written(here: &Walk, id: u64) -> bool {
    let last = u64::from(here.track.last());
    last <= WRITE_ALL || among(u64::from(here.position) / 2, last / 2, 1000, id)
}

/// Whether words are read at the position at which a walk stands: at some of the track, and in some blocks on both sides of the
/// start and where one chunk ends and the next begins.
pub fn is_read(here: &Walk, id: u64) -> bool {
    is_tried(here, id, at_border)
}

/// Whether words whose divided chunk is damaged arbitrarily are read there: at some of the track, and in some blocks where a chunk
/// begins to be divided, and where it is for the last time.
pub fn is_damaged_arbitrarily(here: &Walk, id: u64) -> bool {
    is_tried(here, id + 3, at_border_of_division)
}

/// Whether the position is one of some of the track, or at a border in some blocks: the fewer, the longer the track is.
fn is_tried(here: &Walk, id: u64, border: fn(&Walk) -> bool) -> bool {
    let many = match here.track.card.code.rows.len() {
        0..=5 => 40,
        6..=8 => 20,
        _ => 8,
    };
    let blocks = here.track.starts.len() as u64 - 1;
    among(here.position.into(), here.track.last().into(), many, id)
        || (one_in(blocks / (many / 8 + 1), id + 1, here.block as u64) && border(here))
}

/// Whether there are words with counts at their borders of codeword p: the first two, the last, and about one between.
pub fn is_counted(track: &Track, p: usize, id: u64) -> bool {
    let last = track.starts.len() - 1;
    p < 2 || p == last || one_in(last as u64, id + 2, p as u64)
}

/// Whether the place to which a walk has come is next to the start of a block, or begins a chunk.
fn at_border(here: &Walk) -> bool {
    let begins = |place| here.track.card.code.chunks().iter().any(|chunk| chunk.start == place);
    here.place < 2 || begins(here.place) || here.word.len() <= here.place + 1
}

/// Whether the place that the last step flipped is the first, or the last but one, of those in which the two words of its block
/// differ in its chunk.
fn at_border_of_division(here: &Walk) -> bool {
    let code = &here.track.card.code;
    let (this, next) = (code.whole_word(here.block), code.whole_word(here.block + 1));
    code.chunks().into_iter().any(|chunk| {
        let differ: Vec<usize> = chunk.filter(|&place| this[place] != next[place]).collect();
        here.place > 0 && [differ.first(), differ.iter().rev().nth(1)].contains(&Some(&(here.place - 1)))
    })
}

/// Whether a number is one of some `many` from 0 to `last`: all of them if there are no more, else the first and the last three,
/// and about so many between, at random.
fn among(at: u64, last: u64, many: u64, id: u64) -> bool {
    last <= many || at < 3 || last <= at + 2 || one_in(last / many, id, at)
}

/// True at random, once in `count` + 1.
fn one_in(count: u64, id: u64, at: u64) -> bool {
    random(id, at) % (count + 1) == 0
}
