//! The Reed-Muller codes: their cards, and chunks of them read by votes.
use crate::calls;
use crate::library;
use crate::tally::Tally;
use crate::trials::chunks;
use second_reader::card::Card;
use second_reader::reed_muller::ReedMuller;
use second_reader::track::Track;
use second_reader::{word, Facts, Refusal, Vote};

/// The tracks that every code's card is made for.
const TRACKS: [u16; 8] = [0, 1, 14, 255, 256, 0x1234, 0x8000, 65_535];

/// Every r and m that is tried: cards, and three chunks, of which one has every bit set. Then all that is tried of a code within
/// the limits.
pub fn all(tally: &mut Tally) {
    for (r, m) in pairs() {
        for track in [0, 65_535] {
            calls::make(tally, track, r, m, second_reader::make_card(track, r, m));
        }
        for chunk in [0, 1, u64::MAX] {
            calls::vote(tally, library::vote_chunk(r, m, chunk), second_reader::vote_chunk(r, m, chunk));
        }
        if let Ok(reed_muller) = ReedMuller::of_order(r, m) {
            cards(tally, r, m, &reed_muller);
            chunks_of_n_bits(tally, r, m, &reed_muller);
            chunks_past_end(tally, r, m, &reed_muller);
        }
    }
}

fn pairs() -> impl Iterator<Item = (u32, u32)> {
    chunks::numbers().into_iter().flat_map(|m| chunks::numbers().into_iter().map(move |r| (r, m)))
}

/// The card of a code for several tracks. What the library makes, it must call sound, with the code's values; where it makes
/// none, 512 zeros stand for it, which are no sound card.
fn cards(tally: &mut Tally, r: u32, m: u32, reed_muller: &ReedMuller) {
    for track in TRACKS {
        let made = Card { track: track.into(), code: reed_muller.code.clone(), offset: 0 }.bytes();
        calls::make(tally, track, r, m, Ok(made));
        let facts = second_reader::check_card(&made).expect("the second reader makes sound cards");
        assert_eq!(facts, values(r, m, track, facts.last), "the second reader's values of order {r} in {m} variables");
        calls::check(tally, &library::make_card(track, r, m).unwrap_or([0; 512]), Ok(facts));
    }
}

/// The values of a code by formulas: n = 2^m, D = 2^(m-r), and k is the number of sets of at most r variables.
fn values(r: u32, m: u32, track: u16, last: u32) -> Facts {
    let (n, distance) = (1 << m, 1 << (m - r));
    let k = (0..=r).map(|size| choose(m, size)).sum();
    Facts { n, k, track: track.into(), distance, radius: (distance - 1) / 2, bits: 2 * n + 3 * distance, last }
}

/// How many sets of some size there are of m variables.
fn choose(m: u32, size: u32) -> u32 {
    (0..size).fold(1, |sets, chosen| sets * (m - chosen) / (chosen + 1))
}

/// Chunks of n bits, readable and not, by the library's votes and, in a word, by its search.
fn chunks_of_n_bits(tally: &mut Tally, r: u32, m: u32, reed_muller: &ReedMuller) {
    let made = Card { track: 14, code: reed_muller.code.clone(), offset: 0 }.bytes();
    let track = Track::of_card(&made).expect("the second reader makes sound cards");
    for chunk in chunks::of_code(reed_muller) {
        let (answer, second) = (library::vote_chunk(r, m, chunk), reed_muller.read_chunk(chunk));
        calls::vote(tally, answer, second);
        let searched = in_a_word(&made, &track, chunk, second.map_or(0, |vote| vote.number));
        tally.add("chunks also read in a word", true);
        tally.add("votes unlike a chunk's reading in a word", answer != searched);
    }
}

/// What the library reads a chunk as where it reads a word that has it as both code chunks: its codeword's number, and the bits
/// that it needed. The word has the separators of the last steps to w(p), which name rule 1: the position is in the block before
/// the number that chunk 1 reads as, up to its end. No step leads to w(0), so for p = 0 the word has those of the first steps from
/// it, which name rule 2: the position is in the block of the number that chunk 2 reads as.
fn in_a_word(card: &[u8], track: &Track, chunk: u64, p: u32) -> Result<Vote, Refusal> {
    let parity = p % 2 == 1;
    let separators = if p == 0 { [true, false, false] } else { [parity, parity, !parity] };
    let word = track.card.code.word_of_chunks(separators, [chunk; 2]);
    let reading = library::read_word(card, &word::packed(&word))?;
    let (number, bits) = match reading.rule {
        1 => (track.starts.partition_point(|&start| start < reading.position), reading.chunk1_bits),
        _ => (track.starts.partition_point(|&start| start <= reading.position) - 1, reading.chunk2_bits),
    };
    Ok(Vote { number: number as u32, bits: bits.unwrap_or(u32::MAX) })
}

fn chunks_past_end(tally: &mut Tally, r: u32, m: u32, reed_muller: &ReedMuller) {
    for chunk in chunks::past_end(reed_muller) {
        calls::vote(tally, library::vote_chunk(r, m, chunk), reed_muller.read_chunk(chunk));
    }
}
