//! The library against the straightforward implementation of document 01, P2, P3, P5, P6, P8 and P9 that the benchmark compares
//! it with, written apart from it, on cards of every shape, with offsets, words of every kind, in bits and in levels, lists of
//! trams, and yards.
#[path = "../../bench/src/baseline.rs"]
mod baseline;
mod cards;
mod codes;
#[path = "../../bench/src/plain_yard.rs"]
mod plain_yard;
mod random;

use baseline::{decode, Code, Kept, Order as _};
use cards::{card_of, offset_card, seal};
use codes::{golay, reed_muller};
use dunnavish::{block_start, check_card, make_card, millimetres, read_levels, read_word, vote_chunk, write_word};
use dunnavish::{nearest_tram, trams_crossing, trams_within, Reading, Refusal, Stretch};
use dunnavish::{Released, Requested, Yard, YARD_NUMBERS};
use random::Random;
use std::collections::BTreeMap;

fn number<T>(answer: Result<T, Refusal>) -> Result<T, u32> {
    answer.map_err(|refusal| refusal.number().expect("a refusal that has a number"))
}

/// Both check this card; what the baseline keeps of it, if it is sound.
fn both_check(card: &[u8]) -> Option<Kept> {
    let answer = number(check_card(card));
    match decode(card) {
        Ok(code) => {
            let kept = Kept::new(code);
            let summary = answer.expect("a sound card");
            assert_eq!(summary.length as usize, code.n);
            assert_eq!(summary.rows as usize, code.k);
            assert_eq!(summary.track, code.track);
            assert_eq!(summary.distance as usize, code.distance);
            assert_eq!(summary.radius as usize, code.radius);
            assert_eq!(summary.word_bits as usize, code.bits());
            assert_eq!(summary.word_bytes(), code.bytes());
            assert_eq!(summary.last as usize, kept.last());
            Some(kept)
        }
        Err(refusal) => {
            assert_eq!(answer.err(), Some(refusal));
            None
        }
    }
}

fn both_write(card: &[u8], kept: &Kept, position: usize, lent: usize) {
    let mut word: Vec<u8> = (0..lent).map(|i| (i * 37 + position) as u8).collect();
    let mut expected = word.clone();
    let answer = number(write_word(card, position as u32, &mut word));
    assert_eq!(answer, baseline::write(kept, position as u32, &mut expected));
    assert_eq!(word, expected);
}

fn both_read(card: &[u8], kept: &Kept, received: &[u8]) -> Result<baseline::Read, u32> {
    let expected = baseline::read(kept, received);
    let answer = number(read_word(card, received)).map(as_read);
    let Code { n, k, .. } = kept.code();
    assert_eq!(answer, expected, "n {n} k {k} word {received:02x?}");
    expected
}

/// The library's reading in the baseline's form.
fn as_read(reading: Reading) -> baseline::Read {
    let Reading { position, residual, rule, chunk1_bits, chunk2_bits } = reading;
    baseline::Read { position, residual, rule: rule.number(), chunk1_bits, chunk2_bits }
}

/// Strengths are compared bit for bit.
fn both_read_levels(card: &[u8], kept: &Kept, levels: &[f32]) {
    let expected = baseline::read_levels(kept, levels).map(|(read, strength)| (read, [strength.sum, strength.greatest]));
    let answer =
        number(read_levels(card, levels)).map(|(reading, strength)| (as_read(reading), [strength.sum, strength.greatest]));
    let in_bits = |(read, strength): (baseline::Read, [f32; 2])| (read, strength.map(f32::to_bits));
    let Code { n, k, .. } = kept.code();
    assert_eq!(answer.map(in_bits), expected.map(in_bits), "n {n} k {k} levels {levels:?}");
}

/// What crosses each of two marks and is nearest to it, and what is within them, in either order.
fn both_search(card: &[u8], kept: &Kept, trams: &[Stretch], marks: [u32; 2]) {
    let as_ours = |tram: &Stretch| baseline::Stretch { low: tram.low, high: tram.high };
    let ours: Vec<baseline::Stretch> = trams.iter().map(as_ours).collect();
    let Code { n, k, .. } = kept.code();
    let asked = || format!("n {n} k {k} marks {marks:?} trams {trams:?}");
    for mark in marks {
        assert_eq!(number(trams_crossing(card, trams, mark)), baseline::trams_crossing(kept, &ours, mark), "{}", asked());
        assert_eq!(number(nearest_tram(card, trams, mark)), baseline::nearest_tram(kept, &ours, mark), "{}", asked());
    }
    for [first, second] in [marks, [marks[1], marks[0]]] {
        let expected = baseline::trams_within(kept, &ours, first, second);
        assert_eq!(number(trams_within(card, trams, first, second)), expected, "{}", asked());
    }
}

/// A request in a yard: both answer alike, and leave the same numbers, those that they were where it is refused.
fn both_request(yard: &mut Yard, tram: u16, track: u32) -> Result<Requested, u32> {
    let before = *yard.numbers();
    let mut plain = before;
    let answer = number(yard.request(tram, track));
    let expected = plain_yard::request(&mut plain, tram, track).map(|answer| match answer {
        plain_yard::Requested::Holds => Requested::Holds,
        plain_yard::Requested::Waits => Requested::Waits,
    });
    assert_eq!((answer, *yard.numbers()), (expected, plain), "tram {tram} track {track} yard {before:?}");
    assert!(answer.is_ok() || plain == before);
    answer
}

/// A release in a yard likewise, by a card that is decoded for the baseline.
fn both_release(yard: &mut Yard, tram: u16, word: &[u8], mark: u32, card: &[u8], kept: &Kept) -> Result<Released, u32> {
    let before = *yard.numbers();
    let mut plain = before;
    let answer = number(yard.release(tram, word, mark, card));
    let expected = plain_yard::release(kept, &mut plain, tram, word, mark).map(|answer| match answer {
        plain_yard::Released::NotClear => Released::NotClear,
        plain_yard::Released::Freed => Released::Freed,
        plain_yard::Released::HandedTo(tram) => Released::HandedTo(tram),
    });
    assert_eq!((answer, *yard.numbers()), (expected, plain), "tram {tram} word {word:02x?} mark {mark} yard {before:?}");
    assert!(!matches!(answer, Err(_) | Ok(Released::NotClear)) || plain == before);
    answer
}

/// The word of a position on the track.
fn word_of(kept: &Kept, position: usize) -> Vec<u8> {
    let mut word = vec![0; kept.code().bytes()];
    baseline::write(kept, position as u32, &mut word).unwrap();
    word
}

/// Reads the word of a position with `damaged[i]` bits damaged in chunk i.
fn both_read_damaged(card: &[u8], kept: &Kept, random: &mut Random, position: usize, damaged: [usize; 5]) {
    let mut word = word_of(kept, position);
    for ((from, length), count) in kept.code().chunks().into_iter().zip(damaged) {
        for place in random.some_below(count.min(length), length) {
            word[(from + place) / 8] ^= 1 << ((from + place) % 8);
        }
    }
    let answer = both_read(card, kept, &word);
    if damaged.iter().all(|&count| count <= kept.code().radius) {
        let all: usize = damaged.iter().sum();
        let read = answer.expect("at most t bits are damaged in each chunk");
        let off = (read.position as usize).abs_diff(position);
        assert!(off <= 2 * all);
        assert!(off <= all + read.residual as usize);
        let unlike = word_of(kept, read.position as usize).iter().zip(&word).map(|(a, b)| (a ^ b).count_ones()).sum();
        assert_eq!(read.residual, unlike);
        // a code chunk that the rule names was whole, so what it needed is what was damaged in it
        let counts = [1, 3].map(|chunk| Some(damaged[chunk] as u32));
        let expected = [counts[0].filter(|_| read.rule != 2), counts[1].filter(|_| read.rule != 1)];
        assert_eq!([read.chunk1_bits, read.chunk2_bits], expected);
    }
}

/// Everything that may be asked of one card.
fn both_answer(card: &[u8], random: &mut Random, rounds: usize) {
    let Some(kept) = both_check(card) else {
        every_call_refuses(card);
        return;
    };
    at_the_ends(card, &kept);
    for round in 0..rounds {
        let position = match round % 4 {
            // near a block's start, where rule 3 looks to both sides
            0 => (kept.start(random.below(kept.code().last_block() + 1)) + random.below(2 * kept.code().distance + 1))
                .saturating_sub(kept.code().distance)
                .min(kept.last()),
            _ => random.below(kept.last() + 1),
        };
        at_position(card, &kept, random, position);
        at_marks(card, &kept, random, position);
        at_the_yard(card, &kept, random, position);
    }
}

/// Trams of a day: a few numbers, so that many of them meet, and those at the ends.
fn any_tram(random: &mut Random) -> u16 {
    [random.below(60) as u16, u16::MAX - random.below(3) as u16][usize::from(random.below(8) == 0)]
}

/// A yard in which up to sixteen tracks are held, and up to 32 trams wait for these; flags, entries past the count and holders of
/// free tracks are anything. It is sound.
fn sound_yard(random: &mut Random) -> Yard {
    let mut numbers: [u16; YARD_NUMBERS] = [0; YARD_NUMBERS].map(|_: u16| any_tram(random));
    let trams = random.some_below(48, 60);
    let tracks = 1 + random.below(16);
    let held = random.some_below(tracks, 16);
    numbers[..16].fill(0);
    for (&track, &tram) in held.iter().zip(&trams) {
        numbers[track] = [1, 1, 2, 256, u16::MAX][random.below(5)];
        numbers[16 + track] = tram as u16;
    }
    let waiting = [0, 1, 2, 30, 31, 32, random.below(33)][random.below(7)];
    numbers[32] = waiting as u16;
    for (place, &tram) in trams[16..16 + waiting].iter().enumerate() {
        numbers[33 + place] = tram as u16;
        numbers[65 + place] = held[random.below(tracks)] as u16;
    }
    Yard::from_numbers(numbers)
}

/// The same with one of its numbers changed: mostly it has a tram twice, one that waits for a track that is free or isn't there,
/// or a count that is another.
fn changed_yard(random: &mut Random) -> Yard {
    let mut numbers = *sound_yard(random).numbers();
    match random.below(6) {
        0 => numbers[random.below(16)] ^= 1,
        1 => numbers[16 + random.below(16)] = any_tram(random),
        2 => numbers[32] = [random.below(33) as u16, 32, 33, 34, 256, u16::MAX][random.below(6)],
        3 => numbers[33 + random.below(32)] = any_tram(random),
        4 => numbers[65 + random.below(32)] = [0, 14, 15, 16, 30, 270, u16::MAX][random.below(7)],
        _ => numbers = numbers.map(|number| if random.below(8) == 0 { any_tram(random) } else { number }),
    }
    Yard::from_numbers(numbers)
}

/// A mark about a position less 10t, some of them at an end of the numbers of 32 bits.
fn near_mark(kept: &Kept, random: &mut Random, position: usize) -> u32 {
    let less = (position + random.below(4)).saturating_sub(10 * kept.code().radius + 2);
    [less, less, 0, u32::MAX as usize - random.below(10 * kept.code().radius + 2)][random.below(4)] as u32
}

/// Requests and releases in yards, by the word of a position and by noise, with marks about where it is clear. A card's track is
/// mostly one that a yard hasn't, so that the same card with another track is tried besides.
fn at_the_yard(card: &[u8], kept: &Kept, random: &mut Random, position: usize) {
    let mut here = card.to_vec();
    here[2..4].copy_from_slice(&(random.below(17) as u16).to_be_bytes());
    seal(&mut here);
    let there = Kept::new(decode(&here).unwrap());
    let noise: Vec<u8> = (0..kept.code().bytes()).map(|_| random.next() as u8).collect();
    for mut yard in [sound_yard(random), changed_yard(random)] {
        let holder = yard.holder(there.code().track).unwrap_or(any_tram(random));
        for word in [&word_of(kept, position), &noise, &noise[1..].to_vec()] {
            let mark = near_mark(kept, random, position);
            let tram = [holder, holder, any_tram(random)][random.below(3)];
            let _ = both_release(&mut yard.clone(), tram, word, mark, card, kept);
            let _ = both_release(&mut yard.clone(), tram, word, mark, &here, &there);
        }
        let track = [random.below(17) as u32, random.below(16) as u32, random.next() as u32][random.below(3)];
        let _ = both_request(&mut yard, any_tram(random), track);
    }
}

/// A refused card is refused alike by every call, and no lent byte is changed.
fn every_call_refuses(card: &[u8]) {
    let refusal = check_card(card).err();
    let mut word = [0xaa; 2];
    assert_eq!(write_word(card, 0, &mut word).err(), refusal);
    assert_eq!(word, [0xaa; 2]);
    assert_eq!(read_word(card, &[0, 0]).err(), refusal);
    assert_eq!(read_levels(card, &[f32::NAN; 15]).err(), refusal);
    assert_eq!(block_start(card, 0).err(), refusal);
    assert_eq!(millimetres(card, 0).err(), refusal);
    // more than 64 trams, each with low above high, and marks past the last position
    let trams = [Stretch { low: 1, high: 0 }; 65];
    assert_eq!(trams_crossing(card, &trams, u32::MAX).err(), refusal);
    assert_eq!(trams_within(card, &trams, u32::MAX, 0).err(), refusal);
    assert_eq!(nearest_tram(card, &trams, u32::MAX).err(), refusal);
    // a yard that is refused itself
    let mut yard = Yard::from_numbers([33; YARD_NUMBERS]);
    assert_eq!(yard.release(0, &[0], 0, card).err(), refusal);
    assert_eq!(yard.numbers(), &[33; YARD_NUMBERS]);
}

/// Blocks and positions at the ends of what there is and past them, and words of other lengths.
fn at_the_ends(card: &[u8], kept: &Kept) {
    let (last, top, bytes) = (kept.last(), kept.code().last_block(), kept.code().bytes());
    for block in [0, 1, top / 2, top, top + 1, u32::MAX as usize] {
        assert_eq!(number(block_start(card, block as u32)), baseline::block_start(kept, block as u32));
    }
    for position in [0, 1, last / 2, last, last + 1, u32::MAX as usize] {
        assert_eq!(number(millimetres(card, position as u32)), baseline::millimetres(kept, position as u32));
        both_write(card, kept, position, bytes);
    }
    for lent in [0, bytes - 1, bytes + 1, 41, 512] {
        both_write(card, kept, 0, lent);
        both_write(card, kept, last + 1, lent);
        both_read(card, kept, &vec![0; lent]).unwrap_err();
    }
    for count in [0, 1, kept.code().bits() - 1, kept.code().bits() + 1, 320, 321] {
        both_read_levels(card, kept, &vec![1.0; count]);
        both_read_levels(card, kept, &vec![f32::NAN; count]);
    }
    let last = last as u32;
    for (low, high) in [(0, 0), (0, last), (last, last), (last, 0), (0, last + 1), (last + 1, last + 1), (0, u32::MAX)] {
        for count in [0, 1, 64, 65, 66, 200] {
            both_search(card, kept, &vec![Stretch { low, high }; count], [0, last]);
            both_search(card, kept, &vec![Stretch { low, high }; count], [last + 1, u32::MAX]);
        }
    }
}

/// Trams and marks about a position, a few steps from it or from where stretches that end there are widened to, so that many are at
/// the same distance and many marks at an end; then a mark about the last position; then a stretch that isn't from low to high on the
/// track.
fn at_marks(card: &[u8], kept: &Kept, random: &mut Random, position: usize) {
    let (last, reach) = (kept.last(), 10 * kept.code().radius);
    let near = |random: &mut Random| {
        let from = position + [0, reach, 2 * reach, random.below(last + 1)][random.below(4)] + random.below(5);
        (from.saturating_sub([2, 2 + reach, 2 + 2 * reach][random.below(3)])).min(last) as u32
    };
    let count = [0, 1, 2, 3, 8, 63, 64, 65, 1 + random.below(64)][random.below(9)];
    let mut trams = Vec::new();
    for _ in 0..count {
        let (one, other) = (near(random), near(random));
        trams.push(Stretch { low: one.min(other), high: one.max(other) });
    }
    let marks = [near(random), near(random)];
    both_search(card, kept, &trams, marks);
    both_search(card, kept, &trams, [near(random), last as u32 + random.below(3) as u32]);
    if count > 0 {
        let tram = &mut trams[random.below(count)];
        *tram = match random.below(3) {
            0 => Stretch { low: tram.high + 1, high: tram.high },
            1 => Stretch { low: tram.low, high: last as u32 + 1 },
            _ => Stretch { low: random.next() as u32, high: random.next() as u32 },
        };
        both_search(card, kept, &trams, marks);
    }
}

/// A word's bits as levels: of magnitude 1, the same with some erased, these of many magnitudes, and then one outside the limits.
fn at_levels(card: &[u8], kept: &Kept, random: &mut Random, word: &[u8]) {
    let code = kept.code();
    let sign = |place: usize| if word[place / 8] >> (place % 8) & 1 == 1 { -1.0 } else { 1.0 };
    let mut levels: Vec<f32> = (0..code.bits()).map(sign).collect();
    both_read_levels(card, kept, &levels);
    for (from, length) in code.chunks() {
        let erased = random.below(code.distance + 1);
        for place in random.some_below(erased, length) {
            levels[from + place] = [0.0, -0.0][random.below(2)];
        }
    }
    both_read_levels(card, kept, &levels);
    let magnitudes = [1e6, 999_999.94, 0.03, 0.04, 1.0, 1e-7, f32::MIN_POSITIVE, f32::from_bits(1)];
    for level in &mut levels {
        *level *= magnitudes[random.below(8)];
    }
    both_read_levels(card, kept, &levels);
    let outside = [f32::NAN, -f32::NAN, f32::INFINITY, f32::NEG_INFINITY, 1_000_000.06, -1_000_000.06];
    levels[random.below(code.bits())] = outside[random.below(6)];
    both_read_levels(card, kept, &levels);
}

/// The word of a position, undamaged and damaged within the radius and beyond, and noise.
fn at_position(card: &[u8], kept: &Kept, random: &mut Random, position: usize) {
    let code = kept.code();
    both_write(card, kept, position, code.bytes());
    let undamaged = word_of(kept, position);
    assert_eq!(both_read(card, kept, &undamaged).unwrap().position as usize, position);
    let within = [0; 5].map(|_: usize| random.below(code.radius + 1));
    both_read_damaged(card, kept, random, position, within);
    both_read_damaged(card, kept, random, position, [code.radius; 5]);
    // just past the radius in one chunk, then anything
    let mut past = within;
    past[random.below(5)] = code.radius + 1;
    both_read_damaged(card, kept, random, position, past);
    let anything = code.chunks().map(|(_, length)| random.below(length + 1));
    both_read_damaged(card, kept, random, position, anything);
    let mut damaged = undamaged.clone();
    let place = random.below(code.bits());
    damaged[place / 8] ^= 1 << (place % 8);
    at_levels(card, kept, random, &undamaged);
    at_levels(card, kept, random, &damaged);
    // noise over all the bytes, spare bits too
    let noise: Vec<u8> = undamaged.iter().map(|_| random.next() as u8).collect();
    let _ = both_read(card, kept, &noise);
    at_levels(card, kept, random, &noise);
    if code.bits() % 8 != 0 {
        let mut spare = undamaged;
        let place = code.bits() + random.below(8 * spare.len() - code.bits());
        spare[place / 8] |= 1 << (place % 8);
        assert_eq!(both_read(card, kept, &spare), Err(8));
    }
}

/// An offset within its range: an end of it, one near 0, or any.
fn any_offset(random: &mut Random) -> i32 {
    match random.below(4) {
        0 => [-20_000, 20_000][random.below(2)],
        1 => random.below(601) as i32 - 300,
        _ => random.below(40_001) as i32 - 20_000,
    }
}

/// k rows below 2^n that have no pattern.
fn any_rows(random: &mut Random, n: usize, k: usize) -> Vec<u64> {
    (0..k).map(|_| random.next() >> (64 - n)).collect()
}

/// k independent rows below 2^n: the lowest k bits of row z are 2^z, before the rows are mixed.
fn independent_rows(random: &mut Random, n: usize, k: usize) -> Vec<u64> {
    let mut rows: Vec<u64> = any_rows(random, n, k).into_iter().enumerate().map(|(z, row)| row >> k << k | 1 << z).collect();
    for _ in 0..2 * k {
        let (to, from) = (random.below(k), random.below(k));
        if to != from {
            rows[to] ^= rows[from];
        }
    }
    rows
}

#[test]
fn every_shape() {
    let mut random = Random(1);
    for n in 1..=64 {
        for k in 1..=n.min(12) {
            let rows = independent_rows(&mut random, n, k);
            let card = offset_card(any_offset(&mut random), n as u8, k as u8, random.next() as u16, &rows);
            assert!(check_card(&card).is_ok());
            both_answer(&card, &mut random, if k < 8 { 30 } else { 3 });
        }
    }
}

#[test]
fn small_codes_of_random_rows() {
    let mut random = Random(2);
    for _ in 0..2500 {
        let n = 1 + random.below(16);
        let k = 1 + random.below(n.min(5));
        let rows = any_rows(&mut random, n, k);
        let offset = any_offset(&mut random);
        both_answer(&offset_card(offset, n as u8, k as u8, random.next() as u16, &rows), &mut random, 8);
    }
}

#[test]
fn codes_of_great_distance() {
    let mut random = Random(3);
    // repetition: D is n
    for n in [1, 2, 3, 5, 8, 31, 32, 33, 63, 64] {
        both_answer(&card_of(n, 1, 14, &[u64::MAX >> (64 - n)]), &mut random, 60);
    }
    for m in 2..=6 {
        let rows = reed_muller(1, m);
        let card = card_of(1 << m, rows.len() as u8, 7, &rows);
        assert_eq!(check_card(&card).unwrap().distance, 1 << (m - 1));
        both_answer(&card, &mut random, 40);
    }
    let card = card_of(24, 12, 3, &golay());
    assert_eq!(check_card(&card).unwrap().distance, 8);
    both_answer(&card, &mut random, 12);
    // d a multiple of 8: no spare bit
    let card = card_of(5, 4, 3, &[3, 6, 12, 24]);
    assert_eq!(check_card(&card).unwrap().word_bits, 16);
    both_answer(&card, &mut random, 40);
}

/// What votes answer is what a search through all codewords does.
fn both_vote(r: u32, m: u32, kept: &Kept, chunk: u64) {
    let expected = kept.find(chunk).map(|found| (found.number as u32, found.bits)).ok_or(10);
    assert_eq!(number(vote_chunk(r, m, chunk)).map(|vote| (vote.number, vote.bits)), expected, "r {r} m {m} chunk {chunk:x}");
}

#[test]
fn made_cards_and_votes() {
    let mut random = Random(6);
    for (r, m) in (1..=6).flat_map(|m| (0..=m).map(move |r| (r, m))) {
        let (rows, track) = (reed_muller(r, m), random.next() as u16);
        if rows.len() > 12 {
            assert_eq!(make_card(track, r, m), Err(Refusal::CodeLimits));
            continue;
        }
        let card = make_card(track, r, m).unwrap();
        assert_eq!(card[..], card_of(1 << m, rows.len() as u8, track, &rows));
        let kept = both_check(&card).unwrap();
        let Code { n, radius, .. } = *kept.code();
        for _ in 0..400 {
            // a codeword with up to t + 2 bits damaged, then noise
            let codeword = kept.codeword(random.below(kept.code().last_block() + 1));
            let damaged = random.below(radius + 3);
            let places = random.some_below(damaged.min(n), n);
            both_vote(r, m, &kept, places.into_iter().fold(codeword, |chunk, place| chunk ^ 1 << place));
            both_vote(r, m, &kept, random.next() >> (64 - n));
        }
        both_answer(&card, &mut random, 10);
    }
}

#[test]
fn every_word_and_every_position_of_small_cards() {
    for (n, rows) in
        [(1, &[1u64][..]), (2, &[3]), (2, &[1, 2]), (3, &[7]), (3, &[3, 6]), (3, &[7, 3]), (3, &[1, 2, 4]), (4, &[15])]
    {
        let card = card_of(n, rows.len() as u8, 1, rows);
        let kept = both_check(&card).unwrap();
        let bytes = kept.code().bytes();
        for position in 0..=kept.last() + 1 {
            both_write(&card, &kept, position, bytes);
        }
        for bits in 0u32..1 << (8 * bytes).min(16) {
            let received = bits.to_le_bytes();
            let mut received = received[..bytes.min(2)].to_vec();
            received.resize(bytes, 0);
            let _ = both_read(&card, &kept, &received);
        }
    }
}

#[test]
fn cards_that_are_not_sound() {
    let mut random = Random(5);
    for round in 0..4000 {
        let n = 1 + random.below(64);
        let k = 1 + random.below(n.min(12)).min(6);
        let rows = independent_rows(&mut random, n, k);
        let mut card = card_of(n as u8, k as u8, random.next() as u16, &rows);
        match round % 8 {
            // any byte of any value, the check kept or made right again
            0 => card[random.below(512)] = random.next() as u8,
            1 => {
                card[random.below(510)] = random.next() as u8;
                seal(&mut card);
            }
            // n and k at and around their limits
            2 => {
                card[0] = [0, 1, 2, 12, 63, 64, 65, 255][random.below(8)];
                card[1] = [0, 1, 2, 11, 12, 13, 255][random.below(7)];
                seal(&mut card);
            }
            // one bit anywhere in the rows or behind them
            3 => {
                card[4 + random.below(506)] ^= 1 << random.below(8);
                seal(&mut card);
            }
            // rows that depend on each other
            4 => {
                let mut rows = rows.clone();
                let (to, from) = (random.below(k), random.below(k));
                rows[to] = if to == from { 0 } else { rows[from] };
                let offset = [0, -20_000, 20_001][random.below(3)];
                card = offset_card(offset, n as u8, k as u8, 9, &rows);
            }
            // an offset around the ends of its range, with a stray bit behind it now and then
            5 => {
                let past = random.below(5) as i32 - 2;
                card = offset_card([-20_000, 20_000][random.below(2)] + past, n as u8, k as u8, 9, &rows);
                card[104] = [0, 0, 0, 1][random.below(4)];
                seal(&mut card);
            }
            // any of its bytes of any value
            6 => {
                card[100 + random.below(4)] = random.next() as u8;
                card[100 + random.below(4)] = random.next() as u8;
                seal(&mut card);
            }
            _ => card.truncate(random.below(512)),
        }
        both_answer(&card, &mut random, 1);
    }
}

/// What is answered, for a count: served as the request or release says, or the number of the refusal.
fn kind_of<T: std::fmt::Debug>(answer: Result<T, u32>) -> String {
    let text = answer.map_or_else(|refusal| refusal.to_string(), |answer| format!("{answer:?}"));
    text.split('(').next().unwrap().to_string()
}

#[test]
fn yards_of_every_kind() {
    let mut random = Random(9);
    let mut met = BTreeMap::new();
    let cards: Vec<Vec<u8>> = [0, 3, 14, 15, 16].into_iter().map(|track| card_of(3, 1, track, &[7])).collect();
    let kept: Vec<Kept> = cards.iter().map(|card| Kept::new(decode(card).unwrap())).collect();
    for round in 0..60_000 {
        let mut yard = if round % 2 == 0 { sound_yard(&mut random) } else { changed_yard(&mut random) };
        let which = random.below(cards.len());
        let tram = yard.holder(kept[which].code().track).filter(|_| random.below(4) != 0).unwrap_or(any_tram(&mut random));
        let position = 9 + random.below(7);
        let word = word_of(&kept[which], position);
        let mark = near_mark(&kept[which], &mut random, position);
        let answer = both_release(&mut yard.clone(), tram, &word, mark, &cards[which], &kept[which]);
        *met.entry(kind_of(answer)).or_insert(0) += 1;
        let answer = both_request(&mut yard, any_tram(&mut random), random.below(17) as u32);
        *met.entry(kind_of(answer)).or_insert(0) += 1;
    }
    for kind in ["Holds", "Waits", "NotClear", "Freed", "HandedTo", "20", "21", "22", "26"] {
        assert!(met.get(kind).map_or(false, |&count| count >= 500), "{kind}: {met:?}");
    }
}

#[test]
fn days_from_the_empty_yard() {
    let mut random = Random(10);
    let cards: Vec<Vec<u8>> = (0..17).map(|track| card_of(3, 1, track, &[7])).collect();
    let kept: Vec<Kept> = cards.iter().map(|card| Kept::new(decode(card).unwrap())).collect();
    for day in 0..100 {
        // on some days few tracks, so that many trams wait, and on all of them more trams than find a place
        let tracks = [1, 2, 5, 16][day % 4];
        let mut yard = Yard::empty();
        let mut met = BTreeMap::new();
        for _ in 0..400 {
            let track = [random.below(tracks), random.below(17)][usize::from(random.below(20) == 0)];
            let tram = random.below(60) as u16;
            let answer = kind_of(both_request(&mut yard, tram, track as u32));
            *met.entry(answer).or_insert(0) += 1;
            if random.below(3) == 0 {
                let holder = yard.holder(track as u32).filter(|_| random.below(8) != 0).unwrap_or(tram);
                let word = word_of(&kept[track], 15 - random.below(2));
                let mark = 3 + random.below(3) as u32;
                let answer = kind_of(both_release(&mut yard, holder, &word, mark, &cards[track], &kept[track]));
                *met.entry(answer).or_insert(0) += 1;
            }
        }
        assert_eq!(met.get("26"), None);
        for kind in ["Holds", "Waits", "NotClear", "HandedTo", "21", "22"] {
            assert!(met.contains_key(kind), "{kind} on day {day}: {met:?}");
        }
    }
}

#[test]
fn the_check_is_compared_as_a_number() {
    // a card whose right check is below 15: the same number and 65,521 is another stored check
    let mut card = vec![0; 512];
    seal(&mut card);
    assert_eq!(check_card(&card), Err(Refusal::CardLimits));
    card[510..].copy_from_slice(&65_521u16.to_be_bytes());
    assert_eq!(check_card(&card), Err(Refusal::CardCheck));
    both_check(&card);
}
