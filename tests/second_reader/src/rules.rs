//! The reading rules: the rule that a received word's separators name, the positions that it allows, whether the separators bear out
//! the codeword, and the nearest of these positions.
//!
//! A plain word and a word of levels share them. How a separator and a code chunk read and which places differ, each kind of
//! received bits says for itself.
use crate::code::Code;
use crate::reading::Reading;
use crate::track::Track;
use crate::walk::Walk;
use crate::Refusal;
use std::ops::RangeInclusive;

/// Received bits: those of a separator, of a code chunk or of a whole word.
pub trait Received {
    /// What a separator of these bits reads.
    fn separator(&self) -> bool;

    /// What a code chunk of these bits reads as: the number p of its codeword, if there is one, and in how many places c(p)
    /// differs from it.
    fn code_chunk(&self, code: &Code) -> Option<(usize, usize)>;

    /// In how many places a position's word differs from a received word of these bits.
    fn unlike(&self, word: &[bool]) -> usize;
}

/// What the reading rules leave: the rule, the number p that its chunks read, the positions that it allows, and the bits of the
/// chunks that it names.
struct Allowed {
    rule: u32,
    p: usize,
    positions: RangeInclusive<u32>,
    chunk1_bits: Option<u32>,
    chunk2_bits: Option<u32>,
}

/// Reads the d received bits of a word of a walk's track. The search sets out from where the walk stands.
pub fn read<Bit>(walk: &Walk, received: &[Bit]) -> Result<Reading, Refusal>
where
    [Bit]: Received,
{
    let Allowed { rule, positions, chunk1_bits, chunk2_bits, .. } = allowed(walk.track, received)?;
    let (residual, position) = nearest(walk.clone(), positions, received);
    Ok(Reading { position, residual, rule, chunk1_bits, chunk2_bits })
}

/// The allowed positions of a received word, by the rule that its separators name, and the bits of the chunks that it names. The
/// refusals are 9 to 12, then request P6's 17: w(p) has the parity of p in its separators, so separator 1 by rules 1 and 3, and
/// separator 3 by rule 2, must be that parity.
fn allowed<Bit>(track: &Track, received: &[Bit]) -> Result<Allowed, Refusal>
where
    [Bit]: Received,
{
    let code = &track.card.code;
    let [separator_1, chunk_1, separator_2, chunk_2, separator_3] = code.chunks().map(|places| &received[places]);
    let read = |chunk: &[Bit]| chunk.code_chunk(code).ok_or(10u32);
    let (separator, allowed) = match [separator_1, separator_2, separator_3].map(Received::separator) {
        [a, b, c] if a == b && b == c => (a, rule_3(track, read(chunk_1)?, read(chunk_2)?)?),
        [a, b, _] if a == b => (a, rule_1(track, read(chunk_1)?)?),
        [_, b, c] if b == c => (c, rule_2(track, read(chunk_2)?)?),
        _ => return Err(9),
    };
    if separator == (allowed.p % 2 == 1) {
        Ok(allowed)
    } else {
        Err(17)
    }
}

/// Rule 1, b b c: chunk 1 reads p, with so many bits that differ from c(p); allowed are r(p-1) + D + A(p-1) to r(p).
fn rule_1(track: &Track, (p, bits): (usize, usize)) -> Result<Allowed, Refusal> {
    if p == 0 {
        return Err(12);
    }
    let code = &track.card.code;
    let before = code.distance + code.step_weight(p - 1);
    let positions = track.starts[p - 1] + before as u32..=track.starts[p];
    Ok(Allowed { rule: 1, p, positions, chunk1_bits: Some(bits as u32), chunk2_bits: None })
}

/// Rule 2, b c c: chunk 2 reads p, with so many bits that differ from c(p); allowed are r(p) to r(p) + 2D + A(p).
fn rule_2(track: &Track, (p, bits): (usize, usize)) -> Result<Allowed, Refusal> {
    let code = &track.card.code;
    if p == code.codewords() - 1 {
        return Err(12);
    }
    let after = 2 * code.distance + code.step_weight(p);
    let positions = track.starts[p]..=track.starts[p] + after as u32;
    Ok(Allowed { rule: 2, p, positions, chunk1_bits: None, chunk2_bits: Some(bits as u32) })
}

/// Rule 3, b b b: both chunks read the same p, each with its own bits that differ from c(p); allowed are r(p) - D to r(p) + D, cut
/// to 0 and the last position.
fn rule_3(track: &Track, (p, bits_1): (usize, usize), (other, bits_2): (usize, usize)) -> Result<Allowed, Refusal> {
    if p != other {
        return Err(11);
    }
    let (start, distance) = (track.starts[p], track.card.code.distance as u32);
    let positions = start.saturating_sub(distance)..=track.last().min(start + distance);
    Ok(Allowed { rule: 3, p, positions, chunk1_bits: Some(bits_1 as u32), chunk2_bits: Some(bits_2 as u32) })
}

/// The residual and the position of the nearest of these positions, the smallest on a tie: each is tried with its full word.
fn nearest<Bit>(mut walk: Walk, positions: RangeInclusive<u32>, received: &[Bit]) -> (u32, u32)
where
    [Bit]: Received,
{
    let tried = positions.map(|position| {
        walk.go_to(position);
        (received.unlike(&walk.word) as u32, position)
    });
    tried.min().expect("every rule allows some position")
}
