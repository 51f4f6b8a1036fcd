//! Document 01's rules, P2's offset, P3's counts of the code chunks, P5's levels, P6's parity and P8's trams, in straightforward Rust,
//! written apart from the library, with words as five 64-bit numbers and counts by `count_ones`: the baseline of the benchmark, and
//! what the tests of the Rust crate hold the library against. `Kept` holds every codeword and start of a card that was decoded once.
//! plain_yard.rs has P9's yard.

/// A word: place p is bit p % 64 of number p / 64.
pub type Word = [u64; 5];

/// A sound card's code, and beside it the track and the offset in millimetres.
#[derive(Clone, Copy)]
pub struct Code {
    pub n: usize,
    pub k: usize,
    pub track: u32,
    pub offset: i32,
    pub distance: usize,
    pub radius: usize,
    pub rows: [u64; 12],
}

/// What a received word reads as.
#[derive(Clone, Copy, Debug, PartialEq, Eq)]
pub struct Read {
    pub position: u32,
    pub residual: u32,
    pub rule: u32,
    /// In how many bits each code chunk and the codeword that it reads as differ; none of a chunk that the rule doesn't name.
    pub chunk1_bits: Option<u32>,
    pub chunk2_bits: Option<u32>,
}

/// The receiver's strength in a word of levels: the sum of their magnitudes, and the greatest.
#[derive(Clone, Copy, Debug, PartialEq)]
pub struct Strength {
    pub sum: f32,
    pub greatest: f32,
}

/// A tram's stretch of the track, or a pair of marks: from a low to a high position.
#[derive(Clone, Copy)]
pub struct Stretch {
    pub low: u32,
    pub high: u32,
}

/// The codeword that a chunk reads as: its number, and in how many bits the two differ.
#[derive(Clone, Copy)]
pub struct Found {
    pub number: usize,
    pub bits: u32,
}

/// A card's code, or the number of its refusal.
pub fn decode(card: &[u8]) -> Result<Code, u32> {
    if card.len() != 512 {
        return Err(1);
    }
    let sum: u32 = card[..510].iter().zip(1..).map(|(&byte, place)| byte as u32 * place).sum();
    if u32::from(u16::from_be_bytes([card[510], card[511]])) != sum % 65_521 {
        return Err(2);
    }
    let (n, k) = (card[0] as usize, card[1] as usize);
    if !(1..=64).contains(&n) || !(1..=12).contains(&k) || k > n {
        return Err(3);
    }
    let mut rows = [0; 12];
    for (z, row) in rows.iter_mut().enumerate() {
        *row = u64::from_be_bytes(card[4 + 8 * z..12 + 8 * z].try_into().unwrap());
    }
    let outside = if n == 64 { 0 } else { u64::MAX << n };
    if rows.iter().any(|row| row & outside != 0)
        || rows[k..].iter().any(|&row| row != 0)
        || card[104..510].iter().any(|&byte| byte != 0)
    {
        return Err(4);
    }
    let offset = i32::from_be_bytes(card[100..104].try_into().unwrap());
    if !(-20_000..=20_000).contains(&offset) {
        return Err(14);
    }
    let mut distance = u32::MAX;
    let mut word = 0u64;
    for i in 1u32..1 << k {
        word ^= rows[i.trailing_zeros() as usize];
        distance = distance.min(word.count_ones());
    }
    if distance == 0 {
        return Err(5);
    }
    let distance = distance as usize;
    let track = u32::from(card[2]) * 256 + u32::from(card[3]);
    Ok(Code { n, k, track, offset, distance, radius: (distance - 1) / 2, rows })
}

impl Code {
    /// d, the bits of a word.
    pub fn bits(&self) -> usize {
        2 * self.n + 3 * self.distance
    }

    /// The bytes of a word.
    pub fn bytes(&self) -> usize {
        (self.bits() + 7) / 8
    }

    /// The number of the last codeword, 2^k - 1.
    pub fn last_block(&self) -> usize {
        (1 << self.k) - 1
    }

    /// A(i), the weight of the row in which c(i) and c(i+1) differ.
    fn changed(&self, i: usize) -> usize {
        self.rows[(i + 1).trailing_zeros() as usize].count_ones() as usize
    }

    /// c(i)
    pub fn codeword(&self, i: usize) -> u64 {
        let gray = i ^ (i / 2);
        (0..self.k).filter(|z| gray >> z & 1 == 1).fold(0, |sum, z| sum ^ self.rows[z])
    }

    /// r(i)
    pub fn start(&self, i: usize) -> usize {
        let turns: usize = (0..self.k).map(|z| self.rows[z].count_ones() as usize * ((i + (1 << z)) >> (z + 1))).sum();
        3 * self.distance * i + 2 * turns
    }

    /// The five chunks of a word: their first place and their length.
    pub fn chunks(&self) -> [(usize, usize); 5] {
        let (n, d) = (self.n, self.distance);
        [(0, d), (d, n), (d + n, d), (2 * d + n, n), (2 * d + 2 * n, d)]
    }

    /// w(i), where `codeword` is c(i) and `parity` that of i.
    #[inline(always)]
    fn word(&self, codeword: u64, parity: bool) -> Word {
        let mut word = [0; 5];
        let separator = if parity { u64::MAX } else { 0 };
        let [s1, c1, s2, c2, s3] = self.chunks();
        put(&mut word, s1, separator);
        put(&mut word, c1, codeword);
        put(&mut word, s2, separator);
        put(&mut word, c2, codeword);
        put(&mut word, s3, separator);
        word
    }
}

/// The `length` lowest bits set, 1 to 64.
fn low(length: usize) -> u64 {
    u64::MAX >> (64 - length)
}

/// Puts the `length` lowest bits of `bits`, 1 to 64, into a word from place `at` on, where it is zero.
fn put(word: &mut Word, (at, length): (usize, usize), bits: u64) {
    let bits = bits & low(length);
    word[at / 64] |= bits << (at % 64);
    if at % 64 + length > 64 {
        word[at / 64 + 1] |= bits >> (64 - at % 64);
    }
}

/// The `length` bits, 1 to 64, of a word from place `at` on.
fn get(word: &Word, at: usize, length: usize) -> u64 {
    let mut bits = word[at / 64] >> (at % 64);
    if at % 64 + length > 64 {
        bits |= word[at / 64 + 1] << (64 - at % 64);
    }
    bits & low(length)
}

/// The order of a code: its codewords, its starts and its chunk search.
pub trait Order {
    fn code(&self) -> &Code;
    fn codeword(&self, i: usize) -> u64;
    fn start(&self, i: usize) -> usize;
    /// The greatest block whose start is at most the position.
    fn block_of(&self, position: usize) -> usize;
    /// The codeword within the radius of a chunk.
    fn find(&self, chunk: u64) -> Option<Found>;
    /// The codeword that differs from a chunk in at most `most` of the unerased bits.
    fn find_unerased(&self, chunk: u64, unerased: u64, most: u32) -> Option<Found>;
    /// The last position.
    fn last(&self) -> usize {
        self.start(self.code().last_block())
    }
}

/// Every codeword and start, made once.
pub struct Kept {
    code: Code,
    codewords: Vec<u64>,
    starts: Vec<u32>,
}

impl Kept {
    pub fn new(code: Code) -> Kept {
        let all = 0..1usize << code.k;
        let codewords = all.clone().map(|i| code.codeword(i)).collect();
        let starts = all.map(|i| code.start(i) as u32).collect();
        Kept { code, codewords, starts }
    }
}

impl Order for Kept {
    fn code(&self) -> &Code {
        &self.code
    }
    fn codeword(&self, i: usize) -> u64 {
        self.codewords[i]
    }
    fn start(&self, i: usize) -> usize {
        self.starts[i] as usize
    }
    fn block_of(&self, position: usize) -> usize {
        self.starts.partition_point(|&start| start as usize <= position) - 1
    }
    fn find(&self, chunk: u64) -> Option<Found> {
        let radius = self.code.radius as u32;
        let number = self.codewords.iter().position(|codeword| (codeword ^ chunk).count_ones() <= radius)?;
        Some(Found { number, bits: (self.codewords[number] ^ chunk).count_ones() })
    }
    fn find_unerased(&self, chunk: u64, unerased: u64, most: u32) -> Option<Found> {
        let number = self.codewords.iter().position(|codeword| ((codeword ^ chunk) & unerased).count_ones() <= most)?;
        Some(Found { number, bits: ((self.codewords[number] ^ chunk) & unerased).count_ones() })
    }
}

/// Writes the word of a position into the lent bytes.
pub fn write(order: &impl Order, position: u32, lent: &mut [u8]) -> Result<(), u32> {
    let code = order.code();
    if lent.len() != code.bytes() {
        return Err(6);
    }
    let position = position as usize;
    if position > order.last() {
        return Err(7);
    }
    let block = order.block_of(position);
    let mut steps = (position - order.start(block)) as u32;
    let mut word = code.word(order.codeword(block), block % 2 == 1);
    if steps > 0 {
        let next = code.word(order.codeword(block + 1), block % 2 == 0);
        for (bits, next) in word.iter_mut().zip(next) {
            let differing = *bits ^ next;
            let count = differing.count_ones();
            if count <= steps {
                *bits = next;
                steps -= count;
            } else {
                let mut left = differing;
                for _ in 0..steps {
                    left &= left - 1;
                }
                *bits ^= differing ^ left;
                break;
            }
        }
    }
    for (bytes, bits) in lent.chunks_mut(8).zip(word) {
        let length = bytes.len();
        bytes.copy_from_slice(&bits.to_le_bytes()[..length]);
    }
    Ok(())
}

/// The start of a block.
pub fn block_start(order: &impl Order, block: u32) -> Result<u32, u32> {
    if block as usize > order.code().last_block() {
        return Err(7);
    }
    Ok(order.start(block as usize) as u32)
}

/// The distance of a position from the buffer face, in millimetres.
pub fn millimetres(order: &impl Order, position: u32) -> Result<i32, u32> {
    if position as usize > order.last() {
        return Err(7);
    }
    Ok(order.code().offset + 50 * position as i32)
}

/// The trams' stretches, each widened by 10t at both ends and cut to 0 and the last position. Before that there must be at most 64,
/// and they and the marks must go from low to high on the track.
fn widened<'a>(order: &impl Order, trams: &'a [Stretch], marks: Stretch) -> Result<impl Iterator<Item = Stretch> + 'a, u32> {
    if trams.len() > 64 {
        return Err(18);
    }
    let (last, reach) = (order.last() as u32, 10 * order.code().radius as u32);
    let off_the_track = |stretch: &Stretch| stretch.low > stretch.high || stretch.high > last;
    if trams.iter().any(off_the_track) || off_the_track(&marks) {
        return Err(19);
    }
    Ok(trams.iter().map(move |tram| Stretch { low: tram.low.saturating_sub(reach), high: last.min(tram.high + reach) }))
}

/// Which trams cross a mark.
pub fn trams_crossing(order: &impl Order, trams: &[Stretch], mark: u32) -> Result<Vec<bool>, u32> {
    let trams = widened(order, trams, Stretch { low: mark, high: mark })?;
    Ok(trams.map(|tram| tram.low <= mark && mark <= tram.high).collect())
}

/// Which trams are wholly within two marks.
pub fn trams_within(order: &impl Order, trams: &[Stretch], first: u32, second: u32) -> Result<Vec<bool>, u32> {
    let trams = widened(order, trams, Stretch { low: first, high: second })?;
    Ok(trams.map(|tram| first <= tram.low && tram.high <= second).collect())
}

/// The place of the tram nearest to a mark: of the least distance, then of the smallest low, then the earliest.
pub fn nearest_tram(order: &impl Order, trams: &[Stretch], mark: u32) -> Result<Option<usize>, u32> {
    let trams = widened(order, trams, Stretch { low: mark, high: mark })?;
    let mut best: Option<(u32, u32, usize)> = None;
    for (place, tram) in trams.enumerate() {
        // at most one of the two is above zero
        let distance = tram.low.saturating_sub(mark) + mark.saturating_sub(tram.high);
        if best.map_or(true, |(least, low, _)| distance < least || distance == least && tram.low < low) {
            best = Some((distance, tram.low, place));
        }
    }
    Ok(best.map(|(_, _, place)| place))
}

/// A position and its residual.
struct Near {
    residual: u32,
    position: usize,
}

impl Near {
    /// The answer of a word that was read by a rule, with the bits of the code chunks that it names.
    fn read(self, rule: u32, chunk1_bits: Option<u32>, chunk2_bits: Option<u32>) -> Read {
        Read { position: self.position as u32, residual: self.residual, rule, chunk1_bits, chunk2_bits }
    }
}

/// A received word: its bits, and what its code chunks read as.
trait Received {
    /// Numbers 0 to 4 of its bits.
    fn bits(&self, part: usize) -> u64;
    /// In the same numbers, which of the bits are erased.
    fn erased(&self, part: usize) -> u64;
    /// The codeword that the n bits from place `at` on read as.
    fn find(&self, order: &impl Order, at: usize) -> Option<Found>;
}

/// A plain word: no bit is erased.
impl Received for Word {
    fn bits(&self, part: usize) -> u64 {
        self[part]
    }
    fn erased(&self, _: usize) -> u64 {
        0
    }
    fn find(&self, order: &impl Order, at: usize) -> Option<Found> {
        order.find(get(self, at, order.code().n))
    }
}

/// A word of levels.
struct LevelWord {
    bits: Word,
    erased: Word,
}

impl Received for LevelWord {
    fn bits(&self, part: usize) -> u64 {
        self.bits[part]
    }
    fn erased(&self, part: usize) -> u64 {
        self.erased[part]
    }
    /// 2 × wrong + erased is below D, so that wrong is at most half of D - 1 - erased.
    fn find(&self, order: &impl Order, at: usize) -> Option<Found> {
        let Code { n, distance, .. } = *order.code();
        let erased = get(&self.erased, at, n);
        let most = (distance - 1).checked_sub(erased.count_ones() as usize)? / 2;
        order.find_unerased(get(&self.bits, at, n), !erased, most as u32)
    }
}

/// The positions from `low` to `high`, which stand in this block or at its end: the one nearest to the received word, the
/// smallest on a tie.
fn nearest_in_block(order: &impl Order, block: usize, low: usize, high: usize, received: &impl Received) -> Near {
    let code = order.code();
    let from = code.word(order.codeword(block), block % 2 == 1);
    let mut residual: u32 = (0..5).map(|part| ((from[part] ^ received.bits(part)) & !received.erased(part)).count_ones()).sum();
    let mut position = order.start(block);
    let mut best = Near { residual: if position >= low { residual } else { u32::MAX }, position };
    if position == high {
        return best;
    }
    let to = code.word(order.codeword(block + 1), block % 2 == 0);
    for part in 0..5 {
        let mut differing = from[part] ^ to[part];
        let (unlike, erased) = (from[part] ^ received.bits(part), received.erased(part));
        while differing != 0 {
            let place = differing & differing.wrapping_neg();
            differing ^= place;
            if erased & place == 0 {
                residual = if unlike & place != 0 { residual - 1 } else { residual + 1 };
            }
            position += 1;
            if position >= low && residual < best.residual {
                best = Near { residual, position };
            }
            if position == high {
                return best;
            }
        }
    }
    best
}

/// What code chunk 1 reads as.
fn chunk_1(order: &impl Order, received: &impl Received) -> Result<Found, u32> {
    received.find(order, order.code().distance).ok_or(10)
}

/// What code chunk 2 reads as.
fn chunk_2(order: &impl Order, received: &impl Received) -> Result<Found, u32> {
    let code = order.code();
    received.find(order, 2 * code.distance + code.n).ok_or(10)
}

/// The rule's separator, separator 1 by rules 1 and 3 and separator 3 by rule 2, must have the parity of the codeword's number.
fn parity(separator: bool, p: usize) -> Result<(), u32> {
    if separator == (p % 2 == 1) {
        Ok(())
    } else {
        Err(17)
    }
}

fn by_rule_1(order: &impl Order, separator: bool, received: &impl Received) -> Result<Read, u32> {
    let Found { number: p, bits } = chunk_1(order, received)?;
    if p == 0 {
        return Err(12);
    }
    parity(separator, p)?;
    let code = order.code();
    let low = order.start(p - 1) + code.distance + code.changed(p - 1);
    Ok(nearest_in_block(order, p - 1, low, order.start(p), received).read(1, Some(bits), None))
}

fn by_rule_2(order: &impl Order, separator: bool, received: &impl Received) -> Result<Read, u32> {
    let code = order.code();
    let Found { number: p, bits } = chunk_2(order, received)?;
    if p == code.last_block() {
        return Err(12);
    }
    parity(separator, p)?;
    let start = order.start(p);
    let high = start + 2 * code.distance + code.changed(p);
    Ok(nearest_in_block(order, p, start, high, received).read(2, None, Some(bits)))
}

fn by_rule_3(order: &impl Order, separator: bool, received: &impl Received) -> Result<Read, u32> {
    let Found { number: p, bits } = chunk_1(order, received)?;
    let other = chunk_2(order, received)?;
    if p != other.number {
        return Err(11);
    }
    parity(separator, p)?;
    let (start, distance) = (order.start(p), order.code().distance);
    let mut best = Near { residual: u32::MAX, position: 0 };
    if p > 0 {
        best = nearest_in_block(order, p - 1, start - distance, start, received);
    }
    if p < order.code().last_block() {
        let after = nearest_in_block(order, p, start, start + distance, received);
        if after.residual < best.residual {
            best = after;
        }
    }
    Ok(best.read(3, Some(bits), Some(other.bits)))
}

/// Reads a received word.
pub fn read(order: &impl Order, bytes: &[u8]) -> Result<Read, u32> {
    let code = order.code();
    if bytes.len() != code.bytes() {
        return Err(6);
    }
    let bits = code.bits();
    if bits % 8 != 0 && bytes[bytes.len() - 1] >> (bits % 8) != 0 {
        return Err(8);
    }
    let mut received: Word = [0; 5];
    for (bits, part) in received.iter_mut().zip(bytes.chunks(8)) {
        let mut whole = [0; 8];
        whole[..part.len()].copy_from_slice(part);
        *bits = u64::from_le_bytes(whole);
    }
    let separator = |(at, length)| 2 * get(&received, at, length).count_ones() as usize > length;
    let [s1, _, s2, _, s3] = code.chunks();
    by_separators(order, [separator(s1), separator(s2), separator(s3)], &received)
}

/// By the rule that the separators name.
fn by_separators(order: &impl Order, [s1, s2, s3]: [bool; 3], received: &impl Received) -> Result<Read, u32> {
    if s1 == s2 && s2 == s3 {
        by_rule_3(order, s1, received)
    } else if s1 == s2 {
        by_rule_1(order, s1, received)
    } else if s2 == s3 {
        by_rule_2(order, s3, received)
    } else {
        Err(9)
    }
}

/// Reads a received word of levels.
pub fn read_levels(order: &impl Order, levels: &[f32]) -> Result<(Read, Strength), u32> {
    let code = order.code();
    if levels.len() != code.bits() {
        return Err(15);
    }
    // what is not a number is not at most 1,000,000 either
    if !levels.iter().all(|level| level.abs() <= 1_000_000.0) {
        return Err(16);
    }
    let mut received = LevelWord { bits: [0; 5], erased: [0; 5] };
    for (place, &level) in levels.iter().enumerate() {
        received.bits[place / 64] |= u64::from(level < 0.0) << (place % 64);
        received.erased[place / 64] |= u64::from(level == 0.0) << (place % 64);
    }
    let separator = |(at, length)| sum(&levels[at..at + length]) < 0.0;
    let [s1, _, s2, _, s3] = code.chunks();
    let read = by_separators(order, [separator(s1), separator(s2), separator(s3)], &received)?;
    Ok((read, strength(levels)))
}

/// Levels added in order from zero.
fn sum(levels: &[f32]) -> f32 {
    levels.iter().fold(0.0, |sum, level| sum + level)
}

fn strength(levels: &[f32]) -> Strength {
    let magnitudes = levels.iter().map(|level| level.abs());
    magnitudes.fold(Strength { sum: 0.0, greatest: 0.0 }, |Strength { sum, greatest }, magnitude| Strength {
        sum: sum + magnitude,
        greatest: magnitude.max(greatest),
    })
}
