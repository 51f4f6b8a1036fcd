//! The track of a card: the starts of its blocks, added up block by block.
use crate::card::Card;
use crate::code::Code;
use crate::word::unlike;
use crate::Refusal;

/// A sound card and the starts r(0) to r(2^k - 1) of its blocks.
#[derive(Clone, Debug)]
pub struct Track {
    pub card: Card,
    pub starts: Vec<u32>,
}

/// What a sound card is answered with: n, k, the track number, D, t, d and the last position.
#[derive(Clone, Copy, Debug, PartialEq, Eq)]
pub struct Facts {
    pub n: u32,
    pub k: u32,
    pub track: u32,
    pub distance: u32,
    pub radius: u32,
    pub bits: u32,
    pub last: u32,
}

impl Track {
    /// Checks a card and counts its block starts.
    pub fn of_card(bytes: &[u8]) -> Result<Track, Refusal> {
        let card = Card::checked(bytes)?;
        let starts = block_starts(&card.code);
        Ok(Track { card, starts })
    }

    /// The last position, r(2^k - 1).
    pub fn last(&self) -> u32 {
        self.starts[self.starts.len() - 1]
    }

    /// Refusal 7 where a position is above the last.
    pub fn holds(&self, position: u32) -> Result<(), Refusal> {
        if position <= self.last() {
            Ok(())
        } else {
            Err(7)
        }
    }

    pub fn facts(&self) -> Facts {
        let code = &self.card.code;
        Facts {
            n: code.n as u32,
            k: code.rows.len() as u32,
            track: self.card.track,
            distance: code.distance as u32,
            radius: code.radius() as u32,
            bits: code.word_bits() as u32,
            last: self.last(),
        }
    }
}

/// Each start is the one before and that block's steps, of which there is one for each place in which w(i) and w(i+1) differ.
fn block_starts(code: &Code) -> Vec<u32> {
    let mut starts = vec![0];
    for i in 1..code.codewords() {
        let steps = unlike(&code.whole_word(i - 1), &code.whole_word(i));
        starts.push(starts[i - 1] + steps as u32);
    }
    starts
}

/// The starts, added up block by block above, are held to request P4, which sums each one row by row.
#[cfg(test)]
mod tests {
    use super::Track;
    use crate::card::Card;
    use crate::code::Code;

    /// The track of a card with this code. The card is checked, so the code is sound.
    fn track_of(n: usize, rows: &[u64]) -> Track {
        let code = Code::of_rows(n, rows).expect("the rows are independent");
        Track::of_card(&Card { track: 0, code, offset: 0 }.bytes()).expect("the card is sound")
    }

    /// Document 01's card B: weight 3, D 3.
    fn card_b() -> Track {
        track_of(3, &[7])
    }

    /// Document 01's card A: weights 2 and 2, D 2.
    fn card_a() -> Track {
        track_of(3, &[3, 6])
    }

    /// Weights 5, 3, 4 and 7. Rows 0 and 1, in places 0 to 4, sum to weight 2; rows 2 and 3, in places 5 to 11, to
    /// weight 3. A sum that takes from both pairs has at least 2 + 3 bits. So D is 2, less than any row's weight.
    fn four_rows() -> Track {
        track_of(12, &[0x1F, 0x07, 0x1E0, 0xFE0])
    }

    /// Row z has place z, as no other row, and places 12 to 12 + z: weight z + 2. A sum of two or more rows keeps two
    /// of their own places at least. So D is 2, row 0's weight.
    fn twelve_rows() -> Track {
        let rows: Vec<u64> = (0..12).map(|z| (1 << z) + (((2 << z) - 1) << 12)).collect();
        track_of(24, &rows)
    }

    /// Weights 64, 32 and 16. Rows 0 and 1 sum to weight 32, 0 and 2 to 48, 1 and 2 to 16, all three to 48. D is 16.
    fn longest_rows() -> Track {
        track_of(64, &[0xFFFF_FFFF_FFFF_FFFF, 0xFFFF_FFFF_0000_0000, 0xFFFF_0000_0000_0000])
    }

    fn tracks() -> [Track; 5] {
        [card_b(), card_a(), four_rows(), twelve_rows(), longest_rows()]
    }

    /// For each block i and row z: at how many steps l to l + 1, l below i, Gray(l) and Gray(l + 1) differ in bit 2^z.
    /// The steps are walked one by one.
    fn walked_counts(k: usize) -> Vec<Vec<usize>> {
        let gray = |l: usize| l ^ (l / 2);
        let mut counts = vec![vec![0; k]];
        for l in 0..(1 << k) - 1 {
            let flipped = gray(l) ^ gray(l + 1);
            counts.push(counts[l].iter().enumerate().map(|(z, count)| count + (flipped >> z & 1)).collect());
        }
        counts
    }

    /// Document 01's count for row z in block i's start: (i + 2^z) / 2^(z+1), rounded down.
    fn corrected_count(i: usize, z: usize) -> usize {
        (i + (1 << z)) / (1 << (z + 1))
    }

    /// The count that Algorithm 1 of document 003 prints instead: max(i - 2^z, 0) / 2^(z+1), rounded down.
    fn printed_count(i: usize, z: usize) -> usize {
        i.saturating_sub(1 << z) / (1 << (z + 1))
    }

    /// 3D × i, then the sum so far after each of rows 0 to k-1, a row's share being 2 × its weight × its count.
    fn running_sums(code: &Code, i: usize, counts: &[usize]) -> Vec<u32> {
        let mut sums = vec![(3 * code.distance * i) as u32];
        for (z, row) in code.rows.iter().enumerate() {
            sums.push(sums[z] + 2 * row.count_ones() * counts[z] as u32);
        }
        sums
    }

    #[test]
    fn walked_counts_are_the_corrected_ones() {
        for k in tracks().map(|track| track.card.code.rows.len()) {
            for (i, counts) in walked_counts(k).into_iter().enumerate() {
                let corrected: Vec<usize> = (0..k).map(|z| corrected_count(i, z)).collect();
                assert_eq!(counts, corrected, "k {k}, block {i}");
            }
        }
    }

    #[test]
    fn sums_over_all_rows_are_the_starts() {
        for Track { card, starts } in tracks() {
            let k = card.code.rows.len();
            let walked = walked_counts(k).into_iter().enumerate();
            let sums: Vec<u32> = walked.map(|(i, counts)| running_sums(&card.code, i, &counts)[k]).collect();
            assert_eq!(sums, starts, "rows {:X?}", card.code.rows);
        }
    }

    /// Algorithm 1 counts one too few where i is at least 2^z. Below that both counts are 0.
    #[test]
    fn algorithm_1_counts_one_too_few() {
        for k in tracks().map(|track| track.card.code.rows.len()) {
            for (i, z) in (0..1 << k).flat_map(|i| (0..k).map(move |z| (i, z))) {
                let (printed, corrected) = (printed_count(i, z), corrected_count(i, z));
                let expected = if i < 1 << z { (0, 0) } else { (printed, printed + 1) };
                assert_eq!((printed, corrected), expected, "block {i}, row {z}");
            }
        }
    }

    /// Asserts the running sums of a block; the last is its start.
    fn sums_up(track: Track, block: usize, expected: &[u32]) {
        let code = &track.card.code;
        let sums = running_sums(code, block, &walked_counts(code.rows.len())[block]);
        assert_eq!(sums, expected, "rows {:X?}, block {block}", code.rows);
        assert_eq!(Some(&track.starts[block]), expected.last(), "rows {:X?}, block {block}", code.rows);
    }

    /// Gray(0) to Gray(11) are 0000, 0001, 0011, 0010, 0110, 0111, 0101, 0100, 1100, 1101, 1111 and 1110, so the steps
    /// from 0 on flip bits 0, 1, 0, 2, 0, 1, 0, 3, 0, 1 and 0: of the first i of these, row z counts those that are z.
    #[test]
    fn running_sums_worked_by_hand() {
        // 3 × 3 × 1 = 9. Bit 0 is flipped once: 2 × 3 × 1 = 6.
        sums_up(card_b(), 1, &[9, 15]);
        // 3 × 2 × 2 = 12. Bits 0 and 1 are flipped once each: 2 × 2 × 1 = 4 for both.
        sums_up(card_a(), 2, &[12, 16, 20]);
        // 3 × 2 × 3 = 18. Bit 0 is flipped twice, 2 × 2 × 2 = 8, bit 1 once, 2 × 2 × 1 = 4.
        sums_up(card_a(), 3, &[18, 26, 30]);
        // 3 × 2 × 3 = 18. Bits 0 to 3 are flipped 2, 1, 0 and 0 times: 2 × 5 × 2 = 20, 2 × 3 × 1 = 6, 0, 0.
        sums_up(four_rows(), 3, &[18, 38, 44, 44, 44]);
        // 3 × 2 × 4 = 24. Now 2, 1, 1 and 0 times: 20, 6, 2 × 4 × 1 = 8, 0.
        sums_up(four_rows(), 4, &[24, 44, 50, 58, 58]);
        // 3 × 2 × 11 = 66. Now 6, 3, 1 and 1 times: 2 × 5 × 6 = 60, 2 × 3 × 3 = 18, 8, 2 × 7 × 1 = 14.
        sums_up(four_rows(), 11, &[66, 126, 144, 152, 166]);
        // 3 × 16 × 7 = 336. 4, 2 and 1 times: 2 × 64 × 4 = 512, 2 × 32 × 2 = 128, 2 × 16 × 1 = 32.
        sums_up(longest_rows(), 7, &[336, 848, 976, 1008]);
        // 3 × 2 × 4095 = 24,570. Row z's count is (4095 + 2^z) / 2^(z+1), rounded down, which is 2^(11-z), its share
        // 2 × (z + 2) × 2^(11-z): 8192, 6144, 4096, 2560, 1536, 896, 512, 288, 160, 88, 48 and 26.
        let sums = [24570, 32762, 38906, 43002, 45562, 47098, 47994, 48506, 48794, 48954, 49042, 49090, 49116];
        sums_up(twelve_rows(), 4095, &sums);
    }
}
