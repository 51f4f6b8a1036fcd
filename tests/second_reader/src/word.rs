//! Words as single bits, place p at index p: their five chunks, and the bytes that they travel as.
use crate::code::Code;
use std::ops::Range;

/// The d bits of a word.
pub type Word = Vec<bool>;

/// How long a code's words are, and what stands where in them.
impl Code {
    /// d = 2n + 3D.
    pub fn word_bits(&self) -> usize {
        2 * self.n + 3 * self.distance
    }

    /// d / 8, rounded up.
    pub fn word_bytes(&self) -> usize {
        (self.word_bits() + 7) / 8
    }

    /// The places of the five chunks: separator 1, code chunk 1, separator 2, code chunk 2, separator 3.
    pub fn chunks(&self) -> [Range<usize>; 5] {
        let mut end = 0;
        [self.distance, self.n, self.distance, self.n, self.distance].map(|size| {
            end += size;
            end - size..end
        })
    }

    /// The word with these bits in its separators and these codewords in its code chunks.
    pub fn word_of_chunks(&self, separators: [bool; 3], codewords: [u64; 2]) -> Word {
        let mut word = Word::new();
        for (chunk, separator) in separators.into_iter().enumerate() {
            word.extend([separator].repeat(self.distance));
            word.extend(codewords.get(chunk).into_iter().flat_map(|&codeword| bits_of(codeword, self.n)));
        }
        word
    }

    /// w(i): c(i) in both code chunks, the parity of i in every separator bit.
    pub fn whole_word(&self, i: usize) -> Word {
        self.word_of_chunks([i % 2 == 1; 3], [self.codeword(i); 2])
    }
}

/// The lowest bits of a number, the lowest first.
pub fn bits_of(number: u64, count: usize) -> impl Iterator<Item = bool> {
    (0..count).map(move |p| number >> p & 1 == 1)
}

/// The Hamming distance: in how many places two words, or two chunks, differ.
pub fn unlike(a: &[bool], b: &[bool]) -> usize {
    a.iter().zip(b).filter(|(x, y)| x != y).count()
}

/// The bytes that a word travels as: place p is bit p mod 8, lowest first, of byte p / 8, and spare bits are zero.
pub fn packed(word: &[bool]) -> Vec<u8> {
    word.chunks(8).map(|byte| byte.iter().rev().fold(0, |high, &bit| high << 1 | u8::from(bit))).collect()
}

/// The bits of all bytes, the spare ones with them.
pub fn unpacked(bytes: &[u8]) -> Vec<bool> {
    bytes.iter().flat_map(|&byte| bits_of(byte.into(), 8)).collect()
}
