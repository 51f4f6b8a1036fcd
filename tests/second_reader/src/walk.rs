//! A walk along a track, one position after another, one bit a step.
use crate::track::Track;
use crate::word::Word;

/// Where a walk has come to: a position and its word.
#[derive(Clone, Debug)]
pub struct Walk<'a> {
    pub track: &'a Track,
    pub position: u32,
    pub word: Word,
    /// The block i in which the last step was made, and the place after the one that it flipped. At position 0 both are 0.
    pub block: usize,
    pub place: usize,
    /// w(i+1), to which the steps of the block lead.
    next: Word,
}

impl<'a> Walk<'a> {
    /// The walk at position 0.
    pub fn new(track: &'a Track) -> Walk<'a> {
        let code = &track.card.code;
        Walk { track, position: 0, word: code.whole_word(0), block: 0, place: 0, next: code.whole_word(1) }
    }

    /// One position further, but not past the last: flips the next place, in rising order, in which w(i) and w(i+1) differ. Where
    /// none is left, the word is w(i+1), and block i+1 begins.
    pub fn step(&mut self) {
        if self.position == self.track.last() {
            return;
        }
        if self.word == self.next {
            self.block += 1;
            self.place = 0;
            self.next = self.track.card.code.whole_word(self.block + 1);
        }
        while self.word[self.place] == self.next[self.place] {
            self.place += 1;
        }
        self.word[self.place] = self.next[self.place];
        self.place += 1;
        self.position += 1;
    }

    /// Walks to a position, at most to the last; from position 0 if it is past that one.
    pub fn go_to(&mut self, position: u32) {
        if position < self.position {
            *self = Walk::new(self.track);
        }
        for _ in self.position..position.min(self.track.last()) {
            self.step();
        }
    }
}
