//! Position words of trams on stabling tracks.
//!
//! A tram reports where it stands by a coded word; a track's *card*, 512 bytes, says which code, and how far position 0 is from
//! the buffer face. Ten calls here take a card: they check it, write the word of a position, read a received word, read one that
//! came as levels, give the start of a block and the distance of a position in millimetres, tell which trams of the track cross a
//! mark, which stand within two marks, and which is the nearest to a mark, and release the track in a [`Yard`] of sixteen tracks.
//! Two take the order and the number of variables of a Reed-Muller code instead: they make its card, and read a chunk of it by
//! majority votes. One takes a yard alone, and requests a track of it. All are thin and safe wrappers of a library that is proved:
//! each call ends, answers every input, and keeps no state, so any number of threads may use it. No call panics, and none allocates
//! but [`trams_crossing`] and [`trams_within`], which do for their answer.
//!
//! `docs/FORMAT.md` of the repository says what a card and a word are, byte by byte, how a word is read, which card is made, what
//! stands at a mark, and what each refusal means but those of a [`Yard`]. The archive that is linked, `libdunnavish.a`, is the one
//! that `tools/build dunnavish` puts into `target/staticlib` there; the environment variable `DUNNAVISH_LIB_DIR` names another
//! folder, and a relative one is taken from where cargo is started.
//!
//! ```
//! // Card B, the example of docs/FORMAT.md: n 3, k 1, track 14, row 0 = 7, check 145.
//! let mut card = [0u8; dunnavish::CARD_BYTES];
//! card[..4].copy_from_slice(&[3, 1, 0, 14]);
//! card[11] = 7;
//! card[511] = 145;
//!
//! let summary = dunnavish::check_card(&card)?;
//! assert_eq!((summary.radius, summary.last), (1, 15));
//!
//! let mut word = [0u8; 2];
//! dunnavish::write_word(&card, 7, &mut word)?;
//! assert_eq!(word, [0x7f, 0x00]);
//!
//! word[0] ^= 0x20; // the cable damages a bit, in code chunk 1
//! let reading = dunnavish::read_word(&card, &word)?;
//! assert_eq!((reading.position, reading.residual), (5, 1));
//! // Rule 2 reads code chunk 2 alone, which arrived undamaged.
//! assert_eq!(reading.rule, dunnavish::Rule::FirstDiffers);
//! assert_eq!((reading.chunk1_bits, reading.chunk2_bits), (None, Some(0)));
//!
//! // The error bar about this answer, where at most one bit is assumed damaged: it holds 7, where the tram stands.
//! let reach = reading.residual + 1;
//! let bar = reading.position.saturating_sub(reach)..=summary.last.min(reading.position + reach);
//! assert_eq!(bar, 3..=7);
//!
//! word[1] ^= 0x02; // and another, in code chunk 2
//! assert_eq!(dunnavish::read_word(&card, &word)?.chunk2_bits, Some(1));
//!
//! assert_eq!(dunnavish::write_word(&card, 16, &mut word), Err(dunnavish::Refusal::OffTheTrack));
//!
//! // Both code chunks hold codeword 1, and the separators 0: mixed from two telegrams.
//! assert_eq!(dunnavish::read_word(&card, &[0x38, 0x0e]), Err(dunnavish::Refusal::ParityDiffers));
//!
//! // The word of position 7 from a receiver that gives levels: its seven ones are negative, the last level is faint, and code
//! // chunk 2, places 9 to 11, has one bit erased.
//! let mut levels = [1.0; 15];
//! levels[..7].fill(-1.0);
//! (levels[10], levels[14]) = (0.0, 0.25);
//! let (reading, strength) = dunnavish::read_levels(&card, &levels)?;
//! assert_eq!((reading.position, reading.residual, reading.chunk2_bits), (7, 0, Some(0)));
//! assert_eq!((strength.sum, strength.greatest), (13.25, 1.0));
//!
//! assert_eq!(dunnavish::millimetres(&card, 7)?, 350);
//! // The same track laid with position 0 one metre before the buffer face: offset -1000 in bytes 100 to 103, check 14,841.
//! card[100..104].copy_from_slice(&(-1000i32).to_be_bytes());
//! card[510..].copy_from_slice(&14_841u16.to_be_bytes());
//! assert_eq!(dunnavish::millimetres(&card, 7)?, -650);
//!
//! // Two trams on the track. With t 1 a stretch is widened by 10 at both ends: here to 0 to 12 and to 3 to 15.
//! let trams = [dunnavish::Stretch { low: 0, high: 2 }, dunnavish::Stretch { low: 13, high: 15 }];
//! assert_eq!(dunnavish::trams_crossing(&card, &trams, 2)?, [true, false]);
//! assert_eq!(dunnavish::trams_within(&card, &trams, 1, 15)?, [false, true]);
//! assert_eq!(dunnavish::nearest_tram(&card, &trams, 13)?, Some(1));
//! assert_eq!(dunnavish::nearest_tram(&card, &[], 13)?, None);
//!
//! // A short day at the yard: tram 7 holds track 14, which is the card's, and 8 and 9 wait for it.
//! let mut yard = dunnavish::Yard::empty();
//! assert_eq!(yard.request(7, 14)?, dunnavish::Requested::Holds);
//! assert_eq!(yard.request(8, 14)?, dunnavish::Requested::Waits);
//! assert_eq!(yard.request(9, 14)?, dunnavish::Requested::Waits);
//! assert_eq!(yard.request(9, 3), Err(dunnavish::Refusal::WrongTram));
//! // From the last position the track is released: 15, less 10 since t is 1, is above the mark 4, and not above 5.
//! dunnavish::write_word(&card, 15, &mut word)?;
//! assert_eq!(yard.release(7, &word, 5, &card)?, dunnavish::Released::NotClear);
//! assert_eq!(yard.release(7, &word, 4, &card)?, dunnavish::Released::HandedTo(8));
//! assert_eq!((yard.holder(14), yard.queue(14).next()), (Some(8), Some(9)));
//! // One tram was ahead of 9 in the queue, so that it holds the track after two releases; then no tram waits.
//! assert_eq!(yard.release(8, &word, 4, &card)?, dunnavish::Released::HandedTo(9));
//! assert_eq!(yard.release(9, &word, 4, &card)?, dunnavish::Released::Freed);
//! assert_eq!(yard, dunnavish::Yard::empty());
//!
//! // The card of a Reed-Muller code: order 1 in 3 variables, rows FF, AA, CC and F0, for track 14.
//! let made = dunnavish::make_card(14, 1, 3)?;
//! assert_eq!(dunnavish::check_card(&made)?.distance, 4);
//!
//! // A chunk of it, one bit from codeword 3, which is AA.
//! let vote = dunnavish::vote_chunk(1, 3, 0xab)?;
//! assert_eq!((vote.number, vote.bits), (3, 1));
//! # Ok::<(), dunnavish::Refusal>(())
//! ```
#![deny(missing_docs)]
#![deny(unsafe_op_in_unsafe_fn)]

mod yard;

use std::fmt;
pub use yard::{Released, Requested, Yard, MOST_WAITING, TRACKS, YARD_NUMBERS};

/// The bytes of a card.
pub const CARD_BYTES: usize = 512;

/// The bytes of the widest word.
pub const WIDEST_WORD_BYTES: usize = 40;

/// The most trams that a track holds.
pub const MOST_TRAMS: usize = 64;

/// Defines [`Refusal`] by two tables, of calls on a card or a code, and of those that only a call on a yard answers besides: a name, the
/// number, and the reason, which is its documentation and text.
macro_rules! refusals {
    ({ $($name:ident = $number:literal: $reason:literal,)+ } { $($yard:ident = $yard_number:literal: $yard_reason:literal,)+ }) => {
        /// Why a call was refused. A call reports the first reason that holds, in the order of their numbers, but
        /// [`CardOffset`](Refusal::CardOffset) between [`CardStrayBits`](Refusal::CardStrayBits) and
        /// [`DependentRows`](Refusal::DependentRows), [`CodeLimits`](Refusal::CodeLimits) before any other, and
        /// [`LevelCount`](Refusal::LevelCount) and [`LevelLimits`](Refusal::LevelLimits) in the places of
        /// [`WordLength`](Refusal::WordLength) and [`SpareBit`](Refusal::SpareBit). Those of a yard come after the card's and
        /// before the word's, [`YardUnsound`](Refusal::YardUnsound) the first of them.
        ///
        /// Later versions of the library may know more reasons, so a `match` needs an arm for those.
        #[derive(Clone, Copy, Debug, PartialEq, Eq, PartialOrd, Ord, Hash)]
        #[non_exhaustive]
        pub enum Refusal {
            $(#[doc = $reason] $name,)+
            $(#[doc = $yard_reason] $yard,)+
            /// the library answered a status that this crate has no name for: the two are of different versions
            UnknownStatus(u32),
            /// the library read the word by a rule that this crate has no name for: the two are of different versions
            UnknownRule(u32),
            /// the library read the word by this rule, and counted bits of other code chunks than the rule names: the two are of
            /// different versions
            OtherChunks(Rule),
            /// the library answered this number of a track that was requested or released, which this crate has no name for or the
            /// yard, which is as the library left it, shows otherwise: the two are of different versions
            UnknownYardAnswer(u32),
            /// the library answered neither yes nor no of a tram, but this number: the two are of different versions
            NeitherYesNorNo(u8),
            /// the library answered that the nearest tram has this place, and no tram of the list has it: the two are of different
            /// versions
            NoSuchTram(u32),
            /// the library served a list of more than [`MOST_TRAMS`] trams: the two are of different versions
            MoreTrams,
        }

        impl Refusal {
            /// Every refusal of calls on a card or a code that has a number, in the order of their numbers.
            pub const ALL: &'static [Refusal] = &[$(Refusal::$name,)+];

            /// Those that only calls on a [`Yard`] answer, in the order of their numbers.
            pub const OF_A_YARD: &'static [Refusal] = &[$(Refusal::$yard,)+];

            /// Its number, 1 to 22 or 26; none where the library and this crate are of different versions.
            pub fn number(self) -> Option<u32> {
                match self {
                    $(Refusal::$name => Some($number),)+
                    $(Refusal::$yard => Some($yard_number),)+
                    Refusal::UnknownStatus(_) | Refusal::UnknownRule(_) | Refusal::OtherChunks(_) => None,
                    Refusal::NeitherYesNorNo(_) | Refusal::NoSuchTram(_) | Refusal::MoreTrams => None,
                    Refusal::UnknownYardAnswer(_) => None,
                }
            }

            /// The refusal with this number of calls on a card or a code, if there is one.
            pub fn from_number(number: u32) -> Option<Refusal> {
                match number {
                    $($number => Some(Refusal::$name),)+
                    _ => None,
                }
            }

            /// The same of calls on a [`Yard`].
            pub fn from_number_at_a_yard(number: u32) -> Option<Refusal> {
                match number {
                    $($yard_number => Some(Refusal::$yard),)+
                    _ => Refusal::from_number(number),
                }
            }
        }

        impl fmt::Display for Refusal {
            fn fmt(&self, f: &mut fmt::Formatter<'_>) -> fmt::Result {
                match self {
                    $(Refusal::$name => f.write_str(concat!($reason, " (refusal ", $number, ")")),)+
                    $(Refusal::$yard => f.write_str(concat!($yard_reason, " (refusal ", $yard_number, ")")),)+
                    Refusal::UnknownStatus(status) => write!(f, "the library answered the unknown status {status}"),
                    Refusal::UnknownRule(rule) => write!(f, "the library read the word by the unknown rule {rule}"),
                    Refusal::OtherChunks(rule) => {
                        write!(f, "the library counted bits of other code chunks than rule {} names", rule.number())
                    }
                    Refusal::UnknownYardAnswer(answer) => {
                        let why = "which this crate has no name for or the yard shows otherwise";
                        write!(f, "the library answered {answer} of a track, {why}")
                    }
                    Refusal::NeitherYesNorNo(answer) => {
                        write!(f, "the library answered {answer} of a tram, which is neither yes nor no")
                    }
                    Refusal::NoSuchTram(place) => {
                        write!(f, "the library answered that the nearest tram has place {place}, where the list has none")
                    }
                    Refusal::MoreTrams => write!(f, "the library served a list of more than {MOST_TRAMS} trams"),
                }
            }
        }
    };
}

refusals! {{
    CardLength = 1: "the card has not 512 bytes",
    CardCheck = 2: "the card's check differs from its bytes",
    CardLimits = 3: "the card's n is outside 1 to 64, or its k outside 1 to 12 or above n",
    CardStrayBits = 4: "a row of the card has a bit at n or above, or an unused row or byte is not zero",
    DependentRows = 5: "some nonempty set of the card's rows sums to zero",
    WordLength = 6: "the word has not exactly the bytes of this card's words",
    OffTheTrack = 7: "the position is above the last, or the block above 2^k - 1",
    SpareBit = 8: "a bit past the end of the received word or chunk is set",
    Separators = 9: "the separators of the received word read 0 1 0 or 1 0 1",
    ChunkUnreadable = 10: "a code chunk that is to be read has no codeword that is near enough",
    ChunksDiffer = 11: "the separators are alike, and the two code chunks read differently",
    NoBlock = 12: "the received word points to a block before the first or after the last",
    CodeLimits = 13: "the Reed-Muller code's m is outside 1 to 6, its r above m, or its k above 12",
    CardOffset = 14: "the card's offset is outside -20,000 to 20,000 mm",
    LevelCount = 15: "the levels are not exactly as many as the bits of this card's words",
    LevelLimits = 16: "a level is not a number, infinite, or above 1,000,000 in magnitude",
    ParityDiffers = 17: "a separator of the received word contradicts the parity of its codeword's number",
    TramCount = 18: "there are more than 64 trams",
    StretchLimits = 19: "a stretch or pair of marks has low above high, or a high or mark is above the last position",
} {
    NoSuchTrack = 20: "the track's number is above 15",
    WrongTram = 21: "the requesting tram already holds or waits for a track, or the releasing tram is not the holder",
    WaitingFull = 22: "the track is held, and 32 trams already wait",
    YardUnsound = 26: "the yard has a tram twice, a tram waiting for a free track, or more than 32 waiting",
}}

impl std::error::Error for Refusal {}

/// What a sound card says.
#[derive(Clone, Copy, Debug, PartialEq, Eq, Hash)]
pub struct CardSummary {
    /// n, the code's length in bits.
    pub length: u32,
    /// k, the number of rows: the code has 2^k codewords.
    pub rows: u32,
    /// The track number.
    pub track: u32,
    /// D, the least Hamming distance of the code.
    pub distance: u32,
    /// t, the radius: (D - 1) / 2 rounded down.
    pub radius: u32,
    /// d, the bits of a word.
    pub word_bits: u32,
    /// The last position on the track.
    pub last: u32,
}

impl CardSummary {
    /// The bytes of a word of this card, at most [`WIDEST_WORD_BYTES`].
    pub fn word_bytes(&self) -> usize {
        (self.word_bits as usize + 7) / 8
    }
}

/// Which separators of a received word differed from the others: this names the rule that it was read by.
#[derive(Clone, Copy, Debug, PartialEq, Eq, PartialOrd, Ord, Hash)]
#[repr(u32)]
pub enum Rule {
    /// Rule 1: the third separator differs, and code chunk 1 was read.
    ThirdDiffers = 1,
    /// Rule 2: the first separator differs, and code chunk 2 was read.
    FirstDiffers = 2,
    /// Rule 3: the separators are alike, and both code chunks were read.
    AllAlike = 3,
}

impl Rule {
    /// Its number in `docs/FORMAT.md`, 1 to 3.
    pub fn number(self) -> u32 {
        self as u32
    }

    /// The rule with this number, if there is one.
    pub fn from_number(number: u32) -> Option<Rule> {
        match number {
            1 => Some(Rule::ThirdDiffers),
            2 => Some(Rule::FirstDiffers),
            3 => Some(Rule::AllAlike),
            _ => None,
        }
    }
}

/// What a received word was read as. Of a word of levels, erased bits are in none of its counts.
#[derive(Clone, Copy, Debug, PartialEq, Eq, Hash)]
pub struct Reading {
    /// The position, from 0 to the card's last.
    pub position: u32,
    /// In how many bits the received word differs from the word of that position.
    pub residual: u32,
    /// The rule that the word was read by. It names the code chunks that were read.
    pub rule: Rule,
    /// In how many bits code chunk 1, as received, differs from the codeword that it was read as: at most
    /// [`CardSummary::radius`]. None where the rule doesn't name the chunk, which is [`Rule::FirstDiffers`].
    pub chunk1_bits: Option<u32>,
    /// The same of code chunk 2. None where the rule is [`Rule::ThirdDiffers`].
    pub chunk2_bits: Option<u32>,
}

/// The receiver's strength in a word that was read from levels.
#[derive(Clone, Copy, Debug, PartialEq)]
pub struct Strength {
    /// The sum of the levels' magnitudes, added in order from zero, each sum rounded to the nearest, ties to even.
    pub sum: f32,
    /// The greatest of these magnitudes.
    pub greatest: f32,
}

/// What a chunk of a Reed-Muller code was read as.
#[derive(Clone, Copy, Debug, PartialEq, Eq, Hash)]
pub struct Vote {
    /// The codeword's number, in the order of the codewords of the card that [`make_card`] makes.
    pub number: u32,
    /// In how many bits the chunk differs from that codeword, at most the card's radius.
    pub bits: u32,
}

/// Where a tram stands on its track: from a low to a high position, both included.
#[derive(Clone, Copy, Debug, PartialEq, Eq, Hash)]
pub struct Stretch {
    /// The low position.
    pub low: u32,
    /// The high position, at least the low one and at most the card's last.
    pub high: u32,
}

mod exported {
    // As include/dunnavish.h declares them: a slice crosses as a pointer and a count.
    extern "C" {
        pub fn dunnavish_check_card(card: *const u8, card_bytes: usize, values: *mut u32, count: usize) -> u32;
        pub fn dunnavish_write_word(card: *const u8, card_bytes: usize, position: u32, word: *mut u8, word_bytes: usize) -> u32;
        pub fn dunnavish_read_word(
            card: *const u8,
            card_bytes: usize,
            word: *const u8,
            word_bytes: usize,
            values: *mut u32,
            count: usize,
        ) -> u32;
        pub fn dunnavish_read_levels(
            card: *const u8,
            card_bytes: usize,
            levels: *const f32,
            levels_count: usize,
            values: *mut u32,
            count: usize,
            strength: *mut f32,
            strength_count: usize,
        ) -> u32;
        pub fn dunnavish_block_start(card: *const u8, card_bytes: usize, block: u32, values: *mut u32, count: usize) -> u32;
        pub fn dunnavish_millimetres(card: *const u8, card_bytes: usize, position: u32, values: *mut i32, count: usize) -> u32;
        pub fn dunnavish_trams_crossing(
            card: *const u8,
            card_bytes: usize,
            lows: *const u32,
            lows_count: usize,
            highs: *const u32,
            highs_count: usize,
            mark: u32,
            yes: *mut u8,
            yes_count: usize,
        ) -> u32;
        pub fn dunnavish_trams_within(
            card: *const u8,
            card_bytes: usize,
            lows: *const u32,
            lows_count: usize,
            highs: *const u32,
            highs_count: usize,
            first: u32,
            second: u32,
            yes: *mut u8,
            yes_count: usize,
        ) -> u32;
        pub fn dunnavish_nearest_tram(
            card: *const u8,
            card_bytes: usize,
            lows: *const u32,
            lows_count: usize,
            highs: *const u32,
            highs_count: usize,
            mark: u32,
            values: *mut u32,
            count: usize,
        ) -> u32;
        pub fn dunnavish_request(yard: *mut u16, numbers: usize, tram: u16, track: u32, values: *mut u32, count: usize) -> u32;
        pub fn dunnavish_release(
            yard: *mut u16,
            numbers: usize,
            tram: u16,
            word: *const u8,
            word_bytes: usize,
            mark: u32,
            card: *const u8,
            card_bytes: usize,
            values: *mut u32,
            count: usize,
        ) -> u32;
        pub fn dunnavish_make_card(track: u16, r: u32, m: u32, card: *mut u8, card_bytes: usize) -> u32;
        pub fn dunnavish_vote_chunk(r: u32, m: u32, chunk: u64, values: *mut u32, count: usize) -> u32;
    }
}

/// The status of a call as a result. A status without a name here is an error too. (100 is one: it says that too few or too many
/// numbers, floats, answers, or bytes for a card were lent, and the calls below lend exactly enough.)
fn served(status: u32) -> Result<(), Refusal> {
    match status {
        0 => Ok(()),
        _ => Err(Refusal::from_number(status).unwrap_or(Refusal::UnknownStatus(status))),
    }
}

/// What the library leaves in place of the count of a code chunk that the rule doesn't name: DUNNAVISH_NOT_READ of the header.
const NOT_READ: u32 = u32::MAX;

/// The values of a read as a reading. An unknown rule is an error, and so are counts of other chunks than the rule names.
fn reading([position, residual, rule, chunk1, chunk2]: [u32; 5]) -> Result<Reading, Refusal> {
    let rule = Rule::from_number(rule).ok_or(Refusal::UnknownRule(rule))?;
    let [chunk1_bits, chunk2_bits] = [chunk1, chunk2].map(|bits| (bits != NOT_READ).then_some(bits));
    match (rule, chunk1_bits, chunk2_bits) {
        (Rule::ThirdDiffers, Some(_), None) | (Rule::FirstDiffers, None, Some(_)) | (Rule::AllAlike, Some(_), Some(_)) => {
            Ok(Reading { position, residual, rule, chunk1_bits, chunk2_bits })
        }
        _ => Err(Refusal::OtherChunks(rule)),
    }
}

/// So many trams are handed over at most, one more than there may be.
const HANDED_OVER: usize = MOST_TRAMS + 1;

/// Hands the trams of a list over to a call, as lows and highs, and gives its status as a result. Of a longer list the first 65 trams
/// are handed over: that they are too many is answered before any of them is looked at. Where it is not, that is an error.
fn hand_over(trams: &[Stretch], call: impl FnOnce(&[u32], &[u32]) -> u32) -> Result<(), Refusal> {
    let (mut lows, mut highs) = ([0; HANDED_OVER], [0; HANDED_OVER]);
    for ((tram, low), high) in trams.iter().zip(&mut lows).zip(&mut highs) {
        (*low, *high) = (tram.low, tram.high);
    }
    let count = trams.len().min(HANDED_OVER);
    match served(call(&lows[..count], &highs[..count])) {
        Ok(()) if count > MOST_TRAMS => Err(Refusal::MoreTrams),
        status => status,
    }
}

/// What a call answers that says 1, for yes, or 0, for no, of each tram. Any other answer is an error.
fn yes_or_no(trams: &[Stretch], call: impl FnOnce(&[u32], &[u32], &mut [u8]) -> u32) -> Result<Vec<bool>, Refusal> {
    let mut answers = [0; HANDED_OVER];
    let yes = &mut answers[..trams.len().min(HANDED_OVER)];
    hand_over(trams, |lows, highs| call(lows, highs, yes))?;
    match yes.iter().find(|&&answer| answer > 1) {
        Some(&answer) => Err(Refusal::NeitherYesNorNo(answer)),
        None => Ok(yes.iter().map(|&answer| answer == 1).collect()),
    }
}

/// What the library gives as the place of the nearest tram where there are no trams: DUNNAVISH_NO_TRAM of the header.
const NO_TRAM: u32 = u32::MAX;

/// What a call answers that gives a tram's place in the list. A place where the list has no tram is an error, and so is none where
/// there are trams.
fn place_of(trams: &[Stretch], call: impl FnOnce(&[u32], &[u32], &mut [u32]) -> u32) -> Result<Option<usize>, Refusal> {
    let mut values = [0u32; 1];
    hand_over(trams, |lows, highs| call(lows, highs, &mut values))?;
    let [place] = values;
    match usize::try_from(place) {
        Ok(place) if place < trams.len() => Ok(Some(place)),
        _ if place == NO_TRAM && trams.is_empty() => Ok(None),
        _ => Err(Refusal::NoSuchTram(place)),
    }
}

// SAFETY, of every call below: the pointers and counts are those of live slices, never null; what the library writes is borrowed
// mutably, so that it overlaps nothing else; the library keeps no pointer.

/// Checks a card.
///
/// Refused: [`Refusal::CardLength`] to [`Refusal::DependentRows`], or [`Refusal::CardOffset`]. Where another call refuses the
/// card, it does so by one of these.
pub fn check_card(card: &[u8]) -> Result<CardSummary, Refusal> {
    let mut values = [0u32; 7];
    served(unsafe { exported::dunnavish_check_card(card.as_ptr(), card.len(), values.as_mut_ptr(), values.len()) })?;
    let [length, rows, track, distance, radius, word_bits, last] = values;
    Ok(CardSummary { length, rows, track, distance, radius, word_bits, last })
}

/// Writes the word of a position into `word`, which has exactly [`CardSummary::word_bytes`] bytes. A refused write changes no
/// byte.
///
/// Refused: the card, [`Refusal::WordLength`], [`Refusal::OffTheTrack`].
pub fn write_word(card: &[u8], position: u32, word: &mut [u8]) -> Result<(), Refusal> {
    served(unsafe { exported::dunnavish_write_word(card.as_ptr(), card.len(), position, word.as_mut_ptr(), word.len()) })
}

/// Reads a received word: the nearest of the positions that its separators and code chunks allow, and in how many bits each code
/// chunk that was read differs from its codeword.
///
/// If each of the word's five chunks has at most [`CardSummary::radius`] damaged bits, the answer is a reading, and its position
/// is off by at most twice the damaged bits of the word, and by at most these bits plus [`Reading::residual`]. Each chunk that
/// was read then differs from its codeword in as many bits as are damaged in it. The word is also read, and both bounds hold,
/// where the divided chunk of the position's word is damaged arbitrarily and each other one has at most that many damaged
/// bits. A chunk is divided if some, but not all, of the places in which w(i) and w(i+1), the words of codewords i and i+1,
/// differ in it are taken from w(i+1), i being the position's block: at most one chunk is, and none at a block's start or at the
/// last position.
///
/// To draw an error bar about the answer: decide on the greatest number of bits that you are ready to assume damaged in all. On
/// either side of the position the error bar reaches as many steps as this number and the residual together, and it ends where the
/// track does. It holds the tram's position if no more bits were damaged, and no more than the radius in any chunk that is not
/// divided. A residual above that number shows that one or the other is not so.
///
/// Of a word that is read, separator 1, by [`Rule::FirstDiffers`] separator 3, has the parity of the number of its codeword. So a
/// word mixed from two telegrams, with that separator from one and the codeword from another whose number has the other parity, is
/// never read.
///
/// Refused: the card, [`Refusal::WordLength`], [`Refusal::SpareBit`] to [`Refusal::NoBlock`], and [`Refusal::ParityDiffers`].
pub fn read_word(card: &[u8], word: &[u8]) -> Result<Reading, Refusal> {
    let mut values = [0u32; 5];
    served(unsafe {
        exported::dunnavish_read_word(card.as_ptr(), card.len(), word.as_ptr(), word.len(), values.as_mut_ptr(), values.len())
    })?;
    reading(values)
}

/// Reads a received word whose bits came as levels, [`CardSummary::word_bits`] of them, and gives the receiver's strength beside
/// the answer. A level below zero is a 1, one above zero a 0, and a zero of either sign an erased bit.
///
/// A separator reads 1 if the sum of its levels is below zero, and otherwise 0. They are added in order from zero in single
/// precision, each sum rounded to the nearest, ties to even. A code chunk reads as the codeword for which 2 × wrong + erased is
/// below D, the card's [`CardSummary::distance`]: wrong counts the unerased bits that differ from it, erased the erased ones. Only
/// unerased bits count, in the residual, by which the nearest position is found, and in the bits of the chunks.
///
/// If there are as many levels as a word has bits, each 1 or -1, the reading, or the refusal, is that of [`read_word`] for these
/// bits. If there are as many, each 1, -1 or 0, and, against the word of a position, each of the five chunks has 2 × wrong + erased
/// below D, the answer is a reading, and its position is off by at most 2 × wrong + erased, counted over the whole word. What
/// [`read_word`] says of the separators and the codeword's number holds here too, of separators read by the sums of their levels.
///
/// All of this holds under the processor's default floating-point settings: rounding to the nearest, ties to even, subnormal
/// numbers kept. Rust code never changes them, but a program that is linked by a C compiler with `-ffast-math` or `-Ofast` starts
/// with others: subnormal levels, 1e-40 say, then count as zeros and are erased. The call may set the thread's floating-point
/// exception flags, by its comparisons too.
///
/// Refused, in this order: the card; [`Refusal::LevelCount`]; [`Refusal::LevelLimits`], for any of the levels (1,000,000 itself
/// is allowed); [`Refusal::Separators`] to [`Refusal::NoBlock`]; and [`Refusal::ParityDiffers`].
pub fn read_levels(card: &[u8], levels: &[f32]) -> Result<(Reading, Strength), Refusal> {
    let (mut values, mut strength) = ([0u32; 5], [0f32; 2]);
    served(unsafe {
        exported::dunnavish_read_levels(
            card.as_ptr(),
            card.len(),
            levels.as_ptr(),
            levels.len(),
            values.as_mut_ptr(),
            values.len(),
            strength.as_mut_ptr(),
            strength.len(),
        )
    })?;
    let [sum, greatest] = strength;
    Ok((reading(values)?, Strength { sum, greatest }))
}

/// The position at which a block starts; blocks are 0 to 2^k - 1.
///
/// Refused: the card, [`Refusal::OffTheTrack`].
pub fn block_start(card: &[u8], block: u32) -> Result<u32, Refusal> {
    let mut values = [0u32; 1];
    served(unsafe { exported::dunnavish_block_start(card.as_ptr(), card.len(), block, values.as_mut_ptr(), values.len()) })?;
    Ok(values[0])
}

/// The distance of a position from the buffer face, in millimetres: the card's offset, which is the distance of position 0, and
/// 50 for each step. It is negative where the position lies before the face.
///
/// Refused: the card, [`Refusal::OffTheTrack`].
pub fn millimetres(card: &[u8], position: u32) -> Result<i32, Refusal> {
    let mut values = [0i32; 1];
    served(unsafe { exported::dunnavish_millimetres(card.as_ptr(), card.len(), position, values.as_mut_ptr(), values.len()) })?;
    Ok(values[0])
}

/// Which trams cross a mark, yes or no for each in the order of the list: low at most the mark, and high at least the mark.
///
/// Before the search each stretch is widened by 10 × [`CardSummary::radius`] at both ends and cut to 0 and the last position. That is
/// twice the most bits that five chunks within the radius can have damaged. So a stretch whose ends [`read_word`] read from words of
/// the true positions a and b, each damaged in at most as many bits of every chunk as the radius is, holds a and b once it is widened.
/// If a is at most the mark and b at least the mark, the answer for this tram is yes: none is missed.
///
/// Refused, in this order: the card; [`Refusal::TramCount`], more than [`MOST_TRAMS`] trams; [`Refusal::StretchLimits`], of the
/// stretches and the mark as they are given, and of the mark where there are no trams too.
pub fn trams_crossing(card: &[u8], trams: &[Stretch], mark: u32) -> Result<Vec<bool>, Refusal> {
    yes_or_no(trams, |lows, highs, yes| unsafe {
        exported::dunnavish_trams_crossing(
            card.as_ptr(),
            card.len(),
            lows.as_ptr(),
            lows.len(),
            highs.as_ptr(),
            highs.len(),
            mark,
            yes.as_mut_ptr(),
            yes.len(),
        )
    })
}

/// Which trams stand wholly within two marks, yes or no for each in the order of the list: low at least the first, and high at most
/// the second.
///
/// Stretches are widened and cut as by [`trams_crossing`]. If the answer for a tram is yes, a and b, as said there, lie within the
/// marks.
///
/// Refused, in this order: the card; [`Refusal::TramCount`]; [`Refusal::StretchLimits`], of the stretches and the marks as they are
/// given, and of the marks where there are no trams too.
pub fn trams_within(card: &[u8], trams: &[Stretch], first: u32, second: u32) -> Result<Vec<bool>, Refusal> {
    yes_or_no(trams, |lows, highs, yes| unsafe {
        exported::dunnavish_trams_within(
            card.as_ptr(),
            card.len(),
            lows.as_ptr(),
            lows.len(),
            highs.as_ptr(),
            highs.len(),
            first,
            second,
            yes.as_mut_ptr(),
            yes.len(),
        )
    })
}

/// The place in the list, from 0, of the tram that is nearest to a mark; none where there are no trams.
///
/// Stretches are widened and cut as by [`trams_crossing`]. A tram's distance is from the mark to the nearer end of its widened
/// stretch, and 0 where it crosses the mark. Of trams at the same distance it is the one with the smaller widened low, and then the
/// earlier in the list. No part of a tram between a and b, as said there, is nearer to the mark than the widened stretch of the tram
/// that is answered.
///
/// Refused, in this order: the card; [`Refusal::TramCount`]; [`Refusal::StretchLimits`], of the stretches and the mark as they are
/// given, and of the mark where there are no trams too.
pub fn nearest_tram(card: &[u8], trams: &[Stretch], mark: u32) -> Result<Option<usize>, Refusal> {
    place_of(trams, |lows, highs, values| unsafe {
        exported::dunnavish_nearest_tram(
            card.as_ptr(),
            card.len(),
            lows.as_ptr(),
            lows.len(),
            highs.as_ptr(),
            highs.len(),
            mark,
            values.as_mut_ptr(),
            values.len(),
        )
    })
}

/// Makes the card of a Reed-Muller code, of order `r` in `m` variables, for a track. It is sound, with n = 2^m, D = 2^(m-r), and
/// a row for each set of at most `r` variables: the smaller sets first, and sets of one size by their numbers. Its offset is 0.
///
/// Refused: [`Refusal::CodeLimits`].
pub fn make_card(track: u16, r: u32, m: u32) -> Result<[u8; CARD_BYTES], Refusal> {
    let mut card = [0u8; CARD_BYTES];
    served(unsafe { exported::dunnavish_make_card(track, r, m, card.as_mut_ptr(), card.len()) })?;
    Ok(card)
}

/// Reads a chunk of the Reed-Muller code of order `r` in `m` variables by majority votes; place p of the chunk is the bit worth
/// 2^p. The answer is the codeword within the radius, the one that a search of all codewords finds.
///
/// Refused, in this order: [`Refusal::CodeLimits`]; [`Refusal::SpareBit`], a bit of the chunk at n = 2^m or above is set;
/// [`Refusal::ChunkUnreadable`].
pub fn vote_chunk(r: u32, m: u32, chunk: u64) -> Result<Vote, Refusal> {
    let mut values = [0u32; 2];
    served(unsafe { exported::dunnavish_vote_chunk(r, m, chunk, values.as_mut_ptr(), values.len()) })?;
    let [number, bits] = values;
    Ok(Vote { number, bits })
}

#[cfg(test)]
mod tests {
    use super::{hand_over, place_of, reading, served, yes_or_no, Reading, Refusal, Rule, Stretch, NOT_READ};

    #[test]
    fn an_unknown_status_is_an_error() {
        assert_eq!(served(0), Ok(()));
        for refusal in Refusal::ALL {
            assert_eq!(served(refusal.number().unwrap()), Err(*refusal));
        }
        for status in [20, 99, 100, 101, u32::MAX] {
            assert_eq!(served(status), Err(Refusal::UnknownStatus(status)));
            assert_eq!(Refusal::UnknownStatus(status).number(), None);
        }
        assert_eq!(Refusal::UnknownStatus(100).to_string(), "the library answered the unknown status 100");
    }

    #[test]
    fn an_unknown_rule_is_an_error() {
        for rule in [0, 4, u32::MAX] {
            for counts in [[0, 2], [0, NOT_READ], [NOT_READ, 0], [NOT_READ; 2]] {
                assert_eq!(reading([7, 1, rule, counts[0], counts[1]]), Err(Refusal::UnknownRule(rule)));
            }
            assert_eq!(Refusal::UnknownRule(rule).number(), None);
        }
        assert_eq!(Refusal::UnknownRule(4).to_string(), "the library read the word by the unknown rule 4");
    }

    #[test]
    fn counts_are_of_the_chunks_that_the_rule_names() {
        // the counts of chunks 1 and 2, with none for 4,294,967,295 and no other number
        let counts = [(0, Some(0)), (1, Some(1)), (31, Some(31)), (4_294_967_294, Some(4_294_967_294)), (4_294_967_295, None)];
        let pairs = || counts.into_iter().flat_map(|first| counts.into_iter().map(move |second| (first, second)));
        for (rule, names) in
            [(Rule::ThirdDiffers, [true, false]), (Rule::FirstDiffers, [false, true]), (Rule::AllAlike, [true, true])]
        {
            for ((chunk1, chunk1_bits), (chunk2, chunk2_bits)) in pairs() {
                let expected = Reading { position: 7, residual: 2, rule, chunk1_bits, chunk2_bits };
                let named = [chunk1_bits.is_some(), chunk2_bits.is_some()] == names;
                let expected = if named { Ok(expected) } else { Err(Refusal::OtherChunks(rule)) };
                assert_eq!(reading([7, 2, rule.number(), chunk1, chunk2]), expected);
            }
            assert_eq!(Refusal::OtherChunks(rule).number(), None);
        }
        let text = "the library counted bits of other code chunks than rule 2 names";
        assert_eq!(Refusal::OtherChunks(Rule::FirstDiffers).to_string(), text);
    }

    /// So many trams, tram i from i to 2 × i.
    fn trams(count: u32) -> Vec<Stretch> {
        (0..count).map(|i| Stretch { low: i, high: 2 * i }).collect()
    }

    #[test]
    fn a_list_is_handed_over_up_to_65_trams() {
        for (length, count) in [(0, 0), (1, 1), (2, 2), (64, 64), (65, 65), (66, 65), (100_000, 65)] {
            let trams = trams(length);
            for (status, expected) in [(18, Refusal::TramCount), (100, Refusal::UnknownStatus(100))] {
                let answered = hand_over(&trams, |lows, highs| {
                    assert_eq!(lows, (0..count).collect::<Vec<u32>>());
                    assert_eq!(highs, (0..count).map(|i| 2 * i).collect::<Vec<u32>>());
                    status
                });
                assert_eq!(answered, Err(expected));
            }
            assert_eq!(hand_over(&trams, |_, _| 0), if length > 64 { Err(Refusal::MoreTrams) } else { Ok(()) });
        }
        assert_eq!(Refusal::MoreTrams.number(), None);
        assert_eq!(Refusal::MoreTrams.to_string(), "the library served a list of more than 64 trams");
    }

    #[test]
    fn an_answer_that_is_neither_yes_nor_no_is_an_error() {
        let answered = |answers: &[u8], status| {
            yes_or_no(&trams(answers.len() as u32), |_, _, yes| {
                yes.copy_from_slice(answers);
                status
            })
        };
        assert_eq!(answered(&[], 0), Ok(vec![]));
        assert_eq!(answered(&[1, 0, 0, 1], 0), Ok(vec![true, false, false, true]));
        assert_eq!(answered(&[1; 64], 0), Ok(vec![true; 64]));
        assert_eq!(answered(&[1; 65], 0), Err(Refusal::MoreTrams));
        for answer in 2..=255 {
            for answers in [[answer, 0], [1, answer]] {
                assert_eq!(answered(&answers, 0), Err(Refusal::NeitherYesNorNo(answer)));
                assert_eq!(answered(&answers, 19), Err(Refusal::StretchLimits));
            }
            assert_eq!(Refusal::NeitherYesNorNo(answer).number(), None);
        }
        let text = "the library answered 255 of a tram, which is neither yes nor no";
        assert_eq!(Refusal::NeitherYesNorNo(255).to_string(), text);
    }

    #[test]
    fn a_place_where_the_list_has_no_tram_is_an_error() {
        let answered = |count, place, status| {
            place_of(&trams(count), |_, _, values| {
                values.copy_from_slice(&[place]);
                status
            })
        };
        // none for 4,294,967,295 of no trams, and of no other list
        assert_eq!(answered(0, 4_294_967_295, 0), Ok(None));
        for (count, place) in [(1, 0), (2, 0), (2, 1), (64, 0), (64, 63)] {
            assert_eq!(answered(count, place, 0), Ok(Some(place as usize)));
            assert_eq!(answered(count, place, 19), Err(Refusal::StretchLimits));
        }
        for (count, place) in [(0, 0), (0, 4_294_967_294), (1, 1), (1, 4_294_967_295), (2, 2), (64, 64), (64, 4_294_967_295)] {
            assert_eq!(answered(count, place, 0), Err(Refusal::NoSuchTram(place)));
            assert_eq!(Refusal::NoSuchTram(place).number(), None);
        }
        assert_eq!(answered(65, 0, 0), Err(Refusal::MoreTrams));
        let text = "the library answered that the nearest tram has place 64, where the list has none";
        assert_eq!(Refusal::NoSuchTram(64).to_string(), text);
    }
}
