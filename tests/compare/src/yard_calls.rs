//! One call on a yard: the library's against the second reader's, the answers and all numbers left.
use crate::calls::counted;
use crate::lent;
use crate::library;
use crate::tally::Tally;
use second_reader::walk::Walk;
use second_reader::yard::{Released, Requested};
use second_reader::yard_numbers::{self, Numbers, NUMBERS};
use second_reader::Refusal;

/// A yard as the library and as the second reader left it.
#[derive(Clone, Copy)]
pub struct Yards {
    pub library: Numbers,
    pub second: Numbers,
}

impl Yards {
    /// The same for both.
    pub fn of(numbers: Numbers) -> Yards {
        Yards { library: numbers, second: numbers }
    }
}

/// What the library and the second reader answer.
#[derive(Clone, Copy)]
pub struct Both<T> {
    pub library: Result<T, Refusal>,
    pub second: Result<T, Refusal>,
}

/// What a release hands in beside the yard.
#[derive(Clone, Copy)]
pub struct Release<'a> {
    pub tram: u16,
    pub word: &'a [u8],
    pub mark: u32,
    pub card: &'a [u8],
}

/// The lines of calls that are served, by the values that the C interface has for the answers.
const REQUESTS: [&str; 2] = ["requests that hold their track", "requests that join a queue"];
const RELEASES: [&str; 3] = ["releases not clear", "releases that free the track", "releases that hand the track on"];

/// Counts a call on a yard, as those on a card are counted, and its answer on a line of its own.
fn answered<T>(tally: &mut Tally, calls: &str, served: &str, second: Result<T, Refusal>, unlike: bool) {
    counted(tally, calls, served, second, unlike);
    tally.add("answers on yards compared", true);
}

/// A request, by each in its own yard.
pub fn request(tally: &mut Tally, yards: &mut Yards, tram: u16, track: u32) -> Both<Requested> {
    let library = library::request(&mut yards.library, tram, track);
    let second = yard_numbers::request(&mut yards.second, tram, track);
    let unlike = library != second || yards.library != yards.second;
    let value = usize::from(second == Ok(Requested::Waits));
    answered(tally, "requests", REQUESTS[value], second, unlike);
    Both { library, second }
}

/// A release, by each in its own yard. The second reader's search sets out from a walk on the card's track, in whose place a card
/// that is refused has its refusal.
pub fn release(tally: &mut Tally, yards: &mut Yards, given: Release, walk: Result<&Walk, Refusal>) -> Both<Released> {
    let Release { tram, word, mark, card } = given;
    let library = library::release(&mut yards.library, tram, word, mark, card);
    let second = walk.and_then(|walk| yard_numbers::release_from(&mut yards.second, walk, tram, word, mark));
    let unlike = library != second || yards.library != yards.second;
    let value = match second {
        Ok(Released::HandedTo(_)) => 2,
        Ok(Released::Freed) => 1,
        Ok(Released::NotClear) | Err(_) => 0,
    };
    answered(tally, "releases", RELEASES[value], second, unlike);
    Both { library, second }
}

/// Who holds and who waits in a yard that is sound, and each track's queue.
pub fn told(tally: &mut Tally, yards: &Yards) {
    let second = yard_numbers::yard_of(&yards.second).expect("at most 32 trams wait");
    let queues: Vec<Vec<u16>> = (0..16).map(|track| second.queue(track)).collect();
    let unlike = library::yard_told(&yards.library) != (second, queues);
    answered(tally, "yards told", "yards told", Ok(()), unlike);
}

/// The numbers that a program in C lends: those of a yard and a value, with more after both, which are lent or must stay.
#[derive(Clone, Copy, PartialEq)]
struct Lent {
    yard: [u16; NUMBERS + 3],
    values: [u32; 3],
}

impl Lent {
    fn of(numbers: &Numbers) -> Lent {
        let mut yard = [7; NUMBERS + 3];
        yard[..NUMBERS].copy_from_slice(numbers);
        Lent { yard, values: [7; 3] }
    }
}

/// How many numbers of a yard, and how many values, a call takes. Then the numbers that are tried of both.
pub const RIGHT_COUNTS: [usize; 2] = [NUMBERS, 1];
pub const YARD_COUNTS: [usize; 6] = [0, 1, 96, 97, 98, 100];
pub const VALUE_COUNTS: [usize; 4] = [0, 1, 2, 3];

/// A request in C with so many lent numbers of the yard and so many values. All that could have been lent is compared.
pub fn request_lent(tally: &mut Tally, numbers: &Numbers, [yard, values]: [usize; 2], tram: u16, track: u32) {
    let (mut left, mut right) = (Lent::of(numbers), Lent::of(numbers));
    let library = lent::request(&mut left.yard[..yard], tram, track, &mut left.values[..values]);
    let second = yard_numbers::request_lent(&mut right.yard[..yard], tram, track, &mut right.values[..values]);
    let served = REQUESTS.get(right.values[0] as usize);
    answered_lent(tally, "requests", served, [library, second], left != right);
}

/// A release in C, likewise.
pub fn release_lent(tally: &mut Tally, numbers: &Numbers, [yard, values]: [usize; 2], given: Release) {
    let Release { tram, word, mark, card } = given;
    let (mut left, mut right) = (Lent::of(numbers), Lent::of(numbers));
    let library = lent::release(&mut left.yard[..yard], tram, word, mark, card, &mut left.values[..values]);
    let second = yard_numbers::release_lent(&mut right.yard[..yard], tram, word, mark, card, &mut right.values[..values]);
    let served = RELEASES.get(right.values[0] as usize);
    answered_lent(tally, "releases", served, [library, second], left != right);
}

/// What both answered in C. Without a value there is no line of calls that are served.
fn answered_lent(tally: &mut Tally, calls: &str, served: Option<&&str>, [library, second]: [u32; 2], unlike: bool) {
    let answer = if second == 0 { Ok(()) } else { Err(second) };
    answered(tally, calls, served.unwrap_or(&"no value"), answer, unlike || library != second);
}
