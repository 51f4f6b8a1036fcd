//! The C header says the same as this crate: the version, the refusals' numbers and texts, the sizes, what stands for no count and for
//! no tram, and where the parts of a yard begin. And the refusals' numbers are the documents'.
use dunnavish::{Refusal, Yard, CARD_BYTES, MOST_TRAMS, MOST_WAITING, TRACKS, WIDEST_WORD_BYTES, YARD_NUMBERS};

const HEADER: &str = include_str!("../../include/dunnavish.h");

/// Whether some line of the header is this one, spaces at its ends aside.
fn declares(wanted: &str) -> bool {
    HEADER.lines().any(|line| line.trim() == wanted)
}

#[test]
fn one_version() {
    assert!(declares(&format!("#define DUNNAVISH_VERSION \"{}\"", env!("CARGO_PKG_VERSION"))));
    assert!(declares(&format!("#define DUNNAVISH_VERSION_MAJOR {}", env!("CARGO_PKG_VERSION_MAJOR"))));
    assert!(declares(&format!("#define DUNNAVISH_VERSION_MINOR {}", env!("CARGO_PKG_VERSION_MINOR"))));
    assert!(declares(&format!("#define DUNNAVISH_VERSION_PATCH {}", env!("CARGO_PKG_VERSION_PATCH"))));
}

#[test]
fn one_table_of_refusals() {
    for refusal in Refusal::ALL.iter().chain(Refusal::OF_A_YARD) {
        let number = refusal.number().unwrap();
        let text = refusal.to_string().replace(&format!(" (refusal {number})"), "");
        let named = HEADER.split(&format!(" = {number},")).next().and_then(|before| before.split_whitespace().last());
        let case = format!("case {}: return \"{text}\";", named.unwrap());
        assert!(declares(&case), "{case}");
    }
}

#[test]
fn the_same_sizes() {
    assert!(declares(&format!("#define DUNNAVISH_CARD_BYTES {CARD_BYTES}")));
    assert!(declares(&format!("#define DUNNAVISH_WIDEST_WORD_BYTES {WIDEST_WORD_BYTES}")));
    assert!(declares(&format!("#define DUNNAVISH_MOST_TRAMS {MOST_TRAMS}")));
    assert!(declares(&format!("#define DUNNAVISH_TRACKS {TRACKS}")));
    assert!(declares(&format!("#define DUNNAVISH_MOST_WAITING {MOST_WAITING}")));
}

/// The number that the header gives a name in an enumeration.
fn enumerated(name: &str) -> usize {
    let (_, after) = HEADER.split_once(&format!(" {name} = ")).unwrap();
    after.split(|mark: char| !mark.is_ascii_digit()).next().unwrap().parse().unwrap()
}

#[test]
fn the_same_parts_of_a_yard() {
    let parts =
        ["HELD", "HOLDERS", "COUNT", "TRAMS", "TRACKS", "NUMBERS"].map(|part| enumerated(&format!("DUNNAVISH_YARD_{part}")));
    assert_eq!(parts, [0, 16, 32, 33, 65, YARD_NUMBERS]);
    let [held, holders, count, trams, tracks, _] = parts;
    let mut numbers = [0; YARD_NUMBERS];
    // track 15 is held by tram 7, and 32 trams wait, the last of them 9 for track 15
    (numbers[held + 15], numbers[holders + 15], numbers[count]) = (1, 7, 32);
    (numbers[trams + 31], numbers[tracks + 31]) = (9, 15);
    let yard = Yard::from_numbers(numbers);
    assert_eq!((yard.holder(15), yard.waiting().last(), yard.waiting().count()), (Some(7), Some((9, 15)), 32));
}

#[test]
fn a_chunk_that_is_not_read() {
    // the greatest number, which the crate's own tests show to be no count, and the only such
    assert!(declares(&format!("#define DUNNAVISH_NOT_READ {}u", u32::MAX)));
}

#[test]
fn no_tram() {
    // the greatest number, which the crate's own tests show to be no place, and none only of no trams
    assert!(declares(&format!("#define DUNNAVISH_NO_TRAM {}u", u32::MAX)));
}

#[test]
fn refusals_have_the_documents_numbers() {
    assert_eq!(Refusal::ALL.len(), 19);
    for (number, refusal) in (1..).zip(Refusal::ALL) {
        assert_eq!(refusal.number(), Some(number));
        assert_eq!(Refusal::from_number(number), Some(*refusal));
    }
    assert_eq!(Refusal::from_number(0), None);
    assert_eq!(Refusal::from_number(20), None);
    assert_eq!(Refusal::from_number(100), None);
}

#[test]
fn refusals_at_a_yard_have_the_documents_numbers() {
    let numbers = [20, 21, 22, 26];
    assert_eq!(Refusal::OF_A_YARD.len(), numbers.len());
    for (number, refusal) in (1..).zip(Refusal::ALL).chain(numbers.into_iter().zip(Refusal::OF_A_YARD)) {
        assert_eq!(refusal.number(), Some(number));
        assert_eq!(Refusal::from_number_at_a_yard(number), Some(*refusal));
    }
    for number in [0, 23, 24, 25, 27, 100] {
        assert_eq!(Refusal::from_number_at_a_yard(number), None);
    }
}
