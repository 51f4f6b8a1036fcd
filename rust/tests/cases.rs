//! The cases of cases.txt through the library, a line a case: the question is put to the library, and its answer, written out, must
//! be the one that stands in the line. That file says what may be asked, and how it is written. A line that can't be read fails, and
//! so does a question that is asked twice.
mod asked;
mod cards;
mod divided;
mod words;
mod yards;

use asked::Asked;
use divided::divided;
use dunnavish::{block_start, check_card, make_card, millimetres, read_levels, read_word, vote_chunk, write_word};
use dunnavish::{nearest_tram, trams_crossing, trams_within, CardSummary, Reading, Refusal, Stretch, CARD_BYTES};
use dunnavish::{Released, Requested, Yard};
use std::collections::{HashMap, HashSet};
use words::{chunks, word_at};
use yards::text_of;

const CASES: &str = include_str!("cases.txt");

/// An answer written out: that of a call that is served, or the refusal.
fn written<T>(answer: Result<T, Refusal>, text: impl FnOnce(T) -> String) -> String {
    answer.map_or_else(refused, text)
}

fn refused(refusal: Refusal) -> String {
    refusal.number().map_or_else(|| refusal.to_string(), |number| format!("refused {number}"))
}

/// Texts with a space between them.
fn joined(texts: impl IntoIterator<Item = impl ToString>) -> String {
    texts.into_iter().map(|text| text.to_string()).collect::<Vec<_>>().join(" ")
}

/// The same, or another text where there are none.
fn joined_or(none: &str, texts: impl IntoIterator<Item = impl ToString>) -> String {
    Some(joined(texts)).filter(|text| !text.is_empty()).unwrap_or_else(|| none.to_string())
}

fn in_bytes(bytes: &[u8]) -> String {
    joined_or("nothing", bytes.iter().map(|byte| format!("{byte:02X}")))
}

fn in_bits(bits: &[bool]) -> String {
    bits.iter().map(|bit| if *bit { '1' } else { '0' }).collect()
}

fn summary_of(summary: CardSummary) -> String {
    let CardSummary { length, rows, track, distance, radius, word_bits, last } = summary;
    let bytes = summary.word_bytes();
    format!("n {length} k {rows} track {track} D {distance} t {radius} d {word_bits} last {last} bytes {bytes}")
}

fn reading_of(reading: Reading) -> String {
    let Reading { position, residual, rule, chunk1_bits, chunk2_bits } = reading;
    let bits = joined([chunk1_bits, chunk2_bits].map(|bits| bits.map_or("-".to_string(), |bits| bits.to_string())));
    format!("at {position} residual {residual} rule {} bits {bits}", rule.number())
}

/// Of each tram yes or no.
fn yes_or_no(yes: Vec<bool>) -> String {
    joined_or("nothing", yes.into_iter().map(|yes| if yes { "yes" } else { "no" }))
}

/// The place of a tram, if there is one.
fn place(nearest: Option<usize>) -> String {
    nearest.map_or("none".to_string(), |place| place.to_string())
}

/// A request of a tram for a track: what is answered, and the yard that it leaves.
fn request(mut yard: Yard, tram: u16, track: u32) -> String {
    let before = yard.clone();
    match yard.request(tram, track) {
        Ok(Requested::Holds) => format!("holds left {}", text_of(&yard)),
        Ok(Requested::Waits) => format!("waits left {}", text_of(&yard)),
        Err(refusal) => unchanged(refused(refusal), &before, &yard),
    }
}

/// A release by a tram: what is answered, and the yard that it leaves.
fn release(mut yard: Yard, tram: u16, word: &[u8], mark: u32, card: &[u8]) -> String {
    let before = yard.clone();
    match yard.release(tram, word, mark, card) {
        Ok(Released::HandedTo(tram)) => format!("handed to {tram} left {}", text_of(&yard)),
        Ok(Released::Freed) => format!("freed left {}", text_of(&yard)),
        Ok(Released::NotClear) => unchanged("not clear".to_string(), &before, &yard),
        Err(refusal) => unchanged(refused(refusal), &before, &yard),
    }
}

/// An answer that leaves a yard as it was, every number of it; where it doesn't, the yard is written out.
fn unchanged(answer: String, before: &Yard, after: &Yard) -> String {
    match before == after {
        true => answer,
        false => format!("{answer} left {}", text_of(after)),
    }
}

/// Each of the ten calls on a card, with position, block and marks 0, a lent and a received word of two bytes, 15 levels, a tram
/// at 0, and a yard that is refused itself: what all of them answer, or all their answers.
fn every(card: &[u8]) -> String {
    let tram = [Stretch { low: 0, high: 0 }];
    let unsound = Yard::from_numbers([33; dunnavish::YARD_NUMBERS]);
    let mut answers = vec![
        written(check_card(card), summary_of),
        write(card, 0, vec![0xaa; 2]).replace(" left AA AA", ""),
        written(read_word(card, &[0; 2]), reading_of),
        written(read_levels(card, &[1.0; 15]), |(reading, _)| reading_of(reading)),
        written(block_start(card, 0), |start| start.to_string()),
        written(millimetres(card, 0), |distance| distance.to_string()),
        written(trams_crossing(card, &tram, 0), yes_or_no),
        written(trams_within(card, &tram, 0, 0), yes_or_no),
        written(nearest_tram(card, &tram, 0), place),
        release(unsound, 0, &[0; 2], 0, card),
    ];
    answers.dedup();
    answers.join(", ")
}

/// A write into these lent bytes: what they hold after it, and what they were left with where it is refused.
fn write(card: &[u8], position: u32, mut lent: Vec<u8>) -> String {
    match write_word(card, position, &mut lent) {
        Ok(()) => in_bytes(&lent),
        Err(refusal) => format!("{} left {}", refused(refusal), in_bytes(&lent)),
    }
}

/// The word of a position, chunk by chunk.
fn word(card: &[u8], summary: &CardSummary, position: u32) -> String {
    let word = word_at(card, summary, position);
    joined(chunks(summary).map(|places| in_bits(&word[places])))
}

/// Code chunk 1 of each word at which a block starts, and chunk 2 beside it where that is another.
fn order(card: &[u8], summary: &CardSummary) -> String {
    let [_, chunk1, _, chunk2, _] = chunks(summary);
    let starts = (0..1 << summary.rows).map(|block| block_start(card, block).unwrap());
    joined(starts.map(|start| {
        let word = word_at(card, summary, start);
        let mut both = vec![in_bits(&word[chunk1.clone()]), in_bits(&word[chunk2.clone()])];
        both.dedup();
        both.join("/")
    }))
}

/// In how many bits the word of a position differs from these bytes.
fn unlike(card: &[u8], position: u32, bytes: &[u8]) -> String {
    let mut word = vec![0; bytes.len()];
    written(write_word(card, position, &mut word), |()| {
        word.iter().zip(bytes).map(|(ours, theirs)| (ours ^ theirs).count_ones()).sum::<u32>().to_string()
    })
}

fn where_divided(card: &[u8], summary: &CardSummary, chunk: usize) -> String {
    joined_or("none", (0..=summary.last).filter(|&position| divided(card, summary, position) == Some(chunk)))
}

/// What a check of a made card answers, and the rows that it has.
fn made(card: [u8; CARD_BYTES]) -> String {
    let row = |z: usize| u64::from_be_bytes(card[4 + 8 * z..12 + 8 * z].try_into().unwrap());
    written(check_card(&card), |summary| {
        let rows = joined((0..summary.rows as usize).map(|z| format!("{:X}", row(z))));
        format!("{} rows {rows}", summary_of(summary))
    })
}

/// The library's answer to what is asked of a sound card's words.
fn of_words(call: &str, card: &[u8], asked: &mut Asked) -> Result<String, String> {
    let summary = &check_card(card).map_err(refused)?;
    Ok(match call {
        "word" => word(card, summary, asked.number()?),
        "order" => order(card, summary),
        "divided" => where_divided(card, summary, asked.chunk()?),
        _ => return Err(format!("nothing is called {call}")),
    })
}

/// The library's answer to what is asked of the trams on a card's track.
fn of_trams(call: &str, card: &[u8], asked: &mut Asked) -> Result<String, String> {
    let first = asked.number()?;
    let second = if call == "within" { asked.number()? } else { first };
    let trams = asked.after("of")?.trams()?;
    Ok(match call {
        "crossing" => written(trams_crossing(card, &trams, first), yes_or_no),
        "within" => written(trams_within(card, &trams, first, second), yes_or_no),
        _ => written(nearest_tram(card, &trams, first), place),
    })
}

/// The library's answer to what is asked of a card.
fn of_card(call: &str, card: &[u8], asked: &mut Asked) -> Result<String, String> {
    Ok(match call {
        "check" => written(check_card(card), summary_of),
        "every" => every(card),
        "bytes" => in_bytes(card.get(asked.number()?..=asked.number()?).ok_or("the card has no such bytes")?),
        "write" => write(card, asked.number()?, asked.after("over")?.bytes()?),
        "start" => written(block_start(card, asked.number()?), |start| start.to_string()),
        "millimetres" => written(millimetres(card, asked.number()?), |distance| distance.to_string()),
        "read" => written(read_word(card, &asked.word()?), reading_of),
        "levels" => written(read_levels(card, &asked.levels()?), |(reading, strength)| {
            format!("{} strength {} {}", reading_of(reading), strength.sum, strength.greatest)
        }),
        "unlike" => unlike(card, asked.number()?, &asked.bytes()?),
        "crossing" | "within" | "nearest" => of_trams(call, card, asked)?,
        _ => of_words(call, card, asked)?,
    })
}

/// The library's answer to what is asked of a yard.
fn of_yard(call: &str, named: &Named, asked: &mut Asked) -> Result<String, String> {
    let (yard, tram) = (asked.yard(&named.yards)?, asked.number()?);
    if call == "request" {
        return Ok(request(yard, tram, asked.number()?));
    }
    let (card, mark) = (asked.card(&named.cards)?, asked.number()?);
    Ok(release(yard, tram, &asked.after("by")?.word()?, mark, &card))
}

/// The library's answer to a question.
fn answer(question: &str, named: &Named) -> Result<String, String> {
    let mut asked = Asked::of(question)?;
    let call = asked.next()?;
    let answer = match call.as_str() {
        "request" | "release" => of_yard(&call, named, &mut asked)?,
        "make" => written(make_card(asked.number()?, asked.number()?, asked.number()?), made),
        "vote" => written(vote_chunk(asked.number()?, asked.number()?, asked.hexadecimal()?), |vote| {
            format!("number {} bits {}", vote.number, vote.bits)
        }),
        _ => of_card(&call, &asked.card(&named.cards)?, &mut asked)?,
    };
    asked.end().map(|()| answer)
}

/// The answer that a line has, as one of the library is written: what stands there so many times is written out, and a sum is added up.
fn expected(text: &str) -> Result<String, String> {
    let terms: Result<Vec<u32>, _> = text.split(" + ").map(str::parse).collect();
    match terms {
        Ok(terms) if terms.len() > 1 => Ok(terms.iter().sum::<u32>().to_string()),
        _ => asked::repeated(text).map(joined),
    }
}

/// The cards and the yards that have a name.
#[derive(Default)]
struct Named {
    cards: HashMap<String, Vec<u8>>,
    yards: HashMap<String, Yard>,
}

impl Named {
    /// Keeps a card, or a yard, that a text describes.
    fn keep(&mut self, kind: &str, name: &str, text: &str) -> Result<(), String> {
        let mut asked = Asked::of(text)?;
        let kept = match kind {
            "card" => self.cards.insert(name.to_string(), asked.described(&self.cards)?).is_some(),
            _ => self.yards.insert(name.to_string(), asked.described_yard(&self.yards)?).is_some(),
        };
        asked.end()?;
        (!kept).then_some(()).ok_or(format!("another {kind} is called {name}"))
    }
}

/// What was met in a text: the cards and yards that have a name, and the questions.
#[derive(Default)]
struct Met {
    named: Named,
    questions: HashSet<String>,
}

impl Met {
    /// Reads a line: keeps the card or the yard, or puts the question to the library.
    fn line(&mut self, line: &str) -> Result<(), String> {
        let (question, text) = line.split_once(" = ").ok_or("there is no answer")?;
        for kind in KINDS {
            if let Some(name) = question.strip_prefix(kind).and_then(|name| name.strip_prefix(' ')) {
                return self.named.keep(kind, name, text);
            }
        }
        if !self.questions.insert(question.to_string()) {
            return Err("this is asked twice".to_string());
        }
        let (answer, expected) = (answer(question, &self.named)?, expected(text)?);
        (answer == expected).then_some(()).ok_or(format!("the answer is {answer}"))
    }
}

/// What may have a name.
const KINDS: [&str; 2] = ["card", "yard"];

/// Whether a line is a case, a card or a yard, not blank and not a comment.
fn counts(line: &str) -> bool {
    !line.is_empty() && !line.starts_with('#')
}

/// Runs the lines of a text: how many cases it has, or what is wrong, line by line.
fn run(text: &str) -> Result<usize, Vec<String>> {
    let mut met = Met::default();
    let lines = text.lines().zip(1..).filter(|(line, _)| counts(line));
    let faults: Vec<String> =
        lines.filter_map(|(line, place)| met.line(line).err().map(|fault| format!("{place}: {line}: {fault}"))).collect();
    if faults.is_empty() {
        Ok(met.questions.len())
    } else {
        Err(faults)
    }
}

#[test]
fn every_case_is_answered_as_it_stands() {
    let is_case = |line: &str| counts(line) && !KINDS.iter().any(|kind| line.starts_with(&format!("{kind} ")));
    let cases = CASES.lines().filter(|line| is_case(line)).count();
    match run(CASES) {
        Ok(tried) => assert_eq!(tried, cases),
        Err(faults) => panic!("{} of {cases} cases fail:\n{}", faults.len(), faults.join("\n")),
    }
}

/// Runs lines behind card B: how many cases they have, or what is wrong.
fn behind_card_b(lines: &str) -> Result<usize, String> {
    run(&format!("card B = n 3 k 1 track 14 rows 7\n{lines}")).map_err(|faults| faults.join("\n"))
}

/// Each of these lines fails, and that is told of it.
fn fail(faulty: &[(&str, &str)]) {
    for (lines, told) in faulty {
        let faults = behind_card_b(lines).unwrap_err();
        assert!(faults.contains(told), "{lines}: {faults}");
    }
}

#[test]
fn a_faulty_line_of_a_yard_fails() {
    assert_eq!(behind_card_b("yard Y = 14:7 waiting 8..9>14\nrequest Y 6 14 = waits left 14:7 waiting 8..9>14 6>14"), Ok(1));
    fail(&[
        ("request (14:7 past 5>3) 8 14 = waits left 14:7", "the answer is waits left 14:7 waiting 8>14"),
        ("request (14:7/2 waiting 8>14 past 5>3) 9 0 = holds left 0:9", "left 0:9 14:7 waiting 8>14 past 5>3"),
        ("release (14:7/2 3:9/0) 7 B 4 by FF 7F = freed left empty", "the answer is freed left 3:9/0"),
        ("release (14:7) 7 B 5 by FF 7F = not clear left 14:7", "the answer is not clear"),
        ("request Y 7 14 = refused 26", "no yard is called Y"),
        ("request (16:7) 7 14 = refused 26", "16:7 is no holder"),
        ("request (14:65536) 7 14 = refused 26", "14:65536 is no holder"),
        ("request (waiting 8-14) 7 14 = refused 26", "8-14 can't wait"),
        ("request (waiting 1..33>14) 7 14 = refused 26", "33>14 can't wait"),
        ("request (count) 7 14 = refused 26", "there is no count"),
        ("release (14:7) 7 B 4 FF 7F = freed left empty", "FF stands where by should"),
        ("yard Y = empty\nyard Y = 14:7", "another yard is called Y"),
    ]);
}

#[test]
fn a_faulty_line_fails() {
    assert_eq!(behind_card_b("read B 5F 00 = at 5 residual 1 rule 2 bits - 0"), Ok(1));
    fail(&[
        ("read B 5F 00 = at 5 residual 1 rule 2 bits - 1", "the answer is at 5 residual 1 rule 2 bits - 0"),
        ("write B 16 over AA AA = refused 7", "the answer is refused 7 left AA AA"),
        ("start B 1 = 9 + 5", "the answer is 15"),
        ("levels B 0*15 = at 0 residual 0 rule 3 bits 0 0 strength 15 1.0000001", "strength 15 1"),
        ("every B = refused 3", "the answer is n 3 k 1"),
        ("crossing B 3 of 0-2 14-15 = yes yes", "the answer is yes no"),
        ("nearest B 3 of 0-2 = none", "the answer is 0"),
        ("start B 1", "there is no answer"),
        ("begin B 1 = 15", "nothing is called begin"),
        ("start C 1 = 15", "no card is called C"),
        ("start B = 15", "the line ends early"),
        ("start B 1 2 = 15", "2 is too much"),
        ("start B one = 15", "one is no number"),
        ("read B 5G 00 = refused 6", "5G is no byte"),
        ("read B 05F 00 = refused 6", "05F is no byte"),
        ("levels B 0002 = refused 15", "0002 is no level"),
        ("crossing B 3 0-2 = yes", "0-2 stands where of should"),
        ("within B 3 of 0-2 = no", "of is no number"),
        ("nearest B 3 of 2 = 0", "2 is no stretch"),
        ("check (n 3 m 1) = refused 3", "m is no part of a card"),
        ("check (n 3 k 1 = refused 3", "the line ends early"),
        ("card B = n 3", "another card is called B"),
        ("start B 1 = 15\nstart B 1 = 15", "this is asked twice"),
    ]);
}
