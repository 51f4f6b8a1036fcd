//! Yards as words, and the words of yards; the head of cases.txt says how they are written.
use dunnavish::{Yard, MOST_WAITING, TRACKS, YARD_NUMBERS};

// Where the parts of a yard begin in its numbers.
const HOLDERS: usize = 16;
const COUNT: usize = 32;
const TRAMS: usize = 33;
const WAITED_FOR: usize = 65;

/// The words that a word stands for: `3..5>14` is trams 3, 4 and 5, each for track 14; any other word is itself.
pub fn one_by_one(word: &str) -> Vec<String> {
    let range = word.split_once("..").and_then(|(first, rest)| rest.split_once('>').map(|(last, track)| (first, last, track)));
    match range.and_then(|(first, last, track)| Some((first.parse::<u16>().ok()?, last.parse::<u16>().ok()?, track))) {
        Some((first, last, track)) => (first..=last).map(|tram| format!("{tram}>{track}")).collect(),
        None => vec![word.to_string()],
    }
}

/// The yard that words describe, beginning from another one.
pub fn yard_of(from: &Yard, words: &[String]) -> Result<Yard, String> {
    let mut numbers = *from.numbers();
    let (mut part, mut place) = ("held", usize::from(numbers[COUNT]));
    let mut words = words.iter().map(String::as_str);
    while let Some(word) = words.next() {
        match word {
            "empty" => {}
            "waiting" | "past" => part = word,
            "count" => numbers[COUNT] = words.next().and_then(|count| count.parse().ok()).ok_or("there is no count")?,
            _ if part == "held" => put_holder(&mut numbers, word).ok_or(format!("{word} is no holder"))?,
            _ => {
                put_waiting(&mut numbers, place, word).ok_or(format!("{word} can't wait"))?;
                place += 1;
                numbers[COUNT] = if part == "waiting" { place as u16 } else { numbers[COUNT] };
            }
        }
    }
    Ok(Yard::from_numbers(numbers))
}

/// Puts the holder of a track, and its flag, which is 1 where it isn't given.
fn put_holder(numbers: &mut [u16; YARD_NUMBERS], word: &str) -> Option<()> {
    let (track, holder) = word.split_once(':')?;
    let (tram, flag) = holder.split_once('/').unwrap_or((holder, "1"));
    let track = track.parse().ok().filter(|&track: &usize| track < TRACKS)?;
    (numbers[track], numbers[HOLDERS + track]) = (flag.parse().ok()?, tram.parse().ok()?);
    Some(())
}

/// Puts a waiting tram, and its track, at a place.
fn put_waiting(numbers: &mut [u16; YARD_NUMBERS], place: usize, word: &str) -> Option<()> {
    let (tram, track) = word.split_once('>').filter(|_| place < MOST_WAITING)?;
    (numbers[TRAMS + place], numbers[WAITED_FOR + place]) = (tram.parse().ok()?, track.parse().ok()?);
    Some(())
}

/// The words of a yard. No two yards have the same.
pub fn text_of(yard: &Yard) -> String {
    let numbers = yard.numbers();
    let mut words: Vec<String> = Vec::new();
    for track in 0..TRACKS {
        match (numbers[track], numbers[HOLDERS + track]) {
            (0, 0) => {}
            (1, tram) => words.push(format!("{track}:{tram}")),
            (flag, tram) => words.push(format!("{track}:{tram}/{flag}")),
        }
    }
    let entries: Vec<(u16, u16)> = (0..MOST_WAITING).map(|place| (numbers[TRAMS + place], numbers[WAITED_FOR + place])).collect();
    let (waiting, past) = entries.split_at(MOST_WAITING.min(usize::from(numbers[COUNT])));
    let last = past.iter().rposition(|&entry| entry != (0, 0)).map_or(0, |last| last + 1);
    for (name, entries) in [("waiting", waiting), ("past", &past[..last])] {
        words.extend(entries.first().map(|_| name.to_string()));
        words.extend(entries.iter().map(|(tram, track)| format!("{tram}>{track}")));
    }
    if usize::from(numbers[COUNT]) > MOST_WAITING {
        words.push(format!("count {}", numbers[COUNT]));
    }
    words.first().map_or("empty".to_string(), |_| words.join(" "))
}
