//! The tables: what each way takes for a call, or for a word of tramread's, and the library's cost divided by it. The ways of a
//! call are first seen to answer alike.
use crate::calls::{Calls, Work, CALLS, TRAM_CALLS};
use crate::inputs::{card_and_words, has_trams, is_large, CARDS, CODES};
use crate::made::Made;
use crate::yards::{self, Yards};
use std::env;
use std::fs::{self, File};
use std::path::Path;
use std::process::{Command, Stdio};
use std::time::Instant;

/// What a way takes for a call, or a word of tramread's: seconds, and instructions where there is valgrind to count them.
#[derive(Clone, Copy)]
struct Cost {
    seconds: f64,
    instructions: Option<f64>,
}

impl Cost {
    /// What is left of it without another.
    fn less(self, other: Cost) -> Cost {
        let instructions = self.instructions.zip(other.instructions).map(|(all, part)| all - part);
        Cost { seconds: self.seconds - other.seconds, instructions }
    }
}

/// Prints the table of every card, the calls and the program tramread, that of the Reed-Muller codes, and that of the yard.
pub fn print(tramread: &str) {
    let me = env::current_exe().unwrap();
    let me = me.to_str().unwrap();
    head("card");
    for card in CARDS {
        calls(card, me);
        programs(card, tramread, me);
    }
    println!();
    head("code");
    for (name, _, _) in CODES {
        made(name, me);
    }
    println!();
    head("yard");
    for card in yards::CARDS {
        on_a_yard(card, me);
    }
}

/// The first two lines of a table with these names, of which a row gives the cost of one call, or of one word of tramread's.
fn head(names: &str) {
    println!(
        "| {names} | call | by | instructions a call | library's instructions / this | calls a second | library's time / this |"
    );
    println!("|---|---|---|---|---|---|---|");
}

/// A row for each way of a call, as it is measured. The first is the library's.
fn rows<'a>(card: &str, call: &str, ways: impl Iterator<Item = (&'a str, Cost)>) {
    let mut first = None;
    for (way, cost) in ways {
        let library: Cost = *first.get_or_insert(cost);
        let (count, ratio) = match (cost.instructions, library.instructions) {
            (Some(count), Some(library)) => (format!("{count:.0}"), format!("{:.2}", library / count)),
            _ => ("-".into(), "-".into()),
        };
        let (speed, times) = (1.0 / cost.seconds, library.seconds / cost.seconds);
        println!("| {card} | {call} | {way} | {count} | {ratio} | {speed:.0} | {times:.2} |");
    }
}

/// What one way of a call takes, on a card or a code. `me` is this program, which makes `counted` calls, and twice as many, once
/// more under the instruction counter.
fn cost(work: &impl Calls, name: &str, call: &str, way: &str, counted: usize, me: &str) -> Cost {
    let instructions = instructions_a_word(counted, |count| {
        instructions(callgrind().arg(me).args(["count", name, call, way, &count.to_string()]))
    });
    Cost { seconds: work.seconds(call, way), instructions }
}

/// The calls on one card.
fn calls(card: &str, me: &str) {
    let (timed, counted) = if is_large(card) { (200, 50) } else { (20_000, 500) };
    let work = Work::new(card, timed);
    let tram_calls = TRAM_CALLS.into_iter().filter(|_| has_trams(card));
    for (call, ways) in CALLS.into_iter().chain(tram_calls) {
        let measured = ways.iter().map(|&way| {
            work.check(call, way);
            (way, cost(&work, card, call, way, counted, me))
        });
        rows(card, call, measured);
    }
}

/// The calls on one Reed-Muller code. The search of a chunk alone is no call of the library. What it takes is measured as a
/// difference: a word whose chunk 1 is searched and refused, less a word with the same chunks whose separators are refused
/// before. What the votes alone take is measured likewise: the chunk is voted on and refused, less the same chunk with an order that
/// is refused before. The search stands first in the last three rows, so the ratios there are its cost divided by the votes'.
fn made(name: &str, me: &str) {
    let work = Made::named(name, 2000).unwrap();
    work.check();
    let cost = |call, way| cost(&work, name, call, way, 500, me);
    let ways = |call, ways: [&'static str; 2]| rows(name, call, ways.into_iter().map(|way| (way, cost(call, way))));
    ways("make_card", ["library", "plain"]);
    ways("vote_chunk", ["library", "kept"]);
    let search = cost("read_word", "refused-10").less(cost("read_word", "refused-9"));
    let call = cost("vote_chunk", "library");
    let votes = call.less(cost("vote_chunk", "refused-13"));
    let readers = [
        ("search: read_word refused by 10, less refused by 9", search),
        ("votes: vote_chunk refused by 10, less refused by 13", votes),
        ("vote_chunk, the whole call", call),
    ];
    rows(name, "search / votes", readers.into_iter());
}

/// The most instructions that the library may take for a request, and for a release beside the read of its word.
const YARD_LIMIT: f64 = 12_000.0;

/// Fails unless what the library takes, the first of these ways, is within that limit. Where nothing is counted it passes.
fn within_limit(call: &str, ways: &[(&str, Cost)]) {
    let count = ways[0].1.instructions.unwrap_or(0.0);
    assert!(count <= YARD_LIMIT, "{call} takes {count:.0} instructions, above {YARD_LIMIT}");
}

/// The calls on a yard: the request, which takes no card, beside the first card alone. What a release takes beside the read of its
/// word is measured as a difference: the releases, less the reads of the same words.
fn on_a_yard(card: &str, me: &str) {
    let name = format!("yard-{card}");
    let work = Yards::named(&name, 2000).unwrap();
    work.check();
    let cost = |call, way| cost(&work, &name, call, way, 500, me);
    if card == yards::CARDS[0] {
        let requests = ["library", "plain"].map(|way| (way, cost("request", way)));
        rows("no card", "request", requests.into_iter());
        within_limit("request", &requests);
    }
    let releases = yards::WAYS.map(|way| (way, cost("release", way)));
    let reads = yards::WAYS.map(|way| (way, cost("read", way)));
    let differences: Vec<_> = releases.iter().zip(&reads).map(|(release, read)| (release.0, release.1.less(read.1))).collect();
    rows(card, "release", releases.into_iter());
    rows(card, "read of its word", reads.into_iter());
    rows(card, "release less read", differences.iter().copied());
    within_limit("release less read", &differences);
}

/// The program tramread and its baselines on one card, each reading files of words.
fn programs(card: &str, tramread: &str, me: &str) {
    let (timed, counted) = if is_large(card) { (10_000, 100) } else { (300_000, 2000) };
    let folder = env::temp_dir().join(format!("dunnavish-bench-{}", std::process::id()));
    fs::create_dir_all(&folder).unwrap();
    let input = |count: usize| folder.join(count.to_string());
    for count in [timed, counted, 2 * counted] {
        fs::write(input(count), card_and_words(card, count)).unwrap();
    }
    let ways: [(&str, &[&str]); 3] =
        [("library", &[tramread]), ("kept", &[me, "tramread"]), ("kept-nested", &[me, "tramread-nested"])];
    let outputs = ways.map(|(_, command)| program(command, &input(timed)).output().unwrap().stdout);
    assert!(outputs.iter().all(|output| *output == outputs[0]), "tramread and its baselines print the same");
    let measured = ways.into_iter().map(|(way, command)| {
        let instructions = instructions_a_word(counted, |count| {
            instructions(callgrind().args(command).stdin(File::open(input(count)).unwrap()))
        });
        (way, Cost { seconds: seconds_of(command, &input(timed)) / timed as f64, instructions })
    });
    rows(card, "tramread", measured);
    fs::remove_dir_all(&folder).unwrap();
}

/// A command that reads a file.
fn program(command: &[&str], input: &Path) -> Command {
    let mut program = Command::new(command[0]);
    program.args(&command[1..]).stdin(File::open(input).unwrap());
    program
}

/// Seconds of a whole run: the best of five.
fn seconds_of(command: &[&str], input: &Path) -> f64 {
    let mut best = f64::INFINITY;
    for _ in 0..5 {
        let start = Instant::now();
        assert!(program(command, input).stdout(Stdio::null()).status().unwrap().success());
        best = best.min(start.elapsed().as_secs_f64());
    }
    best
}

fn callgrind() -> Command {
    let mut command = Command::new("valgrind");
    command.args(["--tool=callgrind", "--callgrind-out-file=/dev/null"]);
    command
}

/// What callgrind collects for a command, or nothing where there is no valgrind.
fn instructions(command: &mut Command) -> Option<u64> {
    let output = command.stdout(Stdio::null()).stderr(Stdio::piped()).output().ok()?;
    let text = String::from_utf8_lossy(&output.stderr).into_owned();
    let line = text.lines().find(|line| line.contains("Collected :"))?;
    line.rsplit(' ').next()?.parse().ok()
}

/// Instructions a word: those of 2N words less those of N.
fn instructions_a_word(count: usize, of: impl Fn(usize) -> Option<u64>) -> Option<f64> {
    let (once, twice) = (of(count)?, of(2 * count)?);
    Some((twice as f64 - once as f64) / count as f64)
}
