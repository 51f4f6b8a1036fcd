//! Measures the library against the baseline: `bench/run` says how it is started.
//!
//!     bench measure TRAMREAD          the tables; TRAMREAD is the path of the program of that name
//!     bench count NAME CALL WAY N     makes N calls on a card, a code or a yard and prints nothing: for an instruction counter
//!     bench input CARD N              a card and N words, as tramread reads them
//!     bench tramread                  tramread by the baseline that keeps its card: standard input to standard output
//!     bench tramread-nested           the same with the nested search in C
mod baseline;
mod calls;
#[path = "../../rust/tests/cards/mod.rs"]
mod cards;
#[path = "../../rust/tests/codes/mod.rs"]
mod codes;
mod inputs;
mod made;
mod nested;
mod plain_yard;
mod table;
mod tramread;
mod yards;

use baseline::Kept;
use calls::{Calls as _, Work};
use made::Made;
use nested::KeptNested;
use std::env;
use std::io::{self, Write as _};
use yards::Yards;

fn main() {
    let args: Vec<String> = env::args().collect();
    let args: Vec<&str> = args.iter().map(String::as_str).collect();
    match args[1..] {
        ["measure", tramread] => table::print(tramread),
        ["count", name, call, way, count] => {
            let count = count.parse().unwrap();
            // the same words or chunks are made for every N, so that the difference of two counts is that of the calls
            match (Made::named(name, 1000), Yards::named(name, 1000)) {
                (Some(made), _) => made.all(call, way, count),
                (None, Some(yards)) => yards.all(call, way, count),
                (None, None) => Work::new(name, 1000).all(call, way, count),
            };
        }
        ["input", card, count] => io::stdout().write_all(&inputs::card_and_words(card, count.parse().unwrap())).unwrap(),
        ["tramread"] => tramread::run(Kept::new),
        ["tramread-nested"] => tramread::run(|code| KeptNested(Kept::new(code))),
        _ => panic!("usage: bench measure TRAMREAD | count NAME CALL WAY N | input CARD N | tramread | tramread-nested"),
    }
}
