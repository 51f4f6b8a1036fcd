//! Request P6: a word is read only if the separator that its rule names has the parity of p, the codeword's number; both are found from
//! the word itself.
use crate::tally::Tally;
use second_reader::track::Track;
use second_reader::Refusal;

/// Words are held to it on cards of up to this number of codewords, each of which is tried.
const MOST: usize = 256;

/// Holds to it what the library answered of a word of the right form, one that is not refused by 6, 8, 15 or 16; `agrees` says
/// whether the separator has the parity of p, if there is a rule and a p.
pub fn held<T>(tally: &mut Tally, track: &Track, answer: Result<T, Refusal>, agrees: impl FnOnce() -> Option<bool>) {
    if track.card.code.codewords() > MOST {
        return;
    }
    let agrees = agrees();
    let fits = match answer {
        Ok(_) => agrees == Some(true),
        Err(17) => agrees == Some(false),
        Err(12) => agrees.is_some(),
        Err(_) => agrees.is_none(),
    };
    tally.add("words whose separator has the parity of p", agrees == Some(true));
    tally.add("words whose separator has not the parity of p", agrees == Some(false));
    tally.add("words read or refused against the parity of p", !fits);
}
