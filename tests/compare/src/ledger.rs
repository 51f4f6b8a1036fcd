//! What request P9 promises of a day, followed from what calls were answered and from the numbers that they left, and from
//! nothing else: a waiting tram with q trams ahead of it in its queue holds its track after exactly q + 1 accepted releases of
//! that track, nobody else is handed it in between, and a call that is refused or not clear changes nothing.
use second_reader::yard::{Released, Requested};
use second_reader::yard_numbers::{Numbers, COUNT, FLAGS, HOLDERS, WAITED_FOR};
use second_reader::Refusal;

/// A tram that has joined a queue, with so many ahead of it, and the accepted releases of its track from there on.
struct Joined {
    tram: u16,
    track: u16,
    ahead: usize,
    accepted: usize,
}

/// A day so far: the numbers that the last call left, and the trams that wait.
pub struct Ledger {
    left: Numbers,
    joined: Vec<Joined>,
}

/// What was seen at a call.
#[derive(Default)]
pub struct Seen {
    /// Of waiting trams that came to hold their track after exactly q + 1 accepted releases of it, how many were ahead of each.
    pub in_turn: Vec<usize>,
    /// Waiting trams whose track was handed on after at most q accepted releases of it.
    pub still_waiting: u64,
    /// Waiting trams that held their track sooner, or did not hold it then.
    pub not_in_turn: u64,
    /// Whether a track was handed on, freed or taken otherwise than in turn.
    pub out_of_turn: bool,
    /// Whether a call that was refused or not clear changed a number.
    pub changed: bool,
}

impl Ledger {
    /// A day that begins with these numbers, in which no tram waits.
    pub fn new(left: Numbers) -> Ledger {
        Ledger { left, joined: vec![] }
    }

    /// The trams that still wait.
    pub fn waiting(&self) -> usize {
        self.joined.len()
    }

    /// A request, what it was answered, and the numbers that it left.
    pub fn requested(&mut self, tram: u16, track: u32, answer: Result<Requested, Refusal>, left: &Numbers) -> Seen {
        let mut expected = holders(&self.left);
        let slot = track as usize % 16;
        let mut seen = Seen { changed: answer.is_err() && *left != self.left, ..Seen::default() };
        match answer {
            Ok(Requested::Holds) => {
                seen.out_of_turn = expected[slot].is_some();
                expected[slot] = Some(tram);
            }
            Ok(Requested::Waits) => {
                let ahead = queue_length(&self.left, slot as u16);
                self.joined.push(Joined { tram, track: slot as u16, ahead, accepted: 0 });
            }
            Err(_) => (),
        }
        seen.out_of_turn |= holders(left) != expected;
        self.left = *left;
        seen
    }

    /// A release of a track, likewise.
    pub fn released(&mut self, tram: u16, track: u32, answer: Result<Released, Refusal>, left: &Numbers) -> Seen {
        let next = match answer {
            Ok(Released::HandedTo(next)) => Some(next),
            Ok(Released::Freed) => None,
            Ok(Released::NotClear) | Err(_) => {
                let changed = *left != self.left;
                self.left = *left;
                return Seen { changed, ..Seen::default() };
            }
        };
        let mut expected = holders(&self.left);
        let slot = track as usize % 16;
        let was_holder = expected[slot] == Some(tram);
        self.joined.iter_mut().filter(|joined| usize::from(joined.track) == slot).for_each(|joined| joined.accepted += 1);
        expected[slot] =
            self.joined.iter().find(|joined| usize::from(joined.track) == slot && joined.is_due()).map(|joined| joined.tram);
        let out_of_turn = !was_holder || next != expected[slot] || holders(left) != expected;
        self.left = *left;
        Seen { out_of_turn, ..self.turns(slot as u16) }
    }

    /// How the waiting trams stand after an accepted release of a track. Those that hold their track, or should, wait no more.
    fn turns(&mut self, track: u16) -> Seen {
        let (holders, mut seen) = (holders(&self.left), Seen::default());
        self.joined.retain(|joined| {
            let holds = holders[usize::from(joined.track)] == Some(joined.tram);
            match (holds, joined.is_due()) {
                (true, true) => seen.in_turn.push(joined.ahead),
                (false, false) => seen.still_waiting += u64::from(joined.track == track),
                _ => seen.not_in_turn += 1,
            }
            !holds && !joined.is_due()
        });
        seen
    }
}

impl Joined {
    /// Whether its turn has come.
    fn is_due(&self) -> bool {
        self.accepted == self.ahead + 1
    }
}

/// Who holds each track.
fn holders(numbers: &Numbers) -> Vec<Option<u16>> {
    (0..16).map(|track| (numbers[FLAGS + track] != 0).then_some(numbers[HOLDERS + track])).collect()
}

/// How many trams wait for a track.
pub fn queue_length(numbers: &Numbers, track: u16) -> usize {
    let count = usize::from(numbers[COUNT]).min(32);
    numbers[WAITED_FOR..][..count].iter().filter(|&&waited_for| waited_for == track).count()
}
