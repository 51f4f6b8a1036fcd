//! What a line of cases.txt asks, word by word.
use crate::cards::{card_of, seal};
use crate::words::packed;
use crate::yards::{one_by_one, yard_of};
use dunnavish::{make_card, Stretch, Yard};
use std::collections::HashMap;
use std::iter::{once, repeat};
use std::str::FromStr;
use std::vec::IntoIter;

/// The words of a text; `X*3` is X three times, and `3..5>14` is `3>14 4>14 5>14`.
pub fn repeated(text: &str) -> Result<Vec<String>, String> {
    let mut words = Vec::new();
    for word in text.split_whitespace() {
        let (word, times) = word.split_once('*').unwrap_or((word, "1"));
        let times = times.parse().map_err(|_| format!("{times} is no number"))?;
        words.extend(repeat(one_by_one(word)).take(times).flatten());
    }
    Ok(words)
}

fn byte_of(word: &str) -> Option<u8> {
    let two_digits = word.len() == 2 && word.chars().all(|digit| digit.is_ascii_hexdigit());
    u8::from_str_radix(word, 16).ok().filter(|_| two_digits)
}

fn stretch_of(word: &str) -> Option<Stretch> {
    let (low, high) = word.split_once('-')?;
    Some(Stretch { low: low.parse().ok()?, high: high.parse().ok()? })
}

/// The words that are still to be read.
pub struct Asked(IntoIter<String>);

impl Asked {
    /// The words of a text; a parenthesis is a word of its own.
    pub fn of(text: &str) -> Result<Asked, String> {
        let words = repeated(&text.replace('(', " ( ").replace(')', " ) "))?;
        Ok(Asked(words.into_iter()))
    }

    fn peek(&self) -> Option<&str> {
        self.0.as_slice().first().map(String::as_str)
    }

    /// The next word.
    pub fn next(&mut self) -> Result<String, String> {
        self.0.next().ok_or_else(|| "the line ends early".to_string())
    }

    /// What comes after this word, which must be the next.
    pub fn after(&mut self, wanted: &str) -> Result<&mut Asked, String> {
        match self.next()? {
            word if word == wanted => Ok(self),
            word => Err(format!("{word} stands where {wanted} should")),
        }
    }

    /// No word is left.
    pub fn end(&self) -> Result<(), String> {
        self.peek().map_or(Ok(()), |word| Err(format!("{word} is too much")))
    }

    /// A number in decimal.
    pub fn number<T: FromStr>(&mut self) -> Result<T, String> {
        let word = self.next()?;
        word.parse().map_err(|_| format!("{word} is no number"))
    }

    /// A number in hexadecimal.
    pub fn hexadecimal(&mut self) -> Result<u64, String> {
        let word = self.next()?;
        u64::from_str_radix(&word, 16).map_err(|_| format!("{word} is no number"))
    }

    /// What all words that are left stand for, `nothing` alone for nothing.
    fn all<T>(&mut self, kind: &str, read: impl Fn(&str) -> Option<Vec<T>>) -> Result<Vec<T>, String> {
        let words: Vec<String> = once(self.next()?).chain(&mut self.0).collect();
        let mut found = Vec::new();
        for word in words.iter().filter(|_| words != ["nothing"]) {
            found.extend(read(word).ok_or_else(|| format!("{word} is no {kind}"))?);
        }
        Ok(found)
    }

    /// A byte, two digits in hexadecimal.
    fn byte(&mut self) -> Result<u8, String> {
        let word = self.next()?;
        byte_of(&word).ok_or(format!("{word} is no byte"))
    }

    /// Bytes.
    pub fn bytes(&mut self) -> Result<Vec<u8>, String> {
        self.all("byte", |word| byte_of(word).map(|byte| vec![byte]))
    }

    /// The bytes of a word; after `bits` they are given bit by bit.
    pub fn word(&mut self) -> Result<Vec<u8>, String> {
        if self.peek() != Some("bits") {
            return self.bytes();
        }
        let bit = |bit| match bit {
            '0' => Some(false),
            '1' => Some(true),
            _ => None,
        };
        self.after("bits")?.all("bit", |word| word.chars().map(bit).collect()).map(|bits| packed(&bits))
    }

    /// Levels: single ones with their sign, and others as bits.
    pub fn levels(&mut self) -> Result<Vec<f32>, String> {
        let level = |bit| match bit {
            '0' => Some(1.0),
            '1' => Some(-1.0),
            '?' => Some(0.0),
            '~' => Some(-0.0),
            _ => None,
        };
        let is_number = |word: &str| word == "nan" || word.starts_with(['+', '-']);
        self.all("level", |word| match is_number(word) {
            true => word.parse().ok().map(|level| vec![level]),
            false => word.chars().map(level).collect(),
        })
    }

    /// Trams: stretches, low and high.
    pub fn trams(&mut self) -> Result<Vec<Stretch>, String> {
        self.all("stretch", |word| stretch_of(word).map(|stretch| vec![stretch]))
    }

    /// One of the five chunks, which are numbered from 0: separators 1 to 3, and chunks 1 and 2, the code chunks.
    pub fn chunk(&mut self) -> Result<usize, String> {
        let (kind, number) = (self.next()?, self.next()?);
        let names = ["separator 1", "chunk 1", "separator 2", "chunk 2", "separator 3"];
        let name = format!("{kind} {number}");
        names.iter().position(|known| *known == name).ok_or(format!("{name} is no chunk"))
    }

    /// A card, by its name or described in parentheses.
    pub fn card(&mut self, cards: &HashMap<String, Vec<u8>>) -> Result<Vec<u8>, String> {
        if self.peek() == Some("(") {
            let card = self.after("(")?.described(cards)?;
            return self.after(")").map(|_| card);
        }
        let name = self.next()?;
        cards.get(&name).cloned().ok_or(format!("no card is called {name}"))
    }

    /// A card that is described, up to a closing parenthesis or the end.
    pub fn described(&mut self, cards: &HashMap<String, Vec<u8>>) -> Result<Vec<u8>, String> {
        if self.peek() == Some("made") {
            let asked = self.after("made")?;
            let made = make_card(asked.number()?, asked.number()?, asked.number()?);
            return made.map(Vec::from).map_err(|refusal| refusal.to_string());
        }
        let named = self.peek().map_or(false, |name| cards.contains_key(name));
        let mut card = if named { self.card(cards)? } else { card_of(0, 0, 0, &[]) };
        let (mut check, mut length) = (None, card.len());
        while !matches!(self.peek(), None | Some(")")) {
            match self.next()?.as_str() {
                "check" => check = Some(self.number::<u16>()?),
                "length" => length = self.number()?,
                part => self.put(part, &mut card)?,
            }
        }
        seal(&mut card);
        if let Some(check) = check {
            card[510..].copy_from_slice(&check.to_be_bytes());
        }
        card.resize(length, 0);
        Ok(card)
    }

    /// A yard, by its name or described in parentheses.
    pub fn yard(&mut self, yards: &HashMap<String, Yard>) -> Result<Yard, String> {
        if self.peek() == Some("(") {
            let yard = self.after("(")?.described_yard(yards)?;
            return self.after(")").map(|_| yard);
        }
        let name = self.next()?;
        yards.get(&name).cloned().ok_or(format!("no yard is called {name}"))
    }

    /// A yard that is described, up to a closing parenthesis or the end.
    pub fn described_yard(&mut self, yards: &HashMap<String, Yard>) -> Result<Yard, String> {
        let named = self.peek().map_or(false, |name| yards.contains_key(name));
        let from = if named { self.yard(yards)? } else { Yard::empty() };
        let mut words = Vec::new();
        while !matches!(self.peek(), None | Some(")")) {
            words.push(self.next()?);
        }
        yard_of(&from, &words)
    }

    /// Puts a part into the bytes of a card.
    fn put(&mut self, part: &str, card: &mut [u8]) -> Result<(), String> {
        match part {
            "n" => card[0] = self.number()?,
            "k" => card[1] = self.number()?,
            "track" => card[2..4].copy_from_slice(&self.number::<u16>()?.to_be_bytes()),
            "offset" => card[100..104].copy_from_slice(&self.number::<i32>()?.to_be_bytes()),
            "byte" => {
                let byte = card.get_mut(self.number::<usize>()?).ok_or("the card has no such byte")?;
                *byte = self.byte()?;
            }
            "rows" => {
                let is_row = |word: &str| u64::from_str_radix(word, 16).is_ok();
                for row in card[4..100].chunks_mut(8) {
                    if !self.peek().map_or(false, is_row) {
                        break;
                    }
                    row.copy_from_slice(&self.hexadecimal()?.to_be_bytes());
                }
            }
            _ => return Err(format!("{part} is no part of a card")),
        }
        Ok(())
    }
}
