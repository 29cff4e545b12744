//! The words of one script line: numbers, flags, modes and octets.
//!
//! Each method takes the next word. `None` means that the line is no call.

use crate::channel::Channel;
use crate::lines::parts_words;
use crate::modes::Mode;

/// The most octets in a word, and the most space for output.
pub const MOST: usize = 600;
/// The space for output where none is given.
const SPACE: usize = 256;

pub struct Words<'a> {
    words: Box<dyn Iterator<Item = &'a [u8]> + 'a>,
}

impl<'a> Words<'a> {
    pub fn new(line: &'a [u8]) -> Self {
        let words = line
            .split(|&octet| parts_words(octet))
            .filter(|word| !word.is_empty());
        Words {
            words: Box::new(words),
        }
    }

    pub fn word(&mut self) -> Option<&'a [u8]> {
        self.words.next()
    }

    /// No words are left.
    pub fn end(&mut self) -> Option<()> {
        match self.word() {
            None => Some(()),
            Some(_) => None,
        }
    }

    /// A number of 64 bits.
    pub fn time(&mut self) -> Option<u64> {
        number(self.word()?)
    }

    /// A number that is at most that.
    pub fn up_to(&mut self, most: u64) -> Option<u64> {
        self.time().filter(|&number| number <= most)
    }

    /// A number of 8 bits.
    pub fn octet(&mut self) -> Option<u8> {
        self.time()?.try_into().ok()
    }

    /// A number of 16 bits.
    pub fn short(&mut self) -> Option<u16> {
        self.time()?.try_into().ok()
    }

    /// A number of 32 bits.
    pub fn full_number(&mut self) -> Option<u64> {
        self.up_to(u64::from(u32::MAX))
    }

    /// 0 or 1.
    pub fn flag(&mut self) -> Option<bool> {
        self.up_to(1).map(|number| number == 1)
    }

    /// 1 or 2.
    pub fn channel(&mut self) -> Option<Channel> {
        Channel::named(self.octet()?).ok()
    }

    /// A mode's letter.
    pub fn mode(&mut self) -> Option<Mode> {
        letter(self.word()?)
    }

    /// A mode's letter or its code.
    pub fn mode_or_code(&mut self) -> Option<Mode> {
        let word = self.word()?;
        letter(word).or_else(|| {
            let code = number(word)?.try_into().ok()?;
            Some(Mode::from_code(code))
        })
    }

    /// Octets in hexadecimal, at most that many, or `-` for none.
    pub fn octets(&mut self, most: usize) -> Option<Vec<u8>> {
        let word = self.word()?;
        if word == b"-" {
            return Some(Vec::new());
        }
        if word.len() % 2 != 0 || word.len() / 2 > most {
            return None;
        }
        word.chunks(2)
            .map(|pair| Some(digit(pair[0])? * 16 + digit(pair[1])?))
            .collect()
    }

    /// The room for output, which is the last word and may be left out.
    pub fn room(&mut self) -> Option<usize> {
        match self.word() {
            None => Some(SPACE),
            Some(word) => {
                self.end()?;
                let room = usize::try_from(number(word)?).ok()?;
                (room <= MOST).then_some(room)
            }
        }
    }
}

fn letter(word: &[u8]) -> Option<Mode> {
    match word {
        [letter] => Mode::from_letter(*letter),
        _ => None,
    }
}

/// A decimal number without sign. Zeros in front count for nothing, however many.
fn number(word: &[u8]) -> Option<u64> {
    word.iter().try_fold(0u64, |number, octet| {
        let digit = octet.is_ascii_digit().then(|| u64::from(octet - b'0'))?;
        number.checked_mul(10)?.checked_add(digit)
    })
}

fn digit(octet: u8) -> Option<u8> {
    let value = char::from(octet).to_digit(16)?;
    u8::try_from(value).ok()
}

/// Octets as an answer writes them.
pub fn hex(octets: &[u8]) -> String {
    if octets.is_empty() {
        return "-".into();
    }
    octets.iter().map(|octet| format!("{octet:02X}")).collect()
}
