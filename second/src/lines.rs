//! Cuts a script into lines, octet by octet, so that a script of any length is read with little memory.
//!
//! Blank lines and comments are counted and passed over. A line of over 2,000 octets without its line end is no call,
//! and its octets are not kept.

/// The most octets of a call's line, without its line end.
const LONGEST: usize = 2_000;

/// A line that must be answered.
pub struct Line {
    /// From 1, every line counted.
    pub number: u64,
    /// Its octets without the line end; nothing where it is too long.
    pub octets: Option<Vec<u8>>,
}

/// The line that is being read.
#[derive(Default)]
pub struct Lines {
    /// How many lines have ended.
    ended: u64,
    /// The first octets of this line, one more than a call may have at the most.
    octets: Vec<u8>,
    /// The first octet of this line that is no space or tab.
    begins: Option<u8>,
    /// A carriage return was read, and whether it is part of the line depends on what follows.
    held_return: bool,
}

/// Whether an octet parts words.
pub fn parts_words(octet: u8) -> bool {
    octet == b' ' || octet == b'\t'
}

impl Lines {
    /// Reads one octet. Gives the line that it ends, if that must be answered.
    pub fn read(&mut self, octet: u8) -> Option<Line> {
        if octet == b'\n' {
            self.held_return = false;
            return self.end_line();
        }
        self.settle_return();
        if octet == b'\r' {
            self.held_return = true;
        } else {
            self.keep(octet);
        }
        None
    }

    /// The script has ended. Gives its last line, if that lacks a line feed and must be answered.
    pub fn end(&mut self) -> Option<Line> {
        self.settle_return();
        self.end_line()
    }

    /// A carriage return that no line feed follows is part of a word.
    fn settle_return(&mut self) {
        if self.held_return {
            self.held_return = false;
            self.keep(b'\r');
        }
    }

    fn keep(&mut self, octet: u8) {
        if self.begins.is_none() && !parts_words(octet) {
            self.begins = Some(octet);
        }
        if self.octets.len() <= LONGEST {
            self.octets.push(octet);
        }
    }

    fn end_line(&mut self) -> Option<Line> {
        self.ended += 1;
        let octets = std::mem::take(&mut self.octets);
        match self.begins.take() {
            None | Some(b'#') => None,
            Some(_) => Some(Line {
                number: self.ended,
                octets: (octets.len() <= LONGEST).then_some(octets),
            }),
        }
    }
}
