//! The BREAK body (Table 26): two octets.

use crate::bits::{Reader, Writer};
use crate::refusal::{require, Refusal};

const LENGTH: usize = 2;

#[derive(Clone, Debug, PartialEq, Eq)]
pub struct Break {
    pub source: u8,
    /// The paper's type.
    pub kind: u8,
    /// In 10 ms; 0 is the default length, 255 longer than 2.54 s.
    pub length: u8,
}

impl Break {
    fn in_range(&self) -> bool {
        self.source <= 2 && self.kind <= 3
    }

    /// LENGTH, RANGE.
    pub fn read(octets: &[u8]) -> Result<Break, Refusal> {
        require(octets.len() == LENGTH, Refusal::Length)?;
        let mut reader = Reader::new(octets);
        let read = Break {
            source: reader.octet(4),
            kind: reader.octet(4),
            length: reader.octet(8),
        };
        require(read.in_range(), Refusal::Range)?;
        Ok(read)
    }

    /// RANGE, ROOM.
    pub fn write(&self, room: usize) -> Result<Vec<u8>, Refusal> {
        require(self.in_range(), Refusal::Range)?;
        require(LENGTH <= room, Refusal::Room)?;
        let mut writer = Writer::default();
        writer.field(4, self.source);
        writer.field(4, self.kind);
        writer.field(8, self.length);
        Ok(writer.finish())
    }
}
