//! The slip that closing writes: 12 octets that say whose line it was and what it handed out.

use crate::bits::{Reader, Writer};
use crate::refusal::{require, Refusal};

/// Octets of a slip.
pub const LENGTH: usize = 12;
const FORM: u8 = 1;

#[derive(Clone, Debug, PartialEq, Eq)]
pub struct Slip {
    pub identifier: u8,
    pub payload_type: u8,
    /// Messages handed out on channel 1.
    pub count_one: u32,
    /// Messages handed out on channel 2.
    pub count_two: u32,
    /// 0 asked, 1 ended by recovery.
    pub reason: u8,
}

impl Slip {
    /// LENGTH, FORM, RANGE.
    pub fn read(octets: &[u8]) -> Result<Slip, Refusal> {
        require(octets.len() == LENGTH, Refusal::Length)?;
        let mut reader = Reader::new(octets);
        let form = reader.octet(4);
        let slip = Slip {
            identifier: reader.octet(7),
            payload_type: reader.octet(7),
            count_one: reader.field(24),
            count_two: reader.field(24),
            reason: reader.octet(8),
        };
        let zeros = reader.field(22);
        require(form == FORM && zeros == 0, Refusal::Form)?;
        require(slip.payload_type >= 96 && slip.reason <= 1, Refusal::Range)?;
        Ok(slip)
    }

    pub fn write(&self) -> Vec<u8> {
        let mut writer = Writer::default();
        writer.field(4, FORM);
        writer.field(7, self.identifier);
        writer.field(7, self.payload_type);
        writer.field(24, self.count_one);
        writer.field(24, self.count_two);
        writer.field(8, self.reason);
        writer.field(22, 0u8);
        writer.finish()
    }
}
