//! The CONNECT body (Table 25): 18 values in 8, 14 or 18 octets.

use crate::bits::{Reader, Writer};
use crate::refusal::{require, Refusal};

const V42BIS: u8 = 1;
const V44: u8 = 2;
/// Modulations above are reserved: read and kept, never written.
const LAST_MODULATION: u8 = 30;
/// Error corrections above are reserved: read and kept, never written.
const LAST_CORRECTION: u8 = 2;

/// Sizes that only a compressed link has. Those with no place in the body are 0.
#[derive(Clone, Debug, Default, PartialEq, Eq)]
pub struct Sizes {
    pub transmit_dictionary: u16,
    pub receive_dictionary: u16,
    pub transmit_string: u8,
    pub receive_string: u8,
    pub transmit_history: u16,
    pub receive_history: u16,
}

#[derive(Clone, Debug, Default, PartialEq, Eq)]
pub struct Connect {
    pub modulation: u8,
    pub direction: u8,
    pub compression: u8,
    pub correction: u8,
    pub transmit_rate: u16,
    pub receive_rate: u16,
    pub dlci: bool,
    /// Bits 49 to 53, in their order.
    pub data_types: [bool; 5],
    pub sizes: Sizes,
}

/// Octets of a body, by its compression.
fn length(compression: u8) -> usize {
    match compression {
        V42BIS => 14,
        V44 => 18,
        _ => 8,
    }
}

impl Sizes {
    /// Whether each is in the span that the compression gives it.
    fn fit(&self, compression: u8) -> bool {
        match compression {
            V42BIS => self.fit_v42bis(),
            V44 => self.fit_v44(),
            _ => *self == Sizes::default(),
        }
    }

    fn fit_v42bis(&self) -> bool {
        self.transmit_dictionary >= 512
            && self.receive_dictionary == 0
            && (6..=250).contains(&self.transmit_string)
            && self.receive_string == 0
            && self.transmit_history == 0
            && self.receive_history == 0
    }

    fn fit_v44(&self) -> bool {
        self.transmit_dictionary >= 256
            && self.receive_dictionary >= 256
            && self.transmit_string >= 32
            && self.receive_string >= 32
            && self.transmit_history >= 512
            && self.receive_history >= 512
    }

    fn read(reader: &mut Reader) -> Sizes {
        Sizes {
            transmit_dictionary: reader.word(16),
            receive_dictionary: reader.word(16),
            transmit_string: reader.octet(8),
            receive_string: reader.octet(8),
            transmit_history: reader.word(16),
            receive_history: reader.word(16),
        }
    }

    fn write(&self, writer: &mut Writer) {
        writer.field(16, self.transmit_dictionary);
        writer.field(16, self.receive_dictionary);
        writer.field(8, self.transmit_string);
        writer.field(8, self.receive_string);
        writer.field(16, self.transmit_history);
        writer.field(16, self.receive_history);
    }
}

impl Connect {
    /// LENGTH below 8, RESERVED, LENGTH, RANGE.
    pub fn read(octets: &[u8]) -> Result<Connect, Refusal> {
        require(octets.len() >= 8, Refusal::Length)?;
        let connect = Connect::read_fields(octets);
        require(connect.compression < 4, Refusal::Reserved)?;
        require(octets.len() == length(connect.compression), Refusal::Length)?;
        require(connect.sizes.fit(connect.compression), Refusal::Range)?;
        Ok(connect)
    }

    /// The fields where they lie. Sizes that lie past the end are 0, as the paper wants them read.
    fn read_fields(octets: &[u8]) -> Connect {
        let mut reader = Reader::new(octets);
        let modulation = reader.octet(6);
        let direction = reader.octet(2);
        let compression = reader.octet(4);
        let correction = reader.octet(4);
        let transmit_rate = reader.word(16);
        let receive_rate = reader.word(16);
        let dlci = reader.flag();
        let data_types = [(); 5].map(|()| reader.flag());
        reader.field(10);
        Connect {
            modulation,
            direction,
            compression,
            correction,
            transmit_rate,
            receive_rate,
            dlci,
            data_types,
            sizes: Sizes::read(&mut reader),
        }
    }

    /// RESERVED, RANGE, ROOM.
    pub fn write(&self, room: usize) -> Result<Vec<u8>, Refusal> {
        let reserved = (4..=15).contains(&self.compression);
        require(!reserved, Refusal::Reserved)?;
        require(self.may_be_written(), Refusal::Range)?;
        let length = length(self.compression);
        require(length <= room, Refusal::Room)?;
        let mut octets = self.write_fields();
        octets.truncate(length);
        Ok(octets)
    }

    fn may_be_written(&self) -> bool {
        self.modulation <= LAST_MODULATION
            && self.direction <= 3
            && self.compression <= 3
            && self.correction <= LAST_CORRECTION
            && self.sizes.fit(self.compression)
    }

    /// All 18 octets, whatever the compression.
    fn write_fields(&self) -> Vec<u8> {
        let mut writer = Writer::default();
        writer.field(6, self.modulation);
        writer.field(2, self.direction);
        writer.field(4, self.compression);
        writer.field(4, self.correction);
        writer.field(16, self.transmit_rate);
        writer.field(16, self.receive_rate);
        writer.field(1, self.dlci);
        for data_type in self.data_types {
            writer.field(1, data_type);
        }
        writer.field(10, 0u8);
        self.sizes.write(&mut writer);
        writer.finish()
    }
}
