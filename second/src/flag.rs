//! A flag of a line's record: an octet that is 1 for yes and 0 for no. Another value says no, and BOOK refuses it.

#[derive(Clone, Copy, Debug, PartialEq, Eq)]
pub struct Flag(pub u8);

impl Flag {
    pub fn is_set(self) -> bool {
        self.0 == 1
    }

    /// BOOK's rule for a flag.
    pub fn is_sound(self) -> bool {
        self.0 <= 1
    }
}

impl From<bool> for Flag {
    fn from(yes: bool) -> Flag {
        Flag(yes.into())
    }
}
