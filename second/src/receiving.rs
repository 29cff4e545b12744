//! The receiving side of a channel: what was handed out, and what is stored ahead of that.

use crate::channel::{ahead, lie_within, Channel, Messages, CAP};

#[derive(Clone, Debug)]
pub struct Receiving {
    channel: Channel,
    /// R, the full number of the next message to hand out, which is the count handed out.
    pub next: u64,
    /// Messages that arrived and wait, from R to R + window - 1.
    pub stored: Messages,
}

impl Receiving {
    pub fn fresh(channel: Channel) -> Self {
        Receiving {
            channel,
            next: 0,
            stored: Messages::new(),
        }
    }

    /// A payload arrived. It is stored if it lies in the window and nothing is stored there yet.
    pub fn arrive(&mut self, number: u16, payload: &[u8]) {
        let distance = ahead(number, self.next);
        let full = self.next + distance;
        if distance < self.channel.window() && !self.stored.contains_key(&full) {
            self.stored.insert(full, payload.to_vec());
        }
    }

    /// Message R, if it is here.
    pub fn waiting(&self) -> Option<&[u8]> {
        self.stored.get(&self.next).map(Vec::as_slice)
    }

    /// Message R was handed out.
    pub fn move_on(&mut self) {
        self.stored.remove(&self.next);
        self.next += 1;
    }

    /// BOOK's rules for this side.
    pub fn is_sound(&self) -> bool {
        self.next <= CAP && lie_within(&self.stored, self.next, self.next + self.channel.window())
    }
}
