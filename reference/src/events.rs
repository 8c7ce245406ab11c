//! The held events: "256 events may be held."

use crate::faults::{on, Fault};
use crate::points::Value;

const PLACES: usize = 256;

#[derive(Clone, Copy, Debug, PartialEq)]
pub struct Event {
    /// Tells twins apart: events equal in point, value, flags and time (R4.7).
    pub number: u64,
    pub class: u8,
    pub index: u8,
    pub value: Value,
    pub flags: u8,
    pub time: u64,
}

#[derive(Clone, Debug, Default)]
pub struct Events {
    /// Oldest first.
    pub held: Vec<Event>,
    /// IIN2.3, "events dropped".
    pub warning: bool,
    raised: u64,
}

impl Events {
    /// "An event raised while 256 are held is dropped; otherwise it is held." Tells whether it was
    /// dropped.
    pub fn raise(&mut self, class: u8, index: u8, value: Value, flags: u8, time: u64) -> bool {
        let places = if on(Fault::DropAt255) { PLACES - 1 } else { PLACES };
        if self.held.len() >= places {
            self.warning = true;
            return true;
        }
        self.held.push(Event { number: self.raised, class, index, value, flags, time });
        self.raised += 1;
        false
    }

    /// "releases exactly the events carried", given by their numbers, rising.
    pub fn release(&mut self, carried: &[u64]) {
        if on(Fault::ReleaseAll) {
            self.held.clear();
        }
        if on(Fault::TwinsReleased) {
            let look = |event: &Event| Event { number: 0, ..*event };
            let released: Vec<Event> =
                self.held.iter().filter(|e| carried.contains(&e.number)).map(look).collect();
            self.held.retain(|event| !released.contains(&look(event)));
        }
        let mut carried = carried.iter().peekable();
        self.held.retain(|event| {
            let released = carried.peek() == Some(&&event.number);
            if released {
                carried.next();
            }
            !released
        });
    }
}
