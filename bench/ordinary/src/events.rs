//! The held events.
use crate::points::Value;

pub const CAPACITY: usize = 256;

#[derive(Clone, Copy)]
pub enum Shown {
    State(bool),
    Analog(Value),
}

#[derive(Clone, Copy)]
pub struct Event {
    pub point: u16,
    pub shown: Shown,
    pub flags: u8,
    pub time: u64,
    pub class: u8,
}

#[derive(Clone, Copy)]
pub struct Held {
    pub event: Event,
    pub carried: bool,
}

#[derive(Clone, Copy)]
pub struct Buffer {
    pub held: [Held; CAPACITY],
    pub count: usize,
    pub overflow: bool,
}

impl Event {
    /// 1 binary, 2 a 32-bit, 3 a 16-bit, 4 a float analog.
    pub fn kind(&self) -> u8 {
        match self.shown {
            Shown::State(_) => 1,
            Shown::Analog(Value::Long(_)) => 2,
            Shown::Analog(Value::Short(_)) => 3,
            Shown::Analog(Value::Real(_)) => 4,
        }
    }
}

impl Buffer {
    pub fn new() -> Self {
        let event = Event {
            point: 0,
            shown: Shown::State(false),
            flags: 0,
            time: 0,
            class: 0,
        };
        Buffer {
            held: [Held {
                event,
                carried: false,
            }; CAPACITY],
            count: 0,
            overflow: false,
        }
    }

    /// Holds the event, or drops it where the buffer is full; false: dropped.
    pub fn push(&mut self, event: Event) -> bool {
        if self.count < CAPACITY {
            self.held[self.count] = Held {
                event,
                carried: false,
            };
            self.count += 1;
            true
        } else {
            self.overflow = true;
            false
        }
    }

    pub fn events(&self) -> &[Held] {
        &self.held[..self.count]
    }

    /// No event is carried any more.
    pub fn clear(&mut self) {
        let count = self.count;
        for h in &mut self.held[..count] {
            h.carried = false;
        }
    }

    /// The carried events go.
    pub fn release(&mut self) {
        let mut kept = 0;
        for i in 0..self.count {
            let h = self.held[i];
            if !h.carried {
                self.held[kept] = h;
                kept += 1;
            }
        }
        self.count = kept;
    }

    /// Holds what another buffer holds.
    pub fn refill(&mut self, full: &Buffer) {
        self.held[..full.count].copy_from_slice(full.events());
        self.count = full.count;
        self.overflow = full.overflow;
    }

    /// The classes of which events are held and not carried.
    pub fn left_behind(&self) -> [bool; 3] {
        let mut left = [false; 3];
        for h in self.events().iter().filter(|h| !h.carried) {
            if let Some(l) = left.get_mut((h.event.class as usize).wrapping_sub(1)) {
                *l = true;
            }
        }
        left
    }

    /// Marks the events of the asked classes that fit, oldest first, up to the first that does not.
    pub fn select(&mut self, classes: [bool; 3], room: usize) {
        self.clear();
        let count = self.count;
        let mut left = room;
        let mut last = 0;
        for h in &mut self.held[..count] {
            if !(1..=3).contains(&h.event.class) || !classes[h.event.class as usize - 1] {
                continue;
            }
            let kind = h.event.kind();
            let size = match kind {
                1 => 9,
                3 => 11,
                _ => 13,
            };
            let need = if kind == last { size } else { size + 5 };
            if left < need {
                return;
            }
            h.carried = true;
            left -= need;
            last = kind;
        }
    }
}
