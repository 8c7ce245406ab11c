//! The objects of a READ's response.
use crate::events::{Buffer, Event, Shown};
use crate::points::{Points, Value};

#[derive(Clone, Copy)]
enum Asked {
    Class(u8),
    Binaries(usize, usize),
    Analogs(usize, usize),
    All,
}

pub enum ReadError {
    ObjectUnknown,
    BadParameter,
}

/// The headers of a request.
fn headers(s: &[u8], p: &Points, plan: &mut [Asked; 16]) -> Result<usize, ReadError> {
    let mut n = 0;
    let mut at = 0;
    while at < s.len() {
        let [group, variation, qualifier] = *s.get(at..at + 3).ok_or(ReadError::BadParameter)?
        else {
            return Err(ReadError::BadParameter);
        };
        at += 3;
        let asked = match (group, variation) {
            (60, 1..=4) => {
                if qualifier != 6 {
                    return Err(ReadError::BadParameter);
                }
                if variation == 1 {
                    Asked::All
                } else {
                    Asked::Class(variation - 1)
                }
            }
            (1, 0 | 2) | (30, 0) => {
                let count = if group == 1 {
                    p.binary_count
                } else {
                    p.analog_count
                };
                let (start, stop) = match qualifier {
                    6 => (0, count),
                    0 => {
                        let b = s.get(at..at + 2).ok_or(ReadError::BadParameter)?;
                        at += 2;
                        (b[0] as usize, b[1] as usize + 1)
                    }
                    1 => {
                        let b = s.get(at..at + 4).ok_or(ReadError::BadParameter)?;
                        at += 4;
                        (
                            u16::from_le_bytes([b[0], b[1]]) as usize,
                            u16::from_le_bytes([b[2], b[3]]) as usize + 1,
                        )
                    }
                    _ => return Err(ReadError::BadParameter),
                };
                if stop < start || count < stop {
                    return Err(ReadError::BadParameter);
                }
                if group == 1 {
                    Asked::Binaries(start, stop)
                } else {
                    Asked::Analogs(start, stop)
                }
            }
            _ => return Err(ReadError::ObjectUnknown),
        };
        *plan.get_mut(n).ok_or(ReadError::BadParameter)? = asked;
        n += 1;
    }
    Ok(n)
}

/// Bytes put one after another.
struct Writer<'a> {
    out: &'a mut [u8],
    at: usize,
}

impl Writer<'_> {
    fn put(&mut self, s: &[u8]) {
        self.out[self.at..self.at + s.len()].copy_from_slice(s);
        self.at += s.len();
    }

    fn value(&mut self, v: Value) {
        match v {
            Value::Long(z) => self.put(&z.to_le_bytes()),
            Value::Short(z) => self.put(&z.to_le_bytes()),
            Value::Real(x) => self.put(&x.to_bits().to_le_bytes()),
        }
    }

    fn event(&mut self, e: &Event) {
        self.put(&e.point.to_le_bytes());
        match e.shown {
            Shown::State(on) => self.put(&[e.flags & 127 | (on as u8) << 7]),
            Shown::Analog(v) => {
                self.put(&[e.flags]);
                self.value(v);
            }
        }
        self.put(&e.time.to_le_bytes()[..6]);
    }

    fn events(&mut self, b: &Buffer) {
        let mut last = 0;
        let mut count_at = 0;
        let mut n = 0u16;
        for h in b.events().iter().filter(|h| h.carried) {
            let kind = h.event.kind();
            if kind != last {
                let object = match kind {
                    1 => [2, 2, 40],
                    2 => [32, 3, 40],
                    3 => [32, 4, 40],
                    _ => [32, 7, 40],
                };
                self.put(&object);
                count_at = self.at;
                self.put(&[0, 0]);
                n = 0;
                last = kind;
            }
            n += 1;
            self.out[count_at..count_at + 2].copy_from_slice(&n.to_le_bytes());
            self.event(&h.event);
        }
    }

    /// A header from `start` on; its end is put in later.
    fn heading(&mut self, group: u8, variation: u8, start: usize) -> usize {
        self.put(&[group, variation, 1]);
        self.put(&(start as u16).to_le_bytes());
        let stop_at = self.at;
        self.put(&[0, 0]);
        stop_at
    }

    fn stop(&mut self, stop_at: usize, i: usize) {
        self.out[stop_at..stop_at + 2].copy_from_slice(&(i as u16).to_le_bytes());
    }

    fn binaries(&mut self, p: &Points, start: usize, stop: usize) {
        if start == stop {
            return;
        }
        let stop_at = self.heading(1, 2, start);
        for b in &p.binaries[start..stop] {
            self.put(&[b.flags & 127 | (b.state as u8) << 7]);
        }
        self.stop(stop_at, stop - 1);
    }

    fn analogs(&mut self, p: &Points, start: usize, stop: usize) {
        let mut last = 0;
        let mut stop_at = 0;
        for (i, a) in p.analogs[start..stop].iter().enumerate() {
            let variation = variation(a.value);
            if variation != last {
                stop_at = self.heading(30, variation, start + i);
                last = variation;
            }
            self.stop(stop_at, start + i);
            self.put(&[a.flags]);
            self.value(a.value);
        }
    }
}

fn variation(v: Value) -> u8 {
    match v {
        Value::Long(_) => 1,
        Value::Short(_) => 2,
        Value::Real(_) => 5,
    }
}

fn binaries_size(start: usize, stop: usize) -> usize {
    if start == stop {
        0
    } else {
        7 + stop - start
    }
}

fn analogs_size(p: &Points, start: usize, stop: usize) -> usize {
    let mut size = 0;
    let mut last = 0;
    for a in &p.analogs[start..stop] {
        let variation = variation(a.value);
        if variation != last {
            size += 7;
            last = variation;
        }
        size += if variation == 2 { 3 } else { 5 };
    }
    size
}

/// The objects, behind the first four bytes; the answer is the size of the response.
pub fn respond(out: &mut [u8], s: &[u8], p: &Points, b: &mut Buffer) -> Result<usize, ReadError> {
    let mut plan = [Asked::All; 16];
    let n = headers(s, p, &mut plan)?;
    let plan = &plan[..n];
    let mut classes = [false; 3];
    let mut size = 4;
    for asked in plan {
        match *asked {
            Asked::Class(c) => classes[c as usize - 1] = true,
            Asked::Binaries(start, stop) => size += binaries_size(start, stop),
            Asked::Analogs(start, stop) => size += analogs_size(p, start, stop),
            Asked::All => {
                size += binaries_size(0, p.binary_count) + analogs_size(p, 0, p.analog_count)
            }
        }
    }
    if 2048 < size {
        return Err(ReadError::BadParameter);
    }
    b.select(classes, 2048 - size);
    let mut w = Writer { out, at: 4 };
    w.events(b);
    for asked in plan {
        match *asked {
            Asked::Class(_) => {}
            Asked::Binaries(start, stop) => w.binaries(p, start, stop),
            Asked::Analogs(start, stop) => w.analogs(p, start, stop),
            Asked::All => {
                w.binaries(p, 0, p.binary_count);
                w.analogs(p, 0, p.analog_count);
            }
        }
    }
    Ok(w.at)
}
