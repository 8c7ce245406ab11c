//! Frames, checks and the line record; the station and segments. Pieces are in `pieces`.

use crate::frame;

use super::random::hex;
use super::Generator;

/// User data sizes at both sides of a block's and a frame's end.
const SIZES: [usize; 16] = [0, 0, 1, 1, 2, 15, 16, 17, 31, 32, 33, 48, 248, 249, 250, 251];

impl Generator {
    // The line.

    /// A lent length, mostly enough; both sides of the least.
    pub fn lent(&mut self, least: usize) -> usize {
        match self.random.below(30) {
            0 => least - 1,
            1 => least + 1,
            2 => 0,
            3 => self.random.pick(&[249, 250, 291, 292, 2047, 2048, 4096]),
            _ => least,
        }
    }

    pub fn size(&mut self) -> usize {
        if self.random.chance(40) {
            self.random.between(0, 40)
        } else {
            self.random.pick(&SIZES)
        }
    }

    pub fn frame(&mut self, control: u8, destination: u16, source: u16, n: usize) -> Vec<u8> {
        let user = self.random.bytes(n.min(250));
        let mut lent = [0; 292];
        let size = frame::write(control, destination, source, &user, &mut lent).expect("room");
        lent[..size].to_vec()
    }

    pub fn damaged(&mut self, mut frame: Vec<u8>) -> Vec<u8> {
        match self.random.below(14) {
            0..=3 => {
                let bit = self.random.below(8 * frame.len());
                frame[bit / 8] ^= 1 << (bit % 8);
            }
            4 => frame.truncate(self.random.below(frame.len())),
            5 => {
                frame.truncate(frame.len() - 1);
            }
            6 => {
                let more = self.random.between(1, 20);
                let more = self.random.bytes(more);
                frame.extend_from_slice(&more);
            }
            7 | 8 => {
                // Another length, under a right check.
                frame[2] = if self.random.chance(60) {
                    self.random.below(6) as u8
                } else {
                    self.random.byte()
                };
                let check = crate::crc::check_bytes(&frame[..8]);
                frame[8..10].copy_from_slice(&check);
                if self.random.chance(30) {
                    frame.truncate(10);
                }
            }
            9 => frame[self.random.below(2)] = self.random.byte(),
            10 => {
                let n = self.random.below(14);
                frame = self.random.bytes(n);
            }
            11 | 12 if frame.len() > 10 => {
                // One to three blocks wrong, by one bit each.
                for _ in 0..self.random.between(1, 3) {
                    let bit = 80 + self.random.below(8 * (frame.len() - 10));
                    frame[bit / 8] ^= 1 << (bit % 8);
                }
            }
            _ => {
                // Another byte in the header, under a right check.
                let place = self.random.between(3, 7);
                frame[place] ^= 1 << self.random.below(8);
                let check = crate::crc::check_bytes(&frame[..8]);
                frame[8..10].copy_from_slice(&check);
            }
        }
        frame
    }

    pub fn line_step(&mut self) {
        match self.random.below(21) {
            0..=2 => {
                let n = if self.random.chance(5) { 600 } else { self.size() };
                let bytes = self.random.bytes(n);
                self.call(format!("crc {}", hex(&bytes)));
            }
            3..=8 => {
                let (lent, control) = (self.lent(292), self.random.byte());
                let (to, from) = (self.random.next() as u16, self.random.below(65_536));
                let n =
                    if self.random.chance(3) { self.random.between(251, 600) } else { self.size() };
                let user = self.random.bytes(n);
                self.call(format!("frame-write {lent} {control:02X} {to} {from} {}", hex(&user)));
            }
            9 => self.record_step(),
            20 => self.pieces_step(),
            _ => {
                let (control, n) = (self.random.byte(), self.size());
                let (to, from) = (self.random.next() as u16, self.random.next() as u16);
                let mut bytes = self.frame(control, to, from, n);
                if self.random.chance(60) {
                    bytes = self.damaged(bytes);
                }
                let lent = self.lent(250);
                self.call(format!("frame-read {lent} {}", hex(&bytes)));
            }
        }
    }

    pub fn record_step(&mut self) {
        // 23 counts, or the first 7; any other number is a fault.
        let n = match self.random.below(20) {
            0 => self.random.between(1, 30),
            1..=4 => 7,
            _ => 23,
        };
        let counts: Vec<String> = (0..n)
            .map(|_| match self.random.below(4) {
                0 => 65_535.to_string(),
                1 => 65_534.to_string(),
                2 => self.random.below(3).to_string(),
                _ => self.random.below(65_536).to_string(),
            })
            .collect();
        self.call(format!("record {}", counts.join(",")));
    }

    // The station: frames and segments.

    pub fn station_step(&mut self) {
        if self.station().is_none() {
            let (own, master) = (self.address(), self.address());
            self.call(format!("setup {own} {master} 5000 5000 0 0 0"));
            return;
        }
        match self.random.below(204) {
            0 => {
                let (own, master) = (self.address(), self.address());
                self.call(format!("setup {own} {master} 5000 5000 0 0 0"));
            }
            1 | 2 => self.call("restart".into()),
            3..=8 => self.record_step(),
            9..=89 => self.station_call(),
            90..=179 => self.seg_call(),
            180..=199 => self.send_call(),
            _ => self.pieces_step(),
        }
    }

    pub fn address(&mut self) -> u16 {
        match self.random.below(20) {
            0 => 65_519,
            1 => self.random.pick(&[65_520, 65_535, 1]),
            2 => 0,
            3 => 65_518,
            4..=9 => self.random.below(65_520) as u16,
            _ => self.random.below(1024) as u16,
        }
    }

    pub fn station_call(&mut self) {
        let Some(setup) = self.station().map(|o| o.setup.clone()) else {
            return self.call("station 250 056405C001000004E921".into());
        };
        let function = match self.random.below(10) {
            0..=4 => 4,
            5 => 0,
            6 => 9,
            _ => self.random.below(16) as u8,
        };
        let bits = match self.random.below(12) {
            0 => self.random.byte() & 0xF0,
            1 => 0xD0,
            2 => 0xF0,
            3 | 4 => 0xE0,
            _ => 0xC0,
        };
        let n = match function {
            0 | 9 if self.random.chance(80) => 0,
            _ => self.size(),
        };
        let (mut to, mut from) = (setup.own, setup.master);
        match self.random.below(24) {
            0 => to = self.address(),
            1 => from = self.address(),
            2 => (to, from) = (from, to),
            3 => to = self.random.pick(&[65_532, 65_533, 65_534, 65_535]),
            4 => to ^= 1 << self.random.below(16),
            5 => from ^= 1 << self.random.below(16),
            _ => {}
        }
        let mut bytes = self.frame(bits | function, to, from, n);
        if self.random.chance(35) {
            bytes = self.damaged(bytes);
        }
        let lent = self.lent(250);
        self.call(format!("station {lent} {}", hex(&bytes)));
    }

    pub fn seg_call(&mut self) {
        let unfinished = self.unfinished();
        let again = if unfinished.is_some() { 9 } else { 3 };
        if !self.heard.is_empty() && self.random.chance(again) {
            return self.again_call();
        }
        let lent = self.assembly_lent();
        // Full segments lead to the end of the buffer soonest.
        let mut n = match self.random.below(16) {
            0 => self.random.pick(&[0, 1, 2, 248, 250, 251]),
            1..=3 => self.random.between(1, 249),
            _ => 249,
        };
        let mut bits = 0;
        let mut sequence = self.random.below(64) as u8;
        match unfinished {
            None => {
                bits |= if self.random.chance(85) { 0x40 } else { 0 };
                bits |= if self.random.chance(15) { 0x80 } else { 0 };
            }
            Some(unfinished) => {
                let next = (unfinished.last + 1) % 64;
                sequence = match self.random.below(60) {
                    0 => unfinished.last,
                    1 => (next + 1) % 64,
                    2 => (next + 16) % 64,
                    3 => (next + 48) % 64,
                    4 => self.random.below(64) as u8,
                    _ => next,
                };
                bits |= if self.random.chance(3) { 0x40 } else { 0 };
                bits |= if self.random.chance(6) { 0x80 } else { 0 };
                let room = 2048 - unfinished.count;
                if room <= 249 && self.random.chance(80) {
                    // Up to the end, one before it, one past it.
                    n = self.random.pick(&[room, room, room, room + 1, room.max(1) - 1]);
                    bits |= if self.random.chance(60) { 0x80 } else { 0 };
                }
            }
        }
        let mut segment = vec![bits | sequence];
        segment.extend_from_slice(&self.random.bytes(n));
        if self.random.chance(1) {
            segment.clear();
        }
        self.seg(lent, segment);
    }

    /// The last segment again, once or more, or something close to it.
    fn again_call(&mut self) {
        let mut segment = self.heard.clone();
        let data = segment.len() - 1;
        let mut times = 1;
        match self.random.below(32) {
            0 => {
                let bit = 8 + self.random.below(8 * data);
                segment[bit / 8] ^= 1 << (bit % 8);
            }
            1 => {
                segment.remove(1);
            }
            2 => {
                segment.pop();
            }
            3 => {
                let byte = self.random.byte();
                segment.insert(self.random.pick(&[1, segment.len()]), byte);
            }
            4 => segment[0] |= 0x80,
            5 | 6 => segment[0] &= !0x40,
            // The next one, with the same data.
            7 => segment[0] = segment[0].wrapping_add(1) & 0x3F,
            8..=13 => times = self.random.between(2, 5),
            _ => {}
        }
        for _ in 0..times {
            let lent = self.assembly_lent();
            self.seg(lent, segment.clone());
        }
    }

    fn seg(&mut self, lent: usize, segment: Vec<u8>) {
        self.call(format!("seg {lent} {}", hex(&segment)));
        // 33 and 21 are not heard. After 22 or 23 nothing is begun that could be repeated.
        if lent >= 2048 && (2..=250).contains(&segment.len()) {
            self.heard = segment;
        }
    }

    fn assembly_lent(&mut self) -> usize {
        if self.random.chance(97) {
            2048
        } else {
            self.random.pick(&[2047, 0, 2049, 4096, 250])
        }
    }

    pub fn send_call(&mut self) {
        let n = match self.random.below(10) {
            0 => self.random.pick(&[0, 2047, 2048, 2049, 3000, 1992, 1993]),
            1..=4 => self.random.pick(&[1, 2, 248, 249, 250, 497, 498, 499]),
            5 => self.random.between(1, 2048),
            _ => self.random.between(1, 30),
        };
        let lent = self.lent(250);
        let bytes = self.random.bytes(n);
        self.call(format!("send {lent} {}", hex(&bytes)));
    }
}
