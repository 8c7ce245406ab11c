//! Requests, confirmations and controls.

use crate::control::{self, Group, Object};
use crate::outstation::Setup;
use crate::points::Form;
use crate::set_points::{SetPoint, SetValue};

use super::random::hex;
use super::readings::FLOATS;
use super::Generator;

impl Generator {
    // Fragments.

    /// A fragment call, seldom with too little lent.
    pub fn frag(&mut self, time: u64, bytes: &[u8]) {
        let lent = match self.random.below(100) {
            0 => self.random.pick(&[2047, 0, 250, 292]),
            1 => self.random.pick(&[2049, 4096]),
            _ => 2048,
        };
        self.call(format!("frag {time} {lent} {}", hex(bytes)));
    }

    pub fn request(&mut self, function: u8, objects: &[u8]) {
        let (clock, last) = match self.station() {
            Some(o) => (o.clock, o.last_request.as_ref().map_or(0, |r| r.bytes[0] & 15)),
            None => (0, 0),
        };
        let sequence =
            if self.random.chance(85) { (last + 1) % 16 } else { self.random.byte() % 16 };
        let time = self.time(clock);
        let mut bytes = vec![0xC0 | sequence, function];
        bytes.extend_from_slice(objects);
        self.frag(time, &bytes);
    }

    pub fn fragments_step(&mut self) {
        let Some(outstation) = self.station() else {
            if self.random.chance(10) {
                return self.frag(0, &[0xC0, 0x17]);
            }
            return self.setup_call();
        };
        let (waits, armed) = (outstation.wait.is_some(), outstation.latch.is_some());
        let late = outstation.clock > 1 << 47;
        if late && self.random.chance(5) {
            return self.call("restart".into());
        }
        if waits && self.random.chance(50) {
            return self.confirm_step();
        }
        if armed && self.random.chance(50) {
            return self.operate_step();
        }
        match self.random.below(200) {
            0 => self.setup_call(),
            1 => self.call("restart".into()),
            2..=5 => self.call("held".into()),
            6..=50 => self.reading_call(),
            51..=60 => self.table_call(),
            61..=68 => {
                let events = self.random.pick(&[3, 20, 128, 128]);
                self.flood_call(events);
            }
            69..=120 => self.read_request(),
            121..=125 => self.request(2, &[80, 1, 0, 7, 7, 0]),
            126..=128 => self.write_request(),
            129..=145 => self.control_request(3),
            146..=155 => {
                let function = self.random.pick(&[4, 5, 5, 6, 6]);
                self.control_request(function);
            }
            156..=175 => self.repeat_call(),
            176..=180 => {
                let (function, n) = (self.random.between(7, 127) as u8, self.random.below(5));
                let objects = self.random.bytes(n);
                self.request(function, &objects);
            }
            181..=192 => self.odd_fragment(),
            193 => {
                // Long requests, to be kept whole.
                let n = self.random.pick(&[2045, 2046, 2047]);
                let mut objects = self.random.bytes(n);
                let function = self.random.pick(&[0x17, 2, 3, 1]);
                self.request(function, &objects);
                if self.random.chance(50) {
                    *objects.last_mut().expect("long") ^= 1;
                }
                let control = self.last_control();
                let clock = self.station().map_or(0, |o| o.clock);
                let mut bytes = vec![control, function];
                bytes.extend_from_slice(&objects);
                self.frag(clock, &bytes);
            }
            _ => {
                let clock = self.station().map_or(0, |o| o.clock);
                let control = 0xC0 | (self.random.byte() % 16);
                self.frag(clock, &[control, 0]);
            }
        }
    }

    pub fn last_control(&self) -> u8 {
        self.station().and_then(|o| o.last_request.as_ref()).map_or(0xC0, |r| r.bytes[0])
    }

    /// While a wait stands.
    pub fn confirm_step(&mut self) {
        let Some(outstation) = self.station() else { return };
        let Some(wait) = outstation.wait.clone() else { return };
        let (clock, end) = (outstation.clock, wait.time + u64::from(outstation.setup.confirm_time));
        let confirm = [0xC0 | wait.sequence, 0];
        match self.random.below(20) {
            0..=4 => self.frag(clock.max(wait.time), &confirm),
            5..=7 => self.frag(end, &confirm),
            8 | 9 => self.frag(end + 1, &confirm),
            10 => {
                let control = 0xC0 | ((wait.sequence + self.random.between(1, 15) as u8) % 16);
                self.frag(clock, &[control, 0]);
            }
            11 => {
                let control = confirm[0] ^ self.random.pick(&[0x10, 0x10, 0x20, 0x40, 0x80]);
                self.frag(clock, &[control, 0]);
            }
            12 => self.frag(clock, &[confirm[0], 0, 0]),
            13..=15 => {
                // New events, or drops when full, before the confirmation.
                let events = self.random.pick(&[1, 5, 128]);
                self.flood_call(events);
                if self.random.chance(70) {
                    self.frag(clock, &confirm);
                }
            }
            16 => self.read_request(),
            17 => self.reading_call(),
            18 => {
                // A time inside the wait.
                let time = clock.max(wait.time + (end - wait.time) / 2);
                self.frag(time, &confirm);
            }
            _ => {
                self.frag(end + 1, &confirm);
                self.frag(clock, &confirm);
                if self.random.chance(30) {
                    self.frag(clock, &confirm);
                }
            }
        }
    }

    /// While the latch is armed.
    pub fn operate_step(&mut self) {
        let Some(outstation) = self.station() else { return };
        let Some(latch) = outstation.latch.clone() else { return };
        let (clock, end) = (outstation.clock, latch.time + u64::from(outstation.setup.arm_time));
        let mut operate = vec![0xC0 | ((latch.sequence + 1) % 16), 4];
        operate.extend_from_slice(&latch.objects);
        let mut select = vec![0xC0 | latch.sequence, 3];
        select.extend_from_slice(&latch.objects);
        match self.random.below(23) {
            0..=3 => self.frag(clock, &operate),
            4..=6 => self.frag(end, &operate),
            7..=9 => self.frag(end + 1, &operate),
            10 | 11 => {
                // SELECT heard twice, the second time late.
                self.frag(clock.max(latch.time + (end - latch.time).div_ceil(2)), &select);
                let late = self.random.pick(&[0, 1]);
                self.frag(end + late, &operate);
            }
            12 => {
                operate[0] = 0xC0 | ((latch.sequence + self.random.pick(&[0, 2, 8, 15])) % 16);
                let late = self.random.pick(&[0, 1]);
                self.frag(end + late, &operate);
            }
            13 => {
                let place = self.random.between(2, operate.len() - 1);
                operate[place] ^= 1 << self.random.below(8);
                self.frag(clock, &operate);
            }
            14 => {
                let objects = other_form(&latch.objects);
                operate.truncate(2);
                operate.extend_from_slice(&objects);
                self.frag(clock, &operate);
            }
            15 => {
                self.reading_call();
                self.frag(clock, &[0xC0, 0]);
                self.frag(clock, &operate);
            }
            16 => {
                // Some other request in between, faulty or not.
                match self.random.below(4) {
                    0 => self.read_request(),
                    1 => self.control_request(3),
                    2 => self.request(3, &[12, 1]),
                    _ => self.control_request(6),
                }
                let clock = self.station().map_or(0, |o| o.clock);
                self.frag(clock, &operate);
            }
            17 => self.repeat_call(),
            18 | 19 => {
                // The same bytes under another header, or a zero of the other sign.
                let objects = match (self.random.below(3), latch.group) {
                    (0, _) => other_group(&latch.objects),
                    (1, Group::SetPoints) => other_variation(&latch.objects),
                    _ => other_zeros(&latch.objects),
                };
                operate.truncate(2);
                operate.extend_from_slice(&objects);
                self.frag(clock, &operate);
            }
            20 if self.random.chance(25) => {
                self.call("restart".into());
                self.frag(0, &operate);
            }
            _ => {
                self.frag(clock, &operate);
                self.frag(clock, &operate);
                if self.random.chance(40) {
                    operate[0] = 0xC0 | ((operate[0] + 1) % 16);
                    self.frag(clock, &operate);
                }
            }
        }
    }

    pub fn repeat_call(&mut self) {
        let last = self.station().and_then(|o| o.last_request.as_ref().map(|r| r.bytes.clone()));
        let Some(bytes) = last else { return };
        if self.random.chance(30) {
            match self.random.below(4) {
                0 => self.flood_call(3),
                1 => self.read_request(),
                _ => self.reading_call(),
            }
        }
        let clock = self.station().map_or(0, |o| o.clock);
        let time = self.time(clock);
        self.frag(time, &bytes);
    }

    /// Fragments at the edges of 31, 32 and 33.
    pub fn odd_fragment(&mut self) {
        let clock = self.station().map_or(0, |o| o.clock);
        let time = self.time(clock);
        let n = self.random.below(8);
        let mut bytes = match self.random.below(8) {
            0 => Vec::new(),
            1 => vec![0xC0],
            2 => vec![self.random.byte(), self.random.byte()],
            3 => vec![
                self.random.byte() | 0xC0,
                self.random.pick(&[0, 1, 2, 3, 6, 127, 128, 129, 255]),
            ],
            4 => vec![self.last_control(), 0],
            5 => vec![0xD0 | (self.random.byte() % 16), self.random.pick(&[0, 1, 6, 23])],
            6 => vec![0xC0, self.random.pick(&[0, 1, 6, 127, 128, 130])],
            _ => {
                let size = self.random.pick(&[2048, 2049]);
                let mut bytes = self.random.bytes(size);
                bytes[..2].copy_from_slice(&[0xC3, 0x17]);
                bytes
            }
        };
        if self.random.chance(20) && bytes.len() == 2 {
            bytes.extend_from_slice(&self.random.bytes(n));
        }
        self.frag(time, &bytes);
    }

    pub fn write_request(&mut self) {
        let mut objects = vec![80, 1, 0, 7, 7, 0];
        match self.random.below(5) {
            0 => objects.truncate(self.random.below(6)),
            1 => objects.push(self.random.byte()),
            _ => {
                let place = self.random.below(6);
                objects[place] ^= 1 << self.random.below(8);
            }
        }
        self.request(2, &objects);
    }

    /// Mostly a control that gets status 0; function 3, 4, 5 or 6. After a SELECT that armed
    /// nothing sometimes the OPERATE that would meet it.
    pub fn control_request(&mut self, function: u8) {
        let Some(setup) = self.station().map(|o| o.setup.clone()) else { return };
        let sets = self.random.chance(if setup.set_points.is_empty() { 8 } else { 60 });
        let wide = self.random.chance(35);
        let count = match self.random.below(12) {
            0 => 8,
            1 => self.random.pick(&[0, 9]),
            2..=5 => self.random.between(2, 4),
            _ => 1,
        };
        let mut objects = if sets {
            self.set_points(&setup, wide, count)
        } else {
            self.relays(&setup, wide, count)
        };
        match self.random.below(40) {
            0 => objects.truncate(self.random.below(objects.len())),
            1 => objects.push(0),
            2 => objects[0] = self.random.pick(&[41, 12, 10, 0, 60, 40, 42]),
            3 => objects[1] = self.random.pick(&[0, 1, 2, 3, 4]),
            4 => objects[2] = self.random.pick(&[0x00, 0x06, 0x07, 0x27, 0x18]),
            5 => objects[3] ^= 1 << self.random.below(4),
            6 => objects.extend_from_slice(&[12, 1, 0x17, 1, 0]),
            7 => {
                objects.truncate(objects.len() - 1);
            }
            _ => {}
        }
        self.request(function, &objects);
        let unarmed = self.station().is_some_and(|o| o.latch.is_none());
        if function == 3 && unarmed && self.random.chance(30) {
            self.request(4, &objects);
        }
    }

    /// A header and so many CROBs.
    fn relays(&mut self, setup: &Setup, wide: bool, count: usize) -> Vec<u8> {
        let outputs = usize::from(setup.outputs);
        let mut objects = self.control_header(12, 1, wide, count);
        for place in 0..count {
            // Mostly different outputs.
            let index = if self.random.chance(80) { place } else { self.random.below(outputs + 2) };
            self.control_index(index, wide, &mut objects);
            let code = if self.random.chance(5) {
                self.random.byte()
            } else {
                self.random.pick(&[0x01, 0x03, 0x04, 0x41, 0x81])
            };
            objects.push(code);
            objects.push(if self.random.chance(4) { self.random.pick(&[0, 2, 255]) } else { 1 });
            objects.extend_from_slice(&self.on_time(code).to_le_bytes());
            let off_time = if self.random.chance(40) { self.random.next() as u32 } else { 0 };
            objects.extend_from_slice(&off_time.to_le_bytes());
            objects.push(if self.random.chance(5) { self.random.pick(&[1, 3, 128]) } else { 0 });
        }
        objects
    }

    /// A header of group 41 and so many objects, mostly for different set points of its kind.
    fn set_points(&mut self, setup: &Setup, wide: bool, count: usize) -> Vec<u8> {
        let points = &setup.set_points;
        let variation = if points.is_empty() {
            self.random.pick(&[1, 2, 3])
        } else {
            self.random.pick(points).variation()
        };
        let alike: Vec<usize> =
            (0..points.len()).filter(|&place| points[place].variation() == variation).collect();
        let first = self.random.below(alike.len().max(1));
        let mut objects = self.control_header(41, variation, wide, count);
        for place in 0..count {
            let index = if alike.is_empty() || self.random.chance(6) {
                self.random.below(points.len() + 2)
            } else if self.random.chance(5) {
                self.random.pick(&alike)
            } else {
                alike[(first + place) % alike.len()]
            };
            self.control_index(index, wide, &mut objects);
            let value = self.set_value(points.get(index).copied(), variation);
            objects.extend_from_slice(&value.bytes());
            objects.push(if self.random.chance(4) { self.random.pick(&[1, 4, 128]) } else { 0 });
        }
        objects
    }

    fn control_header(&mut self, group: u8, variation: u8, wide: bool, count: usize) -> Vec<u8> {
        let mut header = vec![group, variation, if wide { 0x28 } else { 0x17 }, count as u8];
        if wide {
            header.push(if self.random.chance(3) { 1 } else { 0 });
        }
        header
    }

    fn control_index(&mut self, mut index: usize, wide: bool, objects: &mut Vec<u8>) {
        if wide && self.random.chance(4) {
            index += 256;
        }
        objects.push(index as u8);
        if wide {
            objects.push((index >> 8) as u8);
        }
    }

    /// A value of that variation: mostly within the set point's ends, often an end or next to one.
    fn set_value(&mut self, point: Option<SetPoint>, variation: u8) -> SetValue {
        let inside = self.random.chance(85);
        match point {
            Some(SetPoint::Whole32(low, high) | SetPoint::Whole16(low, high)) => {
                let value = match self.random.below(6) {
                    0 | 1 if inside => low,
                    2 | 3 if inside => high,
                    _ if inside => low + self.random.below((high - low + 1) as usize) as i64,
                    0 | 1 => low - 1,
                    2 | 3 => high + 1,
                    4 => self.random.pick(&[-low, -high, low ^ 0x8000, high ^ 0x8000]),
                    _ => self.random.next() as i64,
                };
                match variation {
                    1 => SetValue::Whole32(value as i32),
                    2 => SetValue::Whole16(value as i16),
                    _ => SetValue::Float(value as f32),
                }
            }
            Some(SetPoint::Float(low, high)) => {
                let zero = low <= 0.0 && 0.0 <= high;
                let value = match self.random.below(8) {
                    0 | 1 if inside => low,
                    2 | 3 if inside => high,
                    4..=6 if inside && zero => self.random.pick(&[0.0, -0.0]),
                    _ if inside => low / 2.0 + high / 2.0,
                    0 | 1 => low.next_down(),
                    2 | 3 => high.next_up(),
                    4 => self.random.pick(&[-low, -high]),
                    5 => f32::from_bits(self.random.pick(&[0x7F80_0000, 0xFF80_0000])),
                    6 => f32::from_bits(self.random.pick(&[0x7FC0_0000, 0x7F80_0001, 0xFFFF_FFFF])),
                    _ => f32::from_bits(self.random.pick(&FLOATS)),
                };
                match variation {
                    1 => SetValue::Whole32(value as i32),
                    2 => SetValue::Whole16(value as i16),
                    _ => SetValue::Float(value),
                }
            }
            None => match variation {
                1 => SetValue::Whole32(self.random.next() as i32),
                2 => SetValue::Whole16(self.random.next() as i16),
                _ => SetValue::Float(f32::from_bits(self.random.pick(&FLOATS))),
            },
        }
    }

    /// An on-time: a pulse's mostly a right one, often next to a limit; another code's often 0.
    fn on_time(&mut self, code: u8) -> u32 {
        if !matches!(code, 0x01 | 0x41 | 0x81) && self.random.chance(50) {
            return 0;
        }
        match self.random.below(40) {
            0..=33 => self.random.pick(&[1, 100, 59_999, 60_000]),
            34 => 0,
            35 => 60_001,
            36 => self.random.pick(&[65_535, 65_536, 65_537, 65_536 + 60_000, u32::MAX]),
            37 => self.random.below(70_000) as u32,
            38 => 1 << self.random.below(32),
            _ => self.random.next() as u32,
        }
    }

    pub fn read_request(&mut self) {
        let Some(setup) = self.station().map(|o| o.setup.clone()) else { return };
        let mut objects = Vec::new();
        match self.random.below(20) {
            0 => {}
            1..=7 => {
                let headers = self.random.between(1, 4);
                for _ in 0..headers {
                    let variation = self.random.pick(&[2, 2, 3, 4, 2, 1]);
                    objects.extend_from_slice(&[60, variation, 6]);
                }
            }
            8 => objects.extend_from_slice(&[60, 2, 6, 60, 3, 6, 60, 4, 6, 60, 1, 6]),
            9 | 10 => objects.extend_from_slice(&[60, 2, 6, 60, 3, 6, 60, 4, 6]),
            11..=14 => objects = self.tight_headers(&setup),
            15 => {
                // 15, 16 or 17 headers, or 16 and a piece.
                let headers = self.random.pick(&[15, 16, 16, 17]);
                for _ in 0..headers {
                    objects.extend_from_slice(&[60, self.random.pick(&[2, 3, 4]), 6]);
                }
                if self.random.chance(60) {
                    let n = self.random.between(1, 3);
                    let more = self.random.bytes(n);
                    objects.extend_from_slice(&more);
                }
            }
            _ => {
                let headers = self.random.between(1, 5);
                for _ in 0..headers {
                    let header = self.any_header(&setup);
                    objects.extend_from_slice(&header);
                }
                if self.random.chance(15) {
                    objects.truncate(self.random.below(objects.len()));
                }
            }
        }
        self.request(1, &objects);
    }

    /// A header of a READ, often a right one.
    pub fn any_header(&mut self, setup: &Setup) -> Vec<u8> {
        let group = self.random.pick(&[1, 1, 30, 30, 60]);
        let points = if group == 1 { setup.binaries.len() } else { setup.analogs.len() };
        let mut variation = match group {
            1 => self.random.pick(&[0, 2]),
            30 => 0,
            _ => self.random.between(1, 4) as u8,
        };
        if self.random.chance(4) {
            variation = self.random.byte() % 8;
        }
        let mut header = vec![group, variation];
        let qualifier = if group == 60 { 6 } else { self.random.pick(&[0, 0, 1, 1, 6]) };
        header.push(if self.random.chance(3) { self.random.byte() } else { qualifier });
        if qualifier != 6 {
            let stop =
                if self.random.chance(85) { self.random.below(points.max(1)) } else { points };
            let start = if self.random.chance(90) { self.random.below(stop + 1) } else { stop + 1 };
            header.push(start as u8);
            if qualifier == 1 {
                header.push(if self.random.chance(2) { 1 } else { 0 });
            }
            header.push(stop as u8);
            if qualifier == 1 {
                header.push(if self.random.chance(2) { 1 } else { 0 });
            }
        }
        if self.random.chance(2) {
            header[0] = self.random.byte();
        } else if self.random.chance(1) {
            header[0] = self.random.pick(&[12, 40, 41, 42]);
        }
        header
    }

    /// Event classes, and static parts of a size aimed at.
    pub fn tight_headers(&mut self, setup: &Setup) -> Vec<u8> {
        let target = match self.random.below(6) {
            0 | 1 => 2044,
            2 => 2045,
            3 => 2044 - self.random.between(1, 40),
            _ => self.random.between(200, 2043),
        };
        let (nb, na) = (setup.binaries.len(), setup.analogs.len());
        let mut objects = Vec::new();
        let mut headers = 0;
        for variation in 2..=4 {
            if self.random.chance(60) {
                objects.extend_from_slice(&[60, variation, 6]);
                headers += 1;
            }
        }
        let mut size = 0;
        while headers < 16 && size < target {
            let left = target - size;
            let class0 = if nb > 0 { 7 + nb } else { 0 } + analog_size(setup, 0, na);
            let (header, bytes) = if left >= 8 && left <= 7 + nb {
                (vec![1, 2, 0, 0, (left - 8) as u8], left)
            } else if left > class0 + 71 || na == 0 {
                (vec![60, 1, 6], class0)
            } else if left > 7 + nb && nb > 1 && left < 2 * (7 + nb) && left >= 16 {
                (vec![1, 0, 1, 0, 0, (left / 2 - 8) as u8, 0], left / 2)
            } else {
                let start = self.random.below(na);
                let mut stop = start;
                while stop + 1 < na && analog_size(setup, start, stop + 2) + 8 <= left {
                    stop += 1;
                }
                (vec![30, 0, 0, start as u8, stop as u8], analog_size(setup, start, stop + 1))
            };
            objects.extend_from_slice(&header);
            size += bytes;
            headers += 1;
        }
        objects
    }
}

/// Static size of analogs from `start` to before `end`.
fn analog_size(setup: &Setup, start: usize, end: usize) -> usize {
    let kind = |form: &Form| match form {
        Form::Whole32(_) => 1,
        Form::Whole16(_) => 2,
        Form::Float { .. } => 5,
    };
    let mut size = 0;
    for place in start..end {
        let this = kind(&setup.analogs[place].1);
        if place == start || kind(&setup.analogs[place - 1].1) != this {
            size += 7;
        }
        size += if this == 2 { 3 } else { 5 };
    }
    size
}

/// A control request's objects: how wide its indices are, and its bytes past the header.
fn past_header(objects: &[u8]) -> (usize, &[u8]) {
    let width = if objects[2] == 0x17 { 1 } else { 2 };
    (width, &objects[3 + width..])
}

/// The same controls with the other qualifier.
fn other_form(objects: &[u8]) -> Vec<u8> {
    let (width, rest) = past_header(objects);
    let mut other = objects[..2].to_vec();
    other.extend(if width == 1 { vec![0x28, objects[3], 0] } else { vec![0x17, objects[3]] });
    for object in rest.chunks(rest.len() / usize::from(objects[3])) {
        other.push(object[0]);
        if width == 1 {
            other.push(0);
        }
        other.extend_from_slice(&object[width..]);
    }
    other
}

/// The same bytes as objects of the other group, where its size divides them; else one of them.
fn other_group(objects: &[u8]) -> Vec<u8> {
    let (width, rest) = past_header(objects);
    let (group, variation, each) =
        if Group::of(objects) == Group::Relays { (41, 1, width + 5) } else { (12, 1, width + 11) };
    let count = (rest.len() / each).clamp(1, 8);
    let mut other = vec![group, variation, objects[2], count as u8, 0];
    other.truncate(3 + width);
    other.extend(rest.iter().copied().chain(std::iter::repeat(0)).take(count * each));
    other
}

/// The same bytes as set points of the other variation of that size; of 16 bits there is none.
fn other_variation(objects: &[u8]) -> Vec<u8> {
    let mut other = objects.to_vec();
    other[1] = match other[1] {
        1 => 3,
        3 => 1,
        variation => variation,
    };
    other
}

/// The same set points, each float zero with the other sign; relays as they are.
fn other_zeros(objects: &[u8]) -> Vec<u8> {
    let (width, rest) = past_header(objects);
    let mut other = objects.to_vec();
    let controls = control::parse(objects).unwrap_or_default();
    for (place, control) in controls.iter().enumerate() {
        if let Object::SetPoint(SetValue::Float(0.0), _) = control.object {
            let end = 3 + width + (place + 1) * rest.len() / controls.len();
            other[end - 2] ^= 0x80;
        }
    }
    other
}
