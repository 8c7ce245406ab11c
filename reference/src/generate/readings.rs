//! Setups, readings and tables.

use crate::outstation::Setup;
use crate::points::{Form, Gate};

use super::random::Random;
use super::{Generator, Kind};

/// Floats worth trying: zeros, subnormals, normal ends, largest, near ties, plain, not finite.
#[rustfmt::skip]
pub const FLOATS: [u32; 26] = [
    0x0000_0000, 0x8000_0000, 0x0000_0001, 0x8000_0001, 0x007F_FFFF, 0x0080_0000, 0x8080_0000,
    0x3F80_0000, 0xBF80_0000, 0x3F80_0001, 0x3F7F_FFFF, 0x4000_0000, 0x3F00_0000, 0x4120_0000,
    0xC120_0000, 0x3DCC_CCCD, 0x4B80_0000, 0x7F7F_FFFF, 0xFF7F_FFFF, 0x7F00_0000, 0xFF00_0000,
    0x7300_0000, 0x72FF_FFFF, 0x7F80_0000, 0xFF80_0000, 0x7FC0_0000,
];

impl Generator {
    // Setup and readings.

    pub fn float_word(&mut self, finite: bool) -> u32 {
        loop {
            let bits = match self.random.below(3) {
                0 => self.random.next() as u32,
                _ => self.random.pick(&FLOATS),
            };
            if !finite || f32::from_bits(bits).is_finite() {
                return bits;
            }
        }
    }

    pub fn whole_limit(&mut self) -> i64 {
        match self.random.below(8) {
            0 => 0,
            1 => 1,
            2 => 4_294_967_295,
            3 => 4_294_967_294,
            4 => 2_147_483_648,
            5 => self.random.below(1 << 32) as i64,
            _ => self.random.below(20) as i64,
        }
    }

    pub fn analog_word(&mut self, class: u8, kind: u8) -> String {
        let gate = self.random.below(4);
        if kind == 5 {
            let (gain, offset) = match self.random.below(5) {
                0 | 1 => (0x3F80_0000, 0),
                2 => (0x3F80_0000, 0x8000_0000),
                _ => (self.float_word(true), self.float_word(true)),
            };
            let limit = match gate {
                0 | 1 => "-".to_string(),
                _ if self.random.chance(50) => {
                    let bits = self.random.pick(&[0x3F80_0000u32, 0x4120_0000, 0, 0x3DCC_CCCD]);
                    format!("{bits:08X}")
                }
                _ if self.random.chance(4) => "80000000".to_string(),
                _ => format!("{:08X}", self.float_word(true) & 0x7FFF_FFFF),
            };
            format!("{class},5,{gain:08X},{offset:08X},{gate},{limit}")
        } else {
            let limit = if gate < 2 { "-".to_string() } else { self.whole_limit().to_string() };
            format!("{class},{kind},-,-,{gate},{limit}")
        }
    }

    /// A set point: often ends of a narrow range, so that values next to them are soon drawn.
    pub fn set_point_word(&mut self) -> String {
        let kind = self.random.pick(&[1, 2, 3, 3]);
        if kind == 3 {
            let (mut low, mut high) = match self.random.below(6) {
                0 => (0xFF7F_FFFF, 0x7F7F_FFFF),
                1 => self.random.pick(&[(0, 0x8000_0000), (0x8000_0000, 0), (0, 0)]),
                2 | 3 => self.random.pick(&[(0xBF80_0000, 0x3F80_0000), (0x8000_0001, 1)]),
                _ => (self.float_word(true), self.float_word(true)),
            };
            if f32::from_bits(low) > f32::from_bits(high) {
                (low, high) = (high, low);
            }
            return format!("3,{low:08X},{high:08X}");
        }
        let (least, most) = if kind == 1 {
            (i64::from(i32::MIN), i64::from(i32::MAX))
        } else {
            (i64::from(i16::MIN), i64::from(i16::MAX))
        };
        let (low, high) = match self.random.below(6) {
            0 => (least, most),
            1 => self.random.pick(&[(0, 0), (least, least), (most, most), (-1, -1)]),
            2 => (-1 - self.random.below(300) as i64, self.random.below(300) as i64),
            3 => (-300, -256),
            4 => (254 + self.random.below(3) as i64, 257),
            _ => {
                let low = least + self.random.below(60_000) as i64;
                (low, low + self.random.below(5000) as i64)
            }
        };
        format!("{kind},{low},{high}")
    }

    pub fn setup_call(&mut self) {
        let style = self.random.below(6);
        let (nb, na) = match style {
            // Many points, so that static parts can be long.
            0 | 1 => (self.random.between(50, 64), self.random.between(50, 64)),
            2 => (self.random.between(0, 3), self.random.between(0, 3)),
            _ => (self.random.between(1, 8), self.random.between(1, 8)),
        };
        let outputs = self.random.pick(&[0, 1, 2, 3, 8, 15, 16, 16]);
        let arm = self.random.pick(&[0, 1, 10, 5000, 5000, 64_000]);
        let confirm = self.random.pick(&[1, 2, 10, 5000, 5000, 60_000]);
        let mut words: Vec<String> = vec![
            self.random.between(0, 500).to_string(),
            self.random.between(501, 65_519).to_string(),
            arm.to_string(),
            confirm.to_string(),
            nb.to_string(),
            na.to_string(),
            outputs.to_string(),
        ];
        let floats = self.random.pick(&[20, 34, 80]);
        for _ in 0..nb {
            words.push(self.random.pick(&[0, 1, 1, 2, 3]).to_string());
        }
        for _ in 0..na {
            let class = self.random.pick(&[0, 1, 1, 2, 3]);
            let kind = if self.random.chance(floats) { 5 } else { self.random.pick(&[1, 2]) };
            let word = self.analog_word(class, kind);
            words.push(word);
        }
        let mut sets = 0;
        if self.random.chance(75) {
            sets = self.random.pick(&[0, 1, 2, 3, 8, 8, 15, 16, 16]);
            words.extend(["s".into(), sets.to_string()]);
            for _ in 0..sets {
                let word = self.set_point_word();
                words.push(word);
            }
        }
        let odd = if self.kind == Kind::Readings { 40 } else { 12 };
        if self.random.chance(odd) {
            self.break_limit(&mut words, nb, na, sets);
        }
        self.call(format!("setup {}", words.join(" ")));
        self.given = vec![0; 64];
    }

    /// One limit broken, or met exactly.
    pub fn break_limit(&mut self, words: &mut [String], nb: usize, na: usize, sets: usize) {
        let any_point =
            |random: &mut Random, from: usize, n: usize| 7 + from + random.below(n.max(1));
        match self.random.below(15) {
            0 => words[0] = self.random.pick(&["65519", "65520", "65535"]).into(),
            1 => words[1] = self.random.pick(&["65519", "65520", "65535", "0"]).into(),
            2 => words[1] = words[0].clone(),
            3 => words[2] = self.random.pick(&["64000", "64001", "4294967295"]).into(),
            4 => words[3] = self.random.pick(&["0", "60000", "60001", "4294967295"]).into(),
            5 => words[6] = self.random.pick(&["16", "17", "255"]).into(),
            6 if nb == 64 => words[4] = self.random.pick(&["65", "255"]).into(),
            7 if na == 64 => words[5] = self.random.pick(&["65", "255"]).into(),
            8 if nb > 0 => {
                let place = any_point(&mut self.random, 0, nb);
                words[place] = self.random.pick(&["3", "4", "255"]).into();
            }
            9 if na > 0 => {
                let place = any_point(&mut self.random, nb, na);
                words[place] = self
                    .random
                    .pick(&["4,1,-,-,0,-", "255,2,-,-,1,-", "3,1,-,-,2,4294967296", "1,2,-,-,3,-1"])
                    .into();
            }
            10 if na > 0 => {
                let place = any_point(&mut self.random, nb, na);
                let (gain, offset) = (self.float_word(false), self.float_word(false));
                let limit = self.float_word(false);
                words[place] = format!("1,5,{gain:08X},{offset:08X},3,{limit:08X}");
            }
            11 if na > 0 => {
                let place = any_point(&mut self.random, nb, na);
                words[place] = self
                    .random
                    .pick(&[
                        "0,1,-,-,3,9223372036854775807",
                        "0,1,-,-,2,-9223372036854775808",
                        "1,5,3F800000,00000000,2,80000001",
                    ])
                    .into();
            }
            12 if sets == 16 => {
                words[7 + nb + na + 1] = self.random.pick(&["16", "17", "255"]).into();
            }
            13 if sets > 0 => {
                let place = any_point(&mut self.random, nb + na + 2, sets);
                words[place] = self
                    .random
                    .pick(&[
                        "1,-2147483649,0",
                        "1,-2147483648,2147483648",
                        "2,-32769,32767",
                        "2,0,32768",
                        "1,1,0",
                        "2,-5,-6",
                        "1,-9223372036854775808,9223372036854775807",
                        "3,00000001,00000000",
                        "3,00000000,80000001",
                        "3,FF800000,00000000",
                        "3,BF800000,7F800000",
                        "3,7FC00000,3F800000",
                    ])
                    .into();
            }
            14 if sets > 0 => {
                let place = any_point(&mut self.random, nb + na + 2, sets);
                let (low, high) = (self.float_word(false), self.float_word(false));
                words[place] = format!("3,{low:08X},{high:08X}");
            }
            _ => {}
        }
    }

    /// A time for the next call after `clock`; seldom a refused one.
    pub fn time(&mut self, clock: u64) -> u64 {
        match self.random.below(60) {
            0 => clock.saturating_sub(1),
            1 if self.random.chance(30) => {
                self.random.pick(&[1 << 48, u64::MAX, (1 << 48) + 1, clock.saturating_sub(2)])
            }
            2 if self.random.chance(4) => (1 << 48) - 1,
            3 if self.random.chance(10) => clock + (self.random.next() >> 20),
            4..=20 => clock + self.random.below(4) as u64,
            21..=26 => clock + self.random.below(3000) as u64,
            _ => clock,
        }
    }

    pub fn flags(&mut self) -> u8 {
        match self.random.below(40) {
            0 => self.random.pick(&[32, 33, 128, 255]),
            1 => 31,
            2..=4 => self.random.below(32) as u8,
            5 | 6 => 0,
            _ => 1,
        }
    }

    /// Letter, point, value and flags of one reading of an outstation.
    pub fn reading(&mut self, setup: &Setup) -> (char, usize, String, u8) {
        let (nb, na) = (setup.binaries.len(), setup.analogs.len());
        let flags = self.flags();
        if self.random.chance(3) {
            // No such point, or a reading of another kind.
            let index = self.random.pick(&[nb, na, 63, 64, 255, 0]);
            let value = self.random.pick(&FLOATS);
            return match self.random.below(3) {
                0 => ('b', index, self.random.below(2).to_string(), flags),
                1 => ('a', index, (value as i32).to_string(), flags),
                _ => ('f', index, format!("{value:08X}"), flags),
            };
        }
        if na == 0 || (nb > 0 && self.random.chance(30)) {
            let index = self.random.below(nb.clamp(1, 6));
            return ('b', index, self.random.below(2).to_string(), flags);
        }
        // Often the same few points, so that sums and distances build up.
        let index = if self.random.chance(70) {
            self.random.below(na.min(3))
        } else {
            self.random.below(na)
        };
        let last = self.given[index];
        match setup.analogs[index].1 {
            Form::Whole32(gate) | Form::Whole16(gate) => {
                let limit = match gate {
                    Gate::Beyond(limit) | Gate::Summed(limit) => limit,
                    _ => 1,
                };
                let last = i64::from(last as i32);
                let value = match self.random.below(16) {
                    0 | 1 => last + limit,
                    2 | 3 => last - limit,
                    4 => last + limit + 1,
                    5 => last - limit - 1,
                    6 => last + 1,
                    7 => last,
                    8 => i64::from(i32::MIN),
                    9 => i64::from(i32::MAX),
                    10 => self.random.pick(&[-32_769, -32_768, -32_767, 32_766, 32_767, 32_768]),
                    11 => self.random.pick(&[40_000, 50_000, -40_000, 0, -1, 1]),
                    12 => last + limit / 2,
                    13 => last - limit / 2,
                    14 => i64::from(self.random.next() as i32),
                    _ => self.random.below(40) as i64,
                };
                let value = value.clamp(i64::from(i32::MIN), i64::from(i32::MAX)) as i32;
                self.given[index] = value as u32;
                ('a', index, value.to_string(), flags)
            }
            Form::Float { gate, .. } => {
                let limit = match gate {
                    Gate::Beyond(limit) | Gate::Summed(limit) => limit,
                    _ => 1.0,
                };
                let last = f32::from_bits(last);
                let value = match self.random.below(14) {
                    0 | 1 => (last + limit).to_bits(),
                    2 => (last - limit).to_bits(),
                    3 => (last + limit).to_bits().wrapping_add(1),
                    4 => (last - limit).to_bits().wrapping_add(1),
                    5 => last.to_bits(),
                    6 => last.to_bits() ^ 0x8000_0000,
                    7 => (last + limit / 2.0).to_bits(),
                    8 => (self.random.below(40) as f32).to_bits(),
                    9 => self.random.next() as u32,
                    _ => self.random.pick(&FLOATS),
                };
                // A sum that is not a number has no fixed bits; keep to the plain one.
                let value = if f32::from_bits(value).is_nan() { 0x7FC0_0000 } else { value };
                if f32::from_bits(value).is_finite() {
                    self.given[index] = value;
                }
                ('f', index, format!("{value:08X}"), flags)
            }
        }
    }

    pub fn reading_call(&mut self) {
        let Some((setup, clock)) = self.station().map(|o| (o.setup.clone(), o.clock)) else {
            return self.call("bin 0 0 0 0".into());
        };
        let (letter, index, value, flags) = self.reading(&setup);
        let time = self.time(clock);
        let name = match letter {
            'b' => "bin",
            'a' => "ana",
            _ => "flt",
        };
        self.call(format!("{name} {time} {index} {value} {flags}"));
    }

    pub fn table_call(&mut self) {
        let Some((setup, mut clock)) = self.station().map(|o| (o.setup.clone(), o.clock)) else {
            return self.call("table".into());
        };
        let records = match self.random.below(20) {
            0 => 0,
            1 => 128,
            2 => 129,
            _ => self.random.between(1, 12),
        };
        let mut line = String::from("table");
        for _ in 0..records {
            let (letter, index, value, flags) = self.reading(&setup);
            // A long table would never pass its first refusals.
            let time =
                if records > 12 { clock + self.random.below(2) as u64 } else { self.time(clock) };
            line.push_str(&format!(" {letter},{time},{index},{value},{flags}"));
            if time < 1 << 48 {
                clock = clock.max(time);
            }
        }
        self.call(line);
    }

    /// So many changes of points that raise events.
    pub fn flood_call(&mut self, events: usize) {
        let Some((setup, clock)) = self.station().map(|o| (o.setup.clone(), o.clock)) else {
            return;
        };
        let binaries: Vec<usize> =
            (0..setup.binaries.len()).filter(|&i| setup.binaries[i] > 0).collect();
        // Whole points: a change of flags is a report under every gate.
        let analogs: Vec<(usize, char)> = (0..setup.analogs.len())
            .filter(|&i| setup.analogs[i].0 > 0)
            .map(|i| (i, if matches!(setup.analogs[i].1, Form::Float { .. }) { 'f' } else { 'a' }))
            .collect();
        if binaries.is_empty() && analogs.is_empty() {
            return;
        }
        let share = self.random.pick(&[0, 30, 50, 100]);
        let mut line = String::from("table");
        let mut flags = self.random.below(2);
        for _ in 0..events.min(128) {
            flags = (flags + 1) % 32;
            if !analogs.is_empty() && (binaries.is_empty() || self.random.chance(share)) {
                let (index, letter) = self.random.pick(&analogs[..analogs.len().min(6)]);
                let value = if letter == 'f' { "3F800000" } else { "5" };
                line.push_str(&format!(" {letter},{clock},{index},{value},{flags}"));
            } else {
                let index = self.random.pick(&binaries[..binaries.len().min(4)]);
                let state = self.random.below(2);
                line.push_str(&format!(" b,{clock},{index},{state},{flags}"));
            }
        }
        self.call(line);
    }

    pub fn readings_step(&mut self) {
        if self.station().is_none() && self.random.chance(90) {
            return self.setup_call();
        }
        match self.random.below(400) {
            0..=3 => self.setup_call(),
            4 | 5 => self.call("restart".into()),
            6..=15 => self.call("held".into()),
            16..=55 => self.table_call(),
            56..=60 => self.flood_call(128),
            _ => self.reading_call(),
        }
    }
}
