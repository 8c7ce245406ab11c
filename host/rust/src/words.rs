//! What lent words stand for, written a second time from the definitions of `PointWords.antt`,
//! `OutputWords.antt` and `EventWords.antt`. Any words stand for something; of all words that stand for the same, `word`
//! and `words` give the plain ones.

/// Every NaN's bits stand for the one NaN; these are its plain bits.
const NAN: u32 = 0x7FC0_0000;

pub fn is_nan(bits: u32) -> bool {
    bits & 0x7FFF_FFFF > 0x7F80_0000
}

/// A float's bits, the NaN's being one.
pub fn float(bits: u32) -> u32 {
    if is_nan(bits) {
        NAN
    } else {
        bits
    }
}

/// What a point or an event shows. A float by its bits.
#[derive(Clone, Copy, Debug, PartialEq)]
pub enum Shown {
    State(bool),
    Long(i32),
    Short(i16),
    Real(u32),
}

impl Shown {
    /// Kind 0: a 32-bit number; 1: a 16-bit one, the nearer end for what is outside; else a float.
    fn value(kind: u32, bits: u32) -> Shown {
        match kind {
            0 => Shown::Long(bits as i32),
            1 => Shown::Short((bits as i32).clamp(-32_768, 32_767) as i16),
            _ => Shown::Real(float(bits)),
        }
    }

    /// As `value`, but kind 3 is a state.
    fn event(kind: u32, bits: u32) -> Shown {
        match kind {
            3 => Shown::State(bits != 0),
            _ => Shown::value(kind, bits),
        }
    }

    /// The least kind, and the bits.
    pub fn coded(self) -> (u32, u32) {
        match self {
            Shown::Long(value) => (0, value as u32),
            Shown::Short(value) => (1, i32::from(value) as u32),
            Shown::Real(bits) => (2, bits),
            Shown::State(state) => (3, u32::from(state)),
        }
    }
}

#[derive(Clone, Copy, Debug, PartialEq)]
pub struct Binary {
    pub class: u8,
    pub flags: u8,
    pub reported: u8,
    pub seen: bool,
    pub state: bool,
}

impl Binary {
    pub fn of(word: u32) -> Binary {
        let [class, flags, reported, truths] = word.to_le_bytes();
        Binary { class, flags, reported, seen: truths & 1 != 0, state: truths & 2 != 0 }
    }

    pub fn word(&self) -> u32 {
        let truths = u8::from(self.seen) | u8::from(self.state) << 1;
        u32::from_le_bytes([self.class, self.flags, self.reported, truths])
    }
}

/// `kind` 0: a 32-bit point; 1: a 16-bit point; 2: a float point, of which the numbers are bits.
/// `gate` 0: never; 1: any change, both without a limit; 2: beyond; 3: summed.
#[derive(Clone, Copy, Debug, PartialEq)]
pub struct Analog {
    pub class: u8,
    pub flags: u8,
    pub reported_flags: u8,
    pub seen: bool,
    pub value: Shown,
    pub kind: u8,
    pub gate: u8,
    pub limit: u32,
    pub reported: u32,
    pub previous: u32,
    pub sum: u32,
    pub gain: u32,
    pub offset: u32,
}

/// Words of one analog.
pub const RECORD: usize = 8;

impl Analog {
    pub fn of(words: &[u32]) -> Analog {
        let [head, value, limit, reported, previous, sum, gain, offset] = words[..RECORD] else {
            unreachable!("eight words")
        };
        let [class, flags, reported_flags, rest] = head.to_le_bytes();
        let (value_kind, kind, gate) = (rest >> 1 & 3, (rest >> 3 & 3).min(2), rest >> 5 & 3);
        let number = |bits| if kind == 2 { float(bits) } else { bits };
        let scale = |bits| if kind == 2 { float(bits) } else { 0 };
        Analog {
            class,
            flags,
            reported_flags,
            seen: rest & 1 != 0,
            value: Shown::value(u32::from(value_kind), value),
            kind,
            gate,
            limit: if gate < 2 { 0 } else { number(limit) },
            reported: number(reported),
            previous: number(previous),
            sum: number(sum),
            gain: scale(gain),
            offset: scale(offset),
        }
    }

    pub fn words(&self) -> [u32; RECORD] {
        let (value_kind, value) = self.value.coded();
        let rest = u8::from(self.seen) | (value_kind as u8) << 1 | self.kind << 3 | self.gate << 5;
        [
            u32::from_le_bytes([self.class, self.flags, self.reported_flags, rest]),
            value,
            self.limit,
            self.reported,
            self.previous,
            self.sum,
            self.gain,
            self.offset,
        ]
    }
}

/// `kind` 0: 32-bit; 1: 16-bit; 2: float, of which the ends are bits.
#[derive(Clone, Copy, Debug, PartialEq)]
pub struct Output {
    pub kind: u8,
    pub low: u32,
    pub high: u32,
}

/// Words of one analog output.
pub const OUTPUT_RECORD: usize = 3;

impl Output {
    pub fn of(words: &[u32]) -> Output {
        let [kind, low, high] = words[..OUTPUT_RECORD] else { unreachable!("three words") };
        let end = |bits| if kind < 2 { bits } else { float(bits) };
        Output { kind: kind.min(2) as u8, low: end(low), high: end(high) }
    }

    pub fn words(&self) -> [u32; OUTPUT_RECORD] {
        [u32::from(self.kind), self.low, self.high]
    }
}

#[derive(Clone, Copy, Debug, PartialEq)]
pub struct Event {
    pub time: u64,
    pub point: u16,
    pub shown: Shown,
    pub flags: u8,
    pub class: u8,
    pub carried: bool,
}

impl Event {
    pub fn of(first: u64, second: u64) -> Event {
        let [.., flags, class, kind, mark] = second.to_le_bytes();
        Event {
            time: first & 0xFFFF_FFFF_FFFF,
            point: (first >> 48) as u16,
            shown: Shown::event(u32::from(kind), second as u32),
            flags,
            class,
            carried: mark != 0,
        }
    }

    pub fn words(&self) -> [u64; 2] {
        let (kind, bits) = self.shown.coded();
        let second = u64::from(bits)
            | u64::from(self.flags) << 32
            | u64::from(self.class) << 40
            | u64::from(kind) << 48
            | u64::from(self.carried) << 56;
        [self.time | u64::from(self.point) << 48, second]
    }
}
