//! Random calls in one long run, the same for the same seed here and in `host/stress.c`: both make
//! every call from a small random source and from what the host saw of earlier answers, never from
//! the state. After each call the answer, every lent byte and the head are folded into one number,
//! every 1,000 calls the whole state. Frames to be read are frames that were written, changed or not;
//! pieces off the wire are cut from them, with noise between.
//!
//! The two files say the same thing in the same order. Who changes one changes the other.

use crate::header::*;

/// Lent lengths: of an answer, an assembly, a frame to be written, user data or a segment. The first
/// of each six is the usual one.
pub const LENGTHS: [usize; 24] = [
    2048, 0, 1, 2047, 2049, 4096, // answer
    2048, 0, 1, 2047, 2049, 4096, // assembly
    292, 0, 1, 291, 293, 400, // frame
    250, 0, 1, 249, 251, 300, // user data
];
const ANSWER: usize = 0;
const ASSEMBLY: usize = 6;
const FRAME_OUT: usize = 12;
const USER_OUT: usize = 18;
/// What lent bytes hold before the first call.
pub const FILL: u8 = 0xA5;
/// Calls between two folds of the whole state, and between two lines of output.
pub const WHOLE: u64 = 1_000;
pub const LINE: u64 = 100_000;

/// Where a fragment's kinds begin, of 100.
const CONFIRM: u32 = 38;
const OPERATE: u32 = 67;

const TIME_END: u64 = 1 << 48;
const MOST_POINTS: u32 = 264;

/// xorshift64*.
pub struct Source(u64);

impl Source {
    pub fn new(seed: u64) -> Source {
        let start = seed ^ 0x9E37_79B9_7F4A_7C15;
        Source(if start == 0 { 1 } else { start })
    }

    fn next(&mut self) -> u32 {
        self.0 ^= self.0 << 13;
        self.0 ^= self.0 >> 7;
        self.0 ^= self.0 << 17;
        (self.0.wrapping_mul(0x2545_F491_4F6C_DD1D) >> 32) as u32
    }

    fn below(&mut self, n: u32) -> u32 {
        ((u64::from(self.next()) * u64::from(n)) >> 32) as u32
    }

    fn chance(&mut self, percent: u32) -> bool {
        self.below(100) < percent
    }

    fn pick(&mut self, of: &[u32]) -> u32 {
        of[self.below(of.len() as u32) as usize]
    }
}

// ---- the sum

pub struct Sum(pub u64);

impl Sum {
    pub fn fold(&mut self, number: u64) {
        let mixed = (self.0 ^ number).wrapping_mul(0x9E37_79B9_7F4A_7C15);
        self.0 = mixed ^ (mixed >> 29);
    }

    /// The length, then eight bytes at a time, the last ones filled up with 0.
    pub fn bytes(&mut self, bytes: &[u8]) {
        self.fold(bytes.len() as u64);
        let (eights, rest) = bytes.split_at(bytes.len() / 8 * 8);
        for eight in eights.chunks_exact(8) {
            self.fold(u64::from_le_bytes(eight.try_into().expect("eight")));
        }
        if !rest.is_empty() {
            let mut eight = [0; 8];
            eight[..rest.len()].copy_from_slice(rest);
            self.fold(u64::from_le_bytes(eight));
        }
    }

    /// A plain head.
    pub fn head(&mut self, head: &Head) {
        for number in
            [head.arm_time, head.confirm_time, head.clock, head.wait_time, head.latch_time]
        {
            self.fold(number);
        }
        for number in [
            head.binary_count,
            head.analog_count,
            head.event_count,
            head.request_len,
            head.answer_len,
            head.latch_len,
        ] {
            self.fold(number as u64);
        }
        self.fold(u64::from(head.outputs));
        for number in [
            head.overflow,
            head.restarted,
            head.waiting,
            head.wait_sequence,
            head.showed_overflow,
            head.dropped_since,
            head.request_kept,
            head.latch_armed,
            head.latch_sequence,
        ] {
            self.fold(u64::from(number));
        }
        self.fold(u64::from(head.analog_outputs));
    }

    /// The arrays of a plain image, as far as they count.
    pub fn arrays(&mut self, image: &Outstation) {
        let head = &image.head;
        for &word in &image.binaries[..head.binary_count] {
            self.fold(u64::from(unseen_reported(word)));
        }
        for words in image.analogs.chunks_exact(8).take(head.analog_count) {
            self.fold(u64::from(unseen_reported(words[0])));
            words[1..].iter().for_each(|&word| self.fold(u64::from(word)));
        }
        for &word in &image.analog_outputs[..3 * usize::from(head.analog_outputs)] {
            self.fold(u64::from(word));
        }
        for &word in &image.events[..2 * head.event_count] {
            self.fold(word);
        }
        self.bytes(&image.request[..head.request_len]);
        self.bytes(&image.answer[..head.answer_len]);
        self.bytes(&image.latch_objects[..head.latch_len]);
    }

    pub fn result(&mut self, call: &Call, result: &Answered, out: &[u8]) {
        self.fold(call.kind as u64);
        self.fold(u64::from(result.refusal));
        self.fold(result.taken as u64);
        if call.kind as u8 >= Kind::Fragment as u8 {
            self.fold(u64::from(result.kind));
            self.fold(result.length as u64);
            self.fold(result.more);
            self.bytes(out);
            let Operated { crobs, analog_commands } = &result.operated;
            self.fold(crobs.count as u64);
            for crob in &crobs.items[..crobs.count] {
                self.fold(u64::from(crob.on_time));
                self.fold(u64::from(crob.off_time));
                self.fold(u64::from(crob.index));
                for number in [crob.code, crob.count, crob.status] {
                    self.fold(u64::from(number));
                }
            }
            self.fold(analog_commands.count as u64);
            for command in &analog_commands.items[..analog_commands.count] {
                self.fold(u64::from(command.bits));
                self.fold(u64::from(command.index));
                self.fold(u64::from(command.kind));
                self.fold(u64::from(command.status));
            }
        }
    }
}

/// A point's first word; flags last reported before the first reading are not said.
fn unseen_reported(word: u32) -> u32 {
    if word >> 24 & 1 == 0 {
        word & 0xFF00_FFFF
    } else {
        word
    }
}

// ---- calls and what they come to

#[derive(Clone, Copy, PartialEq, Debug)]
pub enum Kind {
    Restart,
    Reading,
    Table,
    Fragment,
    FrameWrite,
    LinkData,
    LinkReply,
    FrameRead,
    LinkReceive,
    Segment,
    Send,
    Piece,
}

/// A reading is a table of one.
pub struct Call {
    pub kind: Kind,
    pub setup: Setup,
    pub classes: Vec<u8>,
    pub setups: Vec<AnalogSetup>,
    /// A restart with the setup that was taken last.
    pub again: bool,
    /// What a restart sets every count of the line record to, if it does.
    pub record: Option<u16>,
    pub readings: Vec<Reading>,
    pub time: u64,
    pub control: u8,
    pub destination: u16,
    pub source: u16,
    /// What the call is given to read: a fragment, a frame, a segment or user data.
    pub fragment: Vec<u8>,
    /// Place in `LENGTHS`.
    pub out: usize,
}

/// What is not named by the call's kind is 0.
#[derive(Clone, Copy)]
pub struct Answered {
    pub refusal: u8,
    pub taken: usize,
    pub kind: u8,
    pub length: usize,
    /// The sum of the other numbers: of a frame read, a line record, an assembly, segments sent,
    /// bytes kept.
    pub more: u64,
    pub operated: Operated,
}

impl Answered {
    pub fn zero() -> Answered {
        Answered { refusal: 0, taken: 0, kind: 0, length: 0, more: 0, operated: Operated::zero() }
    }
}

// ---- counts

#[derive(Clone, Copy)]
enum Count {
    RestartTaken,
    RestartRefused,
    ReadingTaken,
    ReadingTime,
    ReadingPoint,
    ReadingFinite,
    ReadingFlags,
    TableTaken,
    TableStopped,
    TableReadings,
    FragmentTime,
    FragmentShape,
    ConfirmRefused,
    FragmentLent,
    ConfirmAccepted,
    Repeat,
    ReadCon,
    ReadPlain,
    ReadFault,
    Write,
    SelectRelays,
    SelectSets,
    SelectOther,
    OperateRelays,
    OperateSets,
    OperateOther,
    OperateZero,
    OperateVariation,
    OperateGroup,
    DirectRelays,
    DirectSets,
    DirectOther,
    NoResponse,
    OtherFunction,
    Relays,
    Sets32,
    Sets16,
    SetsFloat,
    Full,
    Dropped,
    Cleared,
    Long,
    Longest,
    FrameWritten,
    FrameRefused,
    ReadFrame,
    ReadRefused,
    LinkUser,
    LinkAsks,
    LinkRefused,
    SegmentMore,
    SegmentAgain,
    SegmentWhole,
    SegmentRefused,
    Sent,
    SendRefused,
    PieceFrame,
    PieceWaits,
    PieceRefused,
    PieceLent,
}

pub const COUNTS: [&str; 60] = [
    "restart taken",
    "restart refused 5",
    "reading taken",
    "reading refused 1",
    "reading refused 2",
    "reading refused 3",
    "reading refused 4",
    "table taken whole",
    "table stopped",
    "readings taken in tables",
    "fragment refused 1",
    "fragment refused 31",
    "CONFIRM refused 32",
    "fragment refused 33",
    "CONFIRM accepted",
    "repeat",
    "READ that awaits a CONFIRM",
    "READ without CON",
    "READ with a fault",
    "WRITE",
    "SELECT that armed the latch for relays",
    "SELECT that armed the latch for analog outputs",
    "SELECT that did not",
    "OPERATE of relays carried out",
    "OPERATE of analog outputs carried out",
    "OPERATE not carried out",
    "OPERATE with a zero of the other sign not carried out",
    "OPERATE with another variation not carried out",
    "OPERATE of the other group not carried out",
    "DIRECT OPERATE of relays carried out",
    "DIRECT OPERATE of analog outputs carried out",
    "DIRECT OPERATE not carried out",
    "DIRECT OPERATE NO RESPONSE",
    "another function",
    "relays' objects handed to the host",
    "32-bit set points handed to the host",
    "16-bit set points handed to the host",
    "float set points handed to the host",
    "256 events held after the call",
    "IIN2.3 set by the call",
    "IIN2.3 cleared by the call",
    "answer of over 2,000 bytes",
    "answer of 2,048 bytes",
    "frame written",
    "frame refused 16 or 33",
    "frame read",
    "frame read refused",
    "link_receive: user data",
    "link_receive: reply",
    "link_receive refused",
    "segment_receive: goes on",
    "segment_receive: a repeat ignored",
    "segment_receive: whole",
    "segment_receive refused",
    "fragment sent in segments",
    "segment_send refused",
    "piece_receive: frame",
    "piece_receive: waits",
    "piece_receive refused",
    "piece_receive refused 33",
];

// ---- the generator

pub struct Generator {
    source: Source,
    /// Time of the last accepted call, or where times are to begin.
    clock: u64,
    /// A refused setup left no outstation.
    none: bool,
    setup: Setup,
    classes: Vec<u8>,
    setups: Vec<AnalogSetup>,
    binaries: u32,
    analogs: u32,
    outputs: u32,
    analog_outputs: u32,
    arm_time: u64,
    confirm_time: u64,
    states: [bool; 64],
    kinds: [u8; 64],
    limits: [u32; 64],
    given: [u32; 64],
    sequence: u8,
    waiting: bool,
    wait_sequence: u8,
    wait_time: u64,
    selected: bool,
    select_sequence: u8,
    select_time: u64,
    objects: Vec<u8>,
    request: Vec<u8>,
    /// In what an OPERATE differs from the SELECT, where it is counted.
    other: Option<Count>,
    /// Calls left in which the buffer is to fill.
    filling: u32,
    overflow: u8,
    /// The frame written last, and whether a fragment is begun, with the sequence that is next and
    /// the segment taken last.
    frame: Vec<u8>,
    begun: bool,
    next_segment: u8,
    segment: Vec<u8>,
    /// What is still to come off the wire.
    wire: Vec<u8>,
    pub counts: [u64; COUNTS.len()],
}

const FLOATS: [u32; 12] = [
    0,
    0x8000_0000,
    0x3F80_0000,
    0x3FC0_0000,
    0x4000_0000,
    0xBF80_0000,
    0x42C8_0000,
    0x7F7F_FFFF,
    0xFF7F_FFFF,
    0x0000_0001,
    0x0080_0000,
    0x3DCC_CCCD,
];
const NOT_FINITE: [u32; 5] = [0x7F80_0000, 0xFF80_0000, 0x7FC0_0000, 0x7F80_0001, 0xFFC1_2345];
const WHOLES: [u32; 9] =
    [0, 100, 32_767, 32_768, 0xFFFF_8000, 0xFFFF_7FFF, 0x7FFF_FFFF, 0x8000_0000, 0xFFFF_FFFF];
const WHOLE_LIMITS: [u32; 6] = [0, 1, 5, 100, 0x7FFF_FFFF, 0xFFFF_FFFF];
const FLOAT_LIMITS: [u32; 7] =
    [0, 0x8000_0000, 0x3F00_0000, 0x3F80_0000, 0x4120_0000, 0x0000_0001, 0x7F7F_FFFF];
const GAINS: [u32; 8] =
    [0x3F80_0000, 0x3F80_0000, 0x4000_0000, 0x3DCC_CCCD, 0xBF80_0000, 0x7F7F_FFFF, 0x3F80_0001, 0];
const OFFSETS: [u32; 6] = [0, 0, 0x8000_0000, 0x3F80_0000, 0xBF80_0002, 0x3DCC_CCCD];
const CODES: [u32; 5] = [0x01, 0x03, 0x04, 0x41, 0x81];
const PULSES: [u32; 4] = [1, 100, 59_999, 60_000];
const NO_PULSES: [u32; 4] = [0, 60_001, 65_536, 65_537];

/// Ends of analog outputs, by their kind.
const ENDS: [[(u32, u32); 8]; 3] = [
    [
        (0x8000_0000, 0x7FFF_FFFF),
        (0, 0),
        (0x8000_0000, 0x8000_0000),
        (0x7FFF_FFFF, 0x7FFF_FFFF),
        (0xFFFF_FED4, 0xFFFF_FF00),
        (254, 257),
        (0xFFFF_FF9C, 100),
        (0xFFFF_0000, 65_536),
    ],
    [
        (0xFFFF_8000, 32_767),
        (0, 0),
        (0xFFFF_8000, 0xFFFF_8000),
        (32_767, 32_767),
        (0xFFFF_FED4, 0xFFFF_FF00),
        (254, 257),
        (0xFFFF_FF9C, 100),
        (0xFFFF_FFFF, 1),
    ],
    [
        (0xFF7F_FFFF, 0x7F7F_FFFF),
        (0, 0x8000_0000),
        (0x8000_0000, 0),
        (0x3F80_0000, 0x3F80_0000),
        (0x8000_0001, 0x0000_0001),
        (0xBF80_0000, 0x3F80_0000),
        (0xC2C8_0000, 0x42C8_0000),
        (0, 0x3F80_0000),
    ],
];

impl Generator {
    pub fn new(seed: u64) -> Generator {
        Generator {
            source: Source::new(seed),
            clock: 0,
            none: true,
            setup: Setup::zero(),
            classes: Vec::new(),
            setups: Vec::new(),
            binaries: 0,
            analogs: 0,
            outputs: 0,
            analog_outputs: 0,
            arm_time: 0,
            confirm_time: 0,
            states: [false; 64],
            kinds: [0; 64],
            limits: [0; 64],
            given: [0; 64],
            sequence: 0,
            waiting: false,
            wait_sequence: 0,
            wait_time: 0,
            selected: false,
            select_sequence: 0,
            select_time: 0,
            objects: Vec::new(),
            request: Vec::new(),
            other: None,
            filling: 0,
            overflow: 0,
            frame: Vec::new(),
            begun: false,
            next_segment: 0,
            segment: Vec::new(),
            wire: Vec::new(),
            counts: [0; COUNTS.len()],
        }
    }

    fn count(&mut self, count: Count) {
        self.counts[count as usize] += 1;
    }

    /// The next call.
    pub fn step(&mut self, call: &mut Call) {
        call.classes.clear();
        call.setups.clear();
        call.readings.clear();
        call.fragment.clear();
        call.out = 0;
        call.again = false;
        call.record = None;
        if self.none {
            return self.restart(call, false);
        }
        let which = self.source.below(1000);
        if which == 0 {
            if self.source.chance(20) {
                return self.restart_again(call);
            }
            let broken = self.source.chance(30);
            return self.restart(call, broken);
        }
        if self.filling == 0 && self.source.below(2000) == 0 {
            self.filling = 200 + self.source.below(600);
        }
        if self.filling > 0 {
            self.filling -= 1;
        }
        if self.filling > 0 && which < 960 {
            self.table(call, which < 100);
        } else if which < 480 {
            self.table(call, false);
        } else if which < 510 {
            self.table(call, true);
        } else if which < 570 {
            self.line(call);
        } else {
            self.fragment(call);
        }
    }

    // ---- restart

    fn points(&mut self) -> u32 {
        match self.source.below(5) {
            0 => 0,
            1 => 1 + self.source.below(3),
            2 => self.source.below(65),
            _ => 64,
        }
    }

    fn class(&mut self) -> u8 {
        if self.source.chance(10) {
            0
        } else {
            1 + self.source.below(3) as u8
        }
    }

    fn restart(&mut self, call: &mut Call, broken: bool) {
        call.kind = Kind::Restart;
        call.record = Some(self.source.pick(&[0, 65_530]) as u16);
        let arm_time = self.source.pick(&[0, 1, 10, 1000, 64_000]);
        let confirm_time = self.source.pick(&[1, 10, 1000, 5000, 60_000]);
        let own = self.source.below(65_520);
        let master = (own + 1 + self.source.below(100)) % 65_520;
        let outputs = self.source.pick(&[0, 1, 8, 16, 16]);
        let analog_output_count = self.source.pick(&[0, 1, 8, 16, 16]);
        call.setup = Setup {
            arm_time,
            confirm_time,
            own: own as u16,
            master: master as u16,
            outputs: outputs as u16,
            analog_output_count: analog_output_count as u16,
            analog_outputs: [AnalogOutput::zero(); ANALOG_OUTPUTS],
        };
        let mut binaries = self.points();
        let mut analogs = self.points();
        let fault = if broken { 1 + self.source.below(17) } else { 0 };
        match fault {
            1 => binaries = 65 + self.source.below(MOST_POINTS - 64),
            2 => analogs = 65 + self.source.below(MOST_POINTS - 64),
            3 => call.setup.outputs = 17 + self.source.below(65_519) as u16,
            4 => call.setup.own = 65_520 + self.source.below(16) as u16,
            5 => call.setup.master = 65_520 + self.source.below(16) as u16,
            6 => call.setup.master = call.setup.own,
            7 => call.setup.arm_time = 64_001 + self.source.below(1000),
            8 => call.setup.confirm_time = 0,
            9 => call.setup.confirm_time = 60_001 + self.source.below(1000),
            14 => call.setup.analog_output_count = 17 + self.source.below(65_519) as u16,
            _ => {}
        }
        for _ in 0..binaries {
            let class = self.class();
            call.classes.push(class);
        }
        for _ in 0..analogs {
            let analog = self.analog_setup();
            call.setups.push(analog);
        }
        self.analog_outputs(&mut call.setup);
        if fault == 10 && binaries > 0 {
            let place = self.source.below(binaries) as usize;
            call.classes[place] = 4 + self.source.below(252) as u8;
        }
        if fault > 10 && fault < 14 && analogs > 0 {
            let place = self.source.below(analogs) as usize;
            let analog = &mut call.setups[place];
            match fault {
                11 => analog.class_ = 4 + self.source.below(252) as u8,
                12 => analog.gain = self.source.pick(&NOT_FINITE),
                _ => analog.limit = 0x8000_0001 + self.source.below(0x7FFF_FFFF),
            }
        }
        if fault > 14 && analog_output_count > 0 {
            let place = self.source.below(analog_output_count) as usize;
            call.setup.analog_outputs[place] = self.wrong_output(fault);
        }
    }

    fn restart_again(&mut self, call: &mut Call) {
        call.kind = Kind::Restart;
        call.again = true;
        call.setup = self.setup;
        call.classes.extend_from_slice(&self.classes);
        call.setups.extend_from_slice(&self.setups);
    }

    fn analog_setup(&mut self) -> AnalogSetup {
        let class_ = self.class();
        let mut kind = self.source.below(3);
        let mut gate = self.source.below(4);
        let whole = self.source.pick(&WHOLE_LIMITS);
        let real = self.source.pick(&FLOAT_LIMITS);
        let limit = if kind < 2 { whole } else { real };
        let gain = self.source.pick(&GAINS);
        let offset = self.source.pick(&OFFSETS);
        // Any other number is a float's, and any other the sum's.
        if kind == 2 && self.source.chance(20) {
            kind = 2 + self.source.below(254);
        }
        if gate == 3 && self.source.chance(20) {
            gate = 3 + self.source.below(253);
        }
        AnalogSetup { limit, gain, offset, class_, kind: kind as u8, gate: gate as u8 }
    }

    fn analog_output(&mut self, kind: u32) -> AnalogOutput {
        let (low, high) = ENDS[kind as usize][self.source.below(8) as usize];
        // Any other number is a float's.
        let other = kind == 2 && self.source.chance(20);
        let kind = if other { 2 + self.source.below(254) } else { kind };
        AnalogOutput { low, high, kind: kind as u8 }
    }

    /// Of all kinds, or all of one; those past the count are anything.
    fn analog_outputs(&mut self, setup: &mut Setup) {
        let one = self.source.below(6);
        for place in 0..ANALOG_OUTPUTS {
            setup.analog_outputs[place] = if place < usize::from(setup.analog_output_count) {
                let kind = if one < 3 { one } else { self.source.below(3) };
                self.analog_output(kind)
            } else {
                let (low, high) = (self.source.next(), self.source.next());
                AnalogOutput { low, high, kind: self.source.below(256) as u8 }
            };
        }
    }

    /// The first end above the second, one that 16 bits do not hold, or one that is not finite.
    fn wrong_output(&mut self, fault: u32) -> AnalogOutput {
        let by = self.source.below(1000);
        let not_finite = self.source.pick(&NOT_FINITE);
        let kind = 2 + self.source.below(254) as u8;
        let first = self.source.chance(50);
        match fault {
            15 => AnalogOutput { low: 1, high: 0, kind: self.source.below(3) as u8 },
            16 if first => AnalogOutput { low: 0xFFFF_7FFF - by, high: 0, kind: 1 },
            16 => AnalogOutput { low: 0, high: 32_768 + by, kind: 1 },
            _ if first => AnalogOutput { low: not_finite, high: 0x7F7F_FFFF, kind },
            _ => AnalogOutput { low: 0, high: not_finite, kind },
        }
    }

    fn restarted(&mut self, call: &Call, refusal: u8) {
        self.none = refusal != 0;
        if self.none {
            return self.count(Count::RestartRefused);
        }
        self.count(Count::RestartTaken);
        self.setup = call.setup;
        self.classes.clone_from(&call.classes);
        self.setups.clone_from(&call.setups);
        self.binaries = call.classes.len() as u32;
        self.analogs = call.setups.len() as u32;
        self.outputs = u32::from(call.setup.outputs);
        self.analog_outputs = u32::from(call.setup.analog_output_count);
        self.arm_time = u64::from(call.setup.arm_time);
        self.confirm_time = u64::from(call.setup.confirm_time);
        for (place, analog) in call.setups.iter().enumerate() {
            self.kinds[place] = analog.kind;
            self.limits[place] = analog.limit;
        }
        self.states = [false; 64];
        self.given = [0; 64];
        self.waiting = false;
        self.selected = false;
        self.request.clear();
        self.begun = false;
        self.wire.clear();
        self.filling = 0;
        self.overflow = 0;
        // Mostly from 0; sometimes to the end of time.
        self.clock = match self.source.below(20) {
            0 => TIME_END - 1 - u64::from(self.source.below(100_000)),
            1 => u64::from(self.source.next()) << 8,
            _ => 0,
        };
    }

    // ---- readings

    fn time(&mut self) -> u64 {
        let which = self.source.below(1000);
        let by = u64::from(match which {
            0..=9 => 1 + self.source.below(3),
            10..=11 => self.source.next(),
            12..=699 => 0,
            700..=949 => self.source.below(4),
            950..=989 => self.source.below(200),
            _ => self.source.below(100_000),
        });
        match which {
            0..=9 if self.clock >= by => self.clock - by,
            10..=11 => TIME_END + by,
            _ => self.clock + by,
        }
    }

    fn whole(&mut self, place: usize) -> u32 {
        let (last, limit) = (self.given[place], self.limits[place]);
        match self.source.below(8) {
            0 => last,
            1 => last.wrapping_add(1),
            2 => last.wrapping_sub(1),
            3 => last.wrapping_add(limit),
            4 => last.wrapping_add(limit).wrapping_add(1),
            5 => last.wrapping_sub(limit).wrapping_sub(self.source.below(2)),
            6 => self.source.pick(&WHOLES),
            _ => self.source.below(200),
        }
    }

    fn float(&mut self, place: usize) -> u32 {
        let last = self.given[place];
        match self.source.below(9) {
            0 => last,
            1 => last.wrapping_add(1),
            2 => last ^ 0x8000_0000,
            3 => self.limits[place],
            4 => 0x3F80_0000 + (self.source.below(64) << 17),
            5 => self.source.next(),
            6 if self.source.chance(20) => self.source.pick(&NOT_FINITE),
            _ => self.source.pick(&FLOATS),
        }
    }

    fn reading(&mut self, time: u64) -> Reading {
        let points = self.binaries + self.analogs;
        let (point, mut kind, bits);
        if points == 0 || self.source.chance(1) {
            let any = self.source.below(70);
            point = self.source.pick(&[any, any, 64, 255, 256, 65_535]);
            kind = self.source.below(4);
            bits = self.source.next();
        } else {
            let place = self.source.below(points);
            if place < self.binaries {
                let state = &mut self.states[place as usize];
                *state ^= self.source.chance(70);
                (point, kind) = (place, 0);
                let any = self.source.pick(&[1, 1, 2, 0x8000_0000]);
                bits = if *state { any } else { 0 };
            } else {
                point = place - self.binaries;
                let place = point as usize;
                if self.kinds[place] < 2 {
                    kind = 1;
                    bits = self.whole(place);
                } else {
                    kind = if self.source.chance(10) { 2 + self.source.below(254) } else { 2 };
                    bits = self.float(place);
                }
                self.given[place] = bits;
            }
        }
        if self.source.chance(1) {
            kind = self.source.below(4);
        }
        let flags = match self.source.below(100) {
            0..=89 => 1,
            90..=98 => self.source.below(32),
            _ => self.source.below(256),
        };
        Reading { time, bits, point: point as u16, kind: kind as u8, flags: flags as u8 }
    }

    /// One reading, or many.
    fn table(&mut self, call: &mut Call, many: bool) {
        call.kind = if many { Kind::Table } else { Kind::Reading };
        let count = if !many {
            1
        } else {
            match self.source.below(20) {
                0 => 0,
                1 => 128,
                2 => self.source.below(300),
                _ => 1 + self.source.below(20),
            }
        };
        let mut time = self.time();
        for place in 0..count {
            let reading = self.reading(time);
            call.readings.push(reading);
            if place % 8 == 7 {
                time += u64::from(self.source.below(2));
            }
        }
    }

    fn took(&mut self, call: &Call, result: &Answered) {
        if call.kind == Kind::Reading {
            self.count(match result.refusal {
                0 => Count::ReadingTaken,
                1 => Count::ReadingTime,
                2 => Count::ReadingPoint,
                3 => Count::ReadingFinite,
                _ => Count::ReadingFlags,
            });
        } else {
            self.count(match result.refusal {
                0 => Count::TableTaken,
                _ => Count::TableStopped,
            });
            self.counts[Count::TableReadings as usize] += result.taken as u64;
        }
        if result.taken > 0 {
            self.clock = call.readings[result.taken - 1].time;
        }
    }

    // ---- fragments

    fn begin(&mut self, call: &mut Call, function: u8) {
        self.sequence = (self.sequence + 1) % 16;
        call.fragment.extend_from_slice(&[0xC0 | self.sequence, function]);
    }

    fn header(&mut self, bytes: &mut Vec<u8>) {
        let which = self.source.below(12);
        match which {
            0 | 1 => return bytes.extend_from_slice(&[60, 1, 6]),
            2 | 3 => return bytes.extend_from_slice(&[60, 2, 6]),
            4 | 5 => return bytes.extend_from_slice(&[60, 3, 6]),
            6 => return bytes.extend_from_slice(&[60, 4, 6]),
            11 => {
                if self.source.chance(80) {
                    return bytes.extend_from_slice(&[60, 2, 6]);
                }
                let group = self.source.pick(&[1, 2, 30, 32, 60, 80, 0]) as u8;
                let variation = self.source.below(6) as u8;
                let qualifier = self.source.pick(&[0, 1, 6, 7, 8, 0x17, 0x28]) as u8;
                return bytes.extend_from_slice(&[group, variation, qualifier]);
            }
            _ => {}
        }
        let analog = which == 8 || which == 10;
        let points = if analog { self.analogs } else { self.binaries };
        let two = if self.source.chance(50) { 2 } else { 0 };
        bytes.extend_from_slice(&if analog { [30, 0] } else { [1, two] });
        if which < 9 {
            return bytes.push(6);
        }
        let mut start = 0;
        let mut stop = 0;
        if points > 0 {
            start = self.source.below(points);
            stop = start + self.source.below(points - start);
        }
        if self.source.chance(4) {
            stop = points;
        }
        if self.source.chance(4) {
            start = stop + 1;
        }
        if self.source.chance(50) {
            bytes.extend_from_slice(&[0, start as u8, stop as u8]);
        } else {
            bytes.extend_from_slice(&[1, start as u8, 0, stop as u8, 0]);
        }
    }

    fn relays(&mut self, bytes: &mut Vec<u8>) {
        let count = if self.source.chance(50) { 1 } else { 1 + self.source.below(8) };
        let wide = self.source.chance(40);
        bytes.extend_from_slice(&[12, 1, if wide { 0x28 } else { 0x17 }, count as u8]);
        if wide {
            bytes.push(0);
        }
        let most = if self.outputs > 0 { self.outputs } else { 1 };
        let base = self.source.below(most);
        for place in 0..count {
            let mut index = (base + place) % most;
            if self.source.chance(3) {
                index = self.source.pick(&[0, 15, 16, 17, 255]);
            }
            bytes.push(index as u8);
            if wide {
                let high = if self.source.chance(2) { 1 } else { 0 };
                bytes.push(high);
            }
            let mut code = self.source.pick(&CODES);
            if self.source.chance(3) {
                code = self.source.below(256);
            }
            bytes.push(code as u8);
            let times = if self.source.chance(3) { self.source.below(4) } else { 1 };
            bytes.push(times as u8);
            let on_time = self.on_time();
            bytes.extend_from_slice(&on_time.to_le_bytes());
            let off_time = self.source.below(1000);
            bytes.extend_from_slice(&off_time.to_le_bytes());
            let status = if self.source.chance(2) { self.source.below(256) } else { 0 };
            bytes.push(status as u8);
        }
    }

    /// Mostly one that a pulse may have, often next to a limit.
    fn on_time(&mut self) -> u32 {
        let pulse = self.source.pick(&PULSES);
        if self.source.chance(85) {
            return pulse;
        }
        let none = self.source.pick(&NO_PULSES);
        if self.source.chance(60) {
            none
        } else {
            self.source.next()
        }
    }

    fn output_kind(&self, place: u32) -> u32 {
        u32::from(self.setup.analog_outputs[place as usize].kind.min(2))
    }

    /// A float: mostly an end of its output or a zero within them.
    fn set_float(&mut self, low: u32, high: u32) -> u32 {
        let inside = self.source.chance(90);
        let which = self.source.below(8);
        if inside {
            let zero = f32::from_bits(low) <= 0.0 && 0.0 <= f32::from_bits(high);
            return match which {
                0 | 1 => low,
                2 | 3 => high,
                _ if zero => self.source.pick(&[0, 0x8000_0000]),
                _ => low,
            };
        }
        match which {
            0 => low.wrapping_sub(1),
            1 => low.wrapping_add(1),
            2 => high.wrapping_sub(1),
            3 => high.wrapping_add(1),
            4 => low ^ 0x8000_0000,
            5 => self.source.pick(&NOT_FINITE),
            6 => self.source.pick(&FLOATS),
            _ => self.source.next(),
        }
    }

    /// A whole value: mostly within the ends of its output, often an end; else next to one, or one
    /// that is cut to 16 bits.
    fn set_whole(&mut self, low: u32, high: u32) -> u32 {
        let inside = self.source.chance(90);
        let which = self.source.below(8);
        if inside {
            return match which {
                0 | 1 => low,
                2 | 3 => high,
                _ => low.wrapping_add(self.source.below(high.wrapping_sub(low).wrapping_add(1))),
            };
        }
        match which {
            0 | 1 => low.wrapping_sub(1),
            2 | 3 => high.wrapping_add(1),
            4 => low ^ 0x8000,
            5 => 0_u32.wrapping_sub(high),
            6 => high.wrapping_add(65_536),
            _ => self.source.next(),
        }
    }

    /// The next output of this kind; where there is no other, the same.
    fn next_alike(&self, place: u32, kind: u32) -> u32 {
        (1..self.analog_outputs)
            .map(|by| (place + by) % self.analog_outputs)
            .find(|&next| self.output_kind(next) == kind)
            .unwrap_or(place)
    }

    /// Mostly for different outputs of the header's kind.
    fn set_points(&mut self, bytes: &mut Vec<u8>) {
        let count = if self.source.chance(50) { 1 } else { 1 + self.source.below(8) };
        let wide = self.source.chance(40);
        let most = if self.analog_outputs > 0 { self.analog_outputs } else { 1 };
        let mut place = self.source.below(most);
        let mut kind = self.source.below(3);
        if self.analog_outputs > 0 && self.source.chance(97) {
            kind = self.output_kind(place);
        }
        let qualifier = if wide { 0x28 } else { 0x17 };
        bytes.extend_from_slice(&[41, kind as u8 + 1, qualifier, count as u8]);
        if wide {
            bytes.push(0);
        }
        for _ in 0..count {
            let mut index = place;
            if self.source.chance(3) {
                index = self.source.pick(&[0, 15, 16, 17, 255]);
            }
            bytes.push(index as u8);
            if wide {
                let high = if self.source.chance(2) { 1 } else { 0 };
                bytes.push(high);
            }
            let mut bits = self.source.next();
            if index < self.analog_outputs {
                let AnalogOutput { low, high, .. } = self.setup.analog_outputs[index as usize];
                bits = match kind {
                    2 => self.set_float(low, high),
                    _ => self.set_whole(low, high),
                };
            }
            bytes.extend_from_slice(&bits.to_le_bytes()[..if kind == 1 { 2 } else { 4 }]);
            let status = if self.source.chance(2) { self.source.below(256) } else { 0 };
            bytes.push(status as u8);
            place = self.next_alike(place, kind);
        }
    }

    fn control(&mut self, bytes: &mut Vec<u8>) {
        if self.source.chance(if self.analog_outputs > 0 { 50 } else { 8 }) {
            self.set_points(bytes);
        } else {
            self.relays(bytes);
        }
    }

    /// The selected objects as with qualifier 28: they are not those selected.
    fn widened(&mut self, bytes: &mut Vec<u8>) {
        let each = match self.objects[..2] {
            [12, _] => 12,
            [_, 2] => 4,
            _ => 6,
        };
        for (place, &byte) in self.objects.iter().enumerate() {
            bytes.push(if place == 2 { 0x28 } else { byte });
            // After the count and after each index.
            if place >= 3 && (place == 3 || (place - 4) % each == 0) {
                bytes.push(0);
            }
        }
    }

    /// The selected objects, each float zero with the other sign.
    fn other_zeros(&mut self, bytes: &mut Vec<u8>) {
        let from = bytes.len();
        bytes.extend_from_slice(&self.objects);
        if self.objects[..2] != [41, 3] {
            return;
        }
        let width = if self.objects[2] == 0x17 { 1 } else { 2 };
        let first = (from + 3 + width).min(bytes.len());
        for object in bytes[first..].chunks_exact_mut(width + 5) {
            let value = &mut object[width..width + 4];
            if value[0] | value[1] | value[2] | (value[3] & 0x7F) == 0 {
                value[3] ^= 0x80;
                self.other = Some(Count::OperateZero);
            }
        }
    }

    /// The selected objects under the other variation of that size, where there is one.
    fn other_variation(&mut self, bytes: &mut Vec<u8>) {
        let from = bytes.len();
        bytes.extend_from_slice(&self.objects);
        if matches!(self.objects[..2], [41, 1 | 3]) {
            bytes[from + 1] ^= 2;
            self.other = Some(Count::OperateVariation);
        }
    }

    fn other_group(&mut self, bytes: &mut Vec<u8>) {
        self.other = Some(Count::OperateGroup);
        if self.objects[0] == 12 {
            self.set_points(bytes);
        } else {
            self.relays(bytes);
        }
    }

    /// The OPERATE of what was selected, or one that differs from it.
    fn selected(&mut self, bytes: &mut Vec<u8>) {
        let how = if self.objects.len() > 3 { self.source.below(100) } else { 100 };
        match how {
            0..=3 if self.objects[2] == 0x17 => self.widened(bytes),
            4..=7 => self.other_group(bytes),
            8..=19 => self.other_zeros(bytes),
            20..=23 => self.other_variation(bytes),
            _ => bytes.extend_from_slice(&self.objects),
        }
    }

    /// A time next to the end of what is awaited, where that is still to come.
    fn at_end(&mut self, call: &mut Call, since: u64, limit: u64) {
        let end = match self.source.below(10) {
            0..=1 => since + limit,
            2..=3 => since + limit + 1,
            _ => return,
        };
        if end >= self.clock {
            call.time = end;
        }
    }

    fn fragment(&mut self, call: &mut Call) {
        call.kind = Kind::Fragment;
        call.time = self.time();
        self.other = None;
        let mut which = self.source.below(100);
        // What is awaited comes soon, as a master would send it.
        if self.waiting && self.source.chance(30) {
            which = CONFIRM;
        } else if self.selected && self.source.chance(30) {
            which = OPERATE;
        }
        match which {
            0..=37 => {
                self.begin(call, 1);
                let few = self.source.chance(80);
                let headers = if few { 1 + self.source.below(3) } else { self.source.below(18) };
                for _ in 0..headers {
                    self.header(&mut call.fragment);
                }
            }
            CONFIRM..=44 => {
                let mut control = 0xC0 | self.wait_sequence;
                if !self.waiting || self.source.chance(8) {
                    control = 0xC0 | self.source.below(32) as u8;
                }
                call.fragment.extend_from_slice(&[control, 0]);
                if self.source.chance(1) {
                    call.fragment.push(0);
                }
                if self.waiting {
                    self.at_end(call, self.wait_time, self.confirm_time);
                }
            }
            45..=50 => {
                self.begin(call, 2);
                call.fragment.extend_from_slice(&[80, 1, 0, 7, 7, 0]);
                if self.source.chance(25) {
                    let place = 2 + self.source.below(6) as usize;
                    call.fragment[place] = self.source.below(256) as u8;
                }
            }
            51..=66 => {
                self.begin(call, 3);
                self.control(&mut call.fragment);
            }
            OPERATE..=72 => {
                if self.selected {
                    let sequence = (self.select_sequence + 1) % 16;
                    self.sequence = sequence;
                    call.fragment.extend_from_slice(&[0xC0 | sequence, 4]);
                    self.selected(&mut call.fragment);
                    self.at_end(call, self.select_time, self.arm_time);
                } else {
                    self.begin(call, 4);
                    self.control(&mut call.fragment);
                }
            }
            73..=80 => {
                let function = if self.source.chance(50) { 5 } else { 6 };
                self.begin(call, function);
                self.control(&mut call.fragment);
            }
            81..=90 => call.fragment.extend_from_slice(&self.request),
            91..=93 => {
                let function = 7 + self.source.below(121) as u8;
                self.begin(call, function);
                for _ in 0..self.source.below(20) {
                    call.fragment.push(self.source.below(256) as u8);
                }
            }
            94..=95 => {
                let length = self.source.pick(&[0, 1, 2, 2047, 2048, 2049, 3000]);
                let function = self.source.below(8) as u8;
                self.begin(call, function);
                while call.fragment.len() < length as usize {
                    call.fragment.push(self.source.below(256) as u8);
                }
                call.fragment.truncate(length as usize);
            }
            96..=97 => {
                call.fragment.push(self.source.below(256) as u8);
                call.fragment.push(self.source.below(256) as u8);
                for _ in 0..self.source.below(30) {
                    call.fragment.push(self.source.below(256) as u8);
                }
            }
            _ => {
                // The last request with one byte changed, or cut.
                call.fragment.extend_from_slice(&self.request);
                let length = call.fragment.len() as u32;
                if length > 0 {
                    let place = self.source.below(length) as usize;
                    if self.source.chance(50) {
                        call.fragment[place] ^= 1 << self.source.below(8);
                    } else {
                        call.fragment.truncate(place);
                    }
                }
            }
        }
        self.lend(call, ANSWER, 60);
    }

    /// One call in so many is lent another length.
    fn lend(&mut self, call: &mut Call, first: usize, one_in: u32) {
        call.out = first;
        if self.source.below(one_in) == 0 {
            call.out += 1 + self.source.below(5) as usize;
        }
    }

    fn answered(&mut self, call: &Call, result: &Answered, out: &[u8], armed: u8) {
        if result.kind == 3 {
            return self.count(match result.refusal {
                1 => Count::FragmentTime,
                31 => Count::FragmentShape,
                32 => Count::ConfirmRefused,
                _ => Count::FragmentLent,
            });
        }
        self.clock = call.time;
        if result.kind == 2 {
            self.waiting = false;
            return self.count(Count::ConfirmAccepted);
        }
        let Operated { crobs, analog_commands: sets } = &result.operated;
        self.counts[Count::Relays as usize] += crobs.count as u64;
        for command in &sets.items[..sets.count] {
            let kinds = [Count::Sets32, Count::Sets16, Count::SetsFloat];
            self.count(kinds[usize::from(command.kind.min(2))]);
        }
        let (sequence, function) = (call.fragment[0] % 16, call.fragment[1]);
        if function != 1 && call.fragment == self.request {
            return self.count(Count::Repeat);
        }
        self.request.clear();
        self.request.extend_from_slice(&call.fragment);
        self.sequence = sequence;
        self.waiting = false;
        self.selected = false;
        let (done, relays) = (result.operated.count() > 0, crobs.count > 0);
        if result.length > 2000 {
            self.count(Count::Long);
        }
        if result.length == 2048 {
            self.count(Count::Longest);
        }
        match function {
            1 if out[0] & 0x20 != 0 => {
                self.waiting = true;
                self.wait_sequence = sequence;
                self.wait_time = call.time;
                self.count(Count::ReadCon);
            }
            1 => self.count(if out[3] & 7 == 0 { Count::ReadPlain } else { Count::ReadFault }),
            2 => self.count(Count::Write),
            3 => {
                self.selected = true;
                self.select_sequence = sequence;
                self.select_time = call.time;
                self.objects.clear();
                self.objects.extend_from_slice(&call.fragment[2..]);
                self.count(match armed {
                    0 => Count::SelectOther,
                    1 => Count::SelectRelays,
                    _ => Count::SelectSets,
                });
            }
            4 if relays => self.count(Count::OperateRelays),
            4 if done => self.count(Count::OperateSets),
            4 => {
                self.count(Count::OperateOther);
                if let Some(other) = self.other {
                    self.count(other);
                }
            }
            5 if relays => self.count(Count::DirectRelays),
            5 => self.count(if done { Count::DirectSets } else { Count::DirectOther }),
            6 => self.count(Count::NoResponse),
            _ => self.count(Count::OtherFunction),
        }
    }

    // ---- the line

    fn bytes(&mut self, call: &mut Call, count: u32) {
        for _ in 0..count {
            call.fragment.push(self.source.below(256) as u8);
        }
    }

    fn line(&mut self, call: &mut Call) {
        match self.source.below(14) {
            0..=2 => self.write_frame(call),
            3..=5 => self.read_frame(call),
            6..=8 => self.segment(call),
            9..=12 => self.piece(call),
            _ => {
                call.kind = Kind::Send;
                let some = self.source.below(2049);
                let count = self.source.pick(&[0, 1, 249, 250, 498, some, some, 2048, 2049, 3000]);
                self.bytes(call, count);
                self.lend(call, USER_OUT, 20);
            }
        }
    }

    fn write_frame(&mut self, call: &mut Call) {
        let which = self.source.below(10);
        call.kind = match which {
            0 => Kind::LinkData,
            1 => Kind::LinkReply,
            _ => Kind::FrameWrite,
        };
        let any = self.source.below(256);
        let some = 1 + self.source.below(250);
        // User data, a request that has none, or any.
        let (control, count) = match self.source.below(4) {
            0 | 1 => (0xC4, some),
            2 => (self.source.pick(&[0xC0, 0xC9, 0xC2]), 0),
            _ => {
                let control = self.source.pick(&[0xC4, 0xC0, 0xD4, 0x84, 0x44, 0x0B, 0x00, any]);
                (control, self.source.pick(&[0, 1, 15, 16, 17, 249, 250, 251, 300]))
            }
        };
        call.control = control as u8;
        // As a master writes it.
        (call.destination, call.source) = (self.setup.own, self.setup.master);
        if self.source.chance(4) {
            call.destination = self.source.below(65_536) as u16;
        }
        if self.source.chance(4) {
            call.source = self.source.below(65_536) as u16;
        }
        self.bytes(call, count);
        self.lend(call, FRAME_OUT, 20);
    }

    fn read_frame(&mut self, call: &mut Call) {
        call.kind = if self.source.chance(30) { Kind::FrameRead } else { Kind::LinkReceive };
        call.fragment.extend_from_slice(&self.frame);
        let length = call.fragment.len() as u32;
        if length > 0 && self.source.chance(25) {
            // One bit turned, or two: in two blocks the first decides.
            for _ in 0..1 + u32::from(self.source.chance(20)) {
                let place = self.source.below(length) as usize;
                call.fragment[place] ^= 1 << self.source.below(8);
            }
        }
        if self.source.chance(8) {
            let place = self.source.below(length + 1) as usize;
            call.fragment.truncate(place);
        }
        if self.source.chance(10) {
            self.bytes(call, 3);
        }
        self.lend(call, USER_OUT, 20);
    }

    /// The segment taken last, as it was, with one bit turned, with another FIR or FIN, or without
    /// its first byte of data.
    fn same_segment(&mut self, call: &mut Call) {
        call.fragment.extend_from_slice(&self.segment);
        let length = call.fragment.len() as u32;
        if self.source.chance(15) {
            let place = self.source.below(length) as usize;
            call.fragment[place] ^= 1 << self.source.below(8);
        } else if self.source.chance(10) {
            call.fragment[0] ^= self.source.pick(&[0x40, 0x80]) as u8;
        } else if length > 2 && self.source.chance(10) {
            call.fragment.remove(1);
        }
        self.lend(call, ASSEMBLY, 30);
    }

    fn segment(&mut self, call: &mut Call) {
        call.kind = Kind::Segment;
        if !self.segment.is_empty() && self.source.chance(20) {
            return self.same_segment(call);
        }
        let mut sequence = u32::from(self.next_segment);
        if self.source.chance(2) {
            sequence = self.source.below(64);
        }
        let first = if self.begun { self.source.chance(1) } else { self.source.chance(95) };
        let last = self.source.chance(12);
        let head = sequence | if first { 0x40 } else { 0 } | if last { 0x80 } else { 0 };
        call.fragment.push(head as u8);
        let some = 1 + self.source.below(249);
        let count = self.source.pick(&[249, 249, 249, 249, 249, some, some, some]);
        self.bytes(call, count);
        if self.source.chance(3) {
            let length = self.source.pick(&[0, 1]) as usize;
            call.fragment.truncate(length);
        } else if self.source.chance(2) {
            self.bytes(call, 249);
        }
        self.lend(call, ASSEMBLY, 30);
    }

    /// Noise that may look like a start, then the frame written last, changed or not.
    fn line_comes(&mut self) {
        let noise = if self.source.chance(30) { self.source.below(20) } else { 0 };
        for _ in 0..noise {
            let any = self.source.below(256);
            let byte = self.source.pick(&[0x05, 0x05, 0x64, 0x64, any]);
            self.wire.push(byte as u8);
        }
        let from = self.wire.len();
        self.wire.extend_from_slice(&self.frame);
        if !self.frame.is_empty() && self.source.chance(25) {
            let place = self.source.below(self.frame.len() as u32) as usize;
            self.wire[from + place] ^= 1 << self.source.below(8);
        }
    }

    fn piece(&mut self, call: &mut Call) {
        call.kind = Kind::Piece;
        if self.wire.is_empty() {
            self.line_comes();
        }
        let length = self.wire.len() as u32;
        let some = self.source.below(length + 1);
        let few = self.source.below(12);
        let size = self.source.pick(&[length, length, some, few, 1]).min(length);
        call.fragment.extend_from_slice(&self.wire[..size as usize]);
        self.lend(call, USER_OUT, 20);
    }

    fn heard(&mut self, call: &Call, result: &Answered, out: &[u8]) {
        let refused = result.refusal != 0;
        match call.kind {
            Kind::FrameRead => {
                self.count(if refused { Count::ReadRefused } else { Count::ReadFrame });
            }
            Kind::LinkReceive => self.count(match result.kind {
                0 => Count::LinkUser,
                1 => Count::LinkAsks,
                _ => Count::LinkRefused,
            }),
            Kind::Segment => {
                // Of the last sequence again, and without FIR: nothing else of it goes on.
                let head = call.fragment.first().copied().unwrap_or(0);
                let again = head & 0x40 == 0 && (head % 64 + 1) % 64 == self.next_segment;
                match result.kind {
                    0 if again => self.count(Count::SegmentAgain),
                    0 => self.count(Count::SegmentMore),
                    1 => self.count(Count::SegmentWhole),
                    _ => self.count(Count::SegmentRefused),
                }
                // 21 and 33 leave what is begun.
                if result.refusal != 21 && result.refusal != 33 {
                    self.begun = result.kind == 0;
                }
                if !refused {
                    self.next_segment = (call.fragment[0] % 64 + 1) % 64;
                    self.segment.clear();
                    self.segment.extend_from_slice(&call.fragment);
                }
            }
            Kind::Send => self.count(if refused { Count::SendRefused } else { Count::Sent }),
            Kind::Piece => {
                self.count(match (result.kind, result.refusal) {
                    (0, _) => Count::PieceFrame,
                    (1, _) => Count::PieceWaits,
                    (_, 33) => Count::PieceLent,
                    _ => Count::PieceRefused,
                });
                self.wire.drain(..result.taken);
            }
            _ if refused => self.count(Count::FrameRefused),
            _ => {
                self.frame.clear();
                self.frame.extend_from_slice(&out[..result.length]);
                self.count(Count::FrameWritten);
            }
        }
    }

    /// What the call came to, with the head that it left.
    pub fn came_to(&mut self, call: &Call, result: &Answered, out: &[u8], head: &Head) {
        match call.kind {
            Kind::Restart => self.restarted(call, result.refusal),
            Kind::Reading | Kind::Table => self.took(call, result),
            Kind::Fragment => self.answered(call, result, out, head.latch_armed),
            _ => self.heard(call, result, out),
        }
        if head.event_count == EVENTS {
            self.count(Count::Full);
        }
        if head.overflow > self.overflow {
            self.count(Count::Dropped);
        }
        if head.overflow < self.overflow {
            self.count(Count::Cleared);
        }
        self.overflow = head.overflow;
    }
}
