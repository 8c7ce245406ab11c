//! The long run of `stress.rs`: both sides beside each other, or the second program alone.

use reference::application::Outcome;
use reference::frame::{self, FrameRefusal};
use reference::link::{self, Heard, LineRecord};
use reference::outstation;
use reference::points::{self, Form, Gate, Taken};
use reference::receiver;
use reference::set_points::SetPoint;
use reference::transport::{Assembled, Transport};

use crate::header::*;
use crate::meaning;
use crate::memory::Memory;
use crate::pair::{assembly_image, installed, keep, operated_image};
use crate::state::{self, equal};
use crate::stress::{Answered, Call, Generator, Kind, Sum, COUNTS, FILL, LENGTHS, LINE, WHOLE};

// ---- the second program

struct Second {
    outstation: Option<outstation::Outstation>,
    record: LineRecord,
    receiver: receiver::Receiver,
    /// What the receiver keeps.
    kept: Vec<u8>,
    out: [Vec<u8>; LENGTHS.len()],
}

fn gate<L>(number: u8, limit: L) -> Gate<L> {
    match number {
        0 => Gate::Never,
        1 => Gate::AnyChange,
        2 => Gate::Beyond(limit),
        _ => Gate::Summed(limit),
    }
}

fn form(analog: &AnalogSetup) -> Form {
    let whole = gate(analog.gate, i64::from(analog.limit));
    match analog.kind {
        0 => Form::Whole32(whole),
        1 => Form::Whole16(whole),
        _ => Form::Float {
            gain: f32::from_bits(analog.gain),
            offset: f32::from_bits(analog.offset),
            gate: gate(analog.gate, f32::from_bits(analog.limit)),
        },
    }
}

fn set_point(output: &AnalogOutput) -> SetPoint {
    let AnalogOutput { low, high, kind } = *output;
    let whole = |bits: u32| i64::from(bits as i32);
    match kind {
        0 => SetPoint::Whole32(whole(low), whole(high)),
        1 => SetPoint::Whole16(whole(low), whole(high)),
        _ => SetPoint::Float(f32::from_bits(low), f32::from_bits(high)),
    }
}

/// Its numbers of points and outputs are bytes; its lists have at most 64 points and 16 set points.
fn setup(call: &Call) -> outstation::Setup {
    let byte = |count: usize| count.min(255) as u8;
    let setup = &call.setup;
    let analogs = call.setups.iter().take(ANALOGS);
    let set_points = usize::from(setup.analog_output_count);
    outstation::Setup {
        own: setup.own,
        master: setup.master,
        arm_time: setup.arm_time,
        confirm_time: setup.confirm_time,
        binary_count: byte(call.classes.len()),
        analog_count: byte(call.setups.len()),
        outputs: byte(usize::from(setup.outputs)),
        set_point_count: byte(set_points),
        binaries: call.classes.iter().take(BINARIES).copied().collect(),
        analogs: analogs.map(|analog| (analog.class_, form(analog))).collect(),
        set_points: setup.analog_outputs.iter().take(set_points).map(set_point).collect(),
    }
}

/// It knows points to 255; there are none from 64 on.
fn reading(reading: &Reading) -> points::Reading {
    let value = match reading.kind {
        0 => Taken::Binary(reading.bits != 0),
        1 => Taken::Whole(reading.bits as i32),
        _ => Taken::Float(f32::from_bits(reading.bits)),
    };
    let index = reading.point.min(255) as u8;
    points::Reading { time: reading.time, index, value, flags: reading.flags }
}

fn fragment(
    outstation: &mut outstation::Outstation,
    call: &Call,
    out: &mut [u8],
    result: &mut Answered,
) {
    let operated = match outstation.fragment(call.time, &call.fragment, out) {
        Ok(Outcome::Answer(length, operated)) => {
            result.length = length;
            operated
        }
        Ok(Outcome::Mute(operated)) => {
            result.kind = 1;
            operated
        }
        Ok(Outcome::Confirmed) => {
            result.kind = 2;
            return;
        }
        Err(refusal) => {
            (result.kind, result.refusal) = (3, refusal);
            return;
        }
    };
    result.operated = operated_image(&operated);
}

/// A whole fragment in segments.
fn send(transport: &mut Transport, call: &Call, out: &mut [u8], result: &mut Answered) {
    let mut sum = Sum(0);
    let sent = transport.send(&call.fragment, out, &mut |out, size| {
        sum.fold(size as u64);
        sum.bytes(out);
    });
    result.refusal = sent.err().unwrap_or(0);
    sum.fold(u64::from(transport.next_sent));
    result.more = sum.0;
}

/// Frames, read and written.
fn line(call: &Call, setup: &outstation::Setup, out: &mut [u8], result: &mut Answered) {
    // A reply's control byte is one of three; what the station sends goes to its master.
    let reply = if matches!(call.control, 0x00 | 0x0B) { call.control } else { 0x0F };
    let wrote = match call.kind {
        Kind::FrameRead => {
            let read = frame::read(&call.fragment, out);
            match read {
                Ok(frame) => {
                    result.length = frame.user.len();
                    result.more = frame_sum(frame.control, 0, frame.destination, frame.source);
                }
                Err(refusal) => {
                    result.refusal = refusal.number();
                    result.more = frame_sum(0, block(refusal), 0, 0);
                }
            }
            return;
        }
        Kind::LinkData => frame::write(0x44, setup.master, setup.own, &call.fragment, out),
        Kind::LinkReply => frame::write(reply, setup.master, setup.own, &[], out),
        _ => frame::write(call.control, call.destination, call.source, &call.fragment, out),
    };
    (result.length, result.refusal) = (wrote.unwrap_or(0), wrote.err().unwrap_or(0));
}

// ---- the other numbers of an answer

fn frame_sum(control: u8, block: u8, destination: u16, source: u16) -> u64 {
    let head = u64::from(control) | u64::from(block) << 8;
    head | u64::from(destination) << 16 | u64::from(source) << 32
}

/// The block that refusal 15 carries; 0 for the others.
pub fn block(refusal: FrameRefusal) -> u8 {
    match refusal {
        FrameRefusal::By(_) => 0,
        FrameRefusal::Block(block) => block as u8,
    }
}

fn link_sum(control: u8, block: u8, counts: [u16; 7], blocks: [u16; BLOCKS]) -> u64 {
    let mut sum = Sum(0);
    sum.fold(u64::from(control));
    sum.fold(u64::from(block));
    counts.iter().chain(&blocks).for_each(|&count| sum.fold(u64::from(count)));
    sum.0
}

/// Every number of an assembly: all 0 where nothing is begun.
fn assembly_sum(assembly: &Assembly) -> u64 {
    let Assembly { length, last_length, last, last_fir, begun } = *assembly;
    let small = u64::from(begun) | u64::from(last_fir) << 8 | u64::from(last) << 16;
    small | (length as u64) << 24 | (last_length as u64) << 44
}

/// Of a frame received, with the bytes kept.
fn kept_sum(frame: u64, kept: &[u8]) -> u64 {
    let mut sum = Sum(frame);
    sum.bytes(kept);
    sum.0
}

impl Second {
    fn new() -> Second {
        let out = LENGTHS.map(|length| vec![FILL; length]);
        Second {
            outstation: None,
            record: LineRecord::default(),
            receiver: receiver::Receiver::default(),
            kept: Vec::new(),
            out,
        }
    }

    fn call(&mut self, call: &Call) -> Answered {
        let mut result = Answered::zero();
        if let Some(count) = call.record {
            self.record = LineRecord { counts: [count; 7], blocks: [count; BLOCKS] };
        }
        if call.kind == Kind::Restart {
            self.receiver = receiver::Receiver::default();
            self.kept.clear();
        }
        if call.again {
            self.outstation.as_mut().expect("made before").restart();
            return result;
        }
        if call.kind == Kind::Restart {
            match outstation::Outstation::new(setup(call)) {
                Ok(made) => self.outstation = Some(made),
                Err(refusal) => {
                    self.outstation = None;
                    result.refusal = refusal;
                }
            }
            return result;
        }
        let outstation = self.outstation.as_mut().expect("made before any other call");
        let out = &mut self.out[call.out];
        match call.kind {
            Kind::Reading | Kind::Table => {
                let readings: Vec<points::Reading> = call.readings.iter().map(reading).collect();
                let (taken, refusal) = outstation.table(&readings);
                (result.taken, result.refusal) = (taken, refusal.unwrap_or(0));
            }
            Kind::Fragment => fragment(outstation, call, out, &mut result),
            Kind::LinkReceive => {
                let (own, master) = (outstation.setup.own, outstation.setup.master);
                let heard = link::station(own, master, &mut self.record, &call.fragment, out);
                let (mut control, mut wrong) = (0, 0);
                match heard {
                    Ok(Heard::UserData(length)) => result.length = length,
                    Ok(Heard::Reply(reply)) => (result.kind, control) = (1, reply),
                    Err(refusal) => {
                        (result.kind, result.refusal) = (2, refusal.number());
                        wrong = block(refusal);
                    }
                }
                result.more = link_sum(control, wrong, self.record.counts, self.record.blocks);
            }
            Kind::Segment => {
                match outstation.transport.hear(&call.fragment, out) {
                    Ok(Assembled::More(_)) => {}
                    Ok(Assembled::Whole(length)) => (result.kind, result.length) = (1, length),
                    Err(refusal) => (result.kind, result.refusal) = (2, refusal),
                }
                result.more = assembly_sum(&assembly_image(outstation.transport.unfinished));
            }
            Kind::Send => send(&mut outstation.transport, call, out, &mut result),
            Kind::Piece => {
                let (taken, told) = self.receiver.take(&call.fragment, out);
                keep(&mut self.kept, &call.fragment[..taken], &told);
                result.taken = taken;
                let frame = match told {
                    None => {
                        result.kind = 1;
                        0
                    }
                    Some(Ok(frame)) => {
                        result.length = frame.user.len();
                        frame_sum(frame.control, 0, frame.destination, frame.source)
                    }
                    Some(Err(refusal)) => {
                        (result.kind, result.refusal) = (2, refusal.number());
                        frame_sum(0, block(refusal), 0, 0)
                    }
                };
                result.more = kept_sum(frame, &self.kept);
            }
            _ => line(call, &outstation.setup, out, &mut result),
        }
        result
    }

    /// All 0 where there is no outstation.
    fn head(&self) -> Head {
        self.outstation.as_ref().map_or(Head::zero(), state::head_of)
    }

    fn image(&self) -> Outstation {
        self.outstation.as_ref().map_or(Outstation::zero(), state::image_of)
    }
}

// ---- the library

struct Library {
    image: Outstation,
    memory: Memory,
    station: Station,
    line: Line,
    receiver: Receiver,
    assembly: Assembly,
    sender: Sender,
    out: [Vec<u8>; LENGTHS.len()],
}

const BORDER: usize = 32;

/// A line record with this for every count.
fn line_of(count: u16) -> Line {
    Line {
        accepted: count,
        short_frame: count,
        start: count,
        header_check: count,
        length: count,
        block_check: count,
        not_taken: count,
        blocks: [count; BLOCKS],
    }
}

impl Library {
    fn new(exact: bool) -> Library {
        Library {
            image: Outstation::zero(),
            memory: Memory::new(exact),
            station: Station::zero(),
            line: Line::zero(),
            receiver: Receiver::zero(),
            assembly: Assembly::zero(),
            sender: Sender::zero(),
            out: LENGTHS.map(|length| vec![FILL; length + 2 * BORDER]),
        }
    }

    fn call(&mut self, call: &Call) -> Result<Answered, String> {
        if let Some(count) = call.record {
            self.line = line_of(count);
        }
        let (image, memory) = (&mut self.image, &mut self.memory);
        let mut result = Answered::zero();
        let whole = &mut self.out[call.out];
        let end = whole.len() - BORDER;
        let out = &mut whole[BORDER..end];
        let bytes = &call.fragment;
        match call.kind {
            Kind::Restart => {
                result.refusal = memory.restart(image, call.setup, &call.classes, &call.setups)?;
                (self.assembly, self.sender) = (Assembly::zero(), Sender::zero());
                self.receiver = Receiver::zero();
                self.station = Station { own: call.setup.own, master: call.setup.master };
            }
            Kind::Reading => {
                result.refusal = memory.reading(image, call.readings[0])?;
                result.taken = usize::from(result.refusal == 0);
            }
            Kind::Table => {
                (result.taken, result.refusal) = memory.table(image, &call.readings)?;
            }
            Kind::Fragment => {
                let (answer, operated) = memory.fragment(image, call.time, bytes, out)?;
                (result.kind, result.length) = (answer.kind, answer.length);
                (result.refusal, result.operated) = (answer.refusal, operated);
            }
            Kind::FrameWrite | Kind::LinkData | Kind::LinkReply => {
                let wrote = match call.kind {
                    Kind::LinkData => link_data(out, self.station, bytes),
                    Kind::LinkReply => link_reply(out, self.station, call.control),
                    _ => frame_write(out, call.control, call.destination, call.source, bytes),
                };
                (result.length, result.refusal) = (wrote.size, wrote.refusal);
            }
            Kind::FrameRead => {
                let read = frame_read(bytes, out);
                (result.length, result.refusal) = (read.length, read.refusal);
                result.more = frame_sum(read.control, read.block, read.destination, read.source);
            }
            Kind::LinkReceive => {
                let taken = link_receive(&mut self.line, self.station, bytes, out);
                (result.kind, result.length) = (taken.kind, taken.length);
                result.refusal = taken.refusal;
                let line = &self.line;
                let counts = [
                    line.accepted,
                    line.short_frame,
                    line.start,
                    line.header_check,
                    line.length,
                    line.block_check,
                    line.not_taken,
                ];
                result.more = link_sum(taken.control, taken.block, counts, line.blocks);
            }
            Kind::Segment => {
                let reception = segment_receive(self.assembly, bytes, out);
                self.assembly = reception.assembly;
                let segment = &reception.segment;
                (result.kind, result.length) = (segment.kind, segment.length);
                result.refusal = segment.refusal;
                result.more = assembly_sum(&self.assembly);
            }
            Kind::Piece => {
                let piece = memory.piece(&mut self.receiver, bytes, out)?;
                let frame = &piece.frame;
                (result.taken, result.length) = (piece.taken, frame.length);
                result.refusal = frame.refusal;
                result.kind = if frame.refusal != 0 { 2 } else { u8::from(piece.waits != 0) };
                let told = frame_sum(frame.control, frame.block, frame.destination, frame.source);
                result.more = kept_sum(told, &self.receiver.bytes[..piece.kept.min(FRAME)]);
            }
            Kind::Send => {
                let mut sum = Sum(0);
                loop {
                    let sending = segment_send(self.sender, bytes, out);
                    self.sender = sending.sender;
                    result.refusal = sending.sent.refusal;
                    if result.refusal != 0 {
                        break;
                    }
                    sum.fold(sending.sent.size as u64);
                    sum.bytes(out);
                    if sending.sent.last != 0 {
                        break;
                    }
                }
                sum.fold(u64::from(self.sender.next));
                result.more = sum.0;
            }
        }
        let border = whole[..BORDER].iter().chain(&whole[end..]);
        equal("border of the lent bytes", border.clone().all(|&byte| byte == FILL), true)?;
        Ok(result)
    }
}

// ---- runs

fn no_call() -> Call {
    Call {
        kind: Kind::Restart,
        setup: Setup::zero(),
        classes: Vec::new(),
        setups: Vec::new(),
        again: false,
        record: None,
        readings: Vec::new(),
        time: 0,
        control: 0,
        destination: 0,
        source: 0,
        fragment: Vec::new(),
        out: 0,
    }
}

pub fn print_counts(generator: &Generator) {
    for (what, count) in COUNTS.iter().zip(generator.counts) {
        println!("{count:10}  {what}");
    }
}

/// The second program alone.
pub fn stress(seed: u64, calls: u64) {
    let (mut generator, mut second) = (Generator::new(seed), Second::new());
    let (mut call, mut sum) = (no_call(), Sum(0));
    for number in 1..=calls {
        generator.step(&mut call);
        let result = second.call(&call);
        let head = second.head();
        sum.result(&call, &result, &second.out[call.out]);
        sum.head(&head);
        if number % WHOLE == 0 || number == calls {
            sum.arrays(&second.image());
        }
        generator.came_to(&call, &result, &second.out[call.out], &head);
        if number % LINE == 0 || number == calls {
            println!("{number} {:016X}", sum.0);
        }
    }
    print_counts(&generator);
}

fn same_result(library: &Answered, second: &Answered) -> Result<(), String> {
    equal("refusal", library.refusal, second.refusal)?;
    equal("taken", library.taken, second.taken)?;
    equal("kind, length", (library.kind, library.length), (second.kind, second.length))?;
    equal("sum of the other numbers", library.more, second.more)?;
    match library.operated.differs_in_objects(&second.operated) {
        None => Ok(()),
        Some(found) => Err(format!("object{found}")),
    }
}

/// One call on both sides: answer, lent bytes, state.
fn both(library: &mut Library, second: &mut Second, call: &Call) -> Result<Answered, String> {
    let expected = second.call(call);
    let result = library.call(call)?;
    same_result(&result, &expected)?;
    if call.kind as u8 >= Kind::Fragment as u8 {
        let out = &library.out[call.out];
        let same = out[BORDER..out.len() - BORDER] == second.out[call.out];
        equal("lent bytes as the second program left them", same, true)?;
    }
    match &second.outstation {
        Some(second) => state::compare(&library.image, second)?,
        None => {
            let left = installed(&library.image.head);
            equal("what a refused setup leaves", left, (0, 0, 0, 0))?;
        }
    }
    Ok(result)
}

/// Both sides, the outstation's arrays in heap blocks of their exact size or with a border. What the
/// calls came to, and their sum; an error says the first difference.
pub fn random(calls: u64, seed: u64, exact: bool) -> Result<(Generator, u64), String> {
    let (mut generator, mut second) = (Generator::new(seed), Second::new());
    let (mut call, mut sum, mut library) = (no_call(), Sum(0), Library::new(exact));
    for number in 1..=calls {
        generator.step(&mut call);
        let result = both(&mut library, &mut second, &call)
            .map_err(|found| format!("call {number}: {}: {found}", told(&call)))?;
        let refused = call.kind == Kind::Restart && result.refusal != 0;
        if refused {
            library.image.head = Head::zero();
        }
        let head = meaning::plain_head(&library.image.head);
        let out = &library.out[call.out];
        let out = &out[BORDER..out.len() - BORDER];
        sum.result(&call, &result, out);
        sum.head(&head);
        if number % WHOLE == 0 || number == calls {
            sum.arrays(&meaning::plain(&library.image));
        }
        generator.came_to(&call, &result, out, &head);
    }
    Ok((generator, sum.0))
}

/// A call in short.
fn told(call: &Call) -> String {
    let mut text = match call.kind {
        Kind::Restart => {
            let (points, analogs) = (call.classes.len(), call.setups.len());
            let outputs = call.setup.analog_output_count;
            format!("restart of {points} and {analogs} points, {outputs} analog outputs")
        }
        Kind::Reading | Kind::Table => {
            let readings: Vec<String> = call
                .readings
                .iter()
                .map(|r| format!("{},{},{},{:X},{}", r.time, r.kind, r.point, r.bits, r.flags))
                .collect();
            format!("readings {}", readings.join(" "))
        }
        kind => {
            let bytes: Vec<String> = call.fragment.iter().map(|b| format!("{b:02X}")).collect();
            let lent = LENGTHS[call.out];
            format!("{kind:?} at {}, {lent} bytes lent: {}", call.time, bytes.concat())
        }
    };
    text.truncate(200);
    text
}
