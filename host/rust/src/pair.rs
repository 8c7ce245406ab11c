//! Both sides of every call: the library over a head and lent memory, the second program over its own
//! state. After each call the answers, all lent bytes with a border round them, and the states are
//! compared.

use std::collections::BTreeMap;

use reference::application::Outcome;
use reference::control::{Control, Object};
use reference::faults::{on, Fault};
use reference::frame::{self, Frame, FrameRefusal};
use reference::generate::Random;
use reference::link::{self, Heard, LineRecord};
use reference::outstation::Outstation;
use reference::points::{Form, Reading, Taken};
use reference::receiver::Receiver;
use reference::script::{Call, LENT};
use reference::set_points::{SetPoint, SetValue};
use reference::transport::{Assembled, Unfinished};

use crate::header::{self, Same};
use crate::meaning;
use crate::memory::Memory;
use crate::reached::{self, Accepted};
use crate::run::block;
use crate::state::{self, equal, gate_parts};

/// What was reached, and how often.
#[derive(Default)]
pub struct Seen {
    pub refusals: BTreeMap<u8, u64>,
    /// Refusals 15 by their block.
    pub blocks: [u64; header::BLOCKS],
    pub events: BTreeMap<&'static str, u64>,
}

impl Seen {
    pub fn refusal(&mut self, refusal: u8) {
        if refusal != 0 {
            *self.refusals.entry(refusal).or_insert(0) += 1;
        }
    }

    /// The refusal of a frame, and the block that it carries.
    pub fn frame_refusal(&mut self, refusal: u8, block: u8) {
        self.refusal(refusal);
        if refusal == 15 {
            if let Some(count) = self.blocks.get_mut(usize::from(block)) {
                *count += 1;
            }
        }
    }

    pub fn note(&mut self, what: &'static str, happened: bool) {
        *self.events.entry(what).or_insert(0) += u64::from(happened);
    }

    pub fn add(&mut self, other: &Seen) {
        for (&refusal, count) in &other.refusals {
            *self.refusals.entry(refusal).or_insert(0) += count;
        }
        for (sum, count) in self.blocks.iter_mut().zip(&other.blocks) {
            *sum += count;
        }
        for (&what, count) in &other.events {
            *self.events.entry(what).or_insert(0) += count;
        }
    }
}

/// Bytes lent to both, equal before the call, at any address. No call may write the border on either
/// side.
pub struct Lent {
    library: Vec<u8>,
    second: Vec<u8>,
    from: usize,
}

const BORDER: usize = 32;

impl Lent {
    pub fn new(len: usize, random: &mut Random) -> Lent {
        let from = BORDER + random.below(8);
        let all = from + len + BORDER;
        let mut bytes = Vec::with_capacity(all + 8);
        while bytes.len() < all {
            bytes.extend_from_slice(&random.next().to_le_bytes());
        }
        bytes.truncate(all);
        Lent { library: bytes.clone(), second: bytes, from }
    }

    pub fn library(&mut self) -> &mut [u8] {
        let end = self.library.len() - BORDER;
        &mut self.library[self.from..end]
    }

    pub fn second(&mut self) -> &mut [u8] {
        let end = self.second.len() - BORDER;
        &mut self.second[self.from..end]
    }

    pub fn compare(&self) -> Result<(), String> {
        same_bytes(&self.library, &self.second, self.from)
    }
}

/// Bytes for the library to read, at any address; they end where their memory ends.
struct Input {
    all: Box<[u8]>,
    from: usize,
}

impl Input {
    fn new(bytes: &[u8], random: &mut Random) -> Input {
        let from = random.below(8);
        let all = [&[0xEE; 8][..from], bytes].concat().into_boxed_slice();
        Input { all, from }
    }
}

impl std::ops::Deref for Input {
    type Target = [u8];

    fn deref(&self) -> &[u8] {
        &self.all[self.from..]
    }
}

fn same_bytes(library: &[u8], second: &[u8], border: usize) -> Result<(), String> {
    if library == second {
        return Ok(());
    }
    let place = library.iter().zip(second).position(|(one, two)| one != two).unwrap_or(0);
    Err(format!(
        "lent byte {}: the library left {:02X}, the second program {:02X}",
        place as i64 - border as i64,
        library[place],
        second[place]
    ))
}

pub struct Pair {
    pub random: Random,
    /// Whether the library is given other images of the same meaning.
    pub other: bool,
    pub seen: Seen,
    pub second: Option<Outstation>,
    pub record: LineRecord,
    setup: SetupImage,
    /// The state that the library left: its head, and what the lent arrays held.
    pub image: header::Outstation,
    pub memory: Memory,
    line: header::Line,
    receiver: header::Receiver,
    /// The second program's receiver, and what both keep.
    pub wire: Receiver,
    kept: Vec<u8>,
    pub assembly: header::Assembly,
    sender: header::Sender,
    together: Lent,
}

fn code<T>(result: &Result<T, u8>) -> u8 {
    result.as_ref().err().copied().unwrap_or(0)
}

/// What a receiver keeps after a call that took these bytes and told this.
pub fn keep(kept: &mut Vec<u8>, taken: &[u8], told: &Option<Result<Frame, FrameRefusal>>) {
    kept.extend_from_slice(taken);
    match told {
        None | Some(Err(FrameRefusal::By(33))) => {}
        Some(Err(FrameRefusal::By(_))) => {
            kept.remove(0);
        }
        Some(_) => kept.clear(),
    }
}

/// The control byte that a reply goes out with: one of the three.
fn reply_control(control: u8) -> u8 {
    match control {
        0x00 | 0x0B => control,
        _ => 0x0F,
    }
}

impl Pair {
    /// `exact`: the outstation's arrays in heap blocks of their exact size.
    pub fn new(seed: u64, exact: bool) -> Pair {
        let mut random = Random(seed);
        let together = Lent::new(LENT, &mut random);
        Pair {
            image: header::Outstation::random(&mut random),
            memory: Memory::new(exact),
            random,
            other: false,
            seen: Seen::default(),
            second: None,
            record: LineRecord::default(),
            setup: SetupImage::default(),
            line: header::Line::zero(),
            receiver: header::Receiver::zero(),
            wire: Receiver::default(),
            kept: Vec::new(),
            assembly: header::Assembly::zero(),
            sender: header::Sender::zero(),
            together,
        }
    }

    /// Makes the call on both sides. An error says what differed.
    pub fn call(&mut self, call: &Call) -> Result<(), String> {
        match call {
            Call::Setup(setup) => return self.set_up(setup),
            Call::Record(record) => {
                self.record = *record;
                self.line = line_image(record);
                return Ok(());
            }
            Call::FrameWrite(len, control, destination, source, user) => {
                return self.frame_write(*len, *control, *destination, *source, user);
            }
            Call::FrameRead(len, bytes) => return self.frame_read(*len, bytes),
            Call::Piece(len, bytes) => return self.piece(*len, bytes),
            Call::Crc(_) => return Ok(()),
            _ => {}
        }
        // Without an outstation the script has nothing to ask.
        let Some(mut second) = self.second.take() else { return Ok(()) };
        let result = self.outstation_call(call, &mut second);
        self.second = Some(second);
        result
    }

    fn outstation_call(&mut self, call: &Call, second: &mut Outstation) -> Result<(), String> {
        match call {
            Call::Restart => {
                second.restart();
                self.empty(on(Fault::PieceKeptByRestart));
                self.restart(0)?;
            }
            Call::Reading(reading) => self.reading(second, *reading)?,
            Call::Table(readings) => self.table(second, readings)?,
            Call::Frag(time, len, bytes) => self.fragment(second, *time, *len, bytes)?,
            Call::Station(len, bytes) => return self.station(second, *len, bytes),
            Call::Seg(len, bytes) => return self.segment(second, *len, bytes),
            Call::Send(len, bytes) => return self.send(second, *len, bytes),
            _ => {}
        }
        state::compare(&self.image, second)
    }

    /// Gives the library another image of the same meaning, where it is to have one.
    fn give(&mut self) {
        if self.other {
            self.image = meaning::other(&self.image, &mut self.random);
        }
    }

    /// Where other numbers were given, others may be left.
    fn keep(&mut self) {
        if self.other {
            self.image = meaning::plain(&self.image);
        }
    }

    // ---- setup

    fn set_up(&mut self, setup: &reference::outstation::Setup) -> Result<(), String> {
        self.together = Lent::new(LENT, &mut self.random);
        let made = Outstation::new(setup.clone());
        let refusal = code(&made);
        self.second = made.ok();
        self.empty(refusal != 0 && on(Fault::PieceKeptByRefused));
        match setup_image(setup) {
            Some(image) => {
                self.setup = image;
                self.restart(refusal)?;
            }
            // A limit or an end that the struct cannot hold.
            None => return equal("refusal", 5, refusal),
        }
        match &self.second {
            Some(second) => state::compare(&self.image, second),
            None => equal("what a refused setup leaves", installed(&self.image.head), (0, 0, 0, 0)),
        }
    }

    fn restart(&mut self, expected: u8) -> Result<(), String> {
        let mut setups = self.setup.analogs.clone();
        let mut setup = self.setup.setup;
        if self.other {
            setup = meaning::other_setup(&setup, &mut self.random);
            for setup in &mut setups {
                *setup = meaning::other_analog_setup(setup, &mut self.random);
            }
        }
        // Whatever the head and the arrays held.
        self.image.head = header::Head::random(&mut self.random);
        let classes = &self.setup.classes;
        let refusal = self.memory.restart(&mut self.image, setup, classes, &setups)?;
        self.keep();
        self.assembly = header::Assembly::zero();
        self.sender = header::Sender::zero();
        self.seen.refusal(refusal);
        equal("refusal", refusal, expected)
    }

    // ---- readings

    fn reading(&mut self, second: &mut Outstation, reading: Reading) -> Result<(), String> {
        let mut given = reading_image(&reading);
        self.give();
        // The second program knows points to 255 only; there are none from 64 on.
        let past = header::Reading { point: given.point + 256, ..given };
        let expected = if second.test_time(reading.time).is_err() { 1 } else { 2 };
        let before = self.image;
        let refusal = self.memory.reading(&mut self.image, past)?;
        self.keep();
        equal("refusal of a point past 255", refusal, expected)?;
        state::compare(&self.image, second)?;

        let full = second.events.held.len() == header::EVENTS;
        let overflow = second.events.warning;
        let expected = code(&second.reading(reading));
        if self.other {
            given = meaning::other_reading(&given, &mut self.random);
        }
        self.image = before;
        let refusal = self.memory.reading(&mut self.image, given)?;
        self.keep();
        self.seen.refusal(refusal);
        self.seen.note("event dropped", full && second.events.warning && !overflow);
        equal("refusal", refusal, expected)
    }

    pub fn table(&mut self, second: &mut Outstation, readings: &[Reading]) -> Result<(), String> {
        let mut given: Vec<header::Reading> = readings.iter().map(reading_image).collect();
        self.give();
        if self.other {
            for reading in &mut given {
                *reading = meaning::other_reading(reading, &mut self.random);
            }
        }
        let overflow = second.events.warning;
        let (taken, refused) = second.table(readings);
        let (count, refusal) = self.memory.table(&mut self.image, &given)?;
        self.keep();
        self.seen.refusal(refusal);
        let middle = refusal != 0 && 0 < count && count + 1 < readings.len();
        self.seen.note("table stopped in the middle", middle);
        self.seen.note("table of 128 readings taken", count == 128);
        self.seen.note("table of more than 128 readings taken", count > 128);
        self.seen.note("event dropped", !overflow && second.events.warning);
        self.seen.note("256 events held", self.image.head.event_count == header::EVENTS);
        equal("taken, refusal", (count, refusal), (taken, refused.unwrap_or(0)))
    }

    // ---- fragments

    fn fragment(
        &mut self,
        second: &mut Outstation,
        time: u64,
        len: usize,
        bytes: &[u8],
    ) -> Result<(), String> {
        self.give();
        let input = Input::new(bytes, &mut self.random);
        let mut lent = Lent::new(len, &mut self.random);
        let (wait, latch) = (second.wait.clone(), second.latch.clone());
        let overflow = second.events.warning;
        let (answer, handed) =
            self.memory.fragment(&mut self.image, time, &input, lent.library())?;
        let expected = second.fragment(time, bytes, lent.second());
        self.keep();
        self.seen.refusal(answer.refusal);
        same_bytes(&input, bytes, 0)?;
        lent.compare()?;
        let (kind, length, refusal, operated) = match &expected {
            Ok(Outcome::Answer(length, operated)) => (0, *length, 0, &operated[..]),
            Ok(Outcome::Mute(operated)) => (1, 0, 0, &operated[..]),
            Ok(Outcome::Confirmed) => (2, 0, 0, &[][..]),
            Err(refusal) => (3, 0, *refusal, &[][..]),
        };
        equal(
            "kind, length, refusal",
            (answer.kind, answer.length, answer.refusal),
            (kind, length, refusal),
        )?;
        same_operated(&handed, operated)?;

        let accepted = expected.is_ok();
        let function = bytes.get(1).copied().unwrap_or(255);
        let seen = &mut self.seen;
        if let Some(wait) = &wait {
            let late = time.saturating_sub(wait.time) as i64 - second.setup.confirm_time as i64;
            seen.note("CONFIRM at the confirm time", kind == 2 && late == 0);
            seen.note(
                "CONFIRM one ms late",
                refusal == 32 && late == 1 && bytes[0] == 0xC0 | wait.sequence,
            );
        }
        seen.note("CONFIRM accepted", kind == 2);
        seen.note("CONFIRM clears IIN2.3", kind == 2 && overflow && !second.events.warning);
        seen.note("CONFIRM, IIN2.3 stays", kind == 2 && overflow && second.events.warning);
        seen.note("READ with events", accepted && function == 1 && second.wait.is_some());
        seen.note("answer of 2,048 bytes", length == header::FRAGMENT);
        seen.note("SELECT arms the latch", accepted && function == 3 && second.latch.is_some());
        if let Some(latch) = &latch {
            let late = time.saturating_sub(latch.time) as i64 - second.setup.arm_time as i64;
            let status = (function == 4 && kind == 0)
                .then(|| lent.library()[..length].last().copied())
                .flatten();
            let whole = function == 4 && !operated.is_empty();
            seen.note("OPERATE at the arm time", whole && late == 0);
            seen.note("OPERATE one ms late", late == 1 && status == Some(1));
        }
        seen.note("OPERATE carried out", function == 4 && !operated.is_empty());
        seen.note("DIRECT OPERATE carried out", function == 5 && !operated.is_empty());
        seen.note("DIRECT OPERATE NO RESPONSE carried out", kind == 1 && !operated.is_empty());
        seen.note("eight objects carried out", operated.len() == header::CONTROLS);
        let pulse = one_pulse(bytes, second.setup.outputs);
        let (carried, refused) = (operated.len() == 1, accepted && operated.is_empty());
        seen.note("pulse of 0 ms not carried out", pulse == Some(0) && refused);
        seen.note("pulse of 1 ms carried out", pulse == Some(1) && carried);
        seen.note("pulse of 60,000 ms carried out", pulse == Some(60_000) && carried);
        seen.note("pulse of 60,001 ms not carried out", pulse == Some(60_001) && refused);
        if kind < 2 {
            let (setup, latch) = (&second.setup, latch.as_ref());
            let answer = &lent.library()[..length];
            let call = Accepted { setup, latch, time, bytes, answer, operated };
            reached::set_points(seen, &call);
        }
        Ok(())
    }

    // ---- the line

    fn frame_write(
        &mut self,
        len: usize,
        control: u8,
        destination: u16,
        source: u16,
        user: &[u8],
    ) -> Result<(), String> {
        let input = Input::new(user, &mut self.random);
        // The same as a frame, as data to a master and, without user data, as a reply.
        type Write<'a> = &'a dyn Fn(&mut [u8]) -> header::Wrote;
        let station = header::Station { own: source, master: destination };
        let writes: [(Write, u8, &[u8]); 3] = [
            (&|out| header::frame_write(out, control, destination, source, &input), control, user),
            (&|out| header::link_data(out, station, &input), 0x44, user),
            (&|out| header::link_reply(out, station, control), reply_control(control), &[]),
        ];
        for (write, control, user) in writes {
            let mut lent = Lent::new(len, &mut self.random);
            let wrote = write(lent.library());
            self.same_wrote(wrote, control, destination, source, user, &mut lent)?;
        }
        same_bytes(&input, user, 0)
    }

    fn same_wrote(
        &mut self,
        wrote: header::Wrote,
        control: u8,
        destination: u16,
        source: u16,
        user: &[u8],
        lent: &mut Lent,
    ) -> Result<(), String> {
        let expected = frame::write(control, destination, source, user, lent.second());
        self.seen.refusal(wrote.refusal);
        let (size, refusal) = (expected.unwrap_or(0), code(&expected));
        equal("size, refusal", (wrote.size, wrote.refusal), (size, refusal))?;
        lent.compare()
    }

    fn frame_read(&mut self, len: usize, bytes: &[u8]) -> Result<(), String> {
        let input = Input::new(bytes, &mut self.random);
        let mut lent = Lent::new(len, &mut self.random);
        let read = header::frame_read(&input, lent.library());
        let expected = frame::read(bytes, lent.second());
        self.seen.frame_refusal(read.refusal, read.block);
        same_bytes(&input, bytes, 0)?;
        lent.compare()?;
        let expected = match expected {
            Ok(frame) => (frame.user.len(), frame.destination, frame.source, frame.control, 0, 0),
            Err(refusal) => (0, 0, 0, 0, refusal.number(), block(refusal)),
        };
        equal(
            "length, destination, source, control, refusal, block",
            (read.length, read.destination, read.source, read.control, read.refusal, read.block),
            expected,
        )
    }

    /// Empties both receivers, as a host does; by a fault the second program's is forgotten.
    fn empty(&mut self, forgotten: bool) {
        self.receiver = header::Receiver::zero();
        self.kept.clear();
        if !forgotten {
            self.wire = Receiver::default();
        }
    }

    fn piece(&mut self, len: usize, bytes: &[u8]) -> Result<(), String> {
        let input = Input::new(bytes, &mut self.random);
        let mut lent = Lent::new(len, &mut self.random);
        let mut given = self.receiver;
        if self.other {
            let plain = meaning::plain_receiver(&given);
            given = meaning::other_receiver(&plain, &mut self.random);
        }
        self.receiver = given;
        let piece = self.memory.piece(&mut self.receiver, &input, lent.library())?;
        let (taken, told) = self.wire.take(bytes, lent.second());
        if let (true, Some(told)) = (on(Fault::PieceCounted), &told) {
            self.record.note(told);
        }
        self.seen.frame_refusal(piece.frame.refusal, piece.frame.block);
        same_bytes(&input, bytes, 0)?;
        lent.compare()?;
        let expected = match &told {
            None => (0, 0, 0, 0, 0, 0),
            Some(Ok(f)) => (f.user.len(), f.destination, f.source, f.control, 0, 0),
            Some(Err(refusal)) => (0, 0, 0, 0, refusal.number(), block(*refusal)),
        };
        let frame = &piece.frame;
        let found = (
            frame.length,
            frame.destination,
            frame.source,
            frame.control,
            frame.refusal,
            frame.block,
        );
        equal("taken, waits", (piece.taken, piece.waits), (taken, u8::from(told.is_none())))?;
        equal("length, destination, source, control, refusal, block", found, expected)?;

        let begun = !self.kept.is_empty();
        keep(&mut self.kept, &bytes[..taken], &told);
        self.seen.note("piece: refused 33", frame.refusal == 33);
        if frame.refusal == 33 {
            let same = piece.kept == given.kept && self.receiver.bytes == given.bytes;
            return equal("a receiver left as it was by 33", same, true);
        }
        equal("kept", piece.kept, self.kept.len())?;
        let left = &self.receiver.bytes[..piece.kept];
        equal("bytes kept", left, &self.kept)?;

        let seen = &mut self.seen;
        let delivered = matches!(told, Some(Ok(_)));
        seen.note("piece: waits", told.is_none());
        seen.note("piece: waits with nothing kept", told.is_none() && piece.kept == 0);
        seen.note("piece: waits with 291 bytes kept", told.is_none() && piece.kept == 291);
        seen.note("piece: a frame in one piece", delivered && !begun);
        seen.note("piece: a frame over more pieces", delivered && begun);
        seen.note("piece: a frame of 250 user bytes", delivered && frame.length == 250);
        seen.note("piece: a rest to be given again", taken < bytes.len());
        for (what, number) in [
            ("piece: refused 12", 12),
            ("piece: refused 13", 13),
            ("piece: refused 14", 14),
            ("piece: refused 15", 15),
        ] {
            seen.note(what, frame.refusal == number);
        }
        Ok(())
    }

    fn station(&mut self, second: &mut Outstation, len: usize, bytes: &[u8]) -> Result<(), String> {
        let (own, master) = (second.setup.own, second.setup.master);
        let input = Input::new(bytes, &mut self.random);
        let mut lent = Lent::new(len, &mut self.random);
        let station = header::Station { own, master };
        let taken = header::link_receive(&mut self.line, station, &input, lent.library());
        let expected = link::station(own, master, &mut self.record, bytes, lent.second());
        self.seen.frame_refusal(taken.refusal, taken.block);
        same_bytes(&input, bytes, 0)?;
        lent.compare()?;
        equal("line record", counts(&self.line), self.record.counts)?;
        equal("line record's blocks", self.line.blocks, self.record.blocks)?;
        let what = "kind, length, control, refusal, block";
        let given = (taken.kind, taken.length, taken.control, taken.refusal, taken.block);
        match expected {
            Ok(Heard::UserData(length)) => equal(what, given, (0, length, 0, 0, 0)),
            Ok(Heard::Reply(control)) => {
                self.seen.note("reply", true);
                equal(what, given, (1, 0, control, 0, 0))?;
                let mut lent = Lent::new(header::FRAME, &mut self.random);
                let wrote = header::link_reply(lent.library(), station, control);
                self.same_wrote(wrote, control, master, own, &[], &mut lent)
            }
            Err(refusal) => equal(what, given, (2, 0, 0, refusal.number(), block(refusal))),
        }
    }

    // ---- segments

    /// The same unfinished fragment on both sides.
    pub fn begin(&mut self, unfinished: Option<Unfinished>) {
        if let Some(second) = &mut self.second {
            second.transport.unfinished = unfinished;
        }
        self.assembly = assembly_image(unfinished);
    }

    /// Turns one bit of the bytes lent for the fragment, as a host may between two segments.
    pub fn alter(&mut self, place: usize) {
        self.together.library()[place] ^= 1;
        self.together.second()[place] ^= 1;
    }

    /// The byte of the fragment at this place.
    pub fn lent_byte(&mut self, place: usize) -> u8 {
        self.together.library()[place]
    }

    fn segment(&mut self, second: &mut Outstation, len: usize, bytes: &[u8]) -> Result<(), String> {
        let input = Input::new(bytes, &mut self.random);
        let given = if self.other {
            meaning::other_assembly(self.assembly, &mut self.random)
        } else {
            self.assembly
        };
        let before = second.transport.unfinished;
        let reception = header::segment_receive(given, &input, &mut self.together.library()[..len]);
        let expected = second.transport.hear(bytes, &mut self.together.second()[..len]);
        let unfinished = second.transport.unfinished;
        self.assembly = reception.assembly;
        self.seen.refusal(reception.segment.refusal);
        same_bytes(&input, bytes, 0)?;
        self.together.compare()?;
        let segment = &reception.segment;
        let (kind, length, refusal) = match expected {
            Ok(Assembled::More(_)) => (0, 0, 0),
            Ok(Assembled::Whole(length)) => (1, length, 0),
            Err(refusal) => (2, 0, refusal),
        };
        self.seen.note("fragment of 2,048 bytes put together", length == header::FRAGMENT);
        equal(
            "kind, length, refusal",
            (segment.kind, segment.length, segment.refusal),
            (kind, length, refusal),
        )?;
        // A segment without FIR that goes on and changes nothing was heard before.
        let first = bytes.first().is_some_and(|head| head & 0x40 != 0);
        let repeat = kind == 0 && !first && unfinished == before;
        let stays = repeat || matches!(refusal, 21 | 33);
        let left = self.assembly;
        equal("a truth above 1", left.begun > 1 || left.last_fir > 1, false)?;
        let expected = assembly_image(unfinished);
        same_assembly(&meaning::plain_assembly(left), &meaning::plain_assembly(expected))?;
        // What stays keeps the numbers that were given.
        let (begun, last_fir) = (u8::from(given.begun != 0), u8::from(given.last_fir != 0));
        let given = header::Assembly { begun, last_fir, ..given };
        same_assembly(&left, if stays { &given } else { &expected })?;

        let seen = &mut self.seen;
        seen.note("segment: a repeat ignored", repeat);
        seen.note("segment: a repeat ignored at 2,048 bytes", repeat && left.length == 2048);
        if let (Some(last), Some(&head)) = (before, bytes.first()) {
            let again = refusal == 22 && head == last.last && bytes.len() == 1 + last.size;
            seen.note("segment: a repeat of the first one without FIR", again && last.fir);
            seen.note("segment: a repeat but for its data", again && !last.fir);
        }
        Ok(())
    }

    fn send(&mut self, second: &mut Outstation, len: usize, bytes: &[u8]) -> Result<(), String> {
        let input = Input::new(bytes, &mut self.random);
        let (random, seen) = (&mut self.random, &mut self.seen);
        let mut library = Lent::new(len, random);
        let mut lent = library.second().to_vec();
        let mut sender = self.sender;
        let mut result = Ok(());
        let mut ended = false;
        let refused = second.transport.send(bytes, &mut lent, &mut |lent, size| {
            if result.is_err() {
                return;
            }
            let sending = header::segment_send(sender, &input, library.library());
            sender = sending.sender;
            result = equal(
                "size, refusal, after the last",
                (sending.sent.size, sending.sent.refusal, ended),
                (size, 0, false),
            );
            ended = sending.sent.last == 1;
            library.second().copy_from_slice(lent);
            result = result.clone().and_then(|()| library.compare());
            // Other bytes for the next one.
            library = Lent::new(len, random);
            lent.copy_from_slice(library.second());
        });
        result?;
        match refused {
            Ok(()) => equal("last", ended, true)?,
            Err(refusal) => {
                let sending = header::segment_send(sender, &input, library.library());
                seen.refusal(sending.sent.refusal);
                let sent = (sending.sent.size, sending.sent.last, sending.sent.refusal);
                equal("size, last, refusal", sent, (0, 0, refusal))?;
                library.compare()?;
                sender = sending.sender;
            }
        }
        self.sender = sender;
        same_bytes(&input, bytes, 0)?;
        equal("sender", (sender.next, sender.at), (second.transport.next_sent, 0))
    }
}

/// Every number of it.
fn same_assembly(library: &header::Assembly, second: &header::Assembly) -> Result<(), String> {
    match library.differs(second) {
        None => Ok(()),
        Some(found) => Err(format!("assembly{found} (the library, and the second program)")),
    }
}

/// The on-time of the one pulse of a direct operation that nothing else is wrong with.
fn one_pulse(bytes: &[u8], outputs: u8) -> Option<u32> {
    let [_, 5 | 6, 12, 1, 0x17, 1, index, 0x01 | 0x41 | 0x81, 1, times @ .., 0] = bytes else {
        return None;
    };
    let on_time = times.get(..4)?.try_into().ok()?;
    (times.len() == 8 && *index < outputs).then(|| u32::from_le_bytes(on_time))
}

fn same_operated(library: &header::Operated, second: &[Control]) -> Result<(), String> {
    equal("number of objects carried out", library.count(), second.len())?;
    match library.differs_in_objects(&operated_image(second)) {
        None => Ok(()),
        Some(found) => Err(format!("carried out{found} (the library, and the second program)")),
    }
}

/// How many points and outputs of each kind a head has.
pub fn installed(head: &header::Head) -> (usize, usize, u16, u16) {
    (head.binary_count, head.analog_count, head.outputs, head.analog_outputs)
}

/// What the second program hands over, as the header's structs.
pub fn operated_image(second: &[Control]) -> header::Operated {
    let mut operated = header::Operated::zero();
    let (crobs, commands) = (&mut operated.crobs, &mut operated.analog_commands);
    for Control { index, object } in second {
        match object {
            Object::Relay([code, count, times @ .., status]) => {
                let [on @ .., _, _, _, _] = *times;
                let [_, _, _, _, off @ ..] = *times;
                crobs.items[crobs.count] = header::Crob {
                    on_time: u32::from_le_bytes(on),
                    off_time: u32::from_le_bytes(off),
                    index: *index,
                    code: *code,
                    count: *count,
                    status: *status,
                };
                crobs.count += 1;
            }
            Object::SetPoint(value, status) => {
                let (kind, bits) = match *value {
                    SetValue::Whole32(value) => (0, value as u32),
                    SetValue::Whole16(value) => (1, i32::from(value) as u32),
                    SetValue::Float(value) => (2, value.to_bits()),
                };
                let command = header::AnalogCommand { bits, index: *index, kind, status: *status };
                commands.items[commands.count] = command;
                commands.count += 1;
            }
        }
    }
    operated
}

// ---- what the second program is given, as the header's structs

pub fn assembly_image(unfinished: Option<Unfinished>) -> header::Assembly {
    let Some(Unfinished { last, fir, size, count }) = unfinished else {
        return header::Assembly::zero();
    };
    let last_fir = u8::from(fir);
    header::Assembly { length: count, last_length: size, last, last_fir, begun: 1 }
}

fn line_image(record: &LineRecord) -> header::Line {
    let [accepted, short_frame, start, header_check, length, block_check, not_taken] =
        record.counts;
    let blocks = record.blocks;
    header::Line {
        accepted,
        short_frame,
        start,
        header_check,
        length,
        block_check,
        not_taken,
        blocks,
    }
}

fn counts(line: &header::Line) -> [u16; 7] {
    [
        line.accepted,
        line.short_frame,
        line.start,
        line.header_check,
        line.length,
        line.block_check,
        line.not_taken,
    ]
}

pub fn reading_image(reading: &Reading) -> header::Reading {
    let (kind, bits) = match reading.value {
        Taken::Binary(state) => (0, u32::from(state)),
        Taken::Whole(whole) => (1, whole as u32),
        Taken::Float(real) => (2, real.to_bits()),
    };
    let point = u16::from(reading.index);
    header::Reading { time: reading.time, bits, point, kind, flags: reading.flags }
}

/// A setup as the library takes it.
#[derive(Clone)]
pub struct SetupImage {
    pub setup: header::Setup,
    pub classes: Vec<u8>,
    pub analogs: Vec<header::AnalogSetup>,
}

impl Default for SetupImage {
    fn default() -> Self {
        SetupImage { setup: header::Setup::zero(), classes: Vec::new(), analogs: Vec::new() }
    }
}

/// None where an end is not one that the struct can hold.
fn output_image(point: &SetPoint) -> Option<header::AnalogOutput> {
    let end = |number: i64| Some(i32::try_from(number).ok()? as u32);
    Some(match *point {
        SetPoint::Whole32(low, high) => {
            header::AnalogOutput { low: end(low)?, high: end(high)?, kind: 0 }
        }
        SetPoint::Whole16(low, high) => {
            header::AnalogOutput { low: end(low)?, high: end(high)?, kind: 1 }
        }
        SetPoint::Float(low, high) => {
            header::AnalogOutput { low: low.to_bits(), high: high.to_bits(), kind: 2 }
        }
    })
}

/// None where a limit or an end is not one that the struct can hold. Points past the second
/// program's lists are all 0.
pub fn setup_image(setup: &reference::outstation::Setup) -> Option<SetupImage> {
    let mut analog_outputs = [header::AnalogOutput::zero(); header::ANALOG_OUTPUTS];
    for (output, point) in analog_outputs.iter_mut().zip(&setup.set_points) {
        *output = output_image(point)?;
    }
    let mut image = SetupImage {
        setup: header::Setup {
            arm_time: setup.arm_time,
            confirm_time: setup.confirm_time,
            own: setup.own,
            master: setup.master,
            outputs: u16::from(setup.outputs),
            analog_output_count: u16::from(setup.set_point_count),
            analog_outputs,
        },
        classes: setup.binaries.clone(),
        analogs: Vec::new(),
    };
    for &(class_, form) in &setup.analogs {
        image.analogs.push(match form {
            Form::Whole32(gate) | Form::Whole16(gate) => {
                let (gate, limit) = gate_parts(gate);
                let limit = u32::try_from(limit.unwrap_or(0)).ok()?;
                let kind = u8::from(matches!(form, Form::Whole16(_)));
                header::AnalogSetup { limit, gain: 0, offset: 0, class_, kind, gate }
            }
            Form::Float { gain, offset, gate } => {
                let (gate, limit) = gate_parts(gate);
                let limit = limit.unwrap_or(0.0).to_bits();
                let (gain, offset) = (gain.to_bits(), offset.to_bits());
                header::AnalogSetup { limit, gain, offset, class_, kind: 2, gate }
            }
        });
    }
    image.classes.resize(usize::from(setup.binary_count), 0);
    image.analogs.resize(usize::from(setup.analog_count), header::AnalogSetup::zero());
    Some(image)
}
