//! Fragments: refusals, requests and their answers, READ, WRITE, CONFIRM, repeats.

use crate::control::{self, Control, Group, Latch};
use crate::events::Event;
use crate::faults::{on, Fault};
use crate::outstation::Outstation;
use crate::points::Value;
use crate::Refusal;

const FRAGMENT: usize = 2048;

/// The application control byte; the sequence is its low four bits.
const FIR: u8 = 0x80;
const FIN: u8 = 0x40;
const CON: u8 = 0x20;
const UNS: u8 = 0x10;
const SEQUENCE: u8 = 0x0F;

const CONFIRM: u8 = 0;
const READ: u8 = 1;
const WRITE: u8 = 2;
const SELECT: u8 = 3;
const OPERATE: u8 = 4;
const DIRECT_OPERATE: u8 = 5;
const DIRECT_OPERATE_NO_RESPONSE: u8 = 6;
const RESPONSE: u8 = 129;

const RESTARTED: u8 = 0x80;
const FUNCTION_UNKNOWN: u8 = 0x01;
const OBJECT_UNKNOWN: u8 = 0x02;
const BAD_PARAMETER: u8 = 0x04;
const EVENTS_DROPPED: u8 = 0x08;

/// The last accepted request and its answer (none for function 6; a READ's is never used again).
#[derive(Clone, Debug)]
pub struct Request {
    pub bytes: Vec<u8>,
    pub answer: Option<Vec<u8>>,
    pub operated: Vec<Control>,
}

/// An answer with CON "then awaits confirmation".
#[derive(Clone, Debug)]
pub struct Wait {
    pub sequence: u8,
    pub time: u64,
    /// Numbers of the events carried, rising.
    pub carried: Vec<u64>,
    pub showed_warning: bool,
    pub dropped_since: bool,
}

#[derive(Clone, Debug)]
pub enum Outcome {
    /// The answer's size in the lent output, and what is carried out.
    Answer(usize, Vec<Control>),
    /// Function 6 "is never answered".
    Mute(Vec<Control>),
    Confirmed,
}

/// What a faultless READ asks for.
struct Asked {
    /// Bits 1 to 3, one for each class of events.
    classes: u8,
    static_part: Vec<u8>,
}

impl Outstation {
    /// A fragment from the master. Refusals in the order 1, 33, 31, 32; a refused call changes
    /// nothing, the clock included.
    pub fn fragment(
        &mut self,
        time: u64,
        bytes: &[u8],
        lent: &mut [u8],
    ) -> Result<Outcome, Refusal> {
        self.test_time(time)?;
        if on(Fault::FragmentLentLast) {
            test_shape(bytes)?;
        }
        if lent.len() < FRAGMENT {
            return Err(33);
        }
        test_shape(bytes)?;
        let (sequence, function, objects) = (bytes[0] & SEQUENCE, bytes[1], &bytes[2..]);
        if function == CONFIRM {
            self.confirm(time, bytes[0])?;
            return Ok(Outcome::Confirmed);
        }
        self.clock = time;
        if let Some(outcome) = self.repeat(time, bytes, lent) {
            return Ok(outcome);
        }
        // "every later request but a repeat ends that wait"; "every other request but a repeat
        // empties it", so the latch is taken out and only SELECT puts one back.
        let wait = self.wait.take();
        let latch = self.latch.take();
        let mut operated = Vec::new();
        let answer = match function {
            READ => self.read(sequence, objects, wait),
            WRITE => self.write(sequence, objects),
            SELECT => self.select(sequence, objects, latch),
            OPERATE => self.operate(sequence, objects, latch, &mut operated),
            DIRECT_OPERATE => self.direct_operate(sequence, objects, &mut operated),
            DIRECT_OPERATE_NO_RESPONSE => {
                let answer = self.direct_operate(sequence, objects, &mut operated);
                if on(Fault::SetAnswered) && objects.first() == Some(&41) {
                    lent[..answer.len()].copy_from_slice(&answer);
                    return Ok(Outcome::Answer(answer.len(), operated));
                }
                self.last_request = Some(Request {
                    bytes: bytes.to_vec(),
                    answer: None,
                    operated: operated.clone(),
                });
                return Ok(Outcome::Mute(operated));
            }
            _ => self.answer(sequence, FUNCTION_UNKNOWN, &[]),
        };
        lent[..answer.len()].copy_from_slice(&answer);
        let length = answer.len();
        if !(on(Fault::RepeatPastRead) && function == READ) {
            self.last_request = Some(Request {
                bytes: bytes.to_vec(),
                answer: Some(answer),
                operated: operated.clone(),
            });
        }
        Ok(Outcome::Answer(length, operated))
    }

    /// "A request equal in every byte to the last accepted request, not a READ, is a repeat: the
    /// same answer again, nothing done, only the clock moves."
    fn repeat(&mut self, time: u64, bytes: &[u8], lent: &mut [u8]) -> Option<Outcome> {
        let last = self.last_request.as_ref()?;
        if last.bytes != bytes || (bytes[1] == READ && !on(Fault::ReadRepeats)) {
            return None;
        }
        // What a fault carries out again.
        let again = |control: &&Control| {
            on(Fault::RepeatOperates) && last.answer.is_some()
                || on(Fault::SetCarriedTwice) && control.group() == Group::SetPoints
        };
        let operated: Vec<Control> = last.operated.iter().filter(again).copied().collect();
        let Some(answer) = &last.answer else {
            return Some(Outcome::Mute(operated));
        };
        lent[..answer.len()].copy_from_slice(answer);
        if on(Fault::RepeatRebuilt) {
            lent[2..4].copy_from_slice(&self.indications(answer[3] & 0x07, &[]));
        }
        if on(Fault::ArmTimeRestarted) {
            if let Some(latch) = &mut self.latch {
                latch.time = time;
            }
        }
        Some(Outcome::Answer(answer.len(), operated))
    }

    /// "An accepted CONFIRM has that sequence, UNS 0, and comes no later than the confirm time; it
    /// ends the wait, releases exactly the events carried, and clears IIN2.3 if the response showed
    /// it and nothing was dropped since."
    fn confirm(&mut self, time: u64, control: u8) -> Result<(), Refusal> {
        let wait = self.wait.as_ref().ok_or(32)?;
        let grace = if on(Fault::ConfirmTimePlus1) { 1 } else { 0 };
        if control & SEQUENCE != wait.sequence
            || control & UNS != 0
            || time - wait.time > u64::from(self.setup.confirm_time) + grace
        {
            if on(Fault::RefusedConfirmEndsWait) {
                self.wait = None;
            }
            return Err(32);
        }
        self.clock = time;
        self.events.release(&wait.carried);
        if wait.showed_warning && (!wait.dropped_since || on(Fault::WarningClearedByOldConfirm)) {
            self.events.warning = false;
        }
        self.wait = None;
        Ok(())
    }

    /// The two indication bytes of an answer that carries these events: "IIN1 bits 1 to 3, events
    /// of that class held and not in this response".
    fn indications(&self, fault: u8, carried: &[u64]) -> [u8; 2] {
        let mut iin = [0, fault];
        let mut carried = carried.iter().peekable();
        for event in &self.events.held {
            if carried.peek() == Some(&&event.number) && !on(Fault::ClassBitsAllHeld) {
                carried.next();
            } else {
                iin[0] |= 1 << event.class;
            }
        }
        if self.restarted {
            iin[0] |= RESTARTED;
        }
        if self.events.warning {
            iin[1] |= EVENTS_DROPPED;
        }
        iin
    }

    /// An answer without CON that carries no events.
    fn answer(&self, sequence: u8, fault: u8, objects: &[u8]) -> Vec<u8> {
        let iin = self.indications(fault, &[]);
        let mut answer = vec![FIR | FIN | sequence, RESPONSE, iin[0], iin[1]];
        answer.extend_from_slice(objects);
        answer
    }

    fn read(&mut self, sequence: u8, objects: &[u8], wait: Option<Wait>) -> Vec<u8> {
        let asked = match self.walk(objects) {
            Ok(asked) => asked,
            Err(fault) => {
                if on(Fault::FaultKeepsWait) {
                    self.wait = wait;
                }
                // "A fault returns no objects."
                return self.answer(sequence, fault, &[]);
            }
        };
        let (carried, event_part) = self.pick_events(asked.classes, asked.static_part.len());
        let iin = self.indications(0, &carried);
        // "CON is set exactly on a faultless READ's answer with an event or IIN2.3."
        let warning = self.events.warning;
        let con = !carried.is_empty() || (warning && !on(Fault::ConWithoutEvents));
        let control = FIR | FIN | (if con { CON } else { 0 }) | sequence;
        let mut answer = vec![control, RESPONSE, iin[0], iin[1]];
        answer.extend_from_slice(&event_part);
        answer.extend_from_slice(&asked.static_part);
        if con {
            self.wait = Some(Wait {
                sequence,
                time: self.clock,
                carried,
                showed_warning: warning,
                dropped_since: false,
            });
        }
        answer
    }

    /// A READ's headers: "Left to right, the first fault decides".
    fn walk(&self, objects: &[u8]) -> Result<Asked, u8> {
        let mut asked = Asked { classes: 0, static_part: Vec::new() };
        let mut rest = objects;
        let mut headers = 0;
        while !rest.is_empty() {
            let most = if on(Fault::Headers17) { 17 } else { 16 };
            if headers == most {
                return Err(BAD_PARAMETER);
            }
            if rest.len() < 3 {
                return Err(BAD_PARAMETER);
            }
            let (group, variation, qualifier) = (rest[0], rest[1], rest[2]);
            rest = &rest[3..];
            // "object" is group and variation (R3.2).
            match (group, variation) {
                (60, 1..=4) | (1, 0) | (1, 2) | (30, 0) => {}
                _ if on(Fault::UnknownObject22) => return Err(BAD_PARAMETER),
                _ => return Err(OBJECT_UNKNOWN),
            }
            let width = match (group, qualifier) {
                (_, 0x06) => 0,
                (1 | 30, 0x00) => 1,
                (1 | 30, 0x01) => 2,
                _ => return Err(BAD_PARAMETER),
            };
            if rest.len() < 2 * width {
                return Err(BAD_PARAMETER);
            }
            let points = if group == 1 { self.binaries.len() } else { self.analogs.len() };
            // First point and the one after the last.
            let (start, end) = if width == 0 {
                (0, points)
            } else {
                let (start, stop) = (number(&rest[..width]), number(&rest[width..2 * width]));
                if start > stop || stop >= points {
                    return Err(BAD_PARAMETER);
                }
                (start, stop + 1)
            };
            rest = &rest[2 * width..];
            match (group, variation) {
                (60, 1) => {
                    // "class 0 gives binaries, then analogs"
                    self.static_binaries(0, self.binaries.len(), &mut asked.static_part);
                    self.static_analogs(0, self.analogs.len(), &mut asked.static_part);
                }
                (60, _) => asked.classes |= 1 << (variation - 1),
                (1, _) => self.static_binaries(start, end, &mut asked.static_part),
                _ => self.static_analogs(start, end, &mut asked.static_part),
            }
            headers += 1;
        }
        // "then static part plus 4 above 2,048, 2.2"
        if asked.static_part.len() + 4 > fit() {
            return Err(BAD_PARAMETER);
        }
        Ok(asked)
    }

    /// Binaries from `start` to before `end`, 1 var 2, under one header; none if there are none.
    fn static_binaries(&self, start: usize, end: usize, out: &mut Vec<u8>) {
        if start == end {
            return;
        }
        static_header(1, 2, start, end, out);
        for point in &self.binaries[start..end] {
            let (state, flags) = point.shown();
            put_value(Value::State(state), flags, out);
        }
    }

    /// Analogs likewise, "neighbours of one kind under one header".
    fn static_analogs(&self, start: usize, end: usize, out: &mut Vec<u8>) {
        let mut first = start;
        while first < end {
            let variation = static_variation(self.analogs[first].shown().0);
            let mut next = first + 1;
            while next < end
                && static_variation(self.analogs[next].shown().0) == variation
                && !on(Fault::StaticAlone)
            {
                next += 1;
            }
            static_header(30, variation, first, next, out);
            for point in &self.analogs[first..next] {
                let (value, flags) = point.shown();
                put_value(value, flags, out);
            }
            first = next;
        }
    }

    /// Events of the asked classes, "oldest first, each once, up to the first that would not fit
    /// beside the static part": their numbers and their bytes.
    fn pick_events(&self, classes: u8, static_size: usize) -> (Vec<u64>, Vec<u8>) {
        let mut room = fit() - 4 - static_size;
        // Runs of one group and variation.
        let mut runs: Vec<((u8, u8), Vec<&Event>)> = Vec::new();
        let mut carried = Vec::new();
        for event in self.events.held.iter().filter(|event| classes & 1 << event.class != 0) {
            let object = event_object(event.value);
            let joins = runs.last().is_some_and(|(kind, _)| *kind == object);
            let size = 2 + value_size(event.value) + 6 + if joins { 0 } else { 5 };
            if size > room {
                if on(Fault::EventPastFit) {
                    continue;
                }
                break;
            }
            room -= size;
            carried.push(event.number);
            if joins {
                runs.last_mut().expect("joined").1.push(event);
            } else {
                runs.push((object, vec![event]));
            }
        }
        let mut out = Vec::new();
        for ((group, variation), events) in runs {
            let mut count = events.len() as u16;
            if on(Fault::RunCountWrong) && count > 2 {
                count -= 1;
            }
            out.extend_from_slice(&[group, variation, 0x28]);
            out.extend_from_slice(&count.to_le_bytes());
            for event in events {
                out.extend_from_slice(&u16::from(event.index).to_le_bytes());
                put_value(event.value, event.flags, &mut out);
                out.extend_from_slice(&event.time.to_le_bytes()[..6]);
            }
        }
        (carried, out)
    }

    /// "WRITE: only 80 var 1, qualifier 00, 7 to 7, byte 00: clears restart before answering."
    fn write(&mut self, sequence: u8, objects: &[u8]) -> Vec<u8> {
        let fault = if objects.len() < 3 {
            BAD_PARAMETER
        } else if objects[0..2] != [80, 1] {
            OBJECT_UNKNOWN
        } else if objects[2..] != [0x00, 7, 7, 0x00] {
            BAD_PARAMETER
        } else {
            0
        };
        if on(Fault::RestartBitKept) {
            let answer = self.answer(sequence, fault, &[]);
            self.restarted = self.restarted && fault != 0;
            return answer;
        }
        if fault == 0 {
            self.restarted = false;
        }
        self.answer(sequence, fault, &[])
    }

    /// The objects of a control request, or its fault.
    fn controls(&self, objects: &[u8]) -> Result<Vec<Control>, u8> {
        let controls = control::parse(objects)?;
        let none = self.setup.set_points.is_empty() && Group::of(objects) == Group::SetPoints;
        if none && on(Fault::SetUnknownWithout) {
            return Err(OBJECT_UNKNOWN);
        }
        Ok(controls)
    }

    fn select(&mut self, sequence: u8, objects: &[u8], latch: Option<Latch>) -> Vec<u8> {
        let controls = match self.controls(objects) {
            Ok(controls) => controls,
            Err(fault) => {
                if on(Fault::LatchKept) {
                    self.latch = latch;
                }
                return self.answer(sequence, fault, &[]);
            }
        };
        let mut group = Group::of(objects);
        let statuses = control::statuses(&controls, &self.setup);
        if latch.as_ref().is_some_and(|latch| latch.group != group) && on(Fault::SelectOtherKept) {
            self.latch = latch;
            return self.answer(sequence, 0, &control::echo(objects, &statuses));
        }
        if on(Fault::SetArmsRelays) {
            group = Group::Relays;
        }
        // "SELECT with all statuses 0 arms it".
        if controls.iter().zip(&statuses).all(|(control, &status)| {
            status == 0
                || control.on(Fault::PulseArms, Fault::SetArms)
                    && control.refused_for_value(&self.setup)
        }) {
            let time = self.clock;
            self.latch = Some(Latch { group, sequence, time, objects: objects.to_vec() });
        }
        self.answer(sequence, 0, &control::echo(objects, &statuses))
    }

    fn operate(
        &mut self,
        sequence: u8,
        objects: &[u8],
        latch: Option<Latch>,
        operated: &mut Vec<Control>,
    ) -> Vec<u8> {
        let controls = match self.controls(objects) {
            Ok(controls) => controls,
            Err(fault) => return self.answer(sequence, fault, &[]),
        };
        let status = control::operate_status(
            latch.as_ref(),
            sequence,
            self.clock,
            objects,
            self.setup.arm_time,
        );
        let statuses = control::operate_statuses(&controls, status, &self.setup);
        if status == 0 {
            operated.extend(controls);
        }
        self.answer(sequence, 0, &control::echo(objects, &statuses))
    }

    /// "Direct operation carries out those with 0."
    fn direct_operate(
        &mut self,
        sequence: u8,
        objects: &[u8],
        operated: &mut Vec<Control>,
    ) -> Vec<u8> {
        let controls = match self.controls(objects) {
            Ok(controls) => controls,
            Err(fault) => return self.answer(sequence, fault, &[]),
        };
        let statuses = control::statuses(&controls, &self.setup);
        for (control, &status) in controls.iter().zip(&statuses) {
            if status == 0
                || control.on(Fault::PulseCarried, Fault::SetCarried)
                    && control.refused_for_value(&self.setup)
            {
                operated.push(*control);
            }
        }
        self.answer(sequence, 0, &control::echo(objects, &statuses))
    }
}

/// 31: "under 2 or over 2,048 bytes; FIR, FIN or CON wrong; UNS outside CONFIRM; function 128 or
/// more; CONFIRM not 2 bytes".
fn test_shape(bytes: &[u8]) -> Result<(), Refusal> {
    let most = if on(Fault::LongFragment) { FRAGMENT + 1 } else { FRAGMENT };
    if bytes.len() < 2 || bytes.len() > most {
        return Err(31);
    }
    let (control, function) = (bytes[0], bytes[1]);
    if control & (FIR | FIN | CON) != FIR | FIN {
        return Err(31);
    }
    if control & UNS != 0 && (function != CONFIRM || on(Fault::ConfirmUns31)) {
        return Err(31);
    }
    if function >= 128 {
        return Err(31);
    }
    if function == CONFIRM && bytes.len() != 2 {
        return Err(31);
    }
    Ok(())
}

/// "Fragments are at most 2,048 bytes".
fn fit() -> usize {
    if on(Fault::Fit2047) {
        FRAGMENT - 1
    } else {
        FRAGMENT
    }
}

fn number(bytes: &[u8]) -> usize {
    bytes.iter().rev().fold(0, |high, &byte| high * 256 + usize::from(byte))
}

/// Qualifier 01: start and stop of two bytes each.
fn static_header(group: u8, variation: u8, start: usize, end: usize, out: &mut Vec<u8>) {
    out.extend_from_slice(&[group, variation, 0x01]);
    out.extend_from_slice(&(start as u16).to_le_bytes());
    out.extend_from_slice(&(end as u16 - 1).to_le_bytes());
}

/// "30 var 1, 2, 5".
fn static_variation(value: Value) -> u8 {
    match value {
        Value::State(_) => unreachable!("no analog"),
        Value::Whole32(_) => 1,
        Value::Whole16(_) => 2,
        Value::Float(_) => 5,
    }
}

/// "Events are 2 var 2, 32 var 3 (32-bit), 4 (16-bit), 7 (float)".
fn event_object(value: Value) -> (u8, u8) {
    match value {
        Value::State(_) => (2, 2),
        Value::Whole32(_) => (32, 3),
        Value::Whole16(_) => (32, 4),
        Value::Float(_) => (32, 7),
    }
}

/// Size of flags and value.
fn value_size(value: Value) -> usize {
    match value {
        Value::State(_) => 1,
        Value::Whole32(_) | Value::Float(_) => 5,
        Value::Whole16(_) => 3,
    }
}

/// Flags, then the value; a binary's state is bit 7 of its flags.
fn put_value(value: Value, flags: u8, out: &mut Vec<u8>) {
    match value {
        Value::State(state) => out.push(flags | if state { 0x80 } else { 0 }),
        Value::Whole32(value) => {
            out.push(flags);
            out.extend_from_slice(&value.to_le_bytes());
        }
        Value::Whole16(value) => {
            out.push(flags);
            out.extend_from_slice(&value.to_le_bytes());
        }
        Value::Float(value) => {
            out.push(flags);
            out.extend_from_slice(&value.to_bits().to_le_bytes());
        }
    }
}
