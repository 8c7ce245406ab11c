//! The text interface: one call a line in, one answer a line out.
//!
//! The grammar, exactly (README.md gives the reasons and the ranges):
//!
//! - A line ends with LF; the last may lack it. CR is a byte like any other, so it makes a fault.
//! - First its length: above 65,536 bytes, LF not counted, it is a fault, whatever it begins with.
//!   Then: an empty line, or one whose first byte is `#`, is skipped without an answer. Any other
//!   line is a call or a fault.
//! - Words are separated by exactly one space (20). A space at either end, or two together, is a
//!   fault. The calls' names are small letters as written. The number of words is exact.
//! - NUMBER: `0`, or a digit 1 to 9 and more digits. No sign, no leading zeros.
//! - SIGNED: NUMBER, or `-` and a NUMBER that is not `0`. So `-0` and `+1` are faults.
//! - CC: two, F32: eight digits 0-9 A-F. HEX: `-`, or an even number of them, at least two.
//! - The parts of RECORD, ANALOG, SETPOINT and the line record are separated by exactly one comma.
//! - A value outside its word's range is a fault.
//! - Order: a line that is no call is `fault`, outstation or not, and changes nothing; then a call
//!   marked * with no outstation is `none`; then the call is made.

use crate::application::Outcome;
use crate::control::{Control, Object};
use crate::crc::check_bytes;
use crate::events::Event;
use crate::faults::{on, Fault};
use crate::frame::{self, Frame, FrameRefusal};
use crate::link::{self, Heard, LineRecord};
use crate::outstation::{Outstation, Setup};
use crate::points::{Form, Gate, Reading, Taken, Value};
use crate::receiver::Receiver;
use crate::set_points::SetPoint;
use crate::transport::Assembled;
use crate::Refusal;

/// Longest line, and greatest LEN.
pub const LINE: usize = 65_536;
pub const LENT: usize = 65_536;
/// Most records of a table.
pub const RECORDS: usize = 128;
/// Words given at most for the binaries, and for the analogs, of a setup.
pub const POINTS: usize = 64;
/// Words given at most for the set points of a setup.
pub const SET_POINTS: usize = 16;

/// What lent bytes are filled with.
const FILL: u8 = 0xA5;

/// A line of a script, read. Lent lengths come first (after the time of a fragment).
#[derive(Clone, Debug)]
pub enum Call {
    Setup(Setup),
    Restart,
    Reading(Reading),
    Table(Vec<Reading>),
    Frag(u64, usize, Vec<u8>),
    Held,
    Station(usize, Vec<u8>),
    Record(LineRecord),
    Seg(usize, Vec<u8>),
    Send(usize, Vec<u8>),
    FrameWrite(usize, u8, u16, u16, Vec<u8>),
    FrameRead(usize, Vec<u8>),
    Piece(usize, Vec<u8>),
    Crc(Vec<u8>),
}

/// The host: it keeps the line record, lends the bytes, and looks at them after the call.
pub struct Host {
    pub outstation: Option<Outstation>,
    pub record: LineRecord,
    pub receiver: Receiver,
    lent: Vec<u8>,
    /// `seg` calls lend the front of this one buffer throughout; filled at `setup`.
    assembly: Vec<u8>,
    before: Vec<u8>,
}

impl Default for Host {
    fn default() -> Self {
        Host {
            outstation: None,
            record: LineRecord::default(),
            receiver: Receiver::default(),
            lent: vec![FILL; LENT],
            assembly: vec![FILL; LENT],
            before: vec![FILL; LENT],
        }
    }
}

impl Host {
    /// Answers one line (without its LF); nothing is added for a line that is skipped.
    pub fn line(&mut self, line: &[u8], out: &mut Vec<u8>) {
        if line.len() <= LINE && (line.is_empty() || line[0] == b'#') {
            return;
        }
        let call = if line.len() > LINE { None } else { parse(line) };
        match call {
            None => out.extend_from_slice(b"fault"),
            Some(call) => self.call(call, out),
        }
        out.push(b'\n');
    }

    fn call(&mut self, call: Call, out: &mut Vec<u8>) {
        match call {
            Call::Setup(setup) => {
                self.assembly.fill(FILL);
                let made = Outstation::new(setup);
                if made.is_ok() || !on(Fault::PieceKeptByRefused) {
                    self.receiver = Receiver::default();
                }
                match made {
                    Ok(outstation) => {
                        self.outstation = Some(outstation);
                        out.extend_from_slice(b"ok");
                    }
                    Err(refusal) => {
                        self.outstation = None;
                        no(refusal, out);
                    }
                }
            }
            Call::Record(record) => {
                self.record = record;
                out.extend_from_slice(b"ok");
            }
            Call::FrameWrite(len, control, destination, source, user) => {
                let lent = lend(&mut self.lent, len);
                let written = frame::write(control, destination, source, &user, lent);
                match written {
                    Ok(size) => {
                        out.extend_from_slice(b"frame ");
                        put_hex(&lent[..size], out);
                    }
                    Err(refusal) => no(refusal, out),
                }
                spoilt(&lent[written.unwrap_or(0)..], out);
            }
            Call::FrameRead(len, bytes) => {
                let lent = lend(&mut self.lent, len);
                let read = frame::read(&bytes, lent);
                let mut size = 0;
                match read {
                    Ok(frame) => {
                        size = frame.user.len();
                        put_user(&frame, &lent[..size], out);
                    }
                    Err(refusal) => no_frame(refusal, out),
                }
                spoilt(&lent[size..], out);
            }
            Call::Piece(len, bytes) => {
                let lent = lend(&mut self.lent, len);
                let (taken, told) = self.receiver.take(&bytes, lent);
                if let (true, Some(told)) = (on(Fault::PieceCounted), &told) {
                    self.record.note(told);
                }
                let mut size = 0;
                match told {
                    Some(Ok(frame)) => {
                        size = frame.user.len();
                        put_user(&frame, &lent[..size], out);
                    }
                    Some(Err(refusal)) => no_frame(refusal, out),
                    None => out.extend_from_slice(b"waits"),
                }
                out.extend_from_slice(format!(" taken {taken}").as_bytes());
                spoilt(&lent[size..], out);
            }
            Call::Crc(bytes) => {
                out.extend_from_slice(b"crc ");
                put_hex(&check_bytes(&bytes), out);
            }
            _ => self.outstation_call(call, out),
        }
    }

    /// The calls marked *.
    fn outstation_call(&mut self, call: Call, out: &mut Vec<u8>) {
        let Some(outstation) = &mut self.outstation else {
            out.extend_from_slice(b"none");
            return;
        };
        match call {
            Call::Restart => {
                outstation.restart();
                if !on(Fault::PieceKeptByRestart) {
                    self.receiver = Receiver::default();
                }
                out.extend_from_slice(b"ok");
            }
            Call::Reading(reading) => match outstation.reading(reading) {
                Ok(()) => out.extend_from_slice(b"ok"),
                Err(refusal) => no(refusal, out),
            },
            Call::Table(readings) => {
                let (taken, refusal) = outstation.table(&readings);
                out.extend_from_slice(format!("took {taken} ").as_bytes());
                match refusal {
                    None => out.extend_from_slice(b"ok"),
                    Some(refusal) => no(refusal, out),
                }
            }
            Call::Frag(time, len, bytes) => {
                let lent = lend(&mut self.lent, len);
                let mut size = 0;
                match outstation.fragment(time, &bytes, lent) {
                    Ok(Outcome::Answer(length, operated)) => {
                        size = length;
                        out.extend_from_slice(b"ans ");
                        put_hex(&lent[..size], out);
                        put_operated(&operated, out);
                    }
                    Ok(Outcome::Mute(operated)) => {
                        out.extend_from_slice(b"mute");
                        put_operated(&operated, out);
                    }
                    Ok(Outcome::Confirmed) => out.extend_from_slice(b"conf"),
                    Err(refusal) => no(refusal, out),
                }
                spoilt(&lent[size..], out);
            }
            Call::Held => {
                let held = &outstation.events.held;
                out.extend_from_slice(format!("held {}", held.len()).as_bytes());
                for event in held {
                    put_event(event, out);
                }
            }
            Call::Station(len, bytes) => {
                let lent = lend(&mut self.lent, len);
                let (own, master) = (outstation.setup.own, outstation.setup.master);
                let mut size = 0;
                match link::station(own, master, &mut self.record, &bytes, lent) {
                    Ok(Heard::UserData(n)) => {
                        size = n;
                        out.extend_from_slice(b"data ");
                        put_hex(&lent[..size], out);
                    }
                    Ok(Heard::Reply(control)) => {
                        let mut reply = [0; frame::FRAME_LENT];
                        let written = frame::write(control, master, own, &[], &mut reply)
                            .expect("292 bytes and no user data");
                        out.extend_from_slice(format!("reply {control:02X} ").as_bytes());
                        put_hex(&reply[..written], out);
                    }
                    Err(refusal) => no_frame(refusal, out),
                }
                out.extend_from_slice(b" rec ");
                let counts = self.record.counts.iter().chain(&self.record.blocks);
                let counts: Vec<String> = counts.map(|count| count.to_string()).collect();
                out.extend_from_slice(counts.join(",").as_bytes());
                spoilt(&lent[size..], out);
            }
            Call::Seg(len, bytes) => {
                let lent = &mut self.assembly[..len];
                let before = &mut self.before[..len];
                before.copy_from_slice(lent);
                let mut size = 0;
                match outstation.transport.hear(&bytes, lent) {
                    Ok(Assembled::More(count)) => {
                        size = count;
                        out.extend_from_slice(b"more");
                    }
                    Ok(Assembled::Whole(count)) => {
                        size = count;
                        out.extend_from_slice(b"whole ");
                        put_hex(&lent[..size], out);
                    }
                    Err(refusal) => no(refusal, out),
                }
                if lent[size..] != before[size..] {
                    out.extend_from_slice(b" spoilt");
                }
            }
            Call::Send(len, bytes) => {
                let lent = lend(&mut self.lent, len);
                let mut segments = Vec::new();
                let mut clean = true;
                let result = outstation.transport.send(&bytes, lent, &mut |lent, size| {
                    segments.push(b' ');
                    put_hex(&lent[..size], &mut segments);
                    clean &= lent[size..].iter().all(|&byte| byte == FILL);
                    lent.fill(FILL);
                });
                match result {
                    Ok(()) => {
                        out.extend_from_slice(b"segs");
                        out.extend_from_slice(&segments);
                    }
                    Err(refusal) => no(refusal, out),
                }
                if !clean {
                    out.extend_from_slice(b" spoilt");
                } else {
                    spoilt(lent, out);
                }
            }
            _ => unreachable!("a call that needs no outstation"),
        }
    }
}

/// Lends `len` bytes, all filled.
fn lend(buffer: &mut [u8], len: usize) -> &mut [u8] {
    let lent = &mut buffer[..len];
    lent.fill(FILL);
    lent
}

fn spoilt(past: &[u8], out: &mut Vec<u8>) {
    if past.iter().any(|&byte| byte != FILL) {
        out.extend_from_slice(b" spoilt");
    }
}

fn no(refusal: Refusal, out: &mut Vec<u8>) {
    out.extend_from_slice(format!("no {refusal}").as_bytes());
}

/// A frame's refusal: `no 15 B` where it carries a block.
fn no_frame(refusal: FrameRefusal, out: &mut Vec<u8>) {
    no(refusal.number(), out);
    if let FrameRefusal::Block(block) = refusal {
        out.extend_from_slice(format!(" {block}").as_bytes());
    }
}

/// `user CC DEST SRC HEX`, the user data as it stands in the lent bytes.
fn put_user(frame: &Frame, user: &[u8], out: &mut Vec<u8>) {
    let Frame { control, destination, source, .. } = frame;
    out.extend_from_slice(format!("user {control:02X} {destination} {source} ").as_bytes());
    put_hex(user, out);
}

pub fn put_hex(bytes: &[u8], out: &mut Vec<u8>) {
    const DIGITS: &[u8; 16] = b"0123456789ABCDEF";
    if bytes.is_empty() {
        out.push(b'-');
    }
    for byte in bytes {
        out.push(DIGITS[usize::from(byte >> 4)]);
        out.push(DIGITS[usize::from(byte & 15)]);
    }
}

fn put_operated(operated: &[Control], out: &mut Vec<u8>) {
    if operated.is_empty() {
        out.extend_from_slice(b" -");
    }
    for Control { index, object } in operated {
        match object {
            Object::Relay(bytes) => {
                out.extend_from_slice(format!(" {index}:").as_bytes());
                put_hex(bytes, out);
            }
            // `V@INDEX:HEX`, value and status bytes (02, 109)
            Object::SetPoint(value, status) => {
                out.extend_from_slice(format!(" {}@{index}:", value.variation()).as_bytes());
                put_hex(&value.bytes(), out);
                put_hex(&[*status], out);
            }
        }
    }
}

fn put_event(event: &Event, out: &mut Vec<u8>) {
    let (kind, value) = match event.value {
        Value::State(state) => ("b", u8::from(state).to_string()),
        Value::Whole32(value) => ("1", value.to_string()),
        Value::Whole16(value) => ("2", value.to_string()),
        Value::Float(value) => ("5", format!("{:08X}", value.to_bits())),
    };
    let text = format!(" {kind},{},{value},{},{}", event.index, event.flags, event.time);
    out.extend_from_slice(text.as_bytes());
}

// Reading the words. None anywhere is a fault of the script.

pub fn parse(line: &[u8]) -> Option<Call> {
    let words: Vec<&[u8]> = line.split(|&byte| byte == b' ').collect();
    let rest = &words[1..];
    match (words[0], rest) {
        (b"setup", _) => Some(Call::Setup(setup(rest)?)),
        (b"restart", []) => Some(Call::Restart),
        (b"bin", [time, index, value, flags]) => {
            Some(Call::Reading(reading(b"b", [time, index, value, flags])?))
        }
        (b"ana", [time, index, value, flags]) => {
            Some(Call::Reading(reading(b"a", [time, index, value, flags])?))
        }
        (b"flt", [time, index, value, flags]) => {
            Some(Call::Reading(reading(b"f", [time, index, value, flags])?))
        }
        (b"table", _) if rest.len() <= RECORDS => {
            let readings: Option<Vec<Reading>> =
                rest.iter().map(|word| record_word(word)).collect();
            Some(Call::Table(readings?))
        }
        (b"frag", [time, len, bytes]) => {
            Some(Call::Frag(number(time, u64::MAX)?, lent_length(len)?, hex(bytes)?))
        }
        (b"held", []) => Some(Call::Held),
        (b"station", [len, bytes]) => Some(Call::Station(lent_length(len)?, hex(bytes)?)),
        (b"record", [counts]) => {
            let counts: Option<Vec<u16>> =
                commas(counts).into_iter().map(|word| Some(number(word, 65_535)? as u16)).collect();
            Some(Call::Record(line_record(&counts?)?))
        }
        (b"seg", [len, bytes]) => Some(Call::Seg(lent_length(len)?, hex(bytes)?)),
        (b"send", [len, bytes]) => Some(Call::Send(lent_length(len)?, hex(bytes)?)),
        (b"frame-write", [len, control, destination, source, user]) => Some(Call::FrameWrite(
            lent_length(len)?,
            control_byte(control)?,
            number(destination, 65_535)? as u16,
            number(source, 65_535)? as u16,
            hex(user)?,
        )),
        (b"frame-read", [len, bytes]) => Some(Call::FrameRead(lent_length(len)?, hex(bytes)?)),
        (b"piece", [len, bytes]) => Some(Call::Piece(lent_length(len)?, hex(bytes)?)),
        (b"crc", [bytes]) => Some(Call::Crc(hex(bytes)?)),
        _ => None,
    }
}

/// `OWN MASTER ARM CONFIRM NB NA NO`, then a word for each binary and each analog, 64 at most of
/// each; then, or not, `s NS` and a word for each set point, 16 at most.
fn setup(words: &[&[u8]]) -> Option<Setup> {
    let [own, master, arm, confirm, nb, na, no, points @ ..] = words else {
        return None;
    };
    let binary_count = number(nb, 255)? as u8;
    let analog_count = number(na, 255)? as u8;
    let binary_words = usize::from(binary_count).min(POINTS);
    let analog_words = usize::from(analog_count).min(POINTS);
    let (binaries, rest) = points.split_at_checked(binary_words)?;
    let (analogs, rest) = rest.split_at_checked(analog_words)?;
    let binaries: Option<Vec<u8>> =
        binaries.iter().map(|word| Some(number(word, 255)? as u8)).collect();
    let analogs: Option<Vec<(u8, Form)>> = analogs.iter().map(|word| analog_word(word)).collect();
    let (set_point_count, set_points) = match rest {
        [] => (0, rest),
        [b"s", count, set_points @ ..] => (number(count, 255)? as u8, set_points),
        _ => return None,
    };
    if set_points.len() != usize::from(set_point_count).min(SET_POINTS) {
        return None;
    }
    let set_points: Option<Vec<SetPoint>> =
        set_points.iter().map(|word| set_point_word(word)).collect();
    Some(Setup {
        own: number(own, 65_535)? as u16,
        master: number(master, 65_535)? as u16,
        arm_time: number(arm, 0xFFFF_FFFF)? as u32,
        confirm_time: number(confirm, 0xFFFF_FFFF)? as u32,
        binary_count,
        analog_count,
        outputs: number(no, 255)? as u8,
        set_point_count,
        binaries: binaries?,
        analogs: analogs?,
        set_points: set_points?,
    })
}

/// `CLASS,KIND,GAIN,OFFSET,GATE,LIMIT`.
fn analog_word(word: &[u8]) -> Option<(u8, Form)> {
    let [class, kind, gain, offset, gate, limit] = commas(word)[..] else {
        return None;
    };
    let class = number(class, 255)? as u8;
    let form = match kind {
        b"1" | b"2" => {
            if gain != b"-" || offset != b"-" {
                return None;
            }
            let gate = gate_words(gate, limit, |word| signed(word, i64::MIN, i64::MAX))?;
            if kind == b"1" {
                Form::Whole32(gate)
            } else {
                Form::Whole16(gate)
            }
        }
        b"5" => Form::Float {
            gain: float(gain)?,
            offset: float(offset)?,
            gate: gate_words(gate, limit, float)?,
        },
        _ => return None,
    };
    Some((class, form))
}

fn gate_words<L>(gate: &[u8], limit: &[u8], read: impl Fn(&[u8]) -> Option<L>) -> Option<Gate<L>> {
    match (gate, limit) {
        (b"0", b"-") => Some(Gate::Never),
        (b"1", b"-") => Some(Gate::AnyChange),
        (b"2", _) => Some(Gate::Beyond(read(limit)?)),
        (b"3", _) => Some(Gate::Summed(read(limit)?)),
        _ => None,
    }
}

/// `KIND,LOW,HIGH` (02, 109).
fn set_point_word(word: &[u8]) -> Option<SetPoint> {
    let [kind, low, high] = commas(word)[..] else {
        return None;
    };
    let whole = |word| signed(word, i64::MIN, i64::MAX);
    match kind {
        b"1" => Some(SetPoint::Whole32(whole(low)?, whole(high)?)),
        b"2" => Some(SetPoint::Whole16(whole(low)?, whole(high)?)),
        b"3" => Some(SetPoint::Float(float(low)?, float(high)?)),
        _ => None,
    }
}

/// The record of 23 counts; "7 are still taken and set the blocks' counts to 0".
fn line_record(counts: &[u16]) -> Option<LineRecord> {
    let (counts, blocks) = counts.split_at_checked(7)?;
    let blocks = if blocks.is_empty() { [0; 16] } else { blocks.try_into().ok()? };
    Some(LineRecord { counts: counts.try_into().ok()?, blocks })
}

/// `b,T,I,V,F`, `a,T,I,V,F` or `f,T,I,F32,F`.
fn record_word(word: &[u8]) -> Option<Reading> {
    let [letter, time, index, value, flags] = commas(word)[..] else {
        return None;
    };
    reading(letter, [time, index, value, flags])
}

fn reading(letter: &[u8], [time, index, value, flags]: [&[u8]; 4]) -> Option<Reading> {
    let value = match letter {
        b"b" => Taken::Binary(number(value, 1)? == 1),
        b"a" => Taken::Whole(signed(value, i64::from(i32::MIN), i64::from(i32::MAX))? as i32),
        b"f" => Taken::Float(float(value)?),
        _ => return None,
    };
    Some(Reading {
        time: number(time, u64::MAX)?,
        index: number(index, 255)? as u8,
        value,
        flags: number(flags, 255)? as u8,
    })
}

fn commas(word: &[u8]) -> Vec<&[u8]> {
    word.split(|&byte| byte == b',').collect()
}

fn lent_length(word: &[u8]) -> Option<usize> {
    Some(number(word, LENT as u64)? as usize)
}

/// NUMBER, at most `most`.
fn number(word: &[u8], most: u64) -> Option<u64> {
    if word.is_empty() || (word.len() > 1 && word[0] == b'0') {
        return None;
    }
    let mut value: u64 = 0;
    for &byte in word {
        if !byte.is_ascii_digit() {
            return None;
        }
        value = value.checked_mul(10)?.checked_add(u64::from(byte - b'0'))?;
    }
    (value <= most).then_some(value)
}

/// SIGNED, from `least` to `most`.
fn signed(word: &[u8], least: i64, most: i64) -> Option<i64> {
    let value = match word {
        [b'-', digits @ ..] => {
            let size = number(digits, 1 << 63)?;
            if size == 0 {
                return None;
            }
            // 2^63 has no positive i64, so it is taken through i128.
            i64::try_from(-i128::from(size)).ok()?
        }
        _ => number(word, i64::MAX as u64)? as i64,
    };
    (least..=most).contains(&value).then_some(value)
}

fn digit(byte: u8) -> Option<u8> {
    match byte {
        b'0'..=b'9' => Some(byte - b'0'),
        b'A'..=b'F' => Some(byte - b'A' + 10),
        _ => None,
    }
}

fn hex(word: &[u8]) -> Option<Vec<u8>> {
    if word == b"-" {
        return Some(Vec::new());
    }
    if word.is_empty() || word.len() % 2 == 1 {
        return None;
    }
    word.chunks(2).map(|pair| Some(digit(pair[0])? << 4 | digit(pair[1])?)).collect()
}

fn control_byte(word: &[u8]) -> Option<u8> {
    match (word.len(), hex(word)) {
        (2, Some(bytes)) => Some(bytes[0]),
        _ => None,
    }
}

/// F32: the bit pattern, highest first.
fn float(word: &[u8]) -> Option<f32> {
    match (word.len(), hex(word)) {
        (8, Some(bytes)) => Some(f32::from_bits(u32::from_be_bytes(bytes.try_into().ok()?))),
        _ => None,
    }
}

#[cfg(test)]
mod tests {
    use super::*;

    fn answers(script: &str) -> String {
        let mut host = Host::default();
        let mut out = Vec::new();
        for line in script.lines() {
            host.line(line.as_bytes(), &mut out);
        }
        String::from_utf8(out).unwrap()
    }

    #[test]
    fn numbers_are_strict() {
        for word in ["", "00", "01", "+1", "-1", "1 ", "1a", "18446744073709551616", "٣"] {
            assert_eq!(number(word.as_bytes(), u64::MAX), None, "{word}");
        }
        assert_eq!(number(b"18446744073709551615", u64::MAX), Some(u64::MAX));
        for word in ["-0", "--1", "-", "-01", "-9223372036854775809", "9223372036854775808"] {
            assert_eq!(signed(word.as_bytes(), i64::MIN, i64::MAX), None, "{word}");
        }
        assert_eq!(signed(b"-9223372036854775808", i64::MIN, i64::MAX), Some(i64::MIN));
        assert_eq!(signed(b"9223372036854775807", i64::MIN, i64::MAX), Some(i64::MAX));
    }

    #[test]
    fn fault_before_none_before_call() {
        assert_eq!(
            answers("held\nheld \nbin 0 0 2 0\nbin 0 0 1 0\n# no\n\ncrc -\n"),
            "none\nfault\nfault\nnone\ncrc FFFF\n"
        );
    }

    #[test]
    fn set_points_of_a_setup() {
        let words = |words: &str| answers(&format!("setup 1 2 5000 5000 0 0 0{words}"));
        assert_eq!(words(" s 0"), "ok\n");
        assert_eq!(words(" s 2 1,-5,7 3,00000000,80000000"), "ok\n");
        assert_eq!(words(" s 1 2,-32769,0"), "no 5\n");
        assert_eq!(words(&format!(" s 17{}", " 1,0,0".repeat(16))), "no 5\n");
        for wrong in [" s", " s 1", " s 0 1,0,0", " s 1 4,0,0", " s 1 3,0,0", " c 0", " S 0"] {
            assert_eq!(words(wrong), "fault\n", "{wrong}");
        }
        assert_eq!(words(&format!(" s 17{}", " 1,0,0".repeat(17))), "fault\n");
    }

    #[test]
    fn the_example() {
        let script = "setup 1 2 5000 5000 4 0 16 0 0 0 1\nfrag 0 2048 C117\n\
            frag 0 2048 C002500100070700\nbin 500 3 0 1\nbin 1000 3 1 1\n\
            frag 1000 2048 C3013C0206\nfrag 1000 2048 C400\nfrag 1000 2048 C300\n";
        assert_eq!(
            answers(script),
            "ok\nans C1818001 -\nans C0810000 -\nok\nok\n\
             ans E38100000202280100030081E80300000000 -\nno 32\nconf\n"
        );
    }
}
