//! The work of the program `bench` in ordinary Rust: the same lines, the same input, the same checksums.
#![allow(dead_code)]
mod control;
mod events;
mod frame;
mod outstation;
mod points;
mod read;
mod receiver;

use control::Operated;
use events::{Buffer, Event, Shown};
use frame::FrameError;
use outstation::{Answer, FragmentError, Measured, Outstation, Reading};
use points::{
    AnalogPoint, BinaryPoint, FloatTrack, Gate, Measure, Points, ReadingError, Scale, Value,
    WholeTrack,
};
use receiver::{Received, Receiver};

const COUNT_MAX: u64 = 1_000_000_000_000;

fn fold(sum: u64, x: u64) -> u64 {
    sum.rotate_left(1).wrapping_add(x)
}

fn nothing(count: u64) -> u64 {
    let mut sum = 1;
    for left in (1..=count).rev() {
        sum = fold(sum, left);
    }
    sum
}

fn fill(s: &mut [u8], first: u8) {
    let mut b = first;
    for x in s {
        *x = b;
        b = b.wrapping_add(37);
    }
}

fn frame_write(count: u64, check: impl Fn(&[u8]) -> u16 + Copy) -> u64 {
    let mut out = [0u8; 292];
    let mut user = [0u8; 250];
    fill(&mut user, 1);
    let mut sum = 1u64;
    for _ in 0..count {
        let k = (sum % 250) as usize;
        user[k] = sum as u8;
        if let Ok(n) = frame::write_frame(&mut out, 68, 1, 10, &user, check) {
            sum = fold(sum, n as u64 + out[k] as u64);
        }
    }
    sum
}

fn frame_read(count: u64, check: impl Fn(&[u8]) -> u16 + Copy) -> u64 {
    let mut user = [0u8; 250];
    let mut one = [0u8; 292];
    let mut other = [0u8; 292];
    let mut out = [0u8; 250];
    fill(&mut user, 1);
    let _ = frame::write_frame(&mut one, 68, 1, 10, &user, check);
    fill(&mut user, 2);
    let _ = frame::write_frame(&mut other, 196, 1, 10, &user, check);
    let mut sum = 1u64;
    for left in (1..=count).rev() {
        let k = (sum % 250) as usize;
        let s = if left % 2 == 0 { &one } else { &other };
        if let Ok(f) = frame::read_frame(s, &mut out, check) {
            sum = fold(sum, f.len as u64 + f.control as u64 + out[k] as u64);
        }
    }
    sum
}

fn value_of(v: Value) -> u64 {
    match v {
        Value::Long(z) => z.unsigned_abs() as u64,
        Value::Short(_) => 1,
        Value::Real(_) => 2,
    }
}

/// Its kind hangs on the count, so that no compiler knows it before the run.
fn one_point(count: u64) -> AnalogPoint {
    let gate = if count == COUNT_MAX - 1 {
        Gate::Summed(100)
    } else {
        Gate::Beyond(100)
    };
    let track = WholeTrack::new(gate);
    AnalogPoint::new(
        1,
        if count == COUNT_MAX {
            Measure::Short(track)
        } else {
            Measure::Long(track)
        },
    )
}

fn reading(count: u64) -> u64 {
    let mut p = one_point(count);
    let mut sum = 1u64;
    for left in (1..=count).rev() {
        if let Ok(raised) = p.read_whole((left % 4096) as i32, 1) {
            sum = fold(sum, value_of(p.value) + raised as u64);
        }
    }
    sum
}

// The point's record in and out by value, in a call of its own as in the proved program.
#[inline(never)]
fn read_by_value(mut p: AnalogPoint, z: i32, flags: u8) -> (AnalogPoint, bool) {
    let raised = p.read_whole(z, flags).unwrap_or(false);
    (p, raised)
}

fn reading_by_value(count: u64) -> u64 {
    let mut p = one_point(count);
    let mut sum = 1u64;
    for left in (1..=count).rev() {
        let (next, raised) = read_by_value(p, (left % 4096) as i32, 1);
        p = next;
        sum = fold(sum, value_of(p.value) + raised as u64);
    }
    sum
}

fn digest(sum: u64, b: &Buffer) -> u64 {
    b.held.iter().fold(sum, |s, h| {
        fold(fold(s, h.event.time), h.event.point as u64)
    })
}

/// The checksum with every byte.
fn fold_all(sum: u64, s: &[u8]) -> u64 {
    s.iter().fold(sum, |sum, &b| fold(sum, b as u64))
}

fn analog_of(i: usize) -> AnalogPoint {
    let mut a = match i % 3 {
        0 => AnalogPoint::new(2, Measure::Long(WholeTrack::new(Gate::AnyChange))),
        1 => AnalogPoint::new(2, Measure::Short(WholeTrack::new(Gate::AnyChange))),
        _ => {
            let scale = Scale {
                gain: 1.0,
                offset: 0.5,
            };
            AnalogPoint::new(2, Measure::Real(FloatTrack::new(Gate::AnyChange, scale)))
        }
    };
    let _ = if i % 3 == 2 {
        a.read_float(2.25, 1)
    } else {
        a.read_whole(i as i32, 1)
    };
    a
}

fn binary_of(state: bool, flags: u8) -> BinaryPoint {
    let mut b = BinaryPoint::new(1);
    let _ = b.read(state, flags);
    b
}

/// So many points of each kind, all read once.
fn read_points(n: usize) -> Points {
    Points {
        binaries: [binary_of(true, 1); 64],
        binary_count: n,
        analogs: std::array::from_fn(analog_of),
        analog_count: n,
    }
}

/// The objects of a response alone.
fn class_0(count: u64, n: usize) -> u64 {
    let mut out = [0u8; 2048];
    let request = [60u8, 1, 6];
    let mut p = read_points(n);
    let mut b = Buffer::new();
    let mut sum = 1u64;
    for left in (1..=count).rev() {
        p.binaries[(left % 64) as usize] = binary_of(left % 3 == 0, 1);
        let size = read::respond(&mut out, &request, &p, &mut b).unwrap_or(4);
        sum = fold(sum, size as u64 + out[(sum % 1024) as usize] as u64);
    }
    digest(fold_all(sum, &out), &b)
}

fn fresh_outstation(n: usize) -> Outstation {
    let a = AnalogPoint::new(2, Measure::Long(WholeTrack::new(Gate::Beyond(100))));
    Outstation::new(Points {
        binaries: [BinaryPoint::new(1); 64],
        binary_count: n,
        analogs: [a; 64],
        analog_count: n,
    })
}

fn accepted(r: Result<(), ReadingError>) -> u64 {
    match r {
        Ok(()) => 1,
        Err(ReadingError::Time) => 2,
        Err(ReadingError::NoPoint) => 3,
        Err(ReadingError::NotFinite) => 4,
        Err(ReadingError::HostFlags) => 5,
    }
}

/// The next of n points, from the first again after the last.
fn following(point: u16, n: usize) -> u16 {
    if (point as usize) + 1 < n {
        point + 1
    } else {
        0
    }
}

fn outstation_reading(count: u64, n: usize) -> u64 {
    let mut o = fresh_outstation(n);
    let mut point = 0;
    let mut state = true;
    let mut sum = 1u64;
    for left in (1..=count).rev() {
        if left % 256 == 0 {
            o.buffer.count = 0;
        }
        let r = o.binary_reading(count - left, point, state, 1);
        sum = fold(sum, accepted(r) + o.clock);
        point = following(point, n);
        state ^= point == 0;
    }
    digest(sum, &o.buffer)
}

/// The kinds and the classes take turns.
fn event_at(i: u64) -> Event {
    let shown = match i % 4 {
        0 => Shown::State(i % 8 == 0),
        1 => Shown::Analog(Value::Long((i % 4096) as i32)),
        2 => Shown::Analog(Value::Short((i % 4096) as i16)),
        _ => Shown::Analog(Value::Real(2.25)),
    };
    Event {
        point: (i % 64) as u16,
        shown,
        flags: 1,
        time: i,
        class: (i % 3 + 1) as u8,
    }
}

/// 64 points of each kind, the binaries read once, and n held events.
fn holding(n: usize) -> Outstation {
    let mut o = fresh_outstation(64);
    for point in 0..64 {
        let _ = o.binary_reading(0, point, false, 1);
    }
    for i in 0..n as u64 {
        o.buffer.push(event_at(i));
    }
    o
}

/// Before each reading what the last one changed is set back: the clock, the point and the count.
fn held_reading(count: u64, n: usize) -> u64 {
    let full = holding(n);
    let mut o = full;
    let mut sum = 1u64;
    for left in (1..=count).rev() {
        let point = (left % 64) as u16;
        let r = o.binary_reading(left, point, true, 1);
        sum = fold(sum, accepted(r) + o.clock + o.buffer.count as u64);
        o.clock = full.clock;
        o.points.binaries[point as usize] = full.points.binaries[point as usize];
        o.buffer.count = n;
    }
    let _ = o.binary_reading(1, 0, true, 1);
    digest(sum, &o.buffer)
}

fn fold_answer(sum: u64, r: Result<Answer, FragmentError>, out: &[u8]) -> u64 {
    let x = match r {
        Ok(Answer::Response(n)) => n as u64 + out[(sum % 2048) as usize] as u64,
        Ok(Answer::Confirmed) => 1,
        Ok(Answer::Silent) => 2,
        Err(FragmentError::Time) => 3,
        Err(FragmentError::Malformed) => 4,
        Err(FragmentError::NotConfirmed) => 5,
        Err(FragmentError::OutputTooSmall) => 6,
    };
    fold(sum, x)
}

/// A READ of class 0 as a fragment.
fn class_0_fragment(count: u64, n: usize) -> u64 {
    let (mut ask, mut out) = ([192u8, 1, 60, 1, 6], [0u8; 2048]);
    let mut operated = Operated::default();
    let mut o = Outstation::new(read_points(n));
    let mut sum = 1u64;
    for left in (1..=count).rev() {
        o.points.binaries[(left % 64) as usize] = binary_of(left % 3 == 0, 1);
        ask[0] = 192 + (left % 16) as u8;
        let r = o.fragment(count - left, &ask, &mut out, &mut operated);
        sum = fold_answer(sum, r, &out);
    }
    digest(fold_all(sum, &out), &o.buffer)
}

const ASK: [u8; 11] = [192, 1, 60, 2, 6, 60, 3, 6, 60, 4, 6];
const CONFIRM: [u8; 2] = [192, 0];

/// Before each READ the clock and the held events are set back; the request before it plays no part in a READ.
fn event_read(count: u64, n: usize) -> u64 {
    let (mut ask, mut confirm, mut out) = (ASK, CONFIRM, [0u8; 2048]);
    let mut operated = Operated::default();
    let full = holding(n);
    let mut o = full;
    let mut sum = 1u64;
    for left in (1..=count).rev() {
        let time = 1000 + left % 1000;
        ask[0] = 192 + (left % 16) as u8;
        confirm[0] = ask[0];
        let r = o.fragment(time, &ask, &mut out, &mut operated);
        sum = fold_answer(sum, r, &out);
        let r = o.fragment(time, &confirm, &mut out, &mut operated);
        sum = fold(fold_answer(sum, r, &out), o.buffer.count as u64);
        o.clock = full.clock;
        o.buffer.refill(&full.buffer);
    }
    let _ = o.fragment(1000, &ask, &mut out, &mut operated);
    let _ = o.fragment(1000, &confirm, &mut out, &mut operated);
    digest(fold_all(sum, &out), &o.buffer)
}

/// n binary events in a response that awaits its confirmation. Before each CONFIRM what the last one changed is set back.
fn confirm(count: u64, n: usize) -> u64 {
    let (ask, mut confirm, mut out) = (ASK, CONFIRM, [0u8; 2048]);
    let mut operated = Operated::default();
    let mut o = holding(0);
    for i in 0..n as u64 {
        o.buffer.push(Event {
            shown: Shown::State(i % 2 == 0),
            ..event_at(i)
        });
    }
    let mut sum = 1u64;
    let r = o.fragment(1000, &ask, &mut out, &mut operated);
    sum = fold_answer(sum, r, &out);
    let (wait, clock) = (o.session.wait, o.clock);
    for left in (1..=count).rev() {
        confirm[0] = ask[0] + (left % 16 == 0) as u8;
        o.session.wait = wait;
        o.clock = clock;
        o.buffer.count = n;
        let r = o.fragment(1000 + left % 1000, &confirm, &mut out, &mut operated);
        sum = fold(fold_answer(sum, r, &out), o.clock + o.buffer.count as u64);
    }
    digest(fold_all(sum, &out), &o.buffer)
}

const SELECT: [u8; 18] = [192, 3, 12, 1, 23, 1, 5, 3, 1, 0, 0, 0, 0, 0, 0, 0, 0, 0];

/// n events are held. Each SELECT has another sequence than the one before it, so it is no repeat.
fn select(count: u64, n: usize) -> u64 {
    let (mut ask, mut out) = (SELECT, [0u8; 2048]);
    let mut operated = Operated::default();
    let mut o = holding(n);
    let mut sum = 1u64;
    for left in (1..=count).rev() {
        ask[0] = 192 + (left % 16) as u8;
        ask[6] = (left % 9) as u8;
        let r = o.fragment(1000 + count - left, &ask, &mut out, &mut operated);
        let latch = &o.session.latch;
        sum = fold(fold_answer(sum, r, &out), o.clock + latch.armed as u64);
    }
    sum = fold(sum, o.session.latch.time);
    digest(fold_all(sum, &out), &o.buffer)
}

/// n events are held. The same SELECT again and again.
fn repeat(count: u64, n: usize) -> u64 {
    let (ask, mut out) = (SELECT, [0u8; 2048]);
    let mut operated = Operated::default();
    let mut o = holding(n);
    let _ = o.fragment(1000, &ask, &mut out, &mut operated);
    let mut sum = 1u64;
    for left in (1..=count).rev() {
        let r = o.fragment(1000 + count - left, &ask, &mut out, &mut operated);
        sum = fold(fold_answer(sum, r, &out), o.clock);
    }
    sum = fold(sum, o.session.latch.time);
    digest(fold_all(sum, &out), &o.buffer)
}

/// 64 binaries and 64 analogs take turns, and each reading raises an event; the buffer is emptied before each table.
fn table_128(count: u64) -> u64 {
    let mut o = fresh_outstation(64);
    let tables = [false, true].map(|on| -> [Reading; 128] {
        std::array::from_fn(|i| Reading {
            time: 1000,
            point: i as u16 / 2,
            measured: if i % 2 == 0 {
                Measured::State(on)
            } else {
                Measured::Whole(if on { 1000 + i as i32 } else { i as i32 - 1000 })
            },
            flags: 1,
        })
    });
    let mut sum = 1u64;
    for left in (1..=count).rev() {
        o.buffer.count = 0;
        let (taken, r) = o.table(&tables[(left % 2) as usize]);
        sum = fold(sum, accepted(r) + taken as u64 + o.buffer.count as u64);
    }
    digest(sum, &o.buffer)
}

/// Bytes of a line off the wire.
const LINE: usize = 16_384;

/// xorshift64.
struct Source(u64);

impl Source {
    fn new() -> Source {
        Source(0x9E37_79B9_7F4A_7C15)
    }

    fn byte(&mut self) -> u8 {
        self.0 ^= self.0 << 13;
        self.0 ^= self.0 >> 7;
        self.0 ^= self.0 << 17;
        (self.0 >> 32) as u8
    }
}

/// Frames back to back, each with as many user bytes as is said; the last one is cut.
fn line_of_frames(mut user_len: impl FnMut(&mut Source) -> usize) -> Vec<u8> {
    let (mut source, mut line) = (Source::new(), Vec::new());
    let (mut user, mut one) = ([0u8; 250], [0u8; 292]);
    while line.len() < LINE {
        let n = user_len(&mut source);
        user[..n].fill_with(|| source.byte());
        if let Ok(size) = frame::write_frame(&mut one, 196, 10, 1, &user[..n], frame::check_table) {
            line.extend_from_slice(&one[..size]);
        }
    }
    line.truncate(LINE);
    line
}

fn line_clean() -> Vec<u8> {
    line_of_frames(|_| 250)
}

/// Frames of 10 to 40 bytes.
fn line_small() -> Vec<u8> {
    line_of_frames(|source| source.byte() as usize % 27)
}

fn line_noise() -> Vec<u8> {
    let mut source = Source::new();
    (0..LINE).map(|_| source.byte()).collect()
}

fn line_starts() -> Vec<u8> {
    [0x05, 0x64].repeat(LINE / 2)
}

fn frame_refusal(e: FrameError) -> u64 {
    match e {
        FrameError::Short => 11,
        FrameError::Start => 12,
        FrameError::HeaderCheck => 13,
        FrameError::Length => 14,
        FrameError::BlockCheck(block) => 15 | (block as u64) << 8,
        FrameError::TooLong => 16,
        FrameError::Lent => 33,
    }
}

/// What a call told, with all user bytes or one of them.
fn fold_received(sum: u64, taken: usize, r: Received, out: &[u8], all: bool) -> u64 {
    let sum = fold(sum, taken as u64);
    match r {
        Received::Waits => fold(sum, 1),
        Received::Refused(e) => fold(sum, frame_refusal(e)),
        Received::Frame(f) => {
            let addresses = (f.destination as u64) << 8 | (f.source as u64) << 24;
            let sum = fold(sum, f.control as u64 | addresses | (f.len as u64) << 40);
            if all {
                fold_all(sum, &out[..f.len])
            } else {
                fold(sum, out[(sum % 250) as usize] as u64)
            }
        }
    }
}

/// The line in pieces of so many bytes, again and again; the first time all user bytes count.
fn receive(count: u64, line: &[u8], piece_len: usize) -> u64 {
    let mut out = [0u8; 250];
    let mut sum = 1u64;
    for left in (1..=count).rev() {
        let mut receiver = Receiver::new();
        for piece in line.chunks(piece_len.max(1)) {
            let mut rest = piece;
            while !rest.is_empty() {
                let (taken, r) = receiver.receive(rest, &mut out);
                sum = fold_received(sum, taken, r, &out, left == count);
                rest = &rest[taken..];
            }
        }
    }
    fold_all(sum, &out)
}

/// The largest number of points or held events of a work, or of bytes of a piece; 0 where it has no size.
fn most(name: &str) -> Option<usize> {
    Some(match name {
        "nothing" | "frame-write" | "frame-read" | "frame-write-table" | "frame-read-table" => 0,
        "reading" | "reading-by-value" => 0,
        "class-0" | "class-0-fragment" | "outstation-reading" => 64,
        "held-reading" => 255,
        "event-read" => 256,
        "confirm" => 226,
        "select" | "repeat" => 256,
        "table-128" | "receive-bytes" => 0,
        "receive-clean" | "receive-small" | "receive-noise" | "receive-starts" => LINE,
        _ => return None,
    })
}

fn run(name: &str, count: u64, size: usize) -> Option<u64> {
    Some(match name {
        "nothing" => nothing(count),
        "frame-write" => frame_write(count, frame::check_bits),
        "frame-read" => frame_read(count, frame::check_bits),
        "frame-write-table" => frame_write(count, frame::check_table),
        "frame-read-table" => frame_read(count, frame::check_table),
        "reading" => reading(count),
        "reading-by-value" => reading_by_value(count),
        "class-0" => class_0(count, size),
        "class-0-fragment" => class_0_fragment(count, size),
        "outstation-reading" => outstation_reading(count, size),
        "held-reading" => held_reading(count, size),
        "event-read" => event_read(count, size),
        "confirm" => confirm(count, size),
        "select" => select(count, size),
        "repeat" => repeat(count, size),
        "table-128" => table_128(count),
        "receive-clean" => receive(count, &line_clean(), size),
        "receive-small" => receive(count, &line_small(), size),
        "receive-noise" => receive(count, &line_noise(), size),
        "receive-starts" => receive(count, &line_starts(), size),
        "receive-bytes" => receive(count, &line_clean(), 1),
        _ => return None,
    })
}

/// `NAME COUNT` or `NAME COUNT SIZE`.
fn answer(line: &str) -> Option<u64> {
    let mut words = line.split(' ');
    let name = words.next()?;
    let most = most(name)?;
    let count = words.next()?.parse().ok().filter(|&n| n <= COUNT_MAX)?;
    let size = match words.next() {
        Some(w) => w.parse().ok().filter(|&n| n <= most)?,
        None => most,
    };
    match words.next() {
        Some(_) => None,
        None => run(name, count, size),
    }
}

fn main() {
    for line in std::io::stdin().lines().map_while(Result::ok) {
        match answer(&line) {
            Some(sum) => println!("{sum}"),
            None => println!("unknown"),
        }
    }
}
