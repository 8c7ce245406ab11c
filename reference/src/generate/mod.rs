//! Random call scripts, the same for the same kind, seed and number of lines.
//!
//! The kind says which calls occur: `line` (crc, frame-write, frame-read, piece, record), `station`
//! (setup without points, restart, record, station, seg, send, piece), `readings` (setup, restart,
//! bin, ana, flt, table, held), `fragments` (those and frag) or `all`. Each kind has some malformed
//! lines of its own calls. Counts of the answers are kept with the script.
//!
//! The reference runs along, so that the script knows the state. It aims at these deep states:
//! - frames right but for one flipped bit anywhere or one in each of some blocks, one cut or
//!   lengthened, a changed length byte with a right header check, line counts next to 65,535;
//! - lines of right and wrong frames, of noise and of false starts, cut into pieces anywhere, the
//!   rest given again, and sometimes lost or given twice; a setup or restart in their middle;
//! - assemblies that end at 2,047, 2,048 and 2,049 bytes, segments one out of sequence and 16 out;
//! - the last segment heard again, once and more often, and with one byte or bit of it different;
//! - distances and sums at a limit and next to it, whole and float extremes, both zeros;
//! - 256 held events and drops, then READ and CONFIRM, with drops before and after the READ, with
//!   new events in between, at the confirm time and one later, and again on time after that;
//! - SELECT, a repeat of it later, OPERATE at the arm time and one later, repeated, and with
//!   another sequence, form, object or request in between; also after a SELECT that armed nothing;
//! - pulses with on-times on both sides of each limit, also of an index already in the request;
//! - set points at their ends, next to them and not finite, of another kind, of both zeros; OPERATE
//!   of the same bytes, and of them under another header or with a zero of the other sign;
//! - repeats of every function, also with a READ in between;
//! - static parts of 2,044 and 2,045 bytes, and such that little room is left for events.

mod fragments;
mod line;
mod pieces;
mod random;
mod readings;
mod stats;

use std::collections::BTreeMap;

use crate::outstation::Outstation;
use crate::script::Host;
use crate::transport::Unfinished;

pub use random::Random;

#[derive(Clone, Copy, Debug, PartialEq)]
pub enum Kind {
    Line,
    Station,
    Readings,
    Fragments,
    All,
}

struct Generator {
    random: Random,
    host: Host,
    script: Vec<u8>,
    left: usize,
    kind: Kind,
    stats: BTreeMap<String, u64>,
    /// Last readings given for each analog, as bits.
    given: Vec<u32>,
    /// Bytes that the modem has still to hand over.
    wire: Vec<u8>,
    /// The last segment that was not refused for its size or the lent length.
    heard: Vec<u8>,
}

impl Generator {
    // Lines and their answers.

    fn emit(&mut self, line: String) {
        if self.left == 0 {
            return;
        }
        self.left -= 1;
        let warned = self.station().is_some_and(|o| o.events.warning);
        let before = self.unfinished();
        let mut answer = Vec::new();
        self.host.line(line.as_bytes(), &mut answer);
        let warns = self.station().is_some_and(|o| o.events.warning);
        let answer = std::str::from_utf8(&answer).expect("text").trim_end();
        self.note(&line, answer, warned, warns);
        self.note_again(answer, before);
        self.script.extend_from_slice(line.as_bytes());
        self.script.push(b'\n');
    }

    /// Writes the line, sometimes a broken one before it.
    fn call(&mut self, line: String) {
        self.sometimes_broken(&line);
        self.emit(line);
    }

    fn sometimes_broken(&mut self, line: &str) {
        if self.random.chance(1) {
            let broken = self.broken(line);
            self.emit(broken);
        }
    }

    /// One small change; it may still be a call.
    fn broken(&mut self, line: &str) -> String {
        let mut bytes = line.as_bytes().to_vec();
        let place = self.random.below(bytes.len());
        match self.random.below(9) {
            0 => bytes[place] = self.random.pick(b"0123456789abcdefABCDEFg-+,. x"),
            1 => {
                bytes.remove(place);
            }
            2 => bytes.insert(place, self.random.pick(b" 09-+,aA\t\r")),
            3 => bytes.push(self.random.pick(b" 0,-A\r")),
            4 => bytes.insert(0, self.random.pick(b" #-x")),
            5 => bytes.truncate(place),
            6 => bytes = line.to_lowercase().into_bytes(),
            7 => {
                // One word doubled.
                let words: Vec<&str> = line.split(' ').collect();
                let at = self.random.below(words.len());
                let mut more = words.clone();
                more.insert(at, words[at]);
                bytes = more.join(" ").into_bytes();
            }
            _ => bytes.extend_from_slice(b" 1"),
        }
        String::from_utf8(bytes).expect("ASCII")
    }

    fn station(&self) -> Option<&Outstation> {
        self.host.outstation.as_ref()
    }

    fn unfinished(&self) -> Option<Unfinished> {
        self.station().and_then(|o| o.transport.unfinished)
    }

    fn step(&mut self) {
        match self.kind {
            Kind::Line => self.line_step(),
            Kind::Station => self.station_step(),
            Kind::Readings => self.readings_step(),
            Kind::Fragments => self.fragments_step(),
            Kind::All => {
                // With points and outputs, so a setup comes from the fragments' steps.
                if self.station().is_none() && self.random.chance(80) {
                    return self.setup_call();
                }
                match self.random.below(10) {
                    0 => self.line_step(),
                    1 => self.station_call(),
                    2 => self.seg_call(),
                    3 if self.random.chance(30) => self.send_call(),
                    4 | 5 => self.reading_call(),
                    _ => self.fragments_step(),
                }
            }
        }
    }
}

/// A script, and how often each answer was given.
pub fn script(kind: Kind, seed: u64, lines: usize) -> (Vec<u8>, BTreeMap<String, u64>) {
    let mut generator = Generator {
        random: Random(seed.wrapping_mul(0x0100_0000_01B3) ^ kind as u64),
        host: Host::default(),
        script: Vec::new(),
        left: lines,
        kind,
        stats: BTreeMap::new(),
        given: vec![0; 64],
        wire: Vec::new(),
        heard: Vec::new(),
    };
    while generator.left > 0 {
        generator.step();
    }
    (generator.script, generator.stats)
}
