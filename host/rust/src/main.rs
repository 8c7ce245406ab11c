//! Links `libc_api.a` and compares every call with the second program.
//!
//!     pair                     every case; ends with `N passed, M failed`
//!     pair --short             few seeds and short scripts, the outstation's arrays in heap blocks of
//!                              their exact size: for valgrind
//!     pair --faults            the second program made wrong, one named fault after the other; prints
//!                              the first case that fails for each, the fixed scripts left out
//!     pair --random N [SEED]   N random calls in one run, all compared; ends with `1 passed, 0 failed`
//!                              or the first difference
//!     pair --stress SEED N     the same calls on the second program alone: what `host/stress.c` must
//!                              print over the library
//!
//! A case is: the layout; a fixed script of `tests/`; a random script of one seed; the lent lengths
//! of one call; segments heard twice; garbage of one seed; a random run; what has to be reached. In
//! every second random script the library is given other numbers of the same meaning (`meaning.rs`).
//! `REFERENCE_FAULT` turns a fault on, after the scripts are made.

mod garbage;
mod header;
mod meaning;
mod memory;
mod pair;
mod reached;
mod run;
mod state;
mod stress;
mod words;

use std::panic::{catch_unwind, AssertUnwindSafe};
use std::path::PathBuf;
use std::process::ExitCode;
use std::sync::atomic::{AtomicBool, AtomicUsize, Ordering};
use std::sync::Mutex;
use std::thread;

use reference::faults::{turn_on, FAULTS};
use reference::generate::{script, Kind, Random};
use reference::points::{Reading, Taken};
use reference::script::{parse, Call, LINE};
use reference::transport::Unfinished;

use pair::{Pair, Seen};

const HEADER: &str = include_str!("../../../include/pomarisco.h");

/// Random scripts: kind, seeds, lines.
const SCRIPTS: [(Kind, u64, usize); 5] = [
    (Kind::Line, 8, 4000),
    (Kind::Station, 16, 4000),
    (Kind::Readings, 24, 4000),
    (Kind::Fragments, 50, 4000),
    (Kind::All, 24, 4000),
];

const GARBAGE: u64 = 20;

/// Calls of the random run; `--random` makes longer ones.
const RANDOM: u64 = 200_000;

/// Whether the outstation's arrays are in heap blocks of their exact size.
static EXACT: AtomicBool = AtomicBool::new(false);

/// Every refusal that a call can give.
const REFUSALS: [u8; 18] = [1, 2, 3, 4, 5, 11, 12, 13, 14, 15, 16, 17, 21, 22, 23, 31, 32, 33];

enum Case {
    Layout,
    Script { name: String, text: Vec<u8>, other: bool },
    Lengths(&'static str),
    Repeats,
    Past,
    Garbage(u64),
    Random { calls: u64, seed: u64 },
}

impl Case {
    fn name(&self) -> String {
        match self {
            Case::Layout => "layout as the header asserts it".into(),
            Case::Script { name, .. } => name.clone(),
            Case::Lengths(call) => format!("lent lengths of {call}"),
            Case::Repeats => "segments heard twice".into(),
            Case::Past => "counts past what a script can say".into(),
            Case::Garbage(seed) => format!("garbage {seed}"),
            Case::Random { calls, seed } => format!("random run of {calls} calls, seed {seed}"),
        }
    }

    fn run(&self) -> (Seen, Result<(), String>) {
        let mut pair = Pair::new(7, EXACT.load(Ordering::Relaxed));
        let result = match self {
            Case::Layout => layout(),
            Case::Script { text, other, .. } => {
                pair.other = *other;
                run_script(&mut pair, text)
            }
            Case::Lengths(call) => lengths(&mut pair, call),
            Case::Repeats => repeats(&mut pair),
            Case::Past => past(&mut pair),
            Case::Garbage(seed) => garbage(&mut pair, *seed),
            Case::Random { calls, seed } => {
                run::random(*calls, *seed, EXACT.load(Ordering::Relaxed)).and_then(every)
            }
        };
        (pair.seen, result)
    }

    /// Also a panic of the second program is a failed case.
    fn outcome(&self) -> (Seen, Result<(), String>) {
        catch_unwind(AssertUnwindSafe(|| self.run()))
            .unwrap_or_else(|_| (Seen::default(), Err("panic".into())))
    }
}

fn run_script(pair: &mut Pair, text: &[u8]) -> Result<(), String> {
    for (number, line) in text.split(|&byte| byte == b'\n').enumerate() {
        if line.is_empty() || line.len() > LINE || line[0] == b'#' {
            continue;
        }
        let Some(call) = parse(line) else { continue };
        pair.call(&call).map_err(|found| {
            let shown = String::from_utf8_lossy(&line[..line.len().min(160)]).into_owned();
            format!("line {}: {shown}: {found}", number + 1)
        })?;
    }
    Ok(())
}

fn calls(pair: &mut Pair, calls: impl IntoIterator<Item = Call>) -> Result<(), String> {
    for call in calls {
        pair.call(&call).map_err(|found| {
            let mut shown = format!("{call:?}");
            shown.truncate(160);
            format!("{shown}: {found}")
        })?;
    }
    Ok(())
}

/// A line off the wire: the rest of a piece is given again. Where too little is lent, once.
fn pieces(pair: &mut Pair, line: &[u8], len: usize) -> Result<(), String> {
    if len < header::USER {
        return calls(pair, [Call::Piece(len, line.to_vec())]);
    }
    let mut second = pair.wire.clone();
    let mut rest = line;
    loop {
        let (taken, told) = second.take(rest, &mut vec![0; len]);
        calls(pair, [Call::Piece(len, rest.to_vec())])?;
        rest = &rest[taken.min(rest.len())..];
        if told.is_none() {
            return Ok(());
        }
    }
}

// ---- layout

/// The header's assertions are those of `header.rs`, and it declares the same calls.
fn layout() -> Result<(), String> {
    let mut written = String::new();
    for (name, size, fields) in header::LAYOUT {
        written.push_str(&format!("POMARISCO_SIZE({name}, {size});"));
        for (field, at) in *fields {
            written.push_str(&format!(" POMARISCO_AT({name}, {field}, {at});"));
        }
        written.push('\n');
    }
    let mut ours: Vec<&str> = written.lines().collect();
    let mut theirs: Vec<&str> =
        HEADER.lines().filter(|line| line.starts_with("POMARISCO_SIZE(")).collect();
    ours.sort_unstable();
    theirs.sort_unstable();
    if let Some(line) = theirs.iter().find(|line| !ours.contains(line)) {
        return Err(format!("the header asserts {line}"));
    }
    state::equal("structs", ours.len(), theirs.len())?;
    let declared: Vec<&str> = HEADER
        .lines()
        .filter(|line| line.starts_with("struct pomarisco_") && line.ends_with(");"))
        .filter_map(|line| line.split('(').next()?.split(' ').nth(2))
        .collect();
    state::equal("calls declared", &declared[..], header::CALLS)
}

// ---- lent lengths

/// Both sides of a lent length's limit, and none.
fn both_sides(limit: usize) -> [usize; 6] {
    [0, 1, limit - 1, limit, limit + 1, 2 * limit]
}

/// 64 points of each kind with some readings, 16 outputs of each, and a held event.
fn live(pair: &mut Pair) -> Result<(), String> {
    let binaries = vec!["1"; 64].join(" ");
    let analogs = [
        "2,1,-,-,2,10",
        "3,2,-,-,3,5",
        "1,5,40000000,3F800000,1,-",
        "1,5,3F800000,00000000,3,3F000000",
    ];
    let analogs = [analogs; 16].concat().join(" ");
    let outputs = ["1,-5,70000", "2,-300,-256", "3,BF800000,3F800000", "3,00000000,80000000"];
    let outputs = [outputs; 4].concat().join(" ");
    let script = format!(
        "setup 1 2 5000 5000 64 64 16 {binaries} {analogs} s 16 {outputs}\nbin 5 3 0 1\nana 6 0 100 1\nana 6 1 40000 1\nflt 7 2 3F800000 1\nflt 7 3 40400000 1\nbin 9 3 1 1\nana 9 0 -7 1\nflt 9 2 BF800000 1\n"
    );
    run_script(pair, script.as_bytes())
}

fn lengths(pair: &mut Pair, call: &str) -> Result<(), String> {
    live(pair)?;
    let mut bytes = Random(11);
    match call {
        "fragment" => {
            let mut fragments: Vec<Vec<u8>> = vec![
                vec![],
                vec![0xC1],
                vec![0xC1, 0x17],
                vec![0xC1, 1, 60, 1, 6],
                vec![0xC2, 1, 60, 2, 6, 60, 3, 6, 60, 4, 6],
                vec![0xC2, 0],
                vec![0xC3, 0],
            ];
            // Set points: a SELECT, its OPERATE, direct operation; then eight, minus zero but for one.
            for (sequence, function) in [(0xC5, 3), (0xC6, 4), (0xC7, 5), (0xC8, 6)] {
                fragments.push(vec![sequence, function, 41, 2, 0x17, 1, 5, 0xD4, 0xFE, 0]);
            }
            let mut eight = vec![0xC9, 5, 41, 3, 0x28, 8, 0];
            for index in [2, 3, 6, 7, 10, 11, 14, 15] {
                eight.extend_from_slice(&[index, 0, u8::from(index == 15), 0, 0, 0x80, 0]);
            }
            fragments.push(eight);
            for n in [3, 2047, 2048, 2049, 3000] {
                let mut fragment = bytes.bytes(n);
                fragment[..2].copy_from_slice(&[0xC4, 2]);
                fragments.push(fragment);
            }
            for fragment in fragments {
                for len in both_sides(header::FRAGMENT) {
                    calls(pair, [Call::Frag(10, len, fragment.clone())])?;
                }
            }
        }
        "frame_write, link_data and link_reply" => {
            for n in [0, 1, 2, 15, 16, 17, 32, 33, 249, 250, 251, 292, 1000] {
                for len in both_sides(header::FRAME) {
                    for control in [0xC4, 0x00, 0x0B, 0x0F] {
                        let user = bytes.bytes(n);
                        calls(pair, [Call::FrameWrite(len, control, 1, 2, user)])?;
                    }
                }
            }
        }
        "frame_read and link_receive" => {
            for n in [0, 1, 16, 17, 249, 250] {
                let mut frame = vec![0; header::FRAME];
                let size = reference::frame::write(0xC4, 1, 2, &bytes.bytes(n), &mut frame);
                let size = size.map_err(|refusal| format!("refusal {refusal}"))?;
                frame.resize(size, 0);
                frame.push(0);
                // Each block wrong in turn, alone and with every later one.
                for first in 0..n.div_ceil(16) {
                    for second in first..n.div_ceil(16) {
                        let mut wrong = frame.clone();
                        wrong[10 + 18 * first] ^= 1;
                        wrong[10 + 18 * second] ^= 2;
                        let (len, again) = (header::USER, wrong.clone());
                        calls(pair, [Call::FrameRead(len, wrong), Call::Station(len, again)])?;
                    }
                }
                for cut in [0, 1, 2, 9, 10, 11, size - 1, size, size + 1] {
                    for len in both_sides(header::USER) {
                        let bytes = frame[..cut.min(frame.len())].to_vec();
                        calls(
                            pair,
                            [Call::FrameRead(len, bytes.clone()), Call::Station(len, bytes)],
                        )?;
                    }
                }
            }
        }
        "piece_receive" => {
            for n in [0, 1, 16, 17, 249, 250] {
                let mut frame = vec![0; header::FRAME];
                let size = reference::frame::write(0xC4, 1, 2, &bytes.bytes(n), &mut frame);
                let size = size.map_err(|refusal| format!("refusal {refusal}"))?;
                frame.resize(size, 0);
                // Right; each block wrong; the header's start, length and check wrong.
                let places = (0..n.div_ceil(16)).map(|block| 10 + 18 * block).chain([0, 1, 2, 8]);
                for wrong in places.map(Some).chain([None]) {
                    let mut line = frame.clone();
                    if let Some(place) = wrong {
                        line[place] ^= 1;
                    }
                    line.extend_from_slice(&[0x05, 0x64]);
                    for cut in [0, 1, 2, 9, 10, 11, size - 1, size, size + 1] {
                        for len in both_sides(header::USER) {
                            pieces(pair, &line[..cut], len)?;
                            pieces(pair, &line[cut..], header::USER)?;
                            calls(pair, [Call::Restart])?;
                        }
                    }
                }
            }
            // A length byte under 5 with the right check.
            let mut short = vec![0x05, 0x64, 4, 0xC4, 1, 0, 2, 0];
            short.extend_from_slice(&reference::crc::check_bytes(&short));
            pieces(pair, &[&short[..], &[0x64; 30]].concat(), header::USER)?;
        }
        "segment_receive" => {
            let begun = [0, 1, 249, 1798, 1799, 1800, 2046, 2047, 2048, 2049, 1 << 40];
            let begun = begun.map(|count: usize| {
                let size = count.min(header::USER - 1);
                Some(Unfinished { last: 62, fir: false, size, count })
            });
            for unfinished in begun.into_iter().chain([None]) {
                for n in [0, 1, 2, 249, 250, 251, 2048] {
                    for first in [0x3F, 0x7F, 0xBF, 0xFF, 0x00] {
                        for len in both_sides(header::FRAGMENT) {
                            let mut segment = bytes.bytes(n);
                            segment.iter_mut().take(1).for_each(|byte| *byte = first);
                            pair.begin(unfinished);
                            calls(pair, [Call::Seg(len, segment)])?;
                        }
                    }
                }
            }
        }
        _ => {
            for n in [0, 1, 248, 249, 250, 498, 499, 1992, 1993, 2047, 2048, 2049, 5000] {
                for len in both_sides(header::USER) {
                    calls(pair, [Call::Send(len, bytes.bytes(n))])?;
                }
            }
        }
    }
    Ok(())
}

// ---- segments heard twice

const FIR: u8 = 0x40;
const FIN: u8 = 0x80;

/// A segment on both sides, then what stands of the fragment: so many bytes, 0 for nothing begun.
fn hear(pair: &mut Pair, len: usize, segment: &[u8], standing: usize) -> Result<(), String> {
    calls(pair, [Call::Seg(len, segment.to_vec())])?;
    let left = if pair.assembly.begun == 0 { 0 } else { pair.assembly.length };
    state::equal("bytes so far", left, standing)
}

fn segment(head: u8, n: usize, bytes: &mut Random) -> Vec<u8> {
    [vec![head], bytes.bytes(n)].concat()
}

/// What is to stand: `count` bytes in `len` lent ones, `last` of them of the last segment.
#[derive(Clone, Copy)]
struct Standing {
    len: usize,
    count: usize,
    last: usize,
}

/// A fragment begun afresh, in a first segment, full ones, and the last one, which is given back; its
/// sequence is 2.
fn fresh(pair: &mut Pair, stands: Standing, bytes: &mut Random) -> Result<Vec<u8>, String> {
    const MOST: usize = header::USER - 1;
    let Standing { len, count, last } = stands;
    let before = (count - last - 1) / MOST;
    let mut standing = count - last - before * MOST;
    let mut sequence = (129 - before as u8) % 64;
    hear(pair, len, &segment(FIR | sequence, standing, bytes), standing)?;
    for _ in 0..before {
        sequence = (sequence + 1) % 64;
        standing += MOST;
        hear(pair, len, &segment(sequence, MOST, bytes), standing)?;
    }
    let segment = segment((sequence + 1) % 64, last, bytes);
    hear(pair, len, &segment, count)?;
    Ok(segment)
}

fn repeats(pair: &mut Pair) -> Result<(), String> {
    live(pair)?;
    let mut bytes = Random(13);
    for other in [false, true] {
        pair.other = other;
        for len in [header::FRAGMENT, header::FRAGMENT + 1, 2 * header::FRAGMENT] {
            for last in [1, 2, 248, 249] {
                for count in [last + 1, last + 249, 2047, header::FRAGMENT] {
                    let stands = Standing { len, count, last };
                    repeats_ignored(pair, stands, &mut bytes)?;
                    repeats_changed(pair, stands, &mut bytes)?;
                    repeats_altered(pair, stands, &mut bytes)?;
                }
            }
            repeats_of_the_first(pair, len, &mut bytes)?;
        }
    }
    Ok(())
}

/// Again and again; a refused segment between them is not the last one.
fn repeats_ignored(pair: &mut Pair, stands: Standing, bytes: &mut Random) -> Result<(), String> {
    let Standing { len, count, last } = stands;
    let again = fresh(pair, stands, bytes)?;
    hear(pair, len, &again, count)?;
    hear(pair, len, &again, count)?;
    hear(pair, header::FRAGMENT - 1, &again, count)?;
    hear(pair, len, &again[..1], count)?;
    hear(pair, len, &[&again[..1], &bytes.bytes(250)].concat(), count)?;
    hear(pair, len, &again, count)?;
    // The next one, with the same data; then what was the last is 22, and so it is with nothing
    // begun.
    let next = [&[again[0] + 1][..], &again[1..]].concat();
    if count + last <= header::FRAGMENT {
        hear(pair, len, &next, count + last)?;
        hear(pair, len, &next, count + last)?;
        hear(pair, len, &again, 0)?;
    } else {
        hear(pair, len, &next, 0)?;
    }
    hear(pair, len, &again, 0)?;
    // After the whole fragment nothing is begun.
    if count < header::FRAGMENT {
        let again = fresh(pair, stands, bytes)?;
        hear(pair, len, &again, count)?;
        let end = segment(FIN | (again[0] + 1), 1, bytes);
        hear(pair, len, &end, 0)?;
        hear(pair, len, &end, 0)?;
    }
    Ok(())
}

/// All but a repeat.
fn repeats_changed(pair: &mut Pair, stands: Standing, bytes: &mut Random) -> Result<(), String> {
    let Standing { len, count, last } = stands;
    // Another byte.
    for place in [1, 2, last / 2, last - 1, last] {
        if (1..=last).contains(&place) {
            let mut changed = fresh(pair, stands, bytes)?;
            changed[place] ^= 1 << bytes.below(8);
            hear(pair, len, &changed, 0)?;
        }
    }
    // Less or more of what stands there, at either end; 21 leaves it.
    for place in [1, last] {
        let mut shorter = fresh(pair, stands, bytes)?;
        shorter.remove(place);
        hear(pair, len, &shorter, if last == 1 { count } else { 0 })?;
    }
    for (place, from) in [(1, count - last - 1), (last + 1, count)] {
        let mut longer = fresh(pair, stands, bytes)?;
        longer.insert(place, pair.lent_byte(from));
        hear(pair, len, &longer, if last == 249 { count } else { 0 })?;
    }
    // FIN, FIR, another sequence.
    for (head, standing) in [(FIN, 0), (FIR, last), (FIN | FIR, 0), (1 << 4, 0), (1 << 5, 0)] {
        let mut changed = fresh(pair, stands, bytes)?;
        changed[0] ^= head;
        hear(pair, len, &changed, standing)?;
    }
    Ok(())
}

/// A repeat is compared with the lent bytes, whatever the host made of them.
fn repeats_altered(pair: &mut Pair, stands: Standing, bytes: &mut Random) -> Result<(), String> {
    let Standing { len, count, last } = stands;
    for place in [count - last, count - 1] {
        let sent = fresh(pair, stands, bytes)?;
        pair.alter(place);
        let mut altered = sent.clone();
        altered[1 + place - (count - last)] ^= 1;
        hear(pair, len, &altered, count)?;
        hear(pair, len, &sent, 0)?;
    }
    // The bytes round the last segment's are not its own.
    let sent = fresh(pair, stands, bytes)?;
    pair.alter(count - last - 1);
    pair.alter(count);
    hear(pair, len, &sent, count)
}

/// A first segment again starts afresh; without FIR it is no repeat.
fn repeats_of_the_first(pair: &mut Pair, len: usize, bytes: &mut Random) -> Result<(), String> {
    for n in [1, 2, 248, 249] {
        let first = segment(FIR | 63, n, bytes);
        hear(pair, len, &first, n)?;
        hear(pair, len, &first, n)?;
        let second = segment(0, n, bytes);
        hear(pair, len, &second, 2 * n)?;
        hear(pair, len, &first, n)?;
        hear(pair, len, &[&[63][..], &first[1..]].concat(), 0)?;
        hear(pair, len, &first, n)?;
        hear(pair, len, &[&[0][..], &first[1..]].concat(), 2 * n)?;
    }
    Ok(())
}

// ---- counts

/// Numbers that a script cannot give: a setup of more points or outputs than there may be is refused,
/// a table may be of any length.
fn past(pair: &mut Pair) -> Result<(), String> {
    live(pair)?;
    let mut second = pair.second.take().ok_or("no outstation")?;
    let setup = pair::setup_image(&second.setup).ok_or("no setup")?;
    let image = pair.image;
    for past in [65, 256, 257, 272, 1000, 65_535] {
        let mut binaries = setup.clone();
        binaries.classes.resize(past, 1);
        let mut analogs = setup.clone();
        analogs.analogs.resize(past, setup.analogs[0]);
        let mut outputs = setup.clone();
        outputs.setup.outputs = past as u16;
        let mut analog_outputs = setup.clone();
        analog_outputs.setup.analog_output_count = past as u16;
        for given in [binaries, analogs, outputs, analog_outputs] {
            let mut left = image;
            let refusal =
                pair.memory.restart(&mut left, given.setup, &given.classes, &given.analogs)?;
            state::equal("refusal", refusal, 5)?;
            state::equal("points and outputs", pair::installed(&left.head), (0, 0, 0, 0))?;
        }
    }
    for count in [0, 128, 129, 1000, 70_000_usize] {
        pair.other = count % 2 == 1;
        for refused in [count, count / 2, count.saturating_sub(1)] {
            let mut readings: Vec<Reading> = (0..count)
                .map(|place| Reading {
                    time: 10,
                    index: (place % 64) as u8,
                    value: Taken::Binary(place / 64 % 2 == 0),
                    flags: 1,
                })
                .collect();
            if let Some(reading) = readings.get_mut(refused) {
                reading.flags = 32;
            }
            pair.table(&mut second, &readings)?;
            state::compare(&pair.image, &second)?;
        }
    }
    Ok(())
}

// ---- garbage

fn garbage(pair: &mut Pair, seed: u64) -> Result<(), String> {
    let mut random = Random(seed ^ 0x6761_7262);
    let (text, _) = script(Kind::Fragments, 1000 + seed, 300);
    for (number, line) in text.split(|&byte| byte == b'\n').enumerate() {
        if let Some(call) = parse(line) {
            pair.call(&call)?;
        }
        let at = |found| format!("after line {}: {found}", number + 1);
        garbage::outstation(&pair.image, &mut pair.memory, &mut random, &mut pair.seen)
            .map_err(at)?;
        garbage::setup(&pair.image, &mut pair.memory, &mut random).map_err(at)?;
        for _ in 0..10 {
            garbage::line(&mut pair.memory, &mut random, &mut pair.seen).map_err(at)?;
        }
    }
    Ok(())
}

// ---- a random run

/// Calls came to everything that is counted.
fn every((generator, _): (stress::Generator, u64)) -> Result<(), String> {
    match stress::COUNTS.iter().zip(generator.counts).find(|&(_, count)| count == 0) {
        Some((what, _)) => Err(format!("no call came to: {what}")),
        None => Ok(()),
    }
}

// ---- all

/// Fixed scripts, in the order of their names.
fn fixed() -> std::io::Result<Vec<Case>> {
    let tests = PathBuf::from(concat!(env!("CARGO_MANIFEST_DIR"), "/../../tests"));
    let mut cases = Vec::new();
    for group in ["line", "station", "readings", "fragments"] {
        let mut paths: Vec<PathBuf> = std::fs::read_dir(tests.join(group))?
            .map(|entry| Ok(entry?.path()))
            .collect::<std::io::Result<_>>()?;
        paths.sort();
        for path in paths.iter().filter(|path| path.extension().is_some_and(|e| e == "script")) {
            let file = path.file_name().unwrap_or_default().to_string_lossy();
            let name = format!("tests/{group}/{file}");
            cases.push(Case::Script { name, text: std::fs::read(path)?, other: false });
        }
    }
    Ok(cases)
}

/// Every case but the fixed scripts.
fn own_cases(short: bool) -> Vec<Case> {
    let mut cases = vec![Case::Layout];
    for (kind, seeds, lines) in SCRIPTS {
        let (seeds, lines) = if short { (2, 400) } else { (seeds, lines) };
        for seed in 1..=seeds {
            let other = seed % 2 == 0;
            let name = format!(
                "random script, {kind:?} {seed}{}",
                if other { ", other numbers of the same meaning" } else { "" }
            );
            // Seeds that tests/compare does not use.
            let (text, _) = script(kind, 10_000 + seed, lines);
            cases.push(Case::Script { name, text, other });
        }
    }
    let lent = [
        "fragment",
        "frame_write, link_data and link_reply",
        "frame_read and link_receive",
        "piece_receive",
        "segment_receive",
        "segment_send",
    ];
    cases.extend(lent.map(Case::Lengths));
    cases.extend([Case::Repeats, Case::Past]);
    cases.extend((1..=if short { 1 } else { GARBAGE }).map(Case::Garbage));
    cases.push(Case::Random { calls: if short { 30_000 } else { RANDOM }, seed: 12 });
    cases
}

/// Runs the cases on all processors; what each came to, in their order.
fn run_all(cases: &[Case], until_failure: bool) -> Vec<Option<(Seen, Result<(), String>)>> {
    let next = AtomicUsize::new(0);
    let results = Mutex::new((0..cases.len()).map(|_| None).collect::<Vec<_>>());
    let threads = thread::available_parallelism().map_or(1, |n| n.get().min(4));
    thread::scope(|scope| {
        for _ in 0..threads {
            scope.spawn(|| loop {
                let place = next.fetch_add(1, Ordering::Relaxed);
                let Some(case) = cases.get(place) else { break };
                let outcome = case.outcome();
                if until_failure && outcome.1.is_err() {
                    next.store(cases.len(), Ordering::Relaxed);
                }
                results.lock().expect("no panic while locked")[place] = Some(outcome);
            });
        }
    });
    results.into_inner().expect("no panic while locked")
}

/// Each fault, and the first case that shows it.
fn faults(cases: &[Case]) -> ExitCode {
    std::panic::set_hook(Box::new(|_| {}));
    let mut caught = 0;
    for (_, name, _) in FAULTS {
        turn_on(name);
        let results = run_all(cases, true);
        let found = cases.iter().zip(&results).find_map(|(case, result)| match result {
            Some((_, Err(found))) => Some((case.name(), found)),
            _ => None,
        });
        match found {
            Some((case, found)) => {
                caught += 1;
                println!("caught {name} by {case}: {found}");
            }
            None => println!("NOT CAUGHT {name}"),
        }
    }
    println!("{caught} of {} caught", FAULTS.len());
    if caught == FAULTS.len() {
        ExitCode::SUCCESS
    } else {
        ExitCode::FAILURE
    }
}

/// A number of calls, or a seed.
fn number(word: &str) -> Result<u64, ExitCode> {
    word.parse().map_err(|_| {
        eprintln!("pair: {word} is no number");
        ExitCode::from(2)
    })
}

fn main() -> ExitCode {
    chosen().unwrap_or_else(|code| code)
}

fn chosen() -> Result<ExitCode, ExitCode> {
    let arguments: Vec<String> = std::env::args().skip(1).collect();
    let words: Vec<&str> = arguments.iter().map(String::as_str).collect();
    let mut cases = match words[..] {
        [] => own_cases(false),
        ["--short"] => {
            EXACT.store(true, Ordering::Relaxed);
            own_cases(true)
        }
        ["--faults"] => return Ok(faults(&own_cases(false))),
        ["--random", calls] => return long_run(number(calls)?, 1),
        ["--random", calls, seed] => return long_run(number(calls)?, number(seed)?),
        ["--stress", seed, calls] => {
            turn_on_named()?;
            run::stress(number(seed)?, number(calls)?);
            return Ok(ExitCode::SUCCESS);
        }
        _ => {
            eprintln!("usage: pair [--short | --faults | --random N [SEED] | --stress SEED N]");
            return Err(ExitCode::from(2));
        }
    };
    match fixed() {
        Ok(scripts) => cases.extend(scripts),
        Err(error) => {
            eprintln!("pair: tests/: {error}");
            return Err(ExitCode::from(2));
        }
    }
    turn_on_named()?;
    Ok(all(&cases))
}

/// Turns on the fault that REFERENCE_FAULT names.
fn turn_on_named() -> Result<(), ExitCode> {
    if let Ok(name) = std::env::var("REFERENCE_FAULT") {
        if !name.is_empty() && !turn_on(&name) {
            eprintln!("pair: no fault is called {name}");
            return Err(ExitCode::from(2));
        }
    }
    Ok(())
}

fn long_run(calls: u64, seed: u64) -> Result<ExitCode, ExitCode> {
    turn_on_named()?;
    Ok(match run::random(calls, seed, false) {
        Ok((generator, sum)) => {
            run::print_counts(&generator);
            println!("{calls} calls, seed {seed}, sum {sum:016X}");
            println!("1 passed, 0 failed");
            ExitCode::SUCCESS
        }
        Err(found) => {
            println!("FAILED {found}");
            println!("0 passed, 1 failed");
            ExitCode::FAILURE
        }
    })
}

/// Runs the cases, prints what was reached and what failed.
fn all(cases: &[Case]) -> ExitCode {
    let mut seen = Seen::default();
    let (mut passed, mut failed) = (0, 0);
    for (case, result) in cases.iter().zip(run_all(cases, false)) {
        let (reached, result) = result.unwrap_or_else(|| (Seen::default(), Err("not run".into())));
        seen.add(&reached);
        match result {
            Ok(()) => passed += 1,
            Err(found) => {
                failed += 1;
                println!("FAILED {}: {found}", case.name());
            }
        }
    }
    // Reached means compared: a number that never came was not.
    let counts: Vec<String> = REFUSALS
        .iter()
        .map(|refusal| format!("{refusal}: {}", seen.refusals.get(refusal).unwrap_or(&0)))
        .collect();
    println!("refusals reached  {}", counts.join(", "));
    let blocks: Vec<String> = seen.blocks.iter().map(|count| count.to_string()).collect();
    println!("first wrong blocks reached, from 0  {}", blocks.join(", "));
    for (what, count) in &seen.events {
        println!("reached {count:8}  {what}");
    }
    let missing = REFUSALS.iter().any(|refusal| !seen.refusals.contains_key(refusal));
    let strange = seen.refusals.keys().any(|refusal| !REFUSALS.contains(refusal));
    let unreached = seen.events.is_empty() || seen.events.values().any(|&count| count == 0);
    for (what, wrong) in [
        ("each refusal reached, and no other", missing || strange),
        ("each block reached as the first wrong one", seen.blocks.contains(&0)),
        ("each of these reached", unreached),
    ] {
        if wrong {
            failed += 1;
            println!("FAILED {what}");
        } else {
            passed += 1;
        }
    }
    println!("{passed} passed, {failed} failed");
    if failed == 0 {
        ExitCode::SUCCESS
    } else {
        ExitCode::FAILURE
    }
}
