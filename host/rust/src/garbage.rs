//! Any numbers in any struct and any lent array: every call returns, and does what it does with the
//! plain image of the same meaning.

use reference::control;
use reference::generate::Random;
use reference::receiver;

use crate::header::*;
use crate::meaning::*;
use crate::memory::Memory;
use crate::pair::{keep, operated_image, Lent, Seen};
use crate::reached::statuses;
use crate::words::{Output, OUTPUT_RECORD, RECORD};

fn same<T: Same>(what: &str, given: &T, plain: &T) -> Result<(), String> {
    match given.differs(plain) {
        None => Ok(()),
        Some(found) => Err(format!("{what}{found} (given as it is, and plain)")),
    }
}

/// A count at or past an array's end, or any other.
fn count(most: usize, random: &mut Random) -> usize {
    let any = random.next() as usize;
    random.pick(&[0, 1, most - 1, most, most + 1, most / 2, usize::MAX, any, any % (2 * most)])
}

/// Random bytes, or an outstation with some bytes changed; then counts and times that lead on.
fn image(live: &Outstation, random: &mut Random) -> Outstation {
    let mut image = *live;
    if random.chance(40) {
        image = Outstation::random(random);
    } else {
        let bytes = (&raw mut image).cast::<u8>();
        for _ in 0..random.pick(&[1, 10, 100, 3000]) {
            let place = random.below(size_of::<Outstation>());
            // Sound: inside the struct, of which any bytes are a value.
            unsafe { bytes.add(place).write(random.byte()) };
        }
    }
    // Few flags, so that a reading's may be those last reported and its gate decides.
    let few = |word: u32| word & 0xFF00_FFFF | ((word >> 16 & 0xFF) % 3) << 16;
    image.binaries.iter_mut().for_each(|word| *word = few(*word));
    image.analogs.iter_mut().step_by(RECORD).for_each(|word| *word = few(*word));
    // Mostly classes that there are, and kinds that events have.
    for second in image.events.iter_mut().skip(1).step_by(2) {
        if random.chance(80) {
            let mut bytes = second.to_le_bytes();
            (bytes[5], bytes[6]) = (bytes[5] % 5, bytes[6] % 5);
            *second = u64::from_le_bytes(bytes);
        }
    }
    // Often all of one kind, so that more than one object may be right.
    let one = random.below(6) as u32;
    for words in image.analog_outputs.chunks_exact_mut(OUTPUT_RECORD) {
        let kind = if one < 3 { one } else { random.below(4) as u32 };
        output(words, kind, random);
    }
    let head = &mut image.head;
    let any = random.next() as u16;
    head.analog_outputs = random.pick(&[0, 1, 8, 15, 16, 16, 17, 65_535, any, any % 32]);
    head.binary_count = count(BINARIES, random);
    head.analog_count = count(ANALOGS, random);
    head.event_count = count(EVENTS, random);
    head.request_len = count(FRAGMENT, random);
    head.answer_len = count(KEPT_ANSWER, random);
    head.latch_len = count(OBJECTS, random);
    head.wait_sequence %= 17;
    head.latch_sequence %= 17;
    for truth in
        [&mut head.waiting, &mut head.request_kept, &mut head.latch_armed, &mut head.overflow]
    {
        if random.chance(30) {
            *truth = 0;
        }
    }
    for time in [&mut head.clock, &mut head.wait_time, &mut head.latch_time] {
        if random.chance(80) {
            *time %= 1 << random.pick(&[4, 16, 48]);
        }
    }
    // Often, times that an awaited confirmation keeps.
    if random.chance(50) {
        head.wait_time = head.clock;
        head.latch_time = head.clock;
    }
    // Often a latch with objects of its own, armed for them or for the other outputs.
    if random.chance(30) {
        let objects = set_point_objects(&image, random);
        image.latch_objects[..objects.len()].copy_from_slice(&objects);
        image.head.latch_len = objects.len();
        image.head.latch_armed = random.pick(&[1, 2, 2, 3, 255]);
    }
    image
}

/// An output of this kind that a setup may have; or ends that are next to each other or far apart; or
/// as it is.
fn output(words: &mut [u32], kind: u32, random: &mut Random) {
    const LONG: [u32; 2] = [0xFFFE_EE90, 70_000];
    const SHORT: [u32; 2] = [0xFFFF_FED4, 256];
    const FLOATS: [[u32; 2]; 3] = [[0, 0x8000_0000], [0xBF80_0000, 0x3F80_0000], [0x8000_0001, 1]];
    const ENDS: [u32; 12] = [
        0,
        0x8000_0000,
        100,
        0xFFFF_FF9C,
        0x3F80_0000,
        0xBF80_0000,
        0x7F7F_FFFF,
        0xFF7F_FFFF,
        0x7F80_0000,
        0x7FC0_0000,
        0x7FFF,
        0xFFFF_8000,
    ];
    match random.below(10) {
        0..=5 => {
            let ends = [LONG, SHORT].get(kind as usize).copied();
            let [low, high] = ends.unwrap_or_else(|| random.pick(&FLOATS));
            words.copy_from_slice(&[kind, low, high]);
        }
        6..=7 => {
            (words[0], words[1]) = (words[0] % 4, random.pick(&ENDS));
            let (near, far) = (words[1].wrapping_add(random.below(3) as u32), random.pick(&ENDS));
            words[2] = random.pick(&[near, far]);
        }
        _ => {}
    }
}

/// A header of group 41 and one to eight objects, mostly of the first output's kind and at the ends.
fn set_point_objects(image: &Outstation, random: &mut Random) -> Vec<u8> {
    let first = random.below(ANALOG_OUTPUTS);
    let output = |index: usize| {
        Output::of(&image.analog_outputs[OUTPUT_RECORD * (index % ANALOG_OUTPUTS)..])
    };
    let any = random.below(3) as u8;
    let kind = if random.chance(85) { output(first).kind } else { any };
    let wide = random.chance(40);
    let objects = random.pick(&[1, 1, 2, 3, 8]);
    let mut bytes = vec![41, kind + 1, if wide { 0x28 } else { 0x17 }, objects as u8];
    if wide {
        bytes.push(0);
    }
    for place in 0..objects {
        let mut index = (first + place) % ANALOG_OUTPUTS;
        if random.chance(8) {
            index = random.pick(&[first, first, 0, 15, 16, 17, 255]);
        }
        bytes.push(index as u8);
        if wide {
            bytes.push(u8::from(random.chance(3)));
        }
        let Output { low, high, .. } = output(index);
        let any = random.next() as u32;
        let mut value = random.pick(&[low, high]);
        if random.chance(15) {
            let (under, over) = (low.wrapping_sub(1), high.wrapping_add(1));
            value = random.pick(&[under, over, low ^ 0x8000_0000, 0x7F80_0000, 0x7FC0_0000, any]);
        }
        bytes.extend_from_slice(&value.to_le_bytes()[..if kind == 1 { 2 } else { 4 }]);
        bytes.push(if random.chance(4) { random.byte() } else { 0 });
    }
    bytes
}

fn reading(clock: u64, random: &mut Random) -> Reading {
    let mut reading = Reading::random(random);
    if random.chance(90) {
        reading.time = clock.wrapping_add(random.below(3) as u64);
        reading.point %= 66;
        reading.flags %= random.pick(&[3, 3, 3, 33]);
        reading.kind %= 4;
    }
    reading
}

/// A fragment that an image may take up: a READ, a CONFIRM, an OPERATE of its latch, a repeat.
fn fragment(image: &Outstation, random: &mut Random) -> Vec<u8> {
    let head = &image.head;
    match random.below(8) {
        0 => vec![0xC0 | (head.wait_sequence % 16), 0],
        1 => {
            let mut bytes = vec![0xC0 | (head.latch_sequence.wrapping_add(1) % 16), 4];
            bytes.extend_from_slice(&image.latch_objects[..head.latch_len.min(OBJECTS)]);
            bytes
        }
        2 => image.request[..head.request_len.min(FRAGMENT)].to_vec(),
        3 => {
            let n = random.pick(&[0, 1, 2, 3, 20, 2048, 2049]);
            random.bytes(n)
        }
        4 => {
            let function = random.pick(&[3, 5, 6]);
            let mut bytes = vec![0xC1, function, 12, 1, 0x17, 1, random.byte() % 20, 3, 1];
            bytes.extend_from_slice(&[0; 9]);
            bytes
        }
        _ => {
            let mut bytes = vec![0xC2, 1];
            for _ in 0..random.below(6) {
                let header: [&[u8]; 6] = [
                    &[60, 1, 6],
                    &[60, 2, 6],
                    &[60, 3, 6],
                    &[60, 4, 6],
                    &[1, 0, 6],
                    &[30, 0, 0, 1, 7],
                ];
                bytes.extend_from_slice(random.pick(&header));
            }
            bytes
        }
    }
}

/// The status of a set point in SELECT and direct operation, for any words: the second program has
/// only outputs that a setup may have.
fn status(image: &Outstation, earlier: &[AnalogCommand], asked: &AnalogCommand) -> u8 {
    let installed = usize::from(image.head.analog_outputs).min(ANALOG_OUTPUTS);
    let index = usize::from(asked.index);
    if asked.status != 0 {
        return 3;
    }
    if index >= installed {
        return 4;
    }
    let Output { kind, low, high } = Output::of(&image.analog_outputs[OUTPUT_RECORD * index..]);
    let whole = |bits: u32| bits as i32;
    let inside = match kind {
        2 => {
            let [low, high, value] = [low, high, asked.bits].map(f32::from_bits);
            value.is_finite() && low <= value && value <= high
        }
        _ => whole(low) <= whole(asked.bits) && whole(asked.bits) <= whole(high),
    };
    if kind != asked.kind || !inside {
        return 4;
    }
    if earlier.iter().any(|earlier| earlier.index == asked.index) {
        return 8;
    }
    0
}

/// What a SELECT or a direct operation of set points came to, and what an OPERATE did, by the
/// definition.
fn set_points(
    given: &Outstation,
    left: &Outstation,
    bytes: &[u8],
    answer: &[u8],
    operated: &Operated,
    seen: &mut Seen,
) -> Result<(), String> {
    let kept = &given.request[..given.head.request_len.min(FRAGMENT)];
    let repeat = given.head.request_kept != 0 && kept == bytes;
    let (function, objects) = (bytes[1], &bytes[2..]);
    let sets = objects.first() == Some(&41) && matches!(function, 3..=6) && !repeat;
    let Some(controls) = control::parse(objects).ok().filter(|_| sets) else { return Ok(()) };
    let asked = operated_image(&controls).analog_commands;
    let asked = &asked.items[..asked.count];
    let given_statuses = statuses(bytes, asked.len(), answer).unwrap_or_default();
    if function == 4 {
        let latched = &given.latch_objects[..given.head.latch_len.min(OBJECTS)] == objects;
        let (armed, done) = (given.head.latch_armed, operated.count() > 0);
        seen.note("garbage: set points of a latch carried out", done);
        let relays = latched && armed == 1 && !done;
        seen.note("garbage: set points of a latch armed for relays not carried out", relays);
        return match done && !(latched && armed > 1) {
            true => Err("set points carried out that were not selected".into()),
            false => Ok(()),
        };
    }
    let expected: Vec<u8> =
        (0..asked.len()).map(|place| status(given, &asked[..place], &asked[place])).collect();
    if function != 6 && given_statuses != expected {
        return Err(format!("set points by their definition: {given_statuses:?}, {expected:?}"));
    }
    for (what, number) in [
        ("garbage: set point, status 0", 0),
        ("garbage: set point, status 3", 3),
        ("garbage: set point, status 4", 4),
        ("garbage: set point, status 8", 8),
    ] {
        seen.note(what, expected.contains(&number));
    }
    let all = expected.iter().all(|&status| status == 0);
    let armed = left.head.latch_armed;
    let mut done = Operated::zero();
    for (command, _) in asked.iter().zip(&expected).filter(|&(_, &status)| status == 0) {
        if function != 3 {
            done.analog_commands.items[done.analog_commands.count] = *command;
            done.analog_commands.count += 1;
        }
    }
    seen.note("garbage: set points carried out", done.count() > 0);
    if let Some(found) = operated.differs_in_objects(&done) {
        return Err(format!("set points by their definition{found}"));
    }
    same("latch armed for set points", &armed.min(2), &if function == 3 && all { 2 } else { 0 })
}

/// The state's calls on one image.
pub fn outstation(
    live: &Outstation,
    memory: &mut Memory,
    random: &mut Random,
    seen: &mut Seen,
) -> Result<(), String> {
    let given = image(live, random);
    let plain_image = plain(&given);

    let one = reading(given.head.clock, random);
    let (mut left, mut expected) = (given, plain_image);
    let refusal = memory.reading(&mut left, one)?;
    let refused = memory.reading(&mut expected, plain_reading(&one))?;
    same("reading: refusal", &refusal, &refused)?;
    same("reading", &plain(&left), &plain(&expected))?;
    let kinds = ["garbage: binary reading accepted", "garbage: whole reading accepted"];
    let kind = kinds.get(usize::from(one.kind)).unwrap_or(&"garbage: float reading accepted");
    seen.note(kind, refusal == 0);

    let n = random.pick(&[0, 1, 2, 20, 128, 129, 300]);
    let mut readings: Vec<Reading> = (0..n).map(|_| reading(given.head.clock, random)).collect();
    readings.sort_by_key(|reading| reading.time);
    // Often, readings that are taken where there are some binaries.
    if random.chance(30) {
        for reading in &mut readings {
            (reading.kind, reading.point, reading.flags) =
                (0, reading.point % 8, reading.flags % 3);
        }
    }
    let plain_readings: Vec<Reading> = readings.iter().map(plain_reading).collect();
    let (mut left, mut expected) = (given, plain_image);
    let took = memory.table(&mut left, &readings)?;
    let plain_took = memory.table(&mut expected, &plain_readings)?;
    same("table: taken", &took.0, &plain_took.0)?;
    same("table: refusal", &took.1, &plain_took.1)?;
    same("table", &plain(&left), &plain(&expected))?;
    seen.note("garbage: ten readings of a table taken", took.0 >= 10);

    let bytes = fragment(&given, random);
    let time = match random.below(4) {
        0 => random.next(),
        1 => given.head.wait_time,
        _ => given.head.clock.wrapping_add(random.below(3) as u64),
    };
    let len = random.pick(&[0, 2047, 2048, 2048, 2048, 2049, 5000]);
    let mut lent = Lent::new(len, random);
    one_fragment(&given, memory, time, &bytes, &mut lent, seen)?;
    // Set points at every image, as their definition says.
    let function = random.pick(&[3, 5, 6]);
    let bytes = [vec![0xC1, function], set_point_objects(&given, random)].concat();
    let mut lent = Lent::new(FRAGMENT, random);
    one_fragment(&given, memory, given.head.clock, &bytes, &mut lent, seen)
}

/// A fragment on an image as it is, and on the plain one.
fn one_fragment(
    given: &Outstation,
    memory: &mut Memory,
    time: u64,
    bytes: &[u8],
    lent: &mut Lent,
    seen: &mut Seen,
) -> Result<(), String> {
    let (mut left, mut expected) = (*given, plain(given));
    let (answer, operated) = memory.fragment(&mut left, time, bytes, lent.library())?;
    let (plain_answer, plain_operated) =
        memory.fragment(&mut expected, time, bytes, lent.second())?;
    same("fragment: answer", &answer, &plain_answer)?;
    if let Some(found) = operated.differs_in_objects(&plain_operated) {
        return Err(format!("fragment: objects{found} (given as it is, and plain)"));
    }
    let both = operated.crobs.count > 0 && operated.analog_commands.count > 0;
    same("fragment: objects of both groups", &u8::from(both), &0)?;
    same("fragment", &plain(&left), &plain(&expected))?;
    if answer.kind < 2 {
        let out = &lent.library()[..answer.length];
        set_points(given, &left, bytes, out, &operated, seen)?;
    }
    seen.note("garbage: fragment answered", answer.kind == 0);
    let read = answer.kind == 0 && bytes[1] == 1;
    seen.note("garbage: READ awaits a CONFIRM", read && left.head.waiting == 1);
    seen.note("garbage: CONFIRM accepted", answer.kind == 2);
    seen.note("garbage: objects carried out", operated.count() > 0);
    lent.compare()
}

/// The ends in their order, finite, and of a 16-bit output such as it can have.
fn allowed(output: &mut AnalogOutput, random: &mut Random) {
    if random.chance(60) {
        output.kind %= 3;
    }
    let AnalogOutput { low, high, kind } = *output;
    let (low, high) = match kind {
        0 => (low as i32, high as i32),
        1 => (i32::from(low as i16), i32::from(high as i16)),
        _ => {
            let [low, high] = [low, high].map(f32::from_bits).map(|end| match end.is_finite() {
                true => end,
                false => -0.0,
            });
            (output.low, output.high) = (low.min(high).to_bits(), low.max(high).to_bits());
            return;
        }
    };
    (output.low, output.high) = (low.min(high) as u32, low.max(high) as u32);
}

/// A setup of random bytes, then one with the limits kept.
pub fn setup(live: &Outstation, memory: &mut Memory, random: &mut Random) -> Result<(), String> {
    let mut setup = Setup::random(random);
    let n = random.pick(&[0, 1, 2, 63, 64, 65, 200]);
    let mut classes = random.bytes(n);
    let n = random.pick(&[0, 1, 2, 63, 64, 65, 200]);
    let mut setups: Vec<AnalogSetup> = (0..n).map(|_| AnalogSetup::random(random)).collect();
    for kept in [false, true] {
        if kept {
            (setup.own, setup.master) = (1, 2);
            setup.arm_time %= 64_001;
            setup.confirm_time = 1 + setup.confirm_time % 60_000;
            setup.outputs %= 17;
            setup.analog_output_count %= 17;
            setup.analog_outputs.iter_mut().for_each(|output| allowed(output, random));
            classes.truncate(BINARIES);
            setups.truncate(ANALOGS);
            classes.iter_mut().for_each(|class| *class %= 4);
            for analog in &mut setups {
                analog.class_ %= 4;
                if analog.kind >= 2 {
                    for number in [&mut analog.gain, &mut analog.offset, &mut analog.limit] {
                        if !f32::from_bits(*number).is_finite() {
                            *number = 1.5_f32.to_bits();
                        }
                    }
                    analog.limit &= 0x7FFF_FFFF;
                }
            }
        }
        let plain_setups: Vec<AnalogSetup> = setups.iter().map(plain_analog_setup).collect();
        let plain_given = plain_setup(&setup);
        // Whatever the arrays hold.
        let (mut left, mut expected) = (image(live, random), *live);
        let refusal = memory.restart(&mut left, setup, &classes, &setups)?;
        let refused = memory.restart(&mut expected, plain_given, &classes, &plain_setups)?;
        same("restart: refusal", &refusal, &refused)?;
        same("restart", &plain(&left), &plain(&expected))?;
        if kept {
            same("restart: refusal with the limits kept", &refusal, &0)?;
        }
    }
    Ok(())
}

/// A receiver of random bytes, or one with a frame's beginning, whole or not; any count.
fn any_receiver(random: &mut Random) -> Receiver {
    let mut receiver = Receiver::random(random);
    if random.chance(70) {
        let n = random.pick(&[0, 1, 16, 17, 249, 250]);
        let user = random.bytes(n);
        let control = random.byte();
        frame_write(&mut receiver.bytes, control, 1, 2, &user);
    }
    if random.chance(20) {
        receiver.bytes[random.below(20)] ^= 1;
    }
    let counts = [random.below(20), count(FRAME, random), count(10, random)];
    receiver.kept = random.pick(&counts);
    receiver
}

/// A piece on any receiver: the same as on the plain one, and as the second program's, which was
/// given what the plain one keeps.
fn piece(memory: &mut Memory, random: &mut Random, seen: &mut Seen) -> Result<(), String> {
    let given = any_receiver(random);
    let whole = given.bytes;
    let start = if random.chance(70) { kept(&given).len() } else { random.below(FRAME) };
    let n = random.pick(&[0, 1, 2, 9, 10, 11, 300, 600]);
    // What goes on with it, or a whole frame, or any bytes.
    let mut bytes = if random.chance(70) { whole[start..].to_vec() } else { random.bytes(n) };
    let after = random.below(12);
    bytes.extend(random.bytes(after));
    let len = random.pick(&[0, 1, 249, 250, 250, 250, 251, 2048]);
    let mut lent = Lent::new(len, random);
    let (mut left, mut plain_left) = (given, plain_receiver(&given));
    let (before, mut bytes_kept) = (plain_left, kept(&given).to_vec());
    let told = memory.piece(&mut left, &bytes, lent.library())?;
    let expected = memory.piece(&mut plain_left, &bytes, lent.second())?;
    lent.compare()?;
    same("piece: taken", &told.taken, &expected.taken)?;
    same("piece: waits", &told.waits, &expected.waits)?;
    same("piece: frame", &told.frame, &expected.frame)?;
    seen.note("garbage: piece with a frame", told.waits == 0 && told.frame.refusal == 0);
    seen.note("garbage: piece refused", told.waits == 0 && told.frame.refusal != 0);
    seen.note("garbage: a receiver that is read as empty", given.kept != 0 && before.kept == 0);
    seen.note("garbage: a receiver that goes on", before.kept != 0);
    if told.frame.refusal == 33 {
        same("receiver of a refused piece", &left, &given)?;
        return same("plain receiver of a refused piece", &plain_left, &before);
    }
    same("receiver", &plain_receiver(&left), &plain_receiver(&plain_left))?;

    let mut second = receiver::Receiver::default();
    let mut room = Lent::new(USER, random);
    second.take(&bytes_kept, room.second());
    let (taken, end) = second.take(&bytes, room.second());
    let number = end.as_ref().map_or(0, |end| end.as_ref().map_or_else(|no| no.number(), |_| 0));
    same("piece: taken", &told.taken, &taken)?;
    same("piece: waits", &told.waits, &u8::from(end.is_none()))?;
    same("piece: refusal", &told.frame.refusal, &number)?;
    keep(&mut bytes_kept, &bytes[..taken], &end);
    same("kept", &left.kept, &bytes_kept.len())?;
    match left.bytes[..left.kept] == bytes_kept {
        true => Ok(()),
        false => Err("the bytes kept".into()),
    }
}

/// The last segment taken in, as any assembly and lent bytes have it. It had no FIN.
fn last_segment(assembly: &Assembly, lent: &[u8]) -> Vec<u8> {
    let Assembly { length, last_length, last, last_fir, .. } = *assembly;
    let end = length.min(lent.len());
    let from = length.saturating_sub(last_length).min(end);
    let head = (last % 64) | if last_fir != 0 { 0x40 } else { 0 };
    [&[head][..], &lent[from..end]].concat()
}

/// What a segment comes to, for any numbers: the second program has only those that a call leaves.
fn heard(assembly: &Assembly, bytes: &[u8], lent: &mut [u8]) -> Reception {
    let refused = |assembly, refusal| {
        let segment = Segment { length: 0, kind: 2, refusal };
        Reception { assembly, segment }
    };
    let (begun, last_fir) = (u8::from(assembly.begun != 0), u8::from(assembly.last_fir != 0));
    let stays = Assembly { begun, last_fir, ..*assembly };
    let forgotten = Assembly::zero();
    if lent.len() < FRAGMENT {
        return refused(stays, 33);
    }
    let (head, data) = match bytes {
        [head, data @ ..] if !data.is_empty() && data.len() < USER => (*head, data),
        _ => return refused(stays, 21),
    };
    let first = head & 0x40 != 0;
    let from = if first { 0 } else { assembly.length };
    if !first && begun == 0 {
        return refused(forgotten, 22);
    }
    if !first && bytes == last_segment(assembly, lent) {
        let segment = Segment { length: 0, kind: 0, refusal: 0 };
        return Reception { assembly: stays, segment };
    }
    if !first && head % 64 != (assembly.last % 64 + 1) % 64 {
        return refused(forgotten, 22);
    }
    if from > FRAGMENT - data.len() {
        return refused(forgotten, 23);
    }
    let length = from + data.len();
    lent[from..length].copy_from_slice(data);
    if head & 0x80 != 0 {
        let segment = Segment { length, kind: 1, refusal: 0 };
        return Reception { assembly: forgotten, segment };
    }
    let (last_length, last_fir) = (data.len(), u8::from(first));
    let assembly = Assembly { length, last_length, last: head % 64, last_fir, begun: 1 };
    Reception { assembly, segment: Segment { length: 0, kind: 0, refusal: 0 } }
}

/// Any assembly; often the last few of the bytes so far, or of those lent where they are less, are
/// the last segment's.
fn any_assembly(lent: usize, random: &mut Random) -> Assembly {
    let mut assembly = Assembly::random(random);
    let (few, any) = (random.below(252), count(FRAGMENT, random));
    assembly.length = random.pick(&[few, any, any]);
    let few = assembly.length.saturating_sub(lent).saturating_add(random.below(252));
    let any = count(FRAGMENT, random);
    assembly.last_length = random.pick(&[few, few, any]);
    if random.chance(60) {
        assembly.last_fir = 0;
    }
    if random.chance(20) {
        assembly.begun = 0;
    }
    assembly
}

/// The last segment again, or all but it.
fn again(assembly: &Assembly, lent: &[u8], random: &mut Random) -> Vec<u8> {
    let mut bytes = last_segment(assembly, lent);
    let last = bytes.len() - 1;
    match random.below(10) {
        0 => bytes[0] &= 0x3F,
        1 => bytes[0] ^= random.pick(&[0x40, 0x80]),
        2 => bytes[last] ^= 1 << random.below(8),
        3 => bytes[random.below(last + 1)] ^= 1 << random.below(8),
        // Less or more of what stands there, at either end.
        4 if last > 0 => drop(bytes.remove(random.pick(&[1, last]))),
        5 => {
            let before = assembly.length.saturating_sub(assembly.last_length).wrapping_sub(1);
            let (place, from) = random.pick(&[(1, before), (last + 1, assembly.length)]);
            bytes.insert(place, lent.get(from).copied().unwrap_or(0));
        }
        _ => {}
    }
    bytes
}

/// A segment on any assembly: as the definition says, and the same as on the plain one.
fn segment(bytes: &[u8], random: &mut Random, seen: &mut Seen) -> Result<(), String> {
    let mut lent = Lent::new(random.pick(&[0, 1, 250, 2047, 2048, 2048, 2048, 2049, 3000]), random);
    let assembly = any_assembly(lent.library().len(), random);
    let mut bytes = bytes.to_vec();
    let meant = random.chance(60);
    if meant {
        bytes = again(&assembly, lent.library(), random);
    } else if let (Some(first), true) = (bytes.first_mut(), random.chance(80)) {
        *first = (*first & 0xC0) | ((assembly.last % 64 + 1) % 64);
    }
    let (mut defined, mut plain_lent) = (lent.second().to_vec(), lent.second().to_vec());
    let expected = heard(&assembly, &bytes, &mut defined);
    let reception = segment_receive(assembly, &bytes, lent.library());
    lent.second().copy_from_slice(&defined);
    same("segment by its definition", &reception.segment, &expected.segment)?;
    same("assembly by its definition", &reception.assembly, &expected.assembly)?;
    lent.compare()?;

    let plain = segment_receive(plain_assembly(assembly), &bytes, &mut plain_lent);
    same("segment", &reception.segment, &plain.segment)?;
    same("assembly", &plain_assembly(reception.assembly), &plain_assembly(plain.assembly))?;
    lent.second().copy_from_slice(&plain_lent);
    lent.compare()?;

    let Assembly { length, last_length, .. } = assembly;
    let head = bytes.first().copied().unwrap_or(0);
    let repeat = meant && head & 0x40 == 0 && reception.segment.kind == 0;
    let repeat = repeat && head % 64 == assembly.last % 64;
    seen.note("garbage: a repeat ignored", repeat);
    seen.note("garbage: a repeat ignored, more bytes than lent", repeat && length > defined.len());
    seen.note("garbage: a repeat ignored, longer than all so far", repeat && last_length > length);
    let turned = meant && !repeat && assembly.begun != 0 && assembly.last_fir == 0;
    seen.note("garbage: a repeat but for one byte", turned && reception.segment.refusal == 22);
    Ok(())
}

/// The line's calls on random bytes, and on any receiver, assembly and sender.
pub fn line(memory: &mut Memory, random: &mut Random, seen: &mut Seen) -> Result<(), String> {
    let n = random.pick(&[0, 1, 2, 9, 10, 30, 249, 250, 251, 292, 600, 2048, 2049]);
    let mut bytes = random.bytes(n);
    if bytes.len() > 2 && random.chance(50) {
        bytes[..2].copy_from_slice(&[0x05, 0x64]);
    }
    let lens = [0, 1, 249, 250, 251, 291, 292, 293, 2047, 2048, 2049];

    // Nothing of these is a kind or a truth: they must return, and write nothing past what is lent.
    let mut lent = Lent::new(random.pick(&lens), random);
    let mut line = Line::random(random);
    let taken = link_receive(&mut line, Station::random(random), &bytes, lent.library());
    if taken.kind != 0 {
        lent.compare()?;
    }
    let mut lent = Lent::new(random.pick(&lens), random);
    if frame_read(&bytes, lent.library()).refusal != 0 {
        lent.compare()?;
    }

    piece(memory, random, seen)?;

    segment(&bytes, random, seen)?;

    let sender = Sender { at: count(2048, random), next: random.byte() };
    let at = if sender.at < bytes.len() { sender.at } else { 0 };
    let plain_sender = Sender { at, next: sender.next % 64 };
    let mut lent = Lent::new(random.pick(&lens), random);
    let sending = segment_send(sender, &bytes, lent.library());
    let expected = segment_send(plain_sender, &bytes, lent.second());
    same("sent", &sending.sent, &expected.sent)?;
    if sending.sent.refusal == 0 {
        same("sender", &sending.sender, &expected.sender)?;
    } else {
        same("sender of a refused call", &sending.sender, &sender)?;
    }
    lent.compare()
}
