//! What numbers mean by the header: `plain` gives the one image that stands for all of the same
//! meaning, `other` another of the same meaning.

use reference::frame::{look_over, FrameRefusal};
use reference::generate::Random;

use crate::header::*;
use crate::words::{self, is_nan, Analog, Binary, Event, Output, Shown, OUTPUT_RECORD, RECORD};

fn truth(number: u8) -> u8 {
    u8::from(number != 0)
}

/// A kind, of which `last` and every number above it mean the same.
fn kind(number: u8, last: u8) -> u8 {
    number.min(last)
}

// ---- the plain image

pub fn plain_head(head: &Head) -> Head {
    let mut head = *head;
    head.binary_count = head.binary_count.min(BINARIES);
    head.analog_count = head.analog_count.min(ANALOGS);
    head.event_count = head.event_count.min(EVENTS);
    head.analog_outputs = head.analog_outputs.min(ANALOG_OUTPUTS as u16);
    head.overflow = truth(head.overflow);
    head.restarted = truth(head.restarted);
    head.waiting = truth(head.waiting);
    if head.waiting == 0 {
        (head.wait_time, head.wait_sequence) = (0, 0);
        (head.showed_overflow, head.dropped_since) = (0, 0);
    }
    head.showed_overflow = truth(head.showed_overflow);
    head.dropped_since = truth(head.dropped_since);
    head.request_kept = truth(head.request_kept);
    if head.request_kept == 0 {
        (head.request_len, head.answer_len) = (0, 0);
    }
    head.request_len = head.request_len.min(FRAGMENT);
    head.answer_len = head.answer_len.min(KEPT_ANSWER);
    // 1 is armed for relays, every number above it for analog outputs.
    head.latch_armed = kind(head.latch_armed, 2);
    if head.latch_armed == 0 {
        (head.latch_time, head.latch_sequence, head.latch_len) = (0, 0, 0);
    }
    head.latch_len = head.latch_len.min(OBJECTS);
    head
}

pub fn plain(image: &Outstation) -> Outstation {
    let mut image = *image;
    image.head = plain_head(&image.head);
    let head = &image.head;
    let (binaries, rest) = image.binaries.split_at_mut(head.binary_count);
    binaries.iter_mut().for_each(|word| *word = Binary::of(*word).word());
    rest.fill(0);
    let (analogs, rest) = image.analogs.split_at_mut(RECORD * head.analog_count);
    for words in analogs.chunks_exact_mut(RECORD) {
        words.copy_from_slice(&Analog::of(words).words());
    }
    rest.fill(0);
    let installed = OUTPUT_RECORD * usize::from(head.analog_outputs);
    let (outputs, rest) = image.analog_outputs.split_at_mut(installed);
    for words in outputs.chunks_exact_mut(OUTPUT_RECORD) {
        words.copy_from_slice(&Output::of(words).words());
    }
    rest.fill(0);
    let (events, rest) = image.events.split_at_mut(2 * head.event_count);
    for words in events.chunks_exact_mut(2) {
        words.copy_from_slice(&Event::of(words[0], words[1]).words());
    }
    rest.fill(0);
    image.request[head.request_len..].fill(0);
    image.answer[head.answer_len..].fill(0);
    image.latch_objects[head.latch_len..].fill(0);
    image
}

pub fn plain_reading(reading: &Reading) -> Reading {
    let kind = kind(reading.kind, 2);
    let bits = match kind {
        0 => u32::from(reading.bits != 0),
        1 => reading.bits,
        _ => words::float(reading.bits),
    };
    Reading { kind, bits, ..*reading }
}

pub fn plain_analog_setup(analog: &AnalogSetup) -> AnalogSetup {
    let mut plain = *analog;
    plain.kind = kind(analog.kind, 2);
    plain.gate = kind(analog.gate, 3);
    if plain.kind < 2 {
        (plain.gain, plain.offset) = (0, 0);
    } else {
        for bits in [&mut plain.gain, &mut plain.offset, &mut plain.limit] {
            *bits = words::float(*bits);
        }
    }
    if plain.gate < 2 {
        plain.limit = 0;
    }
    plain
}

/// What is past the count does not count; a count above 16 is refused.
pub fn plain_setup(setup: &Setup) -> Setup {
    let mut plain = *setup;
    let count = usize::from(setup.analog_output_count).min(ANALOG_OUTPUTS);
    let (outputs, rest) = plain.analog_outputs.split_at_mut(count);
    for output in outputs {
        output.kind = kind(output.kind, 2);
        if output.kind == 2 {
            (output.low, output.high) = (words::float(output.low), words::float(output.high));
        }
    }
    rest.fill(AnalogOutput::zero());
    plain
}

/// A segment with FIR is never a repeat, so it does not count how long the last one was that had it.
/// More bytes than there are so far means all of them.
pub fn plain_assembly(assembly: Assembly) -> Assembly {
    if assembly.begun == 0 {
        return Assembly::zero();
    }
    let Assembly { length, last_length, last, last_fir, .. } = assembly;
    let last_length = if last_fir == 0 { last_length.min(length) } else { 0 };
    Assembly { length, last_length, last: last % 64, last_fir: truth(last_fir), begun: 1 }
}

/// The bytes that a receiver keeps: none where they are no frame's beginning.
pub fn kept(receiver: &Receiver) -> &[u8] {
    let bytes = &receiver.bytes[..receiver.kept.min(FRAME)];
    match look_over(bytes) {
        Err(FrameRefusal::By(11)) => bytes,
        _ => &[],
    }
}

pub fn plain_receiver(receiver: &Receiver) -> Receiver {
    let mut plain = Receiver::zero();
    let bytes = kept(receiver);
    plain.kept = bytes.len();
    plain.bytes[..bytes.len()].copy_from_slice(bytes);
    plain
}

// ---- another image of the same meaning

/// A number from 1 up for true, 0 for false.
fn other_truth(number: &mut u8, random: &mut Random) {
    if *number != 0 {
        *number = random.between(1, 255) as u8;
    }
}

fn other_kind(number: &mut u8, last: u8, random: &mut Random) {
    if *number >= last {
        *number = random.between(usize::from(last), 255) as u8;
    }
}

/// A count that means the same: one at the most the array has, or above it.
fn other_count(count: &mut usize, most: usize, random: &mut Random) {
    if *count >= most {
        *count = random.pick(&[most, most + 1, most + 300, usize::MAX, 1 << 32]);
    }
}

/// Any bits but 0.
fn true_bits(random: &mut Random) -> u32 {
    let any = random_bits(random) | 1;
    random.pick(&[1, 2, 256, 0x8000_0000, u32::MAX, any])
}

fn random_bits(random: &mut Random) -> u32 {
    random.next() as u32
}

/// Another NaN for a NaN.
fn other_float(bits: u32, random: &mut Random) -> u32 {
    match is_nan(bits) {
        false => bits,
        true => (0x7F80_0001 + random.below(0x7F_FFFF) as u32) | (random_bits(random) & 1 << 31),
    }
}

/// Other bits of what is shown: a 16-bit number at its end stands for all beyond.
fn other_shown(shown: Shown, random: &mut Random) -> u32 {
    match shown {
        Shown::State(false) => 0,
        Shown::State(true) => true_bits(random),
        Shown::Long(value) => value as u32,
        Shown::Short(i16::MAX) => random.pick(&[32_767, 32_768, i32::MAX]) as u32,
        Shown::Short(i16::MIN) => random.pick(&[-32_768, -32_769, i32::MIN]) as u32,
        Shown::Short(value) => i32::from(value) as u32,
        Shown::Real(bits) => other_float(bits, random),
    }
}

fn other_binary(word: u32, random: &mut Random) -> u32 {
    Binary::of(word).word() | random_bits(random) << 26
}

fn other_analog(words: &mut [u32], random: &mut Random) {
    let analog = Analog::of(words);
    words.copy_from_slice(&analog.words());
    words[0] |= random_bits(random) & 1 << 31;
    words[1] = other_shown(analog.value, random);
    // Kind 3 is one more float.
    if matches!(analog.value, Shown::Real(_)) {
        words[0] |= random_bits(random) & 1 << 25;
    }
    if analog.kind < 2 {
        (words[6], words[7]) = (random_bits(random), random_bits(random));
    } else {
        words[0] |= random_bits(random) & 1 << 27;
        for bits in &mut words[2..] {
            *bits = other_float(*bits, random);
        }
    }
    if analog.gate < 2 {
        words[2] = random_bits(random);
    }
}

/// Every kind above 1 is a float.
fn other_output(words: &mut [u32], random: &mut Random) {
    let output = Output::of(words);
    words.copy_from_slice(&output.words());
    if output.kind == 2 {
        words[0] = random.pick(&[2, 3, 255, 256, 257, 0x8000_0000, u32::MAX]);
        words[1..].iter_mut().for_each(|bits| *bits = other_float(*bits, random));
    }
}

fn other_event(words: &mut [u64], random: &mut Random) {
    let event = Event::of(words[0], words[1]);
    let [_, second] = event.words();
    let bits = other_shown(event.shown, random);
    let mut kind = event.shown.coded().0 as u8;
    if kind == 2 {
        kind = random.pick(&[2, 4, 5, 128, 255]);
    }
    let mut mark = u8::from(event.carried);
    other_truth(&mut mark, random);
    words[1] =
        second & 0xFFFF << 32 | u64::from(bits) | u64::from(kind) << 48 | u64::from(mark) << 56;
}

pub fn other(image: &Outstation, random: &mut Random) -> Outstation {
    let mut image = *image;
    let head = &mut image.head;
    let (binaries, rest) = image.binaries.split_at_mut(head.binary_count.min(BINARIES));
    binaries.iter_mut().for_each(|word| *word = other_binary(*word, random));
    rest.iter_mut().for_each(|word| *word = random_bits(random));
    let (analogs, rest) = image.analogs.split_at_mut(RECORD * head.analog_count.min(ANALOGS));
    analogs.chunks_exact_mut(RECORD).for_each(|words| other_analog(words, random));
    // Only some: the whole array each time would take long.
    rest.iter_mut().take(3 * RECORD).for_each(|word| *word = random_bits(random));
    let installed = usize::from(head.analog_outputs).min(ANALOG_OUTPUTS);
    let (outputs, rest) = image.analog_outputs.split_at_mut(OUTPUT_RECORD * installed);
    outputs.chunks_exact_mut(OUTPUT_RECORD).for_each(|words| other_output(words, random));
    rest.iter_mut().for_each(|word| *word = random_bits(random));
    let (events, rest) = image.events.split_at_mut(2 * head.event_count.min(EVENTS));
    events.chunks_exact_mut(2).for_each(|words| other_event(words, random));
    rest.iter_mut().take(6).for_each(|word| *word = random.next());

    if head.waiting == 0 {
        (head.wait_time, head.wait_sequence) = (random.next(), random.byte());
        (head.showed_overflow, head.dropped_since) = (random.byte(), random.byte());
    }
    if head.request_kept == 0 {
        (head.request_len, head.answer_len) = (random.next() as usize, random.next() as usize);
        image.request[random.below(FRAGMENT)] = random.byte();
        image.answer[random.below(KEPT_ANSWER)] = random.byte();
    } else {
        if let Some(byte) = image.request.get_mut(head.request_len) {
            *byte = random.byte();
        }
        if let Some(byte) = image.answer.get_mut(head.answer_len) {
            *byte = random.byte();
        }
        other_count(&mut head.request_len, FRAGMENT, random);
        other_count(&mut head.answer_len, KEPT_ANSWER, random);
    }
    if head.latch_armed == 0 {
        (head.latch_time, head.latch_sequence) = (random.next(), random.byte());
        head.latch_len = random.next() as usize;
        image.latch_objects.iter_mut().for_each(|byte| *byte = random.byte());
    } else {
        if let Some(byte) = image.latch_objects.get_mut(head.latch_len) {
            *byte = random.byte();
        }
        other_count(&mut head.latch_len, OBJECTS, random);
    }
    other_count(&mut head.binary_count, BINARIES, random);
    other_count(&mut head.analog_count, ANALOGS, random);
    other_count(&mut head.event_count, EVENTS, random);
    if usize::from(head.analog_outputs) >= ANALOG_OUTPUTS {
        head.analog_outputs = random.pick(&[16, 17, 18, 255, 256, 257, 65_535]);
    }
    other_kind(&mut head.latch_armed, 2, random);
    for truth in [
        &mut head.overflow,
        &mut head.restarted,
        &mut head.waiting,
        &mut head.showed_overflow,
        &mut head.dropped_since,
        &mut head.request_kept,
    ] {
        other_truth(truth, random);
    }
    image
}

pub fn other_reading(reading: &Reading, random: &mut Random) -> Reading {
    let mut reading = *reading;
    match reading.kind {
        0 if reading.bits != 0 => reading.bits = true_bits(random),
        0 | 1 => {}
        _ => reading.bits = other_float(reading.bits, random),
    }
    other_kind(&mut reading.kind, 2, random);
    reading
}

pub fn other_analog_setup(analog: &AnalogSetup, random: &mut Random) -> AnalogSetup {
    let mut analog = *analog;
    if analog.kind < 2 {
        (analog.gain, analog.offset) = (random_bits(random), random_bits(random));
    }
    if analog.gate < 2 {
        analog.limit = random_bits(random);
    }
    other_kind(&mut analog.kind, 2, random);
    other_kind(&mut analog.gate, 3, random);
    analog
}

pub fn other_setup(setup: &Setup, random: &mut Random) -> Setup {
    let mut other = *setup;
    let count = usize::from(setup.analog_output_count).min(ANALOG_OUTPUTS);
    let (outputs, rest) = other.analog_outputs.split_at_mut(count);
    outputs.iter_mut().for_each(|output| other_kind(&mut output.kind, 2, random));
    rest.iter_mut().for_each(|output| *output = AnalogOutput::random(random));
    other
}

pub fn other_assembly(assembly: Assembly, random: &mut Random) -> Assembly {
    let mut assembly = assembly;
    if assembly.begun == 0 {
        return Assembly { begun: 0, ..Assembly::random(random) };
    }
    assembly.last = assembly.last % 64 + random.pick(&[0, 64, 128, 192]);
    if assembly.last_fir != 0 {
        assembly.last_length = random.next() as usize;
    } else {
        other_count(&mut assembly.last_length, assembly.length, random);
    }
    other_truth(&mut assembly.last_fir, random);
    other_truth(&mut assembly.begun, random);
    assembly
}

/// Any bytes after those kept; for none kept also bytes that begin no frame, and counts past all of
/// them.
pub fn other_receiver(receiver: &Receiver, random: &mut Random) -> Receiver {
    let mut other = *receiver;
    other.bytes[receiver.kept..].iter_mut().for_each(|byte| *byte = random.byte());
    if receiver.kept == 0 && random.chance(50) {
        other.bytes[0] = random.between(6, 255) as u8;
        let any = random.next() as usize | 1 << 10;
        other.kept = random.pick(&[10, 11, 291, FRAME, FRAME + 1, usize::MAX, 1 << 32, any]);
    }
    other
}
