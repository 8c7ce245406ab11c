//! The library's state, head and lent words, against the second program's, field by field.

use reference::control::Group;
use reference::outstation::Outstation;
use reference::points::{Form, Gate, Past, Value};
use reference::set_points::SetPoint;

use crate::header::{self, Head, FRAGMENT, KEPT_ANSWER, OBJECTS};
use crate::words::{Analog, Binary, Event, Output, Shown, OUTPUT_RECORD, RECORD};

/// An error that names both sides.
pub fn equal<T: PartialEq + std::fmt::Debug>(
    what: &str,
    library: T,
    second: T,
) -> Result<(), String> {
    if library == second {
        return Ok(());
    }
    Err(format!("{what}: the library has {library:?}, the second program {second:?}"))
}

pub fn compare(image: &header::Outstation, second: &Outstation) -> Result<(), String> {
    let (head, setup) = (&image.head, &second.setup);
    equal("arm time", head.arm_time, u64::from(setup.arm_time))?;
    equal("confirm time", head.confirm_time, u64::from(setup.confirm_time))?;
    equal("outputs", head.outputs, u16::from(setup.outputs))?;
    equal("clock", head.clock, second.clock)?;
    points(image, second)?;
    outputs(image, second)?;
    events(image, second)?;
    equal("restarted", head.restarted != 0, second.restarted)?;
    wait(head, second)?;
    latch(image, second)?;
    last_request(image, second)
}

/// A point as the library keeps it. `reported`: the flags last reported of a point without a reading,
/// which are not said.
fn binary_of(two: &reference::points::Binary, reported: u8) -> Binary {
    let (state, flags) = two.shown();
    let seen = two.latest.is_some();
    // Every change of flags is reported.
    Binary { class: two.class, flags, reported: if seen { flags } else { reported }, seen, state }
}

fn analog_of(two: &reference::points::Analog, reported: u8) -> Analog {
    let (value, flags) = two.shown();
    let (kind, (gate, limit), bits, reported_flags, [gain, offset]) = match two.form {
        Form::Whole32(gate) | Form::Whole16(gate) => {
            let fresh = Past { reported: 0, reported_flags: reported, previous: 0, sum: 0 };
            let past = two.whole.unwrap_or(fresh);
            // 32 bits: signed readings, a sum up to its limit.
            let whole = |number: i64| match u32::try_from(number) {
                Ok(bits) => bits,
                Err(_) => number as i32 as u32,
            };
            let (gate, limit) = gate_parts(gate);
            let bits = [past.reported, past.previous, past.sum].map(whole);
            let kind = u8::from(matches!(two.form, Form::Whole16(_)));
            (kind, (gate, limit.map(whole)), bits, past.reported_flags, [0, 0])
        }
        Form::Float { gain, offset, gate } => {
            let fresh = Past { reported: 0.0, reported_flags: reported, previous: 0.0, sum: 0.0 };
            let past = two.float.unwrap_or(fresh);
            let (gate, limit) = gate_parts(gate);
            let bits = [past.reported, past.previous, past.sum].map(f32::to_bits);
            let scale = [gain, offset].map(f32::to_bits);
            (2, (gate, limit.map(f32::to_bits)), bits, past.reported_flags, scale)
        }
    };
    let [reported, previous, sum] = bits;
    Analog {
        class: two.class,
        flags,
        reported_flags,
        seen: two.latest.is_some(),
        value: shown(value),
        kind,
        gate,
        limit: limit.unwrap_or(0),
        reported,
        previous,
        sum,
        gain,
        offset,
    }
}

/// The ends of whole set points in a setup that was taken fit 32 bits.
fn output_of(two: &SetPoint) -> Output {
    let (kind, low, high) = match *two {
        SetPoint::Whole32(low, high) => (0, low as i32 as u32, high as i32 as u32),
        SetPoint::Whole16(low, high) => (1, low as i32 as u32, high as i32 as u32),
        SetPoint::Float(low, high) => (2, low.to_bits(), high.to_bits()),
    };
    Output { kind, low, high }
}

/// The head's number for a latch that is armed for this group.
fn armed_for(group: Group) -> u8 {
    match group {
        Group::Relays => 1,
        Group::SetPoints => 2,
    }
}

/// The number of a gate, and its limit if it has one.
pub fn gate_parts<L>(gate: Gate<L>) -> (u8, Option<L>) {
    match gate {
        Gate::Never => (0, None),
        Gate::AnyChange => (1, None),
        Gate::Beyond(limit) => (2, Some(limit)),
        Gate::Summed(limit) => (3, Some(limit)),
    }
}

/// The held events, oldest first.
fn events_of(second: &Outstation) -> impl Iterator<Item = Event> + '_ {
    let carried = second.wait.as_ref().map_or(&[][..], |wait| &wait.carried);
    let mut carried = carried.iter().peekable();
    second.events.held.iter().map(move |two| Event {
        time: two.time,
        point: u16::from(two.index),
        shown: shown(two.value),
        flags: two.flags,
        class: two.class,
        carried: carried.next_if_eq(&&two.number).is_some(),
    })
}

fn points(image: &header::Outstation, second: &Outstation) -> Result<(), String> {
    equal("binaries", image.head.binary_count, second.binaries.len())?;
    for (place, (&word, two)) in image.binaries.iter().zip(&second.binaries).enumerate() {
        let one = Binary::of(word);
        let expected = binary_of(two, one.reported);
        if one != expected {
            return equal(&format!("binary {place}"), one, expected);
        }
    }
    equal("analogs", image.head.analog_count, second.analogs.len())?;
    let words = image.analogs.chunks_exact(RECORD);
    for (place, (words, two)) in words.zip(&second.analogs).enumerate() {
        let one = Analog::of(words);
        let expected = analog_of(two, one.reported_flags);
        if one != expected {
            return equal(&format!("analog {place}"), one, expected);
        }
    }
    Ok(())
}

fn outputs(image: &header::Outstation, second: &Outstation) -> Result<(), String> {
    let set_points = &second.setup.set_points;
    equal("analog outputs", usize::from(image.head.analog_outputs), set_points.len())?;
    let words = image.analog_outputs.chunks_exact(OUTPUT_RECORD);
    for (place, (words, two)) in words.zip(set_points).enumerate() {
        equal(&format!("analog output {place}"), Output::of(words), output_of(two))?;
    }
    Ok(())
}

fn events(image: &header::Outstation, second: &Outstation) -> Result<(), String> {
    equal("events held", image.head.event_count, second.events.held.len())?;
    equal("overflow", image.head.overflow != 0, second.events.warning)?;
    for (place, (words, expected)) in
        image.events.chunks_exact(2).zip(events_of(second)).enumerate()
    {
        let one = Event::of(words[0], words[1]);
        if one != expected {
            return equal(&format!("event {place}"), one, expected);
        }
    }
    Ok(())
}

fn wait(head: &Head, second: &Outstation) -> Result<(), String> {
    let wait = (head.waiting != 0).then_some((
        head.wait_sequence,
        head.wait_time,
        head.showed_overflow != 0,
        head.dropped_since != 0,
    ));
    let expected =
        second.wait.as_ref().map(|w| (w.sequence, w.time, w.showed_warning, w.dropped_since));
    equal("wait", wait, expected)
}

fn latch(image: &header::Outstation, second: &Outstation) -> Result<(), String> {
    let head = &image.head;
    let latch = (head.latch_armed != 0).then(|| {
        let objects = &image.latch_objects[..head.latch_len.min(OBJECTS)];
        (head.latch_armed.min(2), head.latch_sequence, head.latch_time, objects)
    });
    let expected = second.latch.as_ref();
    let expected = expected.map(|l| (armed_for(l.group), l.sequence, l.time, &l.objects[..]));
    equal("latch: armed for, sequence, time, objects", latch, expected)
}

fn last_request(image: &header::Outstation, second: &Outstation) -> Result<(), String> {
    let head = &image.head;
    let last = (head.request_kept != 0).then(|| {
        let request = &image.request[..head.request_len.min(FRAGMENT)];
        (request, &image.answer[..head.answer_len.min(KEPT_ANSWER)])
    });
    equal("last request", last, last_of(second))
}

/// The last request and its answer. A READ is never a repeat: the library does not keep its answer.
fn last_of(second: &Outstation) -> Option<(&[u8], &[u8])> {
    let request = second.last_request.as_ref()?;
    let answer = request.answer.as_deref().filter(|_| request.bytes[1] != 1);
    Some((&request.bytes, answer.unwrap_or(&[])))
}

// ---- the second program's state as a plain image

pub fn head_of(second: &Outstation) -> Head {
    let mut head = Head::zero();
    head.arm_time = u64::from(second.setup.arm_time);
    head.confirm_time = u64::from(second.setup.confirm_time);
    head.clock = second.clock;
    head.binary_count = second.binaries.len();
    head.analog_count = second.analogs.len();
    head.event_count = second.events.held.len();
    head.outputs = u16::from(second.setup.outputs);
    head.analog_outputs = second.setup.set_points.len() as u16;
    head.overflow = u8::from(second.events.warning);
    head.restarted = u8::from(second.restarted);
    if let Some(wait) = &second.wait {
        (head.waiting, head.wait_sequence, head.wait_time) = (1, wait.sequence, wait.time);
        head.showed_overflow = u8::from(wait.showed_warning);
        head.dropped_since = u8::from(wait.dropped_since);
    }
    if let Some((request, answer)) = last_of(second) {
        head.request_kept = 1;
        (head.request_len, head.answer_len) = (request.len(), answer.len());
    }
    if let Some(latch) = &second.latch {
        head.latch_armed = armed_for(latch.group);
        (head.latch_sequence, head.latch_time) = (latch.sequence, latch.time);
        head.latch_len = latch.objects.len();
    }
    head
}

pub fn image_of(second: &Outstation) -> header::Outstation {
    let mut image = header::Outstation::zero();
    image.head = head_of(second);
    for (word, two) in image.binaries.iter_mut().zip(&second.binaries) {
        *word = binary_of(two, 0).word();
    }
    for (words, two) in image.analogs.chunks_exact_mut(RECORD).zip(&second.analogs) {
        words.copy_from_slice(&analog_of(two, 0).words());
    }
    let words = image.analog_outputs.chunks_exact_mut(OUTPUT_RECORD);
    for (words, two) in words.zip(&second.setup.set_points) {
        words.copy_from_slice(&output_of(two).words());
    }
    for (words, event) in image.events.chunks_exact_mut(2).zip(events_of(second)) {
        words.copy_from_slice(&event.words());
    }
    if let Some((request, answer)) = last_of(second) {
        image.request[..request.len()].copy_from_slice(request);
        image.answer[..answer.len()].copy_from_slice(answer);
    }
    if let Some(latch) = &second.latch {
        image.latch_objects[..latch.objects.len()].copy_from_slice(&latch.objects);
    }
    image
}

fn shown(value: Value) -> Shown {
    match value {
        Value::State(state) => Shown::State(state),
        Value::Whole32(value) => Shown::Long(value),
        Value::Whole16(value) => Shown::Short(value),
        Value::Float(value) => Shown::Real(value.to_bits()),
    }
}
