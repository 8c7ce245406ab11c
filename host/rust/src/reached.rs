//! Which cases of set points a fragment came to, for the list of what has to be reached.

use reference::control::{self, Control, Group, Latch, Object};
use reference::outstation::Setup;
use reference::set_points::{SetPoint, SetValue};

use crate::header::CONTROLS;
use crate::pair::Seen;

/// A fragment that was accepted, and what it came to.
pub struct Accepted<'a> {
    pub setup: &'a Setup,
    /// The latch before it.
    pub latch: Option<&'a Latch>,
    pub time: u64,
    pub bytes: &'a [u8],
    /// Empty where it was not answered.
    pub answer: &'a [u8],
    pub operated: &'a [Control],
}

fn value_number(value: SetValue) -> f64 {
    match value {
        SetValue::Whole32(value) => f64::from(value),
        SetValue::Whole16(value) => f64::from(value),
        SetValue::Float(value) => f64::from(value),
    }
}

fn ends(point: SetPoint) -> (f64, f64) {
    match point {
        SetPoint::Whole32(low, high) | SetPoint::Whole16(low, high) => (low as f64, high as f64),
        SetPoint::Float(low, high) => (f64::from(low), f64::from(high)),
    }
}

/// The statuses in an answer that has the request's objects again.
pub fn statuses(bytes: &[u8], count: usize, answer: &[u8]) -> Option<Vec<u8>> {
    let front = if bytes.get(4) == Some(&0x17) { 6 } else { 7 };
    let each = (bytes.len() - front) / count;
    let echo = answer.get(front + 2..).filter(|_| answer.len() == bytes.len() + 2)?;
    Some(echo.chunks(each).filter_map(|object| object.last().copied()).collect())
}

pub fn set_points(seen: &mut Seen, call: &Accepted) {
    for (what, kind) in [
        ("32-bit set point carried out", 1),
        ("16-bit set point carried out", 2),
        ("float set point carried out", 3),
    ] {
        let of_kind = |control: &Control| match control.object {
            Object::SetPoint(value, _) => value.variation() == kind,
            Object::Relay(_) => false,
        };
        seen.note(what, call.operated.iter().any(of_kind));
    }
    let set = call.operated.iter().filter(|control| control.group() == Group::SetPoints).count();
    seen.note("eight set points carried out", set == CONTROLS);
    seen.note("set points carried out unanswered", set > 0 && call.answer.is_empty());

    let (function, objects) = (call.bytes[1], &call.bytes[2..]);
    let Ok(controls) = control::parse(objects) else { return };
    let Some(statuses) = statuses(call.bytes, controls.len(), call.answer) else { return };
    match function {
        3 | 5 => {
            for (control, &status) in controls.iter().zip(&statuses) {
                asked(seen, call.setup, control, status);
            }
        }
        4 => operate(seen, call, objects, statuses[0]),
        _ => {}
    }
}

/// One object of a SELECT or a direct operation.
fn asked(seen: &mut Seen, setup: &Setup, control: &Control, status: u8) {
    let Object::SetPoint(value, _) = control.object else { return };
    seen.note("set point: status 3", status == 3);
    seen.note("set point: status 8", status == 8);
    let Some(point) = setup.set_points.get(usize::from(control.index)) else {
        seen.note("set point: status 4, no set points at all", setup.set_points.is_empty());
        return seen.note("set point: status 4, no such output", status == 4);
    };
    if point.variation() != value.variation() {
        return seen.note("set point: status 4, another kind", status == 4);
    }
    let (number, (low, high)) = (value_number(value), ends(*point));
    seen.note("set point: status 4, not a number", status == 4 && number.is_nan());
    seen.note("set point: status 4, infinite", status == 4 && number.is_infinite());
    seen.note("set point: status 4, below its first end", status == 4 && number < low);
    seen.note("set point: status 4, above its second end", status == 4 && number > high);
    seen.note("set point: status 0 at its first end", status == 0 && number == low && low < high);
    seen.note("set point: status 0 at its second end", status == 0 && number == high && low < high);
    let bits = |value: f32| value.to_bits();
    if let (SetPoint::Float(low, _), SetValue::Float(value)) = (*point, value) {
        let zeros = low == 0.0 && value == 0.0;
        let other = zeros && status == 0 && bits(low) != bits(value);
        seen.note("set point: status 0, a zero of another sign than its first end", other);
    }
}

/// An OPERATE of either group; the status of its first object, which all have.
fn operate(seen: &mut Seen, call: &Accepted, objects: &[u8], status: u8) {
    let sets = Group::of(objects) == Group::SetPoints;
    seen.note("OPERATE of set points: status 0", sets && status == 0);
    seen.note("OPERATE of set points: status 1", sets && status == 1);
    seen.note("OPERATE of set points: status 2", sets && status == 2);
    let Some(latch) = call.latch else { return };
    // It would be carried out, but for its objects.
    let next = call.bytes[0] % 16 == (latch.sequence + 1) % 16;
    let met = next && call.time - latch.time <= u64::from(call.setup.arm_time);
    let mismatch = met && status == 2;
    let other = mismatch && latch.group != Group::of(objects);
    seen.note("OPERATE of set points after a SELECT of relays: status 2", other && sets);
    seen.note("OPERATE of relays after a SELECT of set points: status 2", other && !sets);
    let same = mismatch && latch.objects.len() == objects.len();
    let variation = same && sets && latch.objects[2..] == objects[2..];
    seen.note("OPERATE of the same bytes under another variation: status 2", variation);
    let zeros = same
        && latch.objects[..3] == objects[..3]
        && latch.objects != objects
        && control::parse(&latch.objects) == control::parse(objects);
    seen.note("OPERATE with a zero of the other sign: status 2", sets && zeros);
}
