//! SELECT, OPERATE and direct operation of relays (control relay output blocks, CROB) and set points
//! (02, 109): one rule for both groups, and the select latch.

use crate::faults::{on, Fault};
use crate::outstation::Setup;
use crate::set_points::SetValue;

/// IIN2 of a control request that cannot be taken.
const OBJECT_UNKNOWN: u8 = 0x02;
const BAD_PARAMETER: u8 = 0x04;

const QUALIFIER_8: u8 = 0x17;
const QUALIFIER_16: u8 = 0x28;

/// Code, count, on-time (4), off-time (4), status.
const CROB: usize = 11;
const CODE: usize = 0;
const COUNT: usize = 1;
const ON_TIME: usize = 2;
const OFF_TIME: usize = 6;
const STATUS: usize = 10;

/// Statuses of 01.
const SUCCESS: u8 = 0;
const TIMEOUT: u8 = 1;
const NO_SELECT: u8 = 2;
const FORMAT_ERROR: u8 = 3;
const NOT_SUPPORTED: u8 = 4;
const INDEX_TWICE: u8 = 8;

/// The longest pulse, in ms.
const LONGEST: u32 = 60_000;

/// The two groups of control objects, 12 and 41; their outputs are numbered apart (109.3).
#[derive(Clone, Copy, Debug, PartialEq, Eq)]
pub enum Group {
    Relays,
    SetPoints,
}

impl Group {
    /// The group of a control request's objects, by their header.
    pub fn of(objects: &[u8]) -> Group {
        if objects[0] == 12 {
            Group::Relays
        } else {
            Group::SetPoints
        }
    }
}

/// An object of a control request as it came.
#[derive(Clone, Copy, Debug, PartialEq)]
pub enum Object {
    /// The 11 bytes of a CROB.
    Relay([u8; CROB]),
    /// The value of 41 var 1, 2 or 3, and the status byte.
    SetPoint(SetValue, u8),
}

/// An output's index and the object for it. All of one request, and so all that a call hands to the
/// host, are of one group.
#[derive(Clone, Copy, Debug, PartialEq)]
pub struct Control {
    pub index: u16,
    pub object: Object,
}

/// "armed for relays, or armed for set points, with sequence, time and objects (header included)"
/// (109.5).
#[derive(Clone, Debug)]
pub struct Latch {
    pub group: Group,
    pub sequence: u8,
    pub time: u64,
    pub objects: Vec<u8>,
}

/// Size of an object, its status byte the last; none for one that is no control (109.1).
fn size(group: u8, variation: u8) -> Option<usize> {
    match (group, variation) {
        (12, 1) => Some(CROB),
        (41, 1 | 3) => Some(5),
        (41, 2) => Some(3),
        _ => None,
    }
}

/// "one header 12 var 1, qualifier 17 or 28, 1 to 8 objects, nothing after. Another object 2.1,
/// else 2.2", and "Under 3 object bytes 2.2"; the header may also be 41 var 1, 2 or 3 (109.1).
pub fn parse(objects: &[u8]) -> Result<Vec<Control>, u8> {
    if objects.len() < 3 {
        return Err(BAD_PARAMETER);
    }
    let (group, variation, qualifier) = (objects[0], objects[1], objects[2]);
    let Some(size) = size(group, variation) else {
        let known = on(Fault::SetVar4) && (group, variation) == (41, 4);
        return Err(if known { BAD_PARAMETER } else { OBJECT_UNKNOWN });
    };
    let rest = &objects[3..];
    // Count and index have one byte each with 17, two with 28.
    let width = match qualifier {
        QUALIFIER_8 => 1,
        QUALIFIER_16 if group == 41 && on(Fault::Set17Only) => return Err(BAD_PARAMETER),
        QUALIFIER_16 => 2,
        _ => return Err(BAD_PARAMETER),
    };
    if rest.len() < width {
        return Err(BAD_PARAMETER);
    }
    let count = usize::from(number(&rest[..width]));
    let rest = &rest[width..];
    if !(1..=8).contains(&count) || rest.len() != count * (width + size) {
        return Err(BAD_PARAMETER);
    }
    Ok(rest
        .chunks(width + size)
        .map(|bytes| Control {
            index: number(&bytes[..if on(Fault::IndexLowByte) { 1 } else { width }]),
            object: object(group, variation, &bytes[width..]),
        })
        .collect())
}

fn object(group: u8, variation: u8, bytes: &[u8]) -> Object {
    if group == 12 {
        return Object::Relay(bytes.try_into().expect("a CROB"));
    }
    let (status, value) = bytes.split_last().expect("value and status");
    Object::SetPoint(SetValue::take(variation, value), *status)
}

fn number(bytes: &[u8]) -> u16 {
    match bytes {
        [low] => u16::from(*low),
        [low, high] => u16::from_le_bytes([*low, *high]),
        _ => unreachable!("one or two bytes"),
    }
}

impl Control {
    pub fn group(&self) -> Group {
        match self.object {
            Object::Relay(_) => Group::Relays,
            Object::SetPoint(..) => Group::SetPoints,
        }
    }

    fn status_byte(&self) -> u8 {
        match self.object {
            Object::Relay(bytes) => bytes[STATUS],
            Object::SetPoint(_, status) => status,
        }
    }

    /// "no such output", "no such set point"
    fn missing(&self, setup: &Setup) -> bool {
        let (relays, set_points) = (usize::from(setup.outputs), setup.set_points.len());
        let outputs = match self.group() {
            Group::Relays if on(Fault::RelayBySets) => set_points,
            Group::SetPoints if on(Fault::SetByRelays) => relays,
            Group::Relays => relays,
            Group::SetPoints => set_points,
        };
        usize::from(self.index) >= outputs
    }

    /// A control code that is not taken or a count other than 1; "its kind is not the header's
    /// variation" (109.2).
    fn wrong_kind(&self, setup: &Setup) -> bool {
        match self.object {
            Object::Relay(bytes) => {
                !matches!(bytes[CODE], 0x01 | 0x03 | 0x04 | 0x41 | 0x81) || bytes[COUNT] != 1
            }
            Object::SetPoint(value, _) => {
                setup
                    .set_points
                    .get(usize::from(self.index))
                    .is_some_and(|point| point.variation() != value.variation())
                    && !on(Fault::SetKindUntested)
            }
        }
    }

    /// A pulse of no length or too long (02, 108); a value outside its ends or not finite (109.2).
    fn wrong_value(&self, setup: &Setup) -> bool {
        match self.object {
            Object::Relay(bytes) => wrong_pulse(&bytes),
            Object::SetPoint(value, _) => setup
                .set_points
                .get(usize::from(self.index))
                .is_some_and(|point| !point.allows(value)),
        }
    }

    /// Whether it is the value that gives 4: the tests before it are passed. For faults only.
    pub fn refused_for_value(&self, setup: &Setup) -> bool {
        self.status_byte() == 0
            && !self.missing(setup)
            && !self.wrong_kind(setup)
            && self.wrong_value(setup)
    }

    /// One of two faults, by the group.
    pub fn on(&self, relays: Fault, set_points: Fault) -> bool {
        on(match self.group() {
            Group::Relays => relays,
            Group::SetPoints => set_points,
        })
    }
}

/// "For SELECT and direct operation, status of each, first that applies".
pub fn statuses(controls: &[Control], setup: &Setup) -> Vec<u8> {
    (0..controls.len()).map(|place| status(&controls[..place], &controls[place], setup)).collect()
}

/// The rule for both groups.
fn status(earlier: &[Control], control: &Control, setup: &Setup) -> u8 {
    let missing = control.missing(setup);
    let wrong_kind = control.wrong_kind(setup);
    let wrong_value = control.wrong_value(setup);
    let set_point = control.group() == Group::SetPoints;
    if missing && on(Fault::StatusOrder)
        || wrong_kind && set_point && on(Fault::SetKindBeforeStatus)
        || wrong_value && control.on(Fault::PulseBeforeStatus, Fault::SetValueBeforeStatus)
    {
        return NOT_SUPPORTED;
    }
    if control.status_byte() != 0 {
        return FORMAT_ERROR;
    }
    if missing {
        return NOT_SUPPORTED;
    }
    let kind_last = set_point && on(Fault::SetKindAfterIndex);
    if wrong_kind && !kind_last {
        return NOT_SUPPORTED;
    }
    // On-time and ends are "tested … before the repeated index" (02, 108 and 109).
    let value_last = control.on(Fault::PulseAfterIndex, Fault::SetValueAfterIndex);
    if wrong_value && !value_last && !(wrong_kind && kind_last) {
        return NOT_SUPPORTED;
    }
    // "index already in this request", whatever the earlier one's own status (R5.5).
    let twice = earlier.iter().any(|earlier| {
        earlier.index == control.index
            && !(earlier.on(Fault::PulseIndexFree, Fault::SetIndexFree)
                && earlier.refused_for_value(setup))
    });
    if twice && !on(Fault::DuplicateIndexKept) {
        return INDEX_TWICE;
    }
    if wrong_kind || wrong_value {
        return NOT_SUPPORTED;
    }
    SUCCESS
}

/// "For codes 01, 41 and 81 an on-time of 0 or above 60,000 ms gets status 4" (02, 108).
fn wrong_pulse(object: &[u8; CROB]) -> bool {
    let pulse = match object[CODE] {
        0x01 => !on(Fault::Pulse01Untested),
        0x41 => !on(Fault::Pulse41Untested),
        0x81 => !on(Fault::Pulse81Untested),
        0x03 | 0x04 => on(Fault::LatchTimed),
        _ => false,
    };
    let place = if on(Fault::PulseOffTime) { OFF_TIME } else { ON_TIME };
    let mut time = u32::from_le_bytes(object[place..place + 4].try_into().expect("four bytes"));
    if on(Fault::PulseLowWord) {
        time &= 0xFFFF;
    }
    let mut longest = LONGEST;
    if on(Fault::Pulse60000Refused) {
        longest -= 1;
    }
    if on(Fault::Pulse60001Taken) {
        longest += 1;
    }
    pulse && (time == 0 && !on(Fault::Pulse0Taken) || time > longest)
}

/// The statuses of an OPERATE's objects: all the same, on-times and ends are not looked at.
pub fn operate_statuses(controls: &[Control], status: u8, setup: &Setup) -> Vec<u8> {
    let tested = |control: &Control| {
        control.on(Fault::PulseOnOperate, Fault::SetOnOperate) && control.wrong_value(setup)
    };
    controls.iter().map(|c| if tested(c) { NOT_SUPPORTED } else { status }).collect()
}

/// The one status of all of an OPERATE's objects.
pub fn operate_status(
    latch: Option<&Latch>,
    sequence: u8,
    time: u64,
    objects: &[u8],
    arm_time: u32,
) -> u8 {
    let Some(latch) = latch else {
        return NO_SELECT;
    };
    // "objects (header included) are equal, its sequence is the next modulo 16"
    if !meets(latch, objects) || sequence != (latch.sequence + 1) % 16 {
        return NO_SELECT;
    }
    let grace = if on(Fault::ArmTimePlus1) { 1 } else { 0 };
    if time - latch.time > u64::from(arm_time) + grace {
        // "Late only: all status 1."
        return if on(Fault::OperateLate2) { NO_SELECT } else { TIMEOUT };
    }
    SUCCESS
}

/// Armed for that group, and "An OPERATE matches by its bytes, so plus and minus zero are different
/// objects there" (02, 109).
fn meets(latch: &Latch, objects: &[u8]) -> bool {
    if on(Fault::OperatePastHeader) {
        return past_header(&latch.objects) == past_header(objects);
    }
    if on(Fault::OperateOtherVariation) {
        return latch.objects[2..] == objects[2..];
    }
    if latch.group != Group::of(objects) {
        return false;
    }
    if on(Fault::Header17As28) {
        return parse(&latch.objects) == parse(objects);
    }
    if on(Fault::OperateZerosEqual) && latch.objects[..3] == objects[..3] {
        return parse(&latch.objects) == parse(objects);
    }
    latch.objects == objects
}

/// What stands after group, variation, qualifier and count.
fn past_header(objects: &[u8]) -> &[u8] {
    &objects[if objects[2] == QUALIFIER_8 { 4 } else { 5 }..]
}

/// "The answer echoes header and objects with status".
pub fn echo(objects: &[u8], statuses: &[u8]) -> Vec<u8> {
    let mut echo = objects.to_vec();
    let start = objects.len() - past_header(objects).len();
    let each = past_header(objects).len() / statuses.len();
    for (place, status) in statuses.iter().enumerate() {
        echo[start + (place + 1) * each - 1] = *status;
    }
    echo
}
