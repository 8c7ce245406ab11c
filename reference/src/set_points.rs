//! Set points (02, 109): analog outputs, each of one kind with allowed ends, and their values.

use crate::faults::{on, Fault};

/// A value asked for: "a 32-bit, a 16-bit or a float value".
#[derive(Clone, Copy, Debug, PartialEq)]
pub enum SetValue {
    Whole32(i32),
    Whole16(i16),
    Float(f32),
}

/// What the setup says of a set point: its kind and "allowed ends of that kind". Whole ends are
/// wider than their kind, so that an end outside it can be refused.
#[derive(Clone, Copy, Debug, PartialEq)]
pub enum SetPoint {
    Whole32(i64, i64),
    Whole16(i64, i64),
    Float(f32, f32),
}

impl SetValue {
    /// The value in an object of 41 var 1, 2 or 3, its status byte left out.
    pub fn take(variation: u8, bytes: &[u8]) -> SetValue {
        let mut bytes = bytes.to_vec();
        if on(Fault::SetSwapped) {
            bytes.reverse();
        }
        match (variation, &bytes[..]) {
            (1, &[a, b, c, d]) => SetValue::Whole32(i32::from_le_bytes([a, b, c, d])),
            (2, &[a, b]) => SetValue::Whole16(i16::from_le_bytes([a, b])),
            (3, &[a, b, c, d]) => SetValue::Float(f32::from_le_bytes([a, b, c, d])),
            _ => unreachable!("no object of group 41"),
        }
    }

    /// Its bytes in an object.
    pub fn bytes(self) -> Vec<u8> {
        match self {
            SetValue::Whole32(value) => value.to_le_bytes().to_vec(),
            SetValue::Whole16(value) => value.to_le_bytes().to_vec(),
            SetValue::Float(value) => value.to_le_bytes().to_vec(),
        }
    }

    /// Its kind, as a variation of group 41.
    pub fn variation(self) -> u8 {
        match self {
            SetValue::Whole32(_) => 1,
            SetValue::Whole16(_) => 2,
            SetValue::Float(_) => 3,
        }
    }

    /// The number it is; no kind has one that an f64 does not hold.
    fn number(self) -> f64 {
        match self {
            SetValue::Whole32(value) if on(Fault::Set32Unsigned) => f64::from(value as u32),
            SetValue::Whole32(value) => f64::from(value),
            SetValue::Whole16(value) if on(Fault::Set16Unsigned) => f64::from(value as u16),
            SetValue::Whole16(value) => f64::from(value),
            SetValue::Float(value) if value.is_infinite() && on(Fault::SetInfinityClamped) => {
                f64::from(f32::MAX.copysign(value))
            }
            SetValue::Float(value) => float_number(value),
        }
    }
}

impl SetPoint {
    /// Its kind, as a variation of group 41.
    pub fn variation(self) -> u8 {
        match self {
            SetPoint::Whole32(..) => 1,
            SetPoint::Whole16(..) => 2,
            SetPoint::Float(..) => 3,
        }
    }

    /// "allowed ends of that kind, finite, the first not above the second (else refusal 5)".
    pub fn keeps_limits(self) -> bool {
        match self {
            SetPoint::Whole32(low, high) => {
                whole_ends(low, high, i64::from(i32::MIN), i64::from(i32::MAX))
            }
            SetPoint::Whole16(low, high) => {
                whole_ends(low, high, i64::from(i16::MIN), i64::from(i16::MAX))
            }
            SetPoint::Float(low, high) => {
                if on(Fault::EndsZeroRefused) && low == 0.0 && high == 0.0 {
                    return low.total_cmp(&high).is_le();
                }
                if on(Fault::EndsNanTaken) && (low.is_nan() || high.is_nan()) {
                    return true;
                }
                let finite = low.is_finite() && high.is_finite() || on(Fault::EndsInfiniteTaken);
                finite && in_order(low, high)
            }
        }
    }

    /// Neither "below its first end or above its second, or not finite" (109.2). Ends and values
    /// compare as numbers, so minus zero is not below zero; the ends are finite.
    pub fn allows(self, value: SetValue) -> bool {
        let (low, high) = match self {
            SetPoint::Whole32(low, high) | SetPoint::Whole16(low, high) => {
                (low as f64, high as f64)
            }
            SetPoint::Float(low, high) => (float_number(low), float_number(high)),
        };
        let value = value.number();
        if value.is_nan() {
            return on(Fault::SetNanTaken);
        }
        let below = value < low && !on(Fault::SetLowUntested);
        let above = value > high && !on(Fault::SetHighUntested);
        let end =
            value == low && on(Fault::SetLowRefused) || value == high && on(Fault::SetHighRefused);
        !below && !above && !end
    }
}

fn whole_ends(low: i64, high: i64, least: i64, most: i64) -> bool {
    let held = least <= low && low <= most && least <= high && high <= most;
    (held || on(Fault::EndsWideTaken)) && in_order(low, high)
}

/// "the first not above the second"
fn in_order<N: PartialOrd>(low: N, high: N) -> bool {
    if on(Fault::EndsCrossedTaken) && low > high {
        return true;
    }
    if on(Fault::EndsEqualRefused) {
        return low < high;
    }
    low <= high
}

fn float_number(value: f32) -> f64 {
    if on(Fault::SetByBits) {
        return f64::from(value.to_bits());
    }
    if on(Fault::SetMinusZeroBelow) && value == 0.0 && value.is_sign_negative() {
        return -f64::MIN_POSITIVE;
    }
    f64::from(value)
}

#[cfg(test)]
mod tests {
    use super::*;

    fn float(bits: u32) -> f32 {
        f32::from_bits(bits)
    }

    #[test]
    fn ends_are_allowed_and_their_neighbours_are_not() {
        let point = SetPoint::Whole16(-300, -256);
        for (value, allowed) in [(-301, false), (-300, true), (-256, true), (-255, false)] {
            assert_eq!(point.allows(SetValue::Whole16(value)), allowed, "{value}");
        }
        let point = SetPoint::Float(float(0x8000_0001), float(0x0000_0001));
        for (bits, allowed) in [
            (0x8000_0002, false),
            (0x8000_0001, true),
            (0x8000_0000, true),
            (0x0000_0000, true),
            (0x0000_0001, true),
            (0x0000_0002, false),
        ] {
            assert_eq!(point.allows(SetValue::Float(float(bits))), allowed, "{bits:08X}");
        }
    }

    #[test]
    fn not_finite_is_outside_the_widest_ends() {
        let point = SetPoint::Float(f32::MIN, f32::MAX);
        for bits in [0x7F80_0000, 0xFF80_0000, 0x7FC0_0000, 0x7F80_0001, 0xFFFF_FFFF] {
            assert!(!point.allows(SetValue::Float(float(bits))), "{bits:08X}");
        }
        assert!(point.allows(SetValue::Float(f32::MAX)));
        assert!(point.allows(SetValue::Float(f32::MIN)));
    }

    #[test]
    fn zeros_are_one_number() {
        for (low, high) in [(0.0, -0.0), (-0.0, 0.0), (0.0, 0.0), (-0.0, -0.0)] {
            let point = SetPoint::Float(low, high);
            assert!(point.keeps_limits());
            assert!(point.allows(SetValue::Float(0.0)) && point.allows(SetValue::Float(-0.0)));
        }
    }

    #[test]
    fn ends_of_the_kind() {
        assert!(SetPoint::Whole16(-32_768, 32_767).keeps_limits());
        assert!(!SetPoint::Whole16(-32_769, 32_767).keeps_limits());
        assert!(!SetPoint::Whole16(-32_768, 32_768).keeps_limits());
        assert!(SetPoint::Whole32(-2_147_483_648, 2_147_483_647).keeps_limits());
        assert!(!SetPoint::Whole32(-2_147_483_649, 0).keeps_limits());
        assert!(!SetPoint::Whole32(0, 2_147_483_648).keeps_limits());
        assert!(!SetPoint::Whole32(1, 0).keeps_limits());
        assert!(!SetPoint::Float(f32::NAN, 0.0).keeps_limits());
        assert!(!SetPoint::Float(f32::NEG_INFINITY, 0.0).keeps_limits());
    }
}
