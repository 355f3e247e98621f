//! Floats as exact numbers, and the 64-bit floats of equal value.

/// The bits that a 64-bit float can tell, and the powers of two of its lowest bit, its least
/// normal number and its highest bit.
const SIGNIFICANT_BITS: i32 = 53;
const LOWEST: i32 = -1074;
const LEAST_NORMAL: i32 = -1022;
const HIGHEST: i32 = 1023;

/// A sign, and a whole number times a power of two.
#[derive(Debug)]
pub(crate) struct Exact {
    is_negative: bool,
    significand: u64,
    exponent: i32,
}

impl Exact {
    /// The 64-bit float of equal value, if there is one. A zero keeps its sign.
    pub(crate) fn float(&self) -> Option<f64> {
        let sign = u64::from(self.is_negative) << 63;
        if self.significand == 0 {
            return Some(f64::from_bits(sign));
        }
        let zeros = self.significand.trailing_zeros();
        let odd = self.significand >> zeros;
        let width = (u64::BITS - odd.leading_zeros()) as i32;
        let lowest = self.exponent + zeros as i32;
        let highest = lowest + width - 1;
        if width > SIGNIFICANT_BITS || lowest < LOWEST || highest > HIGHEST {
            return None;
        }
        let magnitude = if highest < LEAST_NORMAL {
            odd << (lowest - LOWEST)
        } else {
            let characteristic = (highest - LEAST_NORMAL + 1) as u64;
            let fraction = (odd << (SIGNIFICANT_BITS - width)) - (1 << 52);
            characteristic << 52 | fraction
        };
        Some(f64::from_bits(sign | magnitude))
    }
}

/// The number of a hexadecimal float: seven bits of characteristic, then a fraction of
/// hexadecimal digits, all of them behind the point.
pub(crate) fn hexadecimal(bytes: &[u8]) -> Exact {
    let fraction_bits = 8 * bytes.len() as i32 - 8;
    let bits = Bits::of(bytes, fraction_bits);
    Exact {
        is_negative: bits.is_negative,
        significand: bits.fraction,
        exponent: 4 * (bits.characteristic - 64) - fraction_bits,
    }
}

/// The number of a binary float of bias indicator 0; none if its characteristic exceeds the
/// maximum. Characteristic 0 has the exponent of characteristic 1, and no bit before the point.
pub(crate) fn binary(bytes: &[u8]) -> Option<Exact> {
    let (fraction_bits, bias, maximum) = match bytes.len() {
        4 => (23, 127, 254),
        _ => (52, 1023, 2046),
    };
    let bits = Bits::of(bytes, fraction_bits);
    let (before_point, exponent) = match bits.characteristic {
        0 => (0, 1 - bias),
        characteristic => (1, characteristic - bias),
    };
    (bits.characteristic <= maximum).then_some(Exact {
        is_negative: bits.is_negative,
        significand: before_point << fraction_bits | bits.fraction,
        exponent: exponent - fraction_bits,
    })
}

/// A float of at most eight bytes, divided into its parts.
struct Bits {
    is_negative: bool,
    characteristic: i32,
    fraction: u64,
}

impl Bits {
    /// Sign, characteristic and fraction, most significant byte first.
    fn of(bytes: &[u8], fraction_bits: i32) -> Bits {
        let bits = bytes
            .iter()
            .fold(0, |bits, &byte| bits << 8 | u64::from(byte));
        let sign = 1 << (8 * bytes.len() - 1);
        let magnitude = bits & (sign - 1);
        let characteristic = magnitude >> fraction_bits;
        Bits {
            is_negative: bits & sign != 0,
            characteristic: characteristic as i32,
            fraction: magnitude - (characteristic << fraction_bits),
        }
    }
}

#[cfg(test)]
mod tests {
    use super::*;

    /// Numbers at the ends of what a 64-bit float can tell, and the bits of the equal one.
    #[test]
    fn a_number_has_an_equal_float_or_none() {
        let rows: [(u64, i32, Option<u64>); 18] = [
            (0, 5000, Some(0)),
            (0, -5000, Some(0)),
            (1, 0, Some(0x3FF0_0000_0000_0000)),
            (1 << 63, -63, Some(0x3FF0_0000_0000_0000)),
            (1, -1074, Some(1)),
            (1, -1075, None),
            (2, -1075, Some(1)),
            (3, -1075, None),
            ((1 << 52) - 1, -1074, Some(0x000F_FFFF_FFFF_FFFF)),
            (1 << 52, -1074, Some(0x0010_0000_0000_0000)),
            ((1 << 53) - 1, -1074, Some(0x001F_FFFF_FFFF_FFFF)),
            ((1 << 53) - 1, -1075, None),
            (1, 1023, Some(0x7FE0_0000_0000_0000)),
            (1, 1024, None),
            ((1 << 53) - 1, 971, Some(0x7FEF_FFFF_FFFF_FFFF)),
            (((1 << 53) - 1) << 11, 960, Some(0x7FEF_FFFF_FFFF_FFFF)),
            ((1 << 54) - 1, 0, None),
            ((1 << 53) + 1, 0, None),
        ];
        for (significand, exponent, bits) in rows {
            for is_negative in [false, true] {
                let sign = u64::from(is_negative) << 63;
                let number = Exact {
                    is_negative,
                    significand,
                    exponent,
                };
                let float = number.float().map(f64::to_bits);
                assert_eq!(float, bits.map(|bits| sign | bits), "{number:?}");
            }
        }
    }
}
