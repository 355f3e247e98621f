//! Values of numeric items: floats of every characteristic, of few bits, of about as many
//! significant bits as a 64-bit float can tell, and of any bits; whole numbers; and floats whose
//! field length another one takes the place of.

use differential::triplets::{column, layout, row, sda};

use super::limits::fitting;
use crate::compare::Comparison;

/// A numeric field.
#[derive(Clone, Copy)]
struct Number {
    plain: u8,
    length: u16,
}

const fn number(plain: u8, length: u16) -> Number {
    Number { plain, length }
}

/// A float, and the bits of its characteristic.
const FLOATS: [(Number, u32); 6] = [
    (number(0x40, 4), 7),
    (number(0x40, 8), 7),
    (number(0x47, 4), 8),
    (number(0x47, 8), 11),
    (number(0x48, 4), 8),
    (number(0x48, 8), 11),
];

const WHOLE_NUMBERS: [Number; 6] = [
    number(0x23, 2),
    number(0x23, 4),
    number(0x23, 8),
    number(0x24, 2),
    number(0x24, 4),
    number(0x24, 8),
];

impl Number {
    fn bits(self) -> u32 {
        8 * u32::from(self.length)
    }

    /// A field that is not nullable, and one that is.
    fn descriptor(self, bias_indicator: u8) -> Vec<u8> {
        let sda = |id, type_code| biased_sda(id, type_code, bias_indicator, self.length);
        let row = row(3, &[[1, 0, 1], [2, 0, 1]]);
        [sda(1, self.plain), sda(2, self.plain + 0x80), row].concat()
    }

    /// The same bits in either field.
    fn data(self, bits: u64) -> Vec<u8> {
        let mut bytes = bits.to_be_bytes()[8 - usize::from(self.length)..].to_vec();
        if matches!(self.plain, 0x24 | 0x47) {
            bytes.reverse();
        }
        [&bytes[..], &[0], &bytes].concat()
    }
}

fn biased_sda(id: u8, type_code: u8, bias_indicator: u8, length: u16) -> Vec<u8> {
    let mut sda = sda(id, type_code, 0, length, &[]);
    sda[7] = bias_indicator;
    sda
}

/// Either sign and each characteristic, with several fractions.
pub fn every_characteristic(comparison: &mut Comparison) {
    for (number, characteristic_bits) in FLOATS {
        let descriptor = number.descriptor(0);
        let fraction_bits = number.bits() - 1 - characteristic_bits;
        let ones = (1 << fraction_bits) - 1;
        for high in 0..2 << characteristic_bits {
            for fraction in [0, 1, ones / 3, ones / 2, ones / 2 + 1, ones - 7, ones] {
                let bits = high << fraction_bits | fraction;
                comparison.compare(&descriptor, &number.data(bits));
            }
        }
    }
}

/// Each bit and each pair of bits, with each bias indicator that the type has.
pub fn few_bits(comparison: &mut Comparison) {
    for (number, _) in FLOATS {
        for bias_indicator in 0..=u8::from(number.plain != 0x40) {
            let descriptor = number.descriptor(bias_indicator);
            for one in 0..number.bits() {
                for other in 0..=one {
                    let bits = 1 << one | 1 << other;
                    comparison.compare(&descriptor, &number.data(bits));
                }
            }
        }
    }
}

/// Hexadecimal floats of 50 to 56 significant bits in each place, of which only the outer two are
/// set, or all, or any between them.
pub fn significant_bits(comparison: &mut Comparison) {
    let number = number(0x40, 8);
    let descriptor = number.descriptor(0);
    for characteristic in [0, 1, 63, 64, 65, 126, 127] {
        for width in 50..=56 {
            let outer = 1 << (width - 1) | 1;
            for shift in 0..=56 - width {
                let any = comparison.random.bits(width) | outer;
                for fraction in [outer, (1 << width) - 1, any] {
                    let sign = comparison.random.bits(1);
                    let bits = sign << 63 | characteristic << 56 | fraction << shift;
                    comparison.compare(&descriptor, &number.data(bits));
                }
            }
        }
    }
}

/// Any bits, with some zeros behind them.
pub fn any_bits(comparison: &mut Comparison) {
    let floats = FLOATS.map(|(number, _)| number);
    for number in [floats, WHOLE_NUMBERS].concat() {
        let descriptor = number.descriptor(0);
        for _ in 0..5_000 {
            let zeros = comparison.random.below(10);
            let bits = comparison.random.bits(number.bits()) >> zeros << zeros;
            comparison.compare(&descriptor, &number.data(bits));
        }
    }
}

/// Field lengths that hold, that give way to the default and that are put in, with both bias
/// indicators: values of equal bytes, and nulls.
pub fn other_lengths(comparison: &mut Comparison) {
    for type_code in [0x40, 0x47, 0x48, 0xC0, 0xC7, 0xC8] {
        for bias_indicator in [0, 1] {
            for own in [0, 4, 5, 8, 16] {
                let sda = biased_sda(1, type_code, bias_indicator, own);
                for put_in in [0, 4, 8, 16] {
                    let columns = [column(1, put_in), column(1, 0)];
                    let descriptor = [&sda[..], &layout(2, &columns)].concat();
                    for byte in [0, 0x3F, 0x41, 0x7F, 0x80, 0xFF] {
                        comparison.compare(&descriptor, &fitting(&descriptor, byte));
                    }
                }
            }
        }
    }
}
