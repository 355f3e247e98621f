//! Floats, made of a sign, a characteristic and a fraction.

use super::random::Random;

/// How a float is laid out behind its sign.
#[derive(Clone, Copy)]
pub(super) struct Layout {
    characteristic_bits: u32,
    pub(super) fraction_bits: u32,
    is_reversed: bool,
}

impl Layout {
    /// The layout of a plain type's values of so many bytes, if they are floats of 4 or 8.
    pub(super) fn of(plain: u8, length: usize) -> Option<Layout> {
        let (characteristic_bits, fraction_bits) = match (plain, length) {
            (0x40, 4) => (7, 24),
            (0x40, 8) => (7, 56),
            (0x47 | 0x48, 4) => (8, 23),
            (0x47 | 0x48, 8) => (11, 52),
            _ => return None,
        };
        Some(Layout {
            characteristic_bits,
            fraction_bits,
            is_reversed: plain == 0x47,
        })
    }

    /// The highest characteristic that has room.
    pub(super) fn last_characteristic(&self) -> u64 {
        (1 << self.characteristic_bits) - 1
    }

    /// The fraction of nothing but ones.
    pub(super) fn ones(&self) -> u64 {
        (1 << self.fraction_bits) - 1
    }

    pub(super) fn bytes(&self, sign: u64, characteristic: u64, fraction: u64) -> Vec<u8> {
        let magnitude_bits = self.characteristic_bits + self.fraction_bits;
        let bits = sign << magnitude_bits | characteristic << self.fraction_bits | fraction;
        let length = (magnitude_bits as usize + 1) / 8;
        let mut bytes = bits.to_be_bytes()[8 - length..].to_vec();
        if self.is_reversed {
            bytes.reverse();
        }
        bytes
    }
}

/// A float of any kind: now and then a zero, else with parts that are often at the ends of their
/// ranges.
pub(super) fn any_float(random: &mut Random, layout: Layout) -> Vec<u8> {
    let last = layout.last_characteristic();
    let sign = random.bits(1);
    if random.one_in(10) {
        return layout.bytes(sign, 0, 0);
    }
    let characteristic = match random.below(3) {
        0 => random.bits(layout.characteristic_bits),
        _ => random.pick(&[0, 0, 1, last / 2, last - 1, last - 1, last, last]),
    };
    layout.bytes(sign, characteristic, fraction(random, layout))
}

/// A fraction: of no bits, of one, of any, or of about as many significant ones as there is room
/// for, in any place.
fn fraction(random: &mut Random, layout: Layout) -> u64 {
    let room = layout.fraction_bits as usize;
    match random.below(6) {
        0 => 0,
        1 => 1 << random.below(room),
        2 => layout.ones(),
        3 => random.bits(layout.fraction_bits),
        _ => {
            let width = random.between(room - 4, room);
            let ends = 1 << (width - 1) | 1;
            (random.bits(width as u32) | ends) << random.between(0, room - width)
        }
    }
}
