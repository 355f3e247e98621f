//! Values of numeric items: floats at the ends of their ranges and of what 64 bits can tell,
//! fields that are not read, nulls, whole numbers, and lengths that others take the place of.

use super::{asked_around, behind_a_byte, case};
use crate::descriptor::{GDA, RLO};
use crate::field::NULLABLE;
use crate::generate::floats::Layout;
use crate::generate::structured::{plain_parameters, sda_of, with_groups};
use crate::generate::Case;

pub(super) fn blocks() -> Vec<Case> {
    let (row, data) = neighbours();
    let (rows, rows_data) = rows_to_the_end();
    [
        binary_floats(),
        hexadecimal_floats(),
        significant_bits(),
        fields_not_read(),
        nulls(),
        whole_numbers(),
        defaults(),
        lengths_put_in(),
        asked_around(&row, &data, 4),
        asked_around(&rows, &rows_data, 2),
    ]
    .concat()
}

/// The layout of a plain type's floats of 4 or 8 bytes.
fn layout(plain: u8, length: u16) -> Layout {
    Layout::of(plain, length.into()).expect("a float of 4 or 8 bytes")
}

/// Type parameters of a field length and a bias indicator.
fn parameters(length: u16, bias_indicator: u8) -> [u8; 8] {
    let mut parameters = plain_parameters(0, length);
    parameters[3] = bias_indicator;
    parameters
}

/// An item behind a byte.
fn asked(type_code: u8, parameters: [u8; 8], item: &[u8]) -> Case {
    let descriptor = behind_a_byte(sda_of(2, type_code, parameters, &[]));
    case(&descriptor, &[&[5], item].concat(), 6, 1)
}

fn binary_floats() -> Vec<Case> {
    let mut cases = Vec::new();
    for plain in [0x47, 0x48] {
        for length in [4, 8] {
            let layout = layout(plain, length);
            let (last, ones) = (layout.last_characteristic(), layout.ones());
            let bias = last / 2;
            for (sign, characteristic, fraction) in [
                (0, 0, 0),
                (1, 0, 0),
                (0, 0, 1),
                (1, 0, ones),
                (0, 1, 0),
                (1, 1, 1),
                (0, bias, 0),
                (1, bias, 0),
                (0, bias + 2, ones / 3),
                (1, bias - 1, ones / 2 + 1),
                (0, last - 1, ones),
                (1, last - 1, 0),
                (0, last, 0),
                (1, last, 1),
            ] {
                let item = layout.bytes(sign, characteristic, fraction);
                cases.push(asked(plain, parameters(length, 0), &item));
            }
        }
    }
    cases
}

fn hexadecimal_floats() -> Vec<Case> {
    let mut cases = Vec::new();
    for length in [4, 8] {
        let layout = layout(0x40, length);
        let ones = layout.ones();
        let first_digit = 1 << (layout.fraction_bits - 4);
        for (sign, characteristic, fraction) in [
            (0, 0, 0),
            (1, 0, 0),
            (0, 64, 0),
            (1, 127, 0),
            (0, 0, 1),
            (1, 0, ones),
            (0, 127, ones),
            (1, 127, 15 * first_digit),
            (0, 65, first_digit),
            (1, 65, first_digit),
            (0, 65, 1),
            (1, 66, first_digit / 16),
        ] {
            let item = layout.bytes(sign, characteristic, fraction);
            cases.push(asked(0x40, parameters(length, 0), &item));
        }
    }
    cases
}

/// Fractions of 52 to 55 significant bits, at either end; all of these bits are set, or only the
/// outer two.
fn significant_bits() -> Vec<Case> {
    let layout = layout(0x40, 8);
    let mut cases = Vec::new();
    for width in 52..layout.fraction_bits {
        for shift in [0, layout.fraction_bits - width] {
            let all = (1 << width) - 1;
            let outer = 1 << (width - 1) | 1;
            for (sign, bits) in [(0, all), (1, outer)] {
                let item = layout.bytes(sign, 64, bits << shift);
                cases.push(asked(0x40, parameters(8, 0), &item));
            }
        }
    }
    cases
}

/// Floats of 16 bytes or bias indicator 1: the value 1, a characteristic of nothing but ones, and
/// a null.
fn fields_not_read() -> Vec<Case> {
    let fields = [
        (0x40, 16, 0, 16),
        (0x47, 4, 1, 4),
        (0x47, 8, 1, 8),
        (0x48, 4, 1, 4),
        (0x48, 8, 1, 8),
        (0x48, 0, 1, 4),
    ];
    let mut cases = Vec::new();
    for (plain, length, bias_indicator, bytes) in fields {
        let parameters = parameters(length, bias_indicator);
        for byte in [0x3F, 0xFF] {
            cases.push(asked(plain, parameters, &vec![byte; bytes]));
        }
        cases.push(asked(plain + NULLABLE, parameters, &[0x80]));
    }
    cases
}

fn nulls() -> Vec<Case> {
    [(0xA3, 2), (0xA4, 8), (0xC0, 8), (0xC7, 8), (0xC8, 8)]
        .map(|(code, length)| asked(code, parameters(length, 0), &[0xFF]))
        .to_vec()
}

/// Whole numbers with one bit set at either end, and -1.
fn whole_numbers() -> Vec<Case> {
    let mut cases = Vec::new();
    for plain in [0x23, 0x24] {
        for length in [2, 8] {
            let zeros = vec![0; length - 1];
            for item in [
                [&[0x80], &zeros[..]].concat(),
                [&zeros[..], &[0x80]].concat(),
                vec![0xFF; length],
            ] {
                cases.push(asked(plain, parameters(length as u16, 0), &item));
            }
        }
    }
    cases
}

/// Field lengths that give way to the default: floats, items that are none, and a null.
fn defaults() -> Vec<Case> {
    let items: [(u8, u16, &[u8]); 8] = [
        (0x40, 0, &[0x41, 0x10, 0, 0, 0, 0, 0, 2]),
        (0x40, 3, &[0x41, 0x20, 0, 0, 0, 0, 0, 1]),
        (0xC0, 0xFFFF, &[0, 0xC1, 0x18, 0, 0, 0, 0, 0, 0]),
        (0xC0, 17, &[0x80]),
        (0x47, 0, &[0, 0, 0xC0, 0xBF]),
        (0xC7, 5, &[0, 0, 0, 0x80, 0x7F]),
        (0x48, 9, &[0xBF, 0xC0, 0, 0]),
        (0x48, 0x8000, &[0x7F, 0x80, 0, 0]),
    ];
    items
        .map(|(code, length, item)| asked(code, parameters(length, 0), item))
        .to_vec()
}

/// Columns of a length put in, or of their own.
fn lengths_put_in() -> Vec<Case> {
    let columns = [
        (0x40, parameters(16, 0), 8, 8),
        (0x40, parameters(8, 0), 16, 16),
        (0x40, parameters(8, 0), 4, 4),
        (0x40, parameters(0, 0), 0, 8),
        (0x47, parameters(4, 0), 8, 8),
        (0x47, parameters(0, 1), 8, 8),
        (0x48, parameters(8, 0), 4, 4),
        (0x23, parameters(8, 0), 2, 2),
        (0x24, parameters(2, 0), 8, 8),
    ];
    let mut cases = Vec::new();
    for (plain, parameters, length, bytes) in columns {
        let column = |code| {
            let sda = sda_of(1, code, parameters, &[]);
            [sda, with_groups(GDA, 2, &[[1, 0, length]])].concat()
        };
        let item: Vec<u8> = (0x41..0x41 + bytes).collect();
        cases.push(case(&column(plain), &item, 4, 0));
        cases.push(case(&column(plain + NULLABLE), &[0x80], 4, 0));
    }
    cases
}

/// A float that 64 bits cannot tell, another one, a null and a whole number.
fn neighbours() -> (Vec<u8>, Vec<u8>) {
    let descriptor = [
        sda_of(1, 0x40, parameters(8, 0), &[]),
        sda_of(2, 0xC8, parameters(4, 0), &[]),
        sda_of(3, 0xA4, parameters(2, 0), &[]),
        with_groups(RLO, 4, &[[1, 0, 1], [2, 0, 2], [3, 0, 1]]),
    ]
    .concat();
    let data = [
        &[0x41, 0xFF, 0xFF, 0xFF, 0xFF, 0xFF, 0xFF, 0xFF][..],
        &[0, 0x42, 0xF7, 0, 0],
        &[0x80],
        &[0, 0xFE, 0xFF],
    ]
    .concat();
    (descriptor, data)
}

/// A null, and behind it an infinity.
fn rows_to_the_end() -> (Vec<u8>, Vec<u8>) {
    let sda = sda_of(1, 0xC7, parameters(8, 0), &[]);
    let descriptor = [sda, with_groups(RLO, 2, &[[1, 0, 0]])].concat();
    let data = [&[0x80, 0][..], &layout(0x47, 8).bytes(0, 2047, 0)].concat();
    (descriptor, data)
}
