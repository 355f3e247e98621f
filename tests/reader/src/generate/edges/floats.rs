//! Floats: their own field lengths, those that give way to the type's default, and 16.

use super::{asked_around, behind_a_byte, case, changed_parameters, file, sdas};
use crate::descriptor::RLO;
use crate::field::NULLABLE;
use crate::generate::structured::{plain_parameters, sda_of, with_groups};
use crate::generate::Case;

/// Plain type, default field length.
const DEFAULTS: [(u8, u16); 3] = [(0x40, 8), (0x47, 4), (0x48, 4)];

/// Field lengths around 4, 8 and 16, and at the ends of their range.
const LENGTHS: [u16; 15] = [
    0, 1, 3, 4, 5, 7, 8, 9, 15, 16, 17, 32, 0x7FFF, 0x8000, 0xFFFF,
];

/// 4, 8 and 16 with a bit of the high byte, and in the high byte.
const HIGH_BYTES: [u16; 9] = [
    0x0104, 0x0108, 0x0110, 0x8004, 0x8008, 0x8010, 0x0400, 0x0800, 0x1000,
];

pub(super) fn descriptors() -> Vec<Vec<u8>> {
    [
        sdas(type_codes(), &HIGH_BYTES),
        other_parameters(),
        arrays(),
        other_types(),
    ]
    .concat()
}

pub(super) fn blocks() -> Vec<Case> {
    let (descriptor, data) = zero_parameters();
    [lengths(), asked_around(&descriptor, &data, 6)].concat()
}

/// Files of zero parameters: one that fits, and one whose data is a byte short.
pub(super) fn files() -> Vec<Vec<u8>> {
    let (descriptor, data) = zero_parameters();
    [&data[..], &data[..data.len() - 1]]
        .map(|data| file(&descriptor, data))
        .to_vec()
}

/// The plain types and their nullable forms.
fn type_codes() -> impl Iterator<Item = u8> {
    DEFAULTS
        .into_iter()
        .flat_map(|(plain, _)| [plain, plain + NULLABLE])
}

/// Other type parameters changed beside lengths that give way.
fn other_parameters() -> Vec<Vec<u8>> {
    type_codes()
        .flat_map(|code| {
            [0, 0xFFFF].map(|length| changed_parameters(code, plain_parameters(0, length)))
        })
        .flatten()
        .collect()
}

/// Extents, elements taken and factors over lengths that give way.
fn arrays() -> Vec<Vec<u8>> {
    let mut descriptors = Vec::new();
    for code in type_codes() {
        let sda = |extents: &[u16]| sda_of(1, code, plain_parameters(0, 3), extents);
        descriptors.extend([
            sda(&[3]),
            sda(&[2, 1, 2]),
            sda(&[0]),
            [sda(&[]), with_groups(RLO, 2, &[[1, 0, 3]])].concat(),
            [sda(&[2, 1]), with_groups(RLO, 2, &[[1, 3, 1], [1, 0, 2]])].concat(),
        ]);
    }
    descriptors
}

/// The nullable forms of the other types, which have no default.
fn other_types() -> Vec<Vec<u8>> {
    let codes = [0x81, 0x82, 0x83, 0x87, 0xA3, 0xA4, 0xB0];
    sdas(codes, &[0, 3, 16, 0x8000, 0xFFFF])
}

/// For each length an item that fits, one a byte short, one a byte long, and a null.
fn lengths() -> Vec<Case> {
    let mut cases = Vec::new();
    for (plain, default) in DEFAULTS {
        for length in LENGTHS {
            let body = match length {
                4 | 8 | 16 => length,
                _ => default,
            };
            let [plain, nullable] = [plain, plain + NULLABLE]
                .map(|code| behind_a_byte(sda_of(2, code, plain_parameters(0, length), &[])));
            for size in [body - 1, body, body + 1] {
                let value = vec![0x42; size.into()];
                cases.push(case(&plain, &[&[5], &value[..]].concat(), 6, 1));
                cases.push(case(&nullable, &[&[5, 0], &value[..]].concat(), 6, 1));
            }
            cases.push(case(&nullable, &[5, 0x80], 6, 1));
        }
    }
    cases
}

/// A block of six floats whose parameters are left at zero: two of 8 bytes, two of 4, one of
/// 4 behind its indicator, and a null.
fn zero_parameters() -> (Vec<u8>, Vec<u8>) {
    let descriptor = [
        sda_of(1, 0x40, [0; 8], &[]),
        sda_of(2, 0x47, [0; 8], &[2]),
        sda_of(3, 0xC8, [0; 8], &[]),
        with_groups(RLO, 4, &[[1, 0, 2], [2, 0, 1], [3, 0, 2]]),
    ]
    .concat();
    let data = [&[0x41; 16][..], &[0x3F; 8], &[0, 9, 9, 9, 9], &[0x80]].concat();
    (descriptor, data)
}
