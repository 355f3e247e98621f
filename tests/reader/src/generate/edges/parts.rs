//! Lead, value and spare: of every type and mode with values from empty to full, of nulls, and of
//! blocks that are refused.

use super::case;
use crate::descriptor::{CPT, GDA, ISD, RLO};
use crate::field::NULLABLE;
use crate::generate::structured::{plain_parameters, sda_of, with_groups};
use crate::generate::Case;

/// Plain type, mode, field length or digits, and how many bytes the values have.
const FIELDS: [(u8, u8, u16, &[usize]); 25] = [
    (0x01, 0, 0, &[0]),
    (0x01, 0, 3, &[3]),
    (0x02, 0, 0, &[0, 1, 3]),
    (0x02, 1, 0, &[0, 1, 3]),
    (0x02, 0, 3, &[0, 1, 2, 3]),
    (0x02, 1, 3, &[0, 1, 2, 3]),
    (0x03, 0, 0, &[0, 1, 3]),
    (0x03, 1, 0, &[0, 1, 3]),
    (0x03, 0, 3, &[0, 1, 2, 3]),
    (0x03, 1, 3, &[0, 1, 2, 3]),
    (0x07, 0, 0, &[0, 1, 3]),
    (0x07, 1, 0, &[0, 1, 3]),
    (0x07, 0, 3, &[0, 1, 2, 3]),
    (0x07, 1, 3, &[0, 1, 2, 3]),
    (0x23, 0, 2, &[2]),
    (0x23, 0, 8, &[8]),
    (0x24, 0, 4, &[4]),
    (0x30, 0, 0x0301, &[2]),
    (0x30, 0, 0x1200, &[10]),
    (0x40, 0, 0, &[8]),
    (0x40, 0, 16, &[16]),
    (0x47, 0, 0, &[4]),
    (0x47, 0, 8, &[8]),
    (0x48, 0, 4, &[4]),
    (0x48, 0, 9, &[4]),
];

pub(super) fn blocks() -> Vec<Case> {
    [values(), refused_descriptors(), asked_data()].concat()
}

/// An item between two bytes, plain and nullable; and a null.
fn values() -> Vec<Case> {
    let mut cases = Vec::new();
    for (plain, mode, size, lengths) in FIELDS {
        let sda = |code| sda_of(2, code, plain_parameters(mode, size), &[]);
        let [plain_sda, nullable_sda] = [plain, plain + NULLABLE].map(sda);
        for &length in lengths {
            let item = item(plain, mode, size.into(), length);
            cases.push(between_bytes(&plain_sda, &item));
            cases.push(between_bytes(&nullable_sda, &[&[0], &item[..]].concat()));
        }
        cases.push(between_bytes(&nullable_sda, &[0x80]));
    }
    cases
}

/// An item of a value of so many bytes, with some bytes in what it leaves of its space.
fn item(plain: u8, mode: u8, size: usize, length: usize) -> Vec<u8> {
    let value = vec![0x41; length];
    let count = length as u8;
    let (lead, terminator): (&[u8], &[u8]) = match plain {
        0x02 => (&[0, count], &[]),
        0x03 => (&[], &[0]),
        0x07 => (&[count], &[]),
        _ => return value,
    };
    let reserved = match mode {
        0 => &[0x42, 0, 0x43][..size.saturating_sub(length)],
        _ => &[],
    };
    [lead, &value, terminator, reserved].concat()
}

/// A field of one byte, that of an SDA of id 2, and one of one byte again; the second is asked.
fn between_bytes(sda: &[u8], item: &[u8]) -> Case {
    let byte = sda_of(1, 0x01, plain_parameters(0, 1), &[]);
    let row = with_groups(RLO, 3, &[[1, 0, 1], [2, 0, 1], [1, 0, 1]]);
    let descriptor = [&byte[..], sda, &row].concat();
    case(&descriptor, &[&[5], item, &[6]].concat(), 8, 1)
}

/// A nullable string, then one that a zero byte ends, both of three bytes.
fn strings() -> Vec<u8> {
    let sda = |id, code| sda_of(id, code, plain_parameters(0, 3), &[]);
    let row = with_groups(RLO, 3, &[[1, 0, 1], [2, 0, 1]]);
    [sda(1, 0x82), sda(2, 0x03), row].concat()
}

/// Two strings with room behind their values.
const GOOD: [u8; 10] = [0, 0, 1, 0x41, 0, 0, 0x41, 0, 0, 0];

/// Triplets behind good ones, by the number that refuses them.
fn refused_descriptors() -> Vec<Case> {
    let empty = sda_of(5, 0x01, plain_parameters(0, 0), &[]);
    let endless = [&empty[..], &with_groups(RLO, 4, &[[1, 0, 1], [5, 0, 0]])].concat();
    let triplets: [&[u8]; 12] = [
        &[1],
        &[6, 0x72, 4, 1, 0, 1],
        &[5, ISD, 0, 1, 0],
        &[4, RLO, 4, 1],
        &with_groups(CPT, 9, &[[1, 0, 1]]),
        &with_groups(RLO, 3, &[[1, 0, 1]]),
        &with_groups(RLO, 4, &[[9, 0, 1]]),
        &with_groups(RLO, 4, &[[1, 1, 1]]),
        &with_groups(RLO, 4, &[[3, 0, 255]; 9]),
        &with_groups(GDA, 4, &[[1, 0x80, 0]]),
        &with_groups(GDA, 4, &[[3, 0, 1]]),
        &endless,
    ];
    triplets
        .iter()
        .map(|triplet| case(&[&strings(), *triplet].concat(), &GOOD, 6, 0))
        .chain([case(&[], &GOOD, 6, 0)])
        .collect()
}

/// Items around the count, of good data and of data refused in the first or the second item.
fn asked_data() -> Vec<Case> {
    let data: [&[u8]; 6] = [
        &GOOD,
        &GOOD[..5],
        &GOOD[..9],
        &[0, 0, 4, 0x41, 0, 0, 0x41, 0, 0, 0],
        &[0, 0, 1, 0x41, 0, 0, 0x41, 0x42, 0x43, 0x44],
        &[&GOOD[..], &[0]].concat(),
    ];
    let items = [0, 1, 2, u32::MAX];
    data.iter()
        .flat_map(|data| items.map(|item| case(&strings(), data, 6, item)))
        .collect()
}
