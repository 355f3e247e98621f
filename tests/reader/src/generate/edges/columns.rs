//! Group triplets: the lengths that they put in, what they refer to, the order of their refusals,
//! the CPTs behind them and the RLOs over them.

use super::{asked_around, case, file, four_bytes, plain_types, sda};
use crate::descriptor::{CPT, GDA, ISD, RLO};
use crate::field::NULLABLE;
use crate::generate::fitting::{bytes_of, half_bytes};
use crate::generate::structured::{plain_parameters, sda_of, with_groups};
use crate::generate::Case;

/// Lengths that some rule names, those beside them, and some with a high byte.
const LENGTHS: [u16; 19] = [
    0, 1, 2, 3, 4, 5, 7, 8, 9, 15, 16, 17, 254, 255, 256, 0x0104, 0x7FFF, 0x8000, 0xFFFF,
];

/// Digits and fraction digits, in their ranges and beside them.
const DIGITS: [u16; 16] = [
    0, 1, 2, 0x0100, 0x0101, 0x0102, 0x0305, 0x0503, 0x1112, 0x1200, 0x1212, 0x1213, 0x1300,
    0x1F1F, 0x8000, 0xFFFF,
];

pub(super) fn descriptors() -> Vec<Vec<u8>> {
    [
        lengths(),
        nullable_lengths(),
        own_lengths(),
        other_parameters(),
        ids(),
        references(),
        orders(),
        rows(),
        last_ones(),
    ]
    .concat()
}

pub(super) fn blocks() -> Vec<Case> {
    let (row, data) = table_5_29();
    let (mixed, mixed_data) = mixed_columns();
    [
        asked_around(&row, &data, 3),
        asked_around(&mixed, &mixed_data, 6),
        strings(),
        whole_numbers(),
        decimals(),
    ]
    .concat()
}

/// A row that fits, and the same with its data a byte short and with a length that does not suit.
pub(super) fn files() -> Vec<Vec<u8>> {
    let (row, data) = table_5_29();
    let mut misfit = row.clone();
    misfit[40] = 0x80;
    vec![
        file(&row, &data),
        file(&row, &data[..data.len() - 1]),
        file(&misfit, &data),
    ]
}

/// As many columns as a triplet holds, with CPTs behind it too, and rows of columns around 4,096
/// items.
pub(super) fn counts() -> Vec<Vec<u8>> {
    let columns = |count| [sda(1, &[]), with_groups(GDA, 2, &vec![[1, 0, 1]; count])].concat();
    let rows = |count, factor| [columns(count), with_groups(RLO, 3, &[[2, 0, factor]])].concat();
    vec![
        columns(84),
        rows(64, 64),
        rows(64, 65),
        rows(63, 65),
        [columns(84), with_groups(CPT, 0, &[[1, 0, 1]; 84]).repeat(3)].concat(),
    ]
}

/// A group that puts in a length.
fn column(reference: u8, length: u16) -> [u8; 3] {
    let [high, low] = length.to_be_bytes();
    [reference, high, low]
}

/// An SDA of id 1, and a column over it.
fn one_column(sda: Vec<u8>, length: u16) -> Vec<u8> {
    [sda, with_groups(GDA, 2, &[column(1, length)])].concat()
}

fn lengths() -> Vec<Vec<u8>> {
    let mut descriptors = Vec::new();
    for code in plain_types() {
        let lengths: &[u16] = match code {
            0x30 => &DIGITS,
            _ => &LENGTHS,
        };
        let sda = sda_of(1, code, four_bytes(code), &[]);
        descriptors.extend(
            lengths
                .iter()
                .map(|&length| one_column(sda.clone(), length)),
        );
    }
    descriptors
}

fn nullable_lengths() -> Vec<Vec<u8>> {
    let mut descriptors = Vec::new();
    for code in plain_types() {
        let sda = sda_of(1, code + NULLABLE, four_bytes(code), &[]);
        for length in [0, 2, 5, 8, 16, 0x0302, 0x8000] {
            descriptors.push(one_column(sda.clone(), length));
        }
    }
    descriptors
}

/// Lengths of the SDA's own, kept and replaced: at the ends of their ranges, a float's default,
/// and some that are refused whatever a column puts in.
fn own_lengths() -> Vec<Vec<u8>> {
    let own: [(u8, &[u16]); 10] = [
        (0x01, &[0, 9, 0x8000]),
        (0x02, &[0, 9]),
        (0x03, &[0, 9]),
        (0x07, &[0, 255]),
        (0x23, &[1, 2, 8]),
        (0x24, &[2, 8]),
        (0x30, &[0, 0x0100, 0x1212]),
        (0x40, &[0, 5, 16, 0xFFFF]),
        (0x47, &[0, 5, 8, 16]),
        (0x48, &[0, 8, 0xFFFF]),
    ];
    let mut descriptors = Vec::new();
    for (code, own) in own {
        let put_in = match code {
            0x30 => 0x0302,
            _ => 4,
        };
        for &own in own {
            for length in [0, put_in, own] {
                let sda = sda_of(1, code, plain_parameters(0, own), &[]);
                descriptors.push(one_column(sda, length));
            }
        }
    }
    descriptors
}

/// Modes and bias indicators, which stay the SDA's.
fn other_parameters() -> Vec<Vec<u8>> {
    let mut descriptors = Vec::new();
    for code in [0x02, 0x03, 0x07] {
        for own in [0, 4] {
            for length in [0, 1, 5] {
                let sda = sda_of(1, code, plain_parameters(1, own), &[]);
                descriptors.push(one_column(sda, length));
            }
        }
    }
    for code in [0x47, 0xC8] {
        for length in [0, 5, 8, 16] {
            let sda = sda_of(1, code, [0, 0, 0, 1, 0, 0, 0, 0], &[]);
            descriptors.push(one_column(sda, length));
        }
    }
    descriptors
}

/// Ids 0, 1, 2 and 255, taken ones, and what CPTs follow.
fn ids() -> Vec<Vec<u8>> {
    let group = |id| with_groups(GDA, id, &[[1, 0, 1]]);
    let row = |id| with_groups(RLO, id, &[[1, 0, 1]]);
    let more = |id| with_groups(CPT, id, &[[1, 0, 2]]);
    let mut descriptors = Vec::new();
    for id in [0, 1, 2, 255] {
        descriptors.extend([
            [sda(1, &[]), group(id)].concat(),
            [sda(1, &[]), group(2), group(id)].concat(),
            [sda(1, &[]), group(2), more(0), group(id)].concat(),
            [sda(1, &[]), group(2), sda(id, &[])].concat(),
            [sda(1, &[]), group(2), row(id)].concat(),
            [sda(1, &[]), row(2), group(id)].concat(),
            [sda(1, &[]), group(2), more(id)].concat(),
            [sda(1, &[]), group(2), more(0), more(id)].concat(),
            [sda(1, &[]), group(2), sda(3, &[]), more(id)].concat(),
        ]);
    }
    descriptors
}

/// SDAs of each dimension with ids 1 to 4, an RLO of id 5 and a GDA of id 6.
fn lower() -> Vec<u8> {
    [
        sda(1, &[]),
        sda(2, &[1]),
        sda(3, &[1, 1]),
        sda(4, &[1, 1, 1]),
        with_groups(RLO, 5, &[[1, 0, 1]]),
        with_groups(GDA, 6, &[[1, 0, 1], [1, 0, 2]]),
    ]
    .concat()
}

/// References to each of those, to the triplet itself and to nothing, also in a CPT.
fn references() -> Vec<Vec<u8>> {
    let lower = lower();
    let mut descriptors = Vec::new();
    for reference in 0..=8 {
        for length in [0, 1, 0x8000] {
            let group = column(reference, length);
            descriptors.push([&lower[..], &with_groups(GDA, 7, &[group])].concat());
            let first = with_groups(GDA, 7, &[[1, 0, 1]]);
            descriptors.push([&lower[..], &first, &with_groups(CPT, 0, &[group])].concat());
        }
    }
    descriptors
}

/// Two groups, of which each is good or is not: in one triplet, and one of them in a CPT.
fn orders() -> Vec<Vec<u8>> {
    let lower = lower();
    let groups = [
        column(1, 1),
        column(9, 0x8000),
        column(2, 1),
        column(5, 1),
        column(1, 0x8000),
    ];
    let mut descriptors = Vec::new();
    for first in groups {
        for second in groups {
            let together = with_groups(GDA, 7, &[first, second]);
            descriptors.push([&lower[..], &together].concat());
            let more = with_groups(CPT, 0, &[second]);
            descriptors.push([&lower[..], &with_groups(GDA, 7, &[first]), &more].concat());
        }
    }
    descriptors
}

/// Elements taken and factors of RLOs over a GDA, of CPTs, and of RLOs over those.
fn rows() -> Vec<Vec<u8>> {
    let lower = lower();
    let mut descriptors = Vec::new();
    for taken in [0, 1, 2, 255] {
        for factor in [0, 1, 2] {
            let row = with_groups(RLO, 7, &[[6, taken, factor], [1, 0, 1]]);
            descriptors.push([&lower[..], &row].concat());
        }
        let more = with_groups(CPT, 0, &[[6, taken, 2]]);
        descriptors.push([&lower[..], &with_groups(RLO, 7, &[[1, 0, 1]]), &more].concat());
        let row = with_groups(RLO, 7, &[[6, 0, 2]]);
        descriptors.push([&lower[..], &row, &with_groups(RLO, 8, &[[7, taken, 2]])].concat());
    }
    descriptors
}

/// Which triplet is the last one described, and ISDs before a GDA and behind it.
fn last_ones() -> Vec<Vec<u8>> {
    let group = |id| with_groups(GDA, id, &[[1, 0, 1], [1, 0, 2]]);
    let row = |id, reference| with_groups(RLO, id, &[[reference, 0, 3]]);
    let more = || with_groups(CPT, 0, &[[1, 0, 5]]);
    let isd = || vec![5, ISD, 0, 1, 0];
    vec![
        group(2),
        [group(2), sda(1, &[])].concat(),
        [sda(1, &[]), group(2), sda(3, &[4])].concat(),
        [sda(1, &[]), group(2), row(3, 1)].concat(),
        [sda(1, &[]), row(3, 1), group(2)].concat(),
        [sda(1, &[]), group(2), with_groups(GDA, 3, &[[1, 0, 1]])].concat(),
        [sda(1, &[]), row(3, 1), group(2), more()].concat(),
        [sda(1, &[]), group(2), row(3, 2), more()].concat(),
        [isd(), sda(1, &[]), group(2)].concat(),
        [isd(), group(2)].concat(),
        [sda(1, &[]), group(2), isd()].concat(),
    ]
}

/// The row of DRDA Volume 1, table 5-29, its group made a plain one: a null, a float of 8 bytes,
/// and a string.
fn table_5_29() -> (Vec<u8>, Vec<u8>) {
    let descriptor = [
        sda_of(0x05, 0xA4, plain_parameters(0, 2), &[]),
        sda_of(0x0B, 0xC7, plain_parameters(0, 8), &[]),
        sda_of(0x33, 0x82, plain_parameters(1, 0x7FFF), &[]),
        with_groups(GDA, 0xD0, &[[0x05, 0, 2], [0x0B, 0, 8], [0x33, 0, 0x14]]),
    ];
    let data = [
        &[0xFF][..],
        &[0, 0x0A, 0xD7, 0xA3, 0x70, 0x3D, 0xE2, 0x65, 0x40],
        &[0, 0, 4, 0xC6, 0xD9, 0xC5, 0xC4],
    ];
    (descriptor.concat(), data.concat())
}

/// A whole number of two lengths, a packed decimal of two, a string, and a float's default.
fn mixed_columns() -> (Vec<u8>, Vec<u8>) {
    let columns = [
        column(1, 8),
        column(2, 0x0402),
        column(1, 0),
        column(3, 2),
        column(2, 0),
        column(4, 0),
    ];
    let descriptor = [
        sda_of(1, 0x24, plain_parameters(0, 2), &[]),
        sda_of(2, 0xB0, plain_parameters(0, 0x0300), &[]),
        sda_of(3, 0x02, plain_parameters(0, 5), &[]),
        sda_of(4, 0x40, plain_parameters(0, 3), &[]),
        with_groups(GDA, 5, &columns[..2]),
        with_groups(CPT, 0, &columns[2..]),
    ];
    let data = [
        &[0xFE, 0xFF, 0xFF, 0xFF, 0xFF, 0xFF, 0xFF, 0x7F][..],
        &[0, 0x01, 0x23, 0x4D],
        &[0x02, 0x01],
        &[0, 1, 7, 8],
        &[0, 0x12, 0x3C],
        &[0x41; 8],
    ];
    (descriptor.concat(), data.concat())
}

/// A column of one byte, and one of an SDA of id 2 with a length put in.
fn behind_a_byte(sda: Vec<u8>, length: u16) -> Vec<u8> {
    let groups = [[1, 0, 0], column(2, length)];
    let first = sda_of(1, 0x01, plain_parameters(0, 1), &[]);
    [first, sda, with_groups(GDA, 3, &groups)].concat()
}

/// Strings around a length of 2 that is put in for 4 or for none, and around 4 where it is kept.
fn strings() -> Vec<Case> {
    let data: [&[u8]; 6] = [
        &[0, 1, 7, 8],
        &[0, 2, 7, 0],
        &[0, 3, 7, 8, 9],
        &[2, 7, 0],
        &[3, 7, 8, 9],
        &[0, 4, 7, 8, 9, 0],
    ];
    let mut cases = Vec::new();
    for code in [0x02, 0x03, 0x07] {
        for (mode, own, length) in [(0, 4, 2), (1, 4, 2), (0, 0, 2), (0, 4, 0), (1, 4, 0)] {
            let sda = sda_of(2, code, plain_parameters(mode, own), &[]);
            let descriptor = behind_a_byte(sda, length);
            for item in data {
                cases.push(case(&descriptor, &[&[5], item].concat(), 6, 1));
            }
        }
    }
    cases
}

/// Whole numbers of each length, put in or kept, with data of each length.
fn whole_numbers() -> Vec<Case> {
    let mut cases = Vec::new();
    for code in [0x23, 0x24] {
        for own in [2, 8] {
            for length in [0, 2, 4, 8] {
                let sda = sda_of(2, code, plain_parameters(0, own), &[]);
                let descriptor = behind_a_byte(sda, length);
                for size in [2, 4, 8] {
                    let number = &[0x81, 2, 3, 4, 5, 6, 7, 0xF8][..size];
                    cases.push(case(&descriptor, &[&[5], number].concat(), 6, 1));
                }
            }
        }
    }
    cases
}

/// Packed decimals of digits and fraction digits put in or kept, and nulls of them.
fn decimals() -> Vec<Case> {
    let mut cases = Vec::new();
    for length in [0, 0x0300, 0x0303, 0x0402, 0x0501, 0x1212] {
        let sda = sda_of(2, 0xB0, plain_parameters(0, 0x0301), &[]);
        let descriptor = behind_a_byte(sda, length);
        cases.push(case(&descriptor, &[5, 0x80], 6, 1));
        for count in [3, 4, 5, 18] {
            let value = bytes_of(&half_bytes(&vec![3; count], 0xD));
            cases.push(case(&descriptor, &[&[5, 0], &value[..]].concat(), 6, 1));
        }
    }
    cases
}
