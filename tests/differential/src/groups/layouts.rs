//! Group triplets: lengths put in over every type, runs of triplets around them, and as many
//! columns as a descriptor can hold.

use differential::triplets::{column, layout, of_parts, row, sda, Group, CPT, GDA, RLO};

use super::codes::VALUES;
use super::limits::{compare_around, fitting};
use crate::compare::Comparison;

/// Lengths that suit a type and those beside them; some suit none.
const LENGTHS: [u16; 27] = [
    0, 1, 2, 3, 4, 5, 7, 8, 9, 15, 16, 17, 255, 256, 0x0101, 0x0104, 0x0302, 0x0305, 0x0503,
    0x0800, 0x1212, 0x1213, 0x1300, 0x7FFF, 0x8000, 0x8004, 0xFFFF,
];

/// Plain type, mode, a length of the SDA's own.
const COLUMNS: [(u8, u8, u16); 21] = [
    (0x01, 0, 0),
    (0x01, 0, 3),
    (0x02, 0, 0),
    (0x02, 1, 0),
    (0x02, 0, 3),
    (0x02, 1, 3),
    (0x03, 0, 0),
    (0x03, 1, 0),
    (0x03, 0, 3),
    (0x03, 1, 3),
    (0x07, 0, 0),
    (0x07, 0, 3),
    (0x07, 1, 3),
    (0x23, 0, 4),
    (0x24, 0, 8),
    (0x30, 0, 0x0402),
    (0x40, 0, 0),
    (0x40, 0, 16),
    (0x47, 0, 3),
    (0x47, 0, 8),
    (0x48, 0, 4),
];

/// An SDA of id 1, and one column over it.
fn one_column(type_code: u8, mode: u8, own: u16, length: u16) -> Vec<u8> {
    let sda = sda(1, type_code, mode, own, &[]);
    [sda, layout(2, &[column(1, length)])].concat()
}

pub fn every_code(comparison: &mut Comparison) {
    for type_code in 0..=255 {
        for own in [0, 4, 0x0302] {
            for length in LENGTHS {
                let descriptor = one_column(type_code, 0, own, length);
                for byte in [0, 1] {
                    comparison.compare(&descriptor, &fitting(&descriptor, byte));
                }
            }
        }
    }
}

pub fn every_length(comparison: &mut Comparison) {
    for (type_code, mode, own) in [
        (0x01, 0, 5),
        (0x83, 0, 5),
        (0x07, 1, 5),
        (0xA3, 0, 4),
        (0x30, 0, 0x0301),
        (0xC0, 0, 0),
        (0x47, 0, 0),
    ] {
        for length in 0..=u16::MAX {
            let descriptor = one_column(type_code, mode, own, length);
            comparison.compare(&descriptor, &fitting(&descriptor, 0));
        }
    }
}

pub fn every_size_of_data(comparison: &mut Comparison) {
    for (plain, mode, own) in COLUMNS {
        for length in LENGTHS {
            let nullable = one_column(plain + 0x80, mode, own, length);
            comparison.compare(&nullable, &[0x80]);
            comparison.compare(&nullable, &[0x80, 0]);
            let plain = one_column(plain, mode, own, length);
            for value in VALUES {
                for size in 0..=value.len() {
                    comparison.compare(&plain, &value[..size]);
                    comparison.compare(&nullable, &[&[0], &value[..size]].concat());
                }
            }
        }
    }
}

/// Triplets that are good or bad by what stands before them.
fn triplets() -> [Vec<u8>; 14] {
    let one = |construct, id, group: Group| of_parts(construct, id, [&[group][..]].into_iter());
    [
        sda(1, 0x01, 0, 1, &[]),
        sda(2, 0x23, 0, 2, &[1]),
        one(RLO, 3, [1, 0, 2]),
        one(RLO, 4, [5, 0, 2]),
        one(RLO, 4, [5, 1, 1]),
        one(GDA, 5, column(1, 2)),
        one(GDA, 5, column(1, 0x8000)),
        one(GDA, 6, column(2, 0)),
        one(GDA, 6, column(3, 0)),
        one(GDA, 6, column(5, 0)),
        one(CPT, 0, [1, 0, 3]),
        one(CPT, 0, [1, 1, 0]),
        one(CPT, 0, [5, 0, 1]),
        vec![5, 0x7E, 0, 1, 0],
    ]
}

pub fn every_run(comparison: &mut Comparison) {
    let triplets = triplets();
    compare_runs(comparison, &triplets[0], &triplets);
}

/// Every run of up to four of the parts, alone and behind something.
pub(super) fn compare_runs(comparison: &mut Comparison, before: &[u8], parts: &[Vec<u8>]) {
    let mut runs = vec![Vec::new()];
    for _ in 0..4 {
        runs = longer(&runs, parts);
        for run in &runs {
            comparison.compare(run, &fitting(run, 0));
            let behind = [before, run].concat();
            comparison.compare(&behind, &fitting(&behind, 0));
        }
    }
}

fn longer(runs: &[Vec<u8>], parts: &[Vec<u8>]) -> Vec<Vec<u8>> {
    runs.iter()
        .flat_map(|run| parts.iter().map(move |part| [&run[..], part].concat()))
        .collect()
}

/// Up to as many columns as fit, the last of which is good or is not, alone and under rows.
pub fn long_layouts(comparison: &mut Comparison) {
    let sdas = [
        sda(1, 0x01, 0, 1, &[]),
        sda(2, 0xA4, 0, 2, &[]),
        sda(3, 0x01, 0, 0, &[1]),
    ]
    .concat();
    let last = [
        column(1, 2),
        column(2, 8),
        column(2, 3),
        column(3, 0),
        column(4, 0),
        column(9, 1),
    ];
    for count in [83, 84, 167, 1_333] {
        for last in last {
            let mut columns = vec![column(1, 0); count];
            columns.push(last);
            let layout = [&sdas[..], &layout(4, &columns)].concat();
            compare_around(comparison, &layout);
            for factor in [1, 3, 4, 48, 49] {
                let row = row(5, &[[4, 0, factor]]);
                compare_around(comparison, &[&layout[..], &row].concat());
            }
        }
    }
}
