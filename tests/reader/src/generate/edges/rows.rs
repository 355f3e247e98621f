//! Rows to the end: where factor 0 may stand, what it may repeat, the order of the refusals, and
//! data around whole passes, with lists and item numbers around the count that is found.

use super::{asked_around, case, file, four_bytes, plain_types, sda};
use crate::descriptor::{CPT, GDA, ISD, RLO};
use crate::field::NULLABLE;
use crate::generate::structured::{plain_parameters, sda_of, with_groups};
use crate::generate::Case;

pub(super) fn descriptors() -> Vec<Vec<u8>> {
    [
        places(),
        followed(),
        layouts(),
        field_types(),
        columns(),
        items_without_bytes(),
        orders(),
    ]
    .concat()
}

pub(super) fn blocks() -> Vec<Case> {
    [
        pairs(),
        behind_fields(),
        no_data(),
        ends_without_bytes(),
        spoiled(),
        numbers(),
        nulls(),
    ]
    .concat()
}

/// Rows of two passes, of none, of a broken one, and rows that would be endless.
pub(super) fn files() -> Vec<Vec<u8>> {
    let rows = repeated(&pair());
    vec![
        file(&rows, &PASSES[..8]),
        file(&rows, &[]),
        file(&rows, &PASSES[..7]),
        file(&repeated(&sda(3, &[])), &[]),
    ]
}

/// Blocks of 4,096 items and beside it, by fields before the rows and by passes of many items
/// without bytes; and passes of 4,097 items.
pub(super) fn counts() -> Vec<Case> {
    let before = |count: u16| {
        let rows = with_groups(RLO, 3, &[[2, 0, 1], [1, 0, 0]]);
        [byte(1), sda(2, &[count]), rows].concat()
    };
    let pass = |row: &[[u8; 3]]| {
        let lower = [byte(1), sda(2, &[1])].concat();
        repeated(&[lower, with_groups(RLO, 3, row)].concat())
    };
    let of_256 = pass(&[[1, 0, 1], [2, 255, 1]]);
    let of_3 = pass(&[[1, 0, 1], [2, 2, 1]]);
    let of_4097 = |field_length| {
        let sda = sda_of(1, 0x01, plain_parameters(0, field_length), &[1, 241]);
        [sda, with_groups(RLO, 3, &[[1, 17, 0]])].concat()
    };
    let blocks: [(&[u8], usize); 14] = [
        (&before(4095), 0),
        (&before(4095), 1),
        (&before(4095), 2),
        (&of_4097(0), 0),
        (&before(4096), 0),
        (&before(4096), 1),
        (&of_4097(1), 0),
        (&of_4097(1), 9),
        (&of_256, 16),
        (&of_256, 17),
        (&of_4097(1), 4095),
        (&of_4097(1), 4096),
        (&of_3, 1365),
        (&of_3, 1366),
    ];
    blocks
        .map(|(descriptor, bytes)| case(descriptor, &vec![5; bytes], 2, 4095))
        .to_vec()
}

/// An SDA of one byte.
fn byte(id: u8) -> Vec<u8> {
    sda_of(id, 0x01, plain_parameters(0, 1), &[])
}

/// Rows to the end of the triplet of id 3.
fn repeated(lower: &[u8]) -> Vec<u8> {
    [lower, &with_groups(RLO, 4, &[[3, 0, 0]])].concat()
}

/// Factors 0, 1 and 2 in all groups of an RLO, and of its CPTs.
fn places() -> Vec<Vec<u8>> {
    let row = |factors: &[u8]| {
        let groups: Vec<[u8; 3]> = factors.iter().map(|&factor| [1, 0, factor]).collect();
        with_groups(RLO, 2, &groups)
    };
    let more = |factor| with_groups(CPT, 0, &[[1, 0, factor]]);
    let mut descriptors = vec![[byte(1), row(&[0])].concat()];
    for first in [0, 1, 2] {
        for second in [0, 1, 2] {
            descriptors.push([byte(1), row(&[first, second])].concat());
            descriptors.push([byte(1), row(&[first]), more(second)].concat());
            for third in [0, 1] {
                descriptors.push([byte(1), row(&[first, second]), more(third)].concat());
                descriptors.push([byte(1), row(&[first]), more(second), more(third)].concat());
            }
        }
    }
    descriptors
}

/// Bytes and triplets behind rows to the end, of items with bytes and without.
fn followed() -> Vec<Vec<u8>> {
    let group = |construct, id, reference| with_groups(construct, id, &[[reference, 0, 1]]);
    let behind = [
        vec![0],
        vec![1],
        vec![2],
        vec![6],
        vec![255],
        vec![2, RLO],
        vec![2, 0x72],
        vec![6, RLO, 3, 1, 0],
        byte(3),
        byte(2),
        group(RLO, 3, 1),
        group(RLO, 3, 2),
        group(GDA, 3, 1),
        group(CPT, 0, 1),
        group(CPT, 0, 9),
        vec![5, ISD, 0, 1, 0],
    ];
    let mut descriptors = Vec::new();
    for lower in [byte(1), sda(1, &[])] {
        let rows = [lower, with_groups(RLO, 2, &[[1, 0, 0]])].concat();
        descriptors.extend(behind.iter().map(|behind| [&rows[..], behind].concat()));
    }
    descriptors
}

/// SDAs of each dimension, RLOs, one with a CPT, and a GDA; elements taken of them and of what is
/// not described. The rows stand alone, behind a field and in a CPT.
fn layouts() -> Vec<Vec<u8>> {
    let array = |id, extents: &[u16]| sda_of(id, 0x01, plain_parameters(0, 1), extents);
    let lower = [
        byte(1),
        array(2, &[3]),
        array(3, &[2, 2]),
        array(4, &[1, 1, 2]),
        with_groups(RLO, 5, &[[2, 1, 2], [1, 0, 1]]),
        with_groups(CPT, 0, &[[1, 0, 1]]),
        with_groups(RLO, 6, &[[5, 0, 2]]),
        with_groups(GDA, 7, &[[1, 0, 0], [1, 0, 2]]),
    ]
    .concat();
    let mut descriptors = Vec::new();
    for reference in 0..=9 {
        for taken in [0, 1, 2, 255] {
            let group = [reference, taken, 0];
            let alone = with_groups(RLO, 8, &[group]);
            let behind = with_groups(RLO, 8, &[[1, 0, 1], group]);
            let more = with_groups(CPT, 0, &[group]);
            descriptors.push([&lower[..], &alone].concat());
            descriptors.push([&lower[..], &behind].concat());
            descriptors.push([&lower[..], &with_groups(RLO, 8, &[[1, 0, 1]]), &more].concat());
        }
    }
    descriptors
}

/// Every type of four bytes, and of the lengths 0, 1 and 256.
fn field_types() -> Vec<Vec<u8>> {
    let mut descriptors = Vec::new();
    for plain in plain_types() {
        for code in [plain, plain + NULLABLE] {
            let mut parameters = vec![four_bytes(code)];
            parameters.extend([0, 1, 256].map(|length| plain_parameters(0, length)));
            for parameters in parameters {
                descriptors.push(repeated(&sda_of(3, code, parameters, &[])));
            }
        }
    }
    descriptors
}

/// Columns with a length put in and with the SDA's own, of no bytes and of one.
fn columns() -> Vec<Vec<u8>> {
    let mut descriptors = Vec::new();
    for code in [0x01, 0x81, 0x02] {
        for own in [0, 1] {
            let sda = sda_of(1, code, plain_parameters(0, own), &[]);
            for length in [0_u16, 1, 256] {
                let [high, low] = length.to_be_bytes();
                let column = with_groups(GDA, 3, &[[1, high, low]]);
                let columns = with_groups(GDA, 3, &[[1, 0, 0], [1, high, low]]);
                descriptors.push(repeated(&[&sda[..], &column].concat()));
                descriptors.push(repeated(&[&sda[..], &columns].concat()));
            }
        }
    }
    descriptors
}

/// Rows among whose items some or all have no bytes, of arrays and of rows in rows too.
fn items_without_bytes() -> Vec<Vec<u8>> {
    let nullable = sda_of(2, 0x81, plain_parameters(0, 0), &[]);
    let variable = sda_of(2, 0x02, plain_parameters(0, 0), &[]);
    let mut descriptors = Vec::new();
    for other in [byte(2), nullable, variable, sda(2, &[])] {
        let lower = [sda(1, &[]), other].concat();
        for row in [
            [[1, 0, 1], [2, 0, 1]],
            [[2, 0, 1], [1, 0, 3]],
            [[1, 0, 2], [2, 0, 0]],
            [[2, 0, 2], [1, 0, 0]],
        ] {
            let row = with_groups(RLO, 3, &row);
            let nest = with_groups(RLO, 4, &[[3, 0, 2]]);
            let over_nest = with_groups(RLO, 5, &[[4, 0, 0]]);
            descriptors.push([&lower[..], &row].concat());
            descriptors.push(repeated(&[&lower[..], &row].concat()));
            descriptors.push([&lower[..], &row, &nest, &over_nest].concat());
        }
    }
    for taken in [0, 1, 2, 255] {
        let rows = with_groups(RLO, 2, &[[1, taken, 0]]);
        descriptors.push([&sda(1, &[3]), &rows[..]].concat());
        descriptors.push([&sda(1, &[1, 2, 2]), &rows[..]].concat());
    }
    descriptors
}

/// Two groups, of which each is good or is not: in one triplet, and the second in a CPT.
fn orders() -> Vec<Vec<u8>> {
    let lower = [byte(1), sda(2, &[]), sda(3, &[4096])].concat();
    let first = [
        [1, 0, 1],
        [3, 0, 1],
        [9, 0, 0],
        [1, 0, 0],
        [1, 1, 1],
        [3, 0, 2],
    ];
    let second = [
        [1, 0, 0],
        [2, 0, 0],
        [3, 0, 0],
        [9, 0, 0],
        [1, 1, 0],
        [2, 1, 0],
        [1, 0, 1],
    ];
    let mut descriptors = Vec::new();
    for first in first {
        for second in second {
            let together = with_groups(RLO, 4, &[first, second]);
            let more = with_groups(CPT, 0, &[second]);
            descriptors.push([&lower[..], &together].concat());
            descriptors.push([&lower[..], &with_groups(RLO, 4, &[first]), &more].concat());
        }
    }
    descriptors
}

/// A row of a byte and a whole number, both nullable.
fn pair() -> Vec<u8> {
    [
        sda_of(1, 0x81, plain_parameters(0, 1), &[]),
        sda_of(2, 0xA3, plain_parameters(0, 2), &[]),
        with_groups(RLO, 3, &[[1, 0, 1], [2, 0, 1]]),
    ]
    .concat()
}

/// Three passes of such rows, of 5, 3 and 2 bytes.
const PASSES: [u8; 10] = [0, 9, 0, 0x80, 0, 0, 7, 0xFF, 0x80, 0x80];

/// Pairs cut at each byte, lists around the needed size, and item numbers around the count.
fn pairs() -> Vec<Case> {
    let rows = repeated(&pair());
    let mut cases = Vec::new();
    for length in 0..=PASSES.len() {
        for list in [0, 5, 6, 9, 10, 13, 14, 15] {
            cases.push(case(&rows, &PASSES[..length], list, 3));
        }
    }
    for item in 0..=8 {
        cases.push(case(&rows, &PASSES, 14, item));
        cases.push(case(&rows, &PASSES[..8], 14, item));
    }
    cases
}

/// Pairs behind two fields, in one triplet and in a CPT.
fn behind_fields() -> Vec<Case> {
    let groups = [[2, 0, 2], [3, 0, 0]];
    let together = with_groups(RLO, 4, &groups);
    let apart = [
        with_groups(RLO, 4, &groups[..1]),
        with_groups(CPT, 0, &groups[1..]),
    ]
    .concat();
    let data = [&[0x80, 0, 0xFF, 0xFE], &PASSES[..]].concat();
    let mut cases = Vec::new();
    for rows in [together, apart] {
        let descriptor = [pair(), rows].concat();
        cases.extend(asked_around(&descriptor, &data, 8));
        for length in 0..=9 {
            cases.push(case(&descriptor, &data[..length], 10, 2));
        }
    }
    cases
}

/// No data at all: lists around two entries, and the first items.
fn no_data() -> Vec<Case> {
    let rows = repeated(&pair());
    let lists = (0..=4).map(|list| case(&rows, &[], list, 0));
    lists.chain([case(&rows, &[], 2, 1)]).collect()
}

/// Passes that end or begin with items without bytes, also behind fields without bytes.
fn ends_without_bytes() -> Vec<Case> {
    let lower = [sda_of(1, 0x01, plain_parameters(0, 2), &[]), sda(2, &[])].concat();
    let mut cases = Vec::new();
    for row in [
        [[1, 0, 1], [2, 0, 2]],
        [[2, 0, 2], [1, 0, 1]],
        [[2, 0, 1], [1, 0, 2]],
    ] {
        let row = with_groups(RLO, 3, &row);
        let rows = repeated(&[&lower[..], &row].concat());
        let behind = with_groups(RLO, 4, &[[2, 0, 2], [3, 0, 0]]);
        let behind = [&lower[..], &row, &behind].concat();
        for length in 0..=8 {
            cases.push(case(&rows, &[5; 8][..length], 14, 3));
            cases.push(case(&behind, &[5; 8][..length], 18, 3));
        }
    }
    cases
}

/// Bad counts and strings without an end in the first and in a later pass, with lists that have
/// room and with lists that have none.
fn spoiled() -> Vec<Case> {
    let data: [(u8, &[u8]); 8] = [
        (0x02, &[0, 3, 7, 7]),
        (0x02, &[0, 1, 7, 7, 0, 3]),
        (0x02, &[0, 1, 7, 7, 0xFF, 0xFF]),
        (0x07, &[2, 7, 7, 3]),
        (0x03, &[7, 7, 7, 0]),
        (0x03, &[7, 0, 7, 7, 7, 7]),
        (0x03, &[7, 0, 7, 7, 0]),
        (0x82, &[0x80, 0x80, 0, 0, 3]),
    ];
    let mut cases = Vec::new();
    for (code, data) in data {
        let rows = repeated(&sda_of(3, code, plain_parameters(0, 2), &[]));
        for list in [0, 1, 2, 3, 4, 6, 9] {
            cases.push(case(&rows, data, list, 1));
        }
    }
    cases
}

/// Rows of a whole number, a packed decimal and a byte; the second pass has a bad digit.
fn numbers() -> Vec<Case> {
    let rows = [
        sda_of(1, 0x24, plain_parameters(0, 2), &[]),
        sda_of(2, 0x30, plain_parameters(0, 0x0301), &[]),
        byte(5),
        with_groups(RLO, 3, &[[1, 0, 1], [2, 0, 1], [5, 0, 1]]),
    ]
    .concat();
    let data = [
        0xFE, 0xFF, 0x12, 0x3D, 5, 0x01, 0x80, 0x1A, 0x3C, 6, 0, 0, 0, 0x0C, 7,
    ];
    asked_around(&repeated(&rows), &data, 9)
}

/// Nulls and values of a field that has no bytes but its indicator.
fn nulls() -> Vec<Case> {
    let rows = repeated(&sda_of(3, 0x81, plain_parameters(0, 0), &[]));
    let data = [0x80, 0, 0xFF, 0, 0x80];
    (0..=6)
        .flat_map(|item| [12, 11].map(|list| case(&rows, &data, list, item)))
        .collect()
}
