//! Cases at the edges: large counts, hostile descriptors, sizes at their limits.

use super::random::Random;
use super::structured::{isd, plain_parameters, sda, sda_of, with_groups};
use crate::descriptor::{CPT, GDA, MAX_DESCRIPTOR, RLO};
use crate::unfold;
use crate::walk::MAX_DATA;

const SDA_ID: u8 = 0xB1;

/// Descriptors that describe nothing.
pub(super) fn nothing(random: &mut Random) -> Vec<u8> {
    match random.below(3) {
        0 => Vec::new(),
        _ => isd(random),
    }
}

/// Counts above 60, around 4,096 and far over it; one byte an item or none.
pub(super) fn large_count(random: &mut Random) -> (Vec<u8>, Vec<u8>) {
    let (type_code, field_length, byte) = random.pick(&[
        (0x01, 0, None),
        (0x81, 0, Some(0x80)),
        (0xC0, 0, Some(0x80)),
        (0x01, 1, Some(7)),
    ]);
    let descriptor = large_descriptor(random, type_code, plain_parameters(0, field_length));
    let count = unfold(&descriptor).map_or(16, |unfolding| unfolding.fields.len());
    let surplus = random.pick(&[0, 0, 0, 1, 16]);
    let data = byte.map_or(vec![0; surplus], |byte| vec![byte; count + surplus]);
    (descriptor, data)
}

fn large_descriptor(random: &mut Random, type_code: u8, parameters: [u8; 8]) -> Vec<u8> {
    let sda = |extents: &[u16]| sda_of(SDA_ID, type_code, parameters, extents);
    let one = |reference, taken, factor| [[reference, taken, factor]];
    match random.below(7) {
        0 => sda(&[random.pick(&[61, 255, 256, 4095, 4096, 4097, 0x7FFF, 0x8000, 0xFFFF])]),
        1 => sda(random.pick(&[&[64, 64], &[64, 65], &[1, 4096], &[4096, 2], &[17, 241]])),
        2 => sda(random.pick(&[&[16, 16, 16], &[16, 16, 17], &[0xFFFF; 3], &[4, 4, 5]])),
        3 => {
            let extents = random.pick(&[[1, 16], [1, 17], [9, 1]]);
            let group = one(SDA_ID, 255, random.pick(&[1, 1, 2]));
            [sda(&extents), with_groups(RLO, 0xA1, &group)].concat()
        }
        4 => [
            sda(&[]),
            with_groups(RLO, 0xA1, &one(SDA_ID, 0, 64)),
            with_groups(RLO, 0xA2, &one(0xA1, 0, random.pick(&[2, 4, 64, 65]))),
        ]
        .concat(),
        5 => [
            sda(&[]),
            with_groups(GDA, 0xC1, &[[SDA_ID, 0, 0]; 64]),
            with_groups(RLO, 0xA1, &one(0xC1, 0, random.pick(&[1, 2, 64, 65]))),
        ]
        .concat(),
        _ => [
            sda(&[random.pick(&[2047, 4094, 4095, 4096])]),
            with_groups(RLO, 0xA1, &one(SDA_ID, 0, 1)),
            with_groups(CPT, 0, &one(SDA_ID, random.pick(&[0, 1, 2]), 1)),
        ]
        .concat(),
    }
}

/// Rows to the end of many items, up to 4,096 and more. One item of a pass has a byte, the others
/// have none.
pub(super) fn large_rows(random: &mut Random) -> (Vec<u8>, Vec<u8>) {
    let (type_code, field_length, byte) =
        random.pick(&[(0x01, 1, 7), (0x81, 0, 0x80), (0x87, 0, 0xFF), (0x07, 0, 0)]);
    let before = random.pick(&[0, 0, 1, 16]);
    let others = random.pick(&[0, 1, 2, 15, 63, 254]);
    let mut row = vec![[2, others, 1]; usize::from(others > 0)];
    row.insert(random.below(row.len() + 1), [1, 0, 1]);
    let mut groups = vec![[2, before, 1]; usize::from(before > 0)];
    groups.push([3, 0, 0]);
    let descriptor = [
        sda_of(1, type_code, plain_parameters(0, field_length), &[]),
        sda_of(2, 0x01, plain_parameters(0, 0), &[1]),
        with_groups(RLO, 3, &row),
        with_groups(RLO, 4, &groups),
    ];
    let items = random.pick(&[61, 255, 256, 1000, 4095, 4096, 4097, 4097]);
    let passes = (items - usize::from(before)).div_ceil(usize::from(others) + 1);
    (descriptor.concat(), vec![byte; passes])
}

/// Random bytes, triplets of random contents, deep nests, many groups.
pub(super) fn hostile_descriptor(random: &mut Random) -> Vec<u8> {
    match random.below(5) {
        0 => {
            let count = random.below(40);
            random.bytes(count)
        }
        1 => random_triplets(random),
        2 => nest(random),
        3 => many_groups(random),
        _ => many_columns(random),
    }
}

/// Triplets of right-looking headers around bytes of little sense.
fn random_triplets(random: &mut Random) -> Vec<u8> {
    let mut descriptor = Vec::new();
    for _ in 0..random.between(1, 6) {
        let length = random.pick(&[2, 5, 6, 9, 12, 14, 16]);
        let construct = random.pick(&[0x70, 0x70, 0x71, 0x71, 0x75, 0x76, 0x7E, 0x7F]);
        descriptor.extend([length as u8, construct]);
        descriptor.extend((2..length).map(|_| random.pick(&[0, 0, 0, 1, 1, 2, 4])));
    }
    descriptor
}

/// RLOs one over the other, at times over a GDA, at times as deep as ids allow, and at times with
/// rows to the end.
fn nest(random: &mut Random) -> Vec<u8> {
    let depth = if random.one_in(30) {
        255
    } else {
        random.between(3, 18)
    };
    let most = random.pick(&[1, 1, 1, 2]);
    let mut descriptor = sda(random, 1, &[]);
    let second = match random.one_in(3) {
        true => with_groups(GDA, 2, &[[1, 0, 0]; 2]),
        false => with_groups(RLO, 2, &[[1, 0, 1]]),
    };
    descriptor.extend(second);
    for id in 3..=depth as u8 {
        let factor = random.between(1, most) as u8;
        descriptor.extend(with_groups(RLO, id, &[[id - 1, 0, factor]]));
    }
    if random.one_in(4) {
        let factor = descriptor.len() - 1;
        descriptor[factor] = 0;
    }
    descriptor
}

/// An RLO and a CPT of many groups, at times as many as a triplet can hold.
fn many_groups(random: &mut Random) -> Vec<u8> {
    let mut descriptor = [sda(random, 1, &[1]), sda(random, 2, &[])].concat();
    let most = random.pick(&[28, 28, 84]);
    for (construct, id) in [(RLO, 3), (CPT, 0)] {
        let groups: Vec<[u8; 3]> = (0..random.between(most / 2, most))
            .map(|_| random.pick(&[[1, 0, 1], [1, 1, 1], [2, 0, 1]]))
            .collect();
        descriptor.extend(with_groups(construct, id, &groups));
    }
    change_last_group(random, &mut descriptor);
    descriptor
}

/// A GDA and a CPT of many columns, at times as many as a triplet can hold, and at times under
/// an RLO.
fn many_columns(random: &mut Random) -> Vec<u8> {
    let mut descriptor = [
        sda_of(1, 0x81, plain_parameters(0, 1), &[]),
        sda_of(2, 0xA3, plain_parameters(0, 2), &[]),
    ]
    .concat();
    let most = random.pick(&[28, 28, 84]);
    for (construct, id) in [(GDA, 3), (CPT, 0)] {
        let columns: Vec<[u8; 3]> = (0..random.between(most / 2, most))
            .map(|_| random.pick(&[[1, 0, 0], [1, 0, 2], [2, 0, 0], [2, 0, 4]]))
            .collect();
        descriptor.extend(with_groups(construct, id, &columns));
    }
    if random.one_in(2) {
        descriptor.extend(with_groups(RLO, 4, &[[3, 0, random.pick(&[1, 2, 255])]]));
    }
    change_last_group(random, &mut descriptor);
    descriptor
}

/// Changes a byte of the last group now and then.
fn change_last_group(random: &mut Random, descriptor: &mut [u8]) {
    if random.one_in(4) {
        let last = descriptor.len() - 3;
        descriptor[last + random.below(3)] = random.pick(&[0, 3, 255]);
    }
}

/// Makes a descriptor or a data block as long as its limit, or longer.
pub(super) fn at_limits(
    random: &mut Random,
    descriptor: Vec<u8>,
    data: Vec<u8>,
) -> (Vec<u8>, Vec<u8>) {
    let over = random.pick(&[0, 1, 1, 1, 2, 5000]);
    let fill = random.byte();
    match random.below(8) {
        0 | 1 => (filled(descriptor, MAX_DESCRIPTOR + over, fill), data),
        2 | 3 => (descriptor, filled(data, MAX_DATA + over, fill)),
        4 => (
            filled(descriptor, MAX_DESCRIPTOR + 1, fill),
            filled(data, MAX_DATA + 1, fill),
        ),
        5 | 6 => long_item(random, over),
        _ => (filled(full_descriptor(), MAX_DESCRIPTOR + over, 0), vec![]),
    }
}

fn filled(mut bytes: Vec<u8>, length: usize, fill: u8) -> Vec<u8> {
    bytes.resize(length, fill);
    bytes
}

/// A valid descriptor of 4,096 bytes: 16 triplets of 84 groups over one SDA.
pub fn full_descriptor() -> Vec<u8> {
    let groups = [[1, 1, 1]; 84];
    let mut descriptor = sda_of(1, 0x01, plain_parameters(0, 0), &[1, 1]);
    descriptor.extend(with_groups(RLO, 2, &groups));
    for _ in 0..15 {
        descriptor.extend(with_groups(CPT, 0, &groups));
    }
    descriptor
}

/// A valid descriptor of 4,096 bytes: 16 triplets, of 84 columns and in the end of 80, over one
/// SDA, and another SDA that stands unused.
pub fn full_group() -> Vec<u8> {
    let columns = [[1, 0, 1]; 84];
    let mut descriptor = sda_of(1, 0x01, plain_parameters(0, 0), &[]);
    descriptor.extend(sda_of(2, 0x01, plain_parameters(0, 0), &[1, 1]));
    descriptor.extend(with_groups(GDA, 3, &columns));
    for _ in 0..14 {
        descriptor.extend(with_groups(CPT, 0, &columns));
    }
    descriptor.extend(with_groups(CPT, 0, &columns[..80]));
    descriptor
}

/// One item of mode 0 that fills the data block, its value being short; at times a GDA puts its
/// length in, and at times its indicator is bad.
fn long_item(random: &mut Random, over: usize) -> (Vec<u8>, Vec<u8>) {
    let (type_code, field_length, lead): (u8, u16, &[u8]) = random.pick(&[
        (0x02, 32_766, &[0, 2]),
        (0x82, 32_765, &[0, 0, 2]),
        (0x03, 32_767, &[0x41, 0]),
        (0x83, 32_766, &[0, 0x41, 0x42, 0]),
        (0x83, 32_766, &[0x7F, 0x41, 0x42, 0]),
    ]);
    let sda = |length| sda_of(SDA_ID, type_code, plain_parameters(0, length), &[]);
    let [high, low] = field_length.to_be_bytes();
    let descriptor = match random.one_in(2) {
        true => [sda(9), with_groups(GDA, 0xC1, &[[SDA_ID, high, low]])].concat(),
        false => sda(field_length),
    };
    (descriptor, filled(lead.to_vec(), MAX_DATA + over, 0x61))
}
