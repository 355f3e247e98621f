//! Fixed cases and files: what the papers name by a number, at that number and
//! beside it.

mod columns;
mod floats;
mod indicators;
mod packed;
mod parts;
mod rows;
mod values;

use super::fitting;
use super::random::Random;
use super::structured::{plain_parameters, sda_of, with_groups, TYPES};
use super::{fields_of, Case, Generator, SMALL_BYTES, SMALL_ITEMS};
use crate::descriptor::{CPT, GDA, ISD, MAX_DESCRIPTOR, RLO, SDA};
use crate::field::NULLABLE;
use crate::unfold;
use crate::walk::MAX_DATA;

/// The longest field length that gets data, and the most items.
const MOST_BYTES: usize = 300;
const MOST_ITEMS: usize = 60;

/// Short cases.
pub fn edges() -> Vec<Case> {
    let mut random = Random::new(1);
    let mut cases: Vec<Case> = descriptors()
        .into_iter()
        .map(|descriptor| fitting_case(&mut random, descriptor))
        .collect();
    cases.extend(blocks());
    cases.extend(asked_of_every_type(&mut random));
    cases.extend(packed::blocks());
    cases.extend(floats::blocks());
    cases.extend(columns::blocks());
    cases.extend(rows::blocks());
    cases.extend(parts::blocks());
    cases.extend(values::blocks());
    cases.extend(indicators::blocks());
    cases
}

/// Cases around the limits of counts and sizes.
pub fn limits() -> Vec<Case> {
    let mut random = Random::new(1);
    let mut cases: Vec<Case> = [counts(), columns::counts()]
        .concat()
        .into_iter()
        .map(|descriptor| fitting_case(&mut random, descriptor))
        .collect();
    cases.extend(rows::counts());
    cases.extend(indicators::counts());
    for size in [MAX_DESCRIPTOR - 1, MAX_DESCRIPTOR, MAX_DESCRIPTOR + 1] {
        cases.push(case(&vec![0; size], &[], 4, 0));
    }
    for size in [MAX_DATA - 1, MAX_DATA, MAX_DATA + 1] {
        cases.push(case(&[], &vec![0; size], 4, 0));
    }
    cases
}

/// A descriptor with data that fits, where that is short; of rows to the end, with two passes.
fn fitting_case(random: &mut Random, descriptor: Vec<u8>) -> Case {
    let mut fields = match unfold(&descriptor) {
        Ok(unfolding) if unfolding.count(2) <= MOST_ITEMS => unfolding.first(unfolding.count(2)),
        _ => Vec::new(),
    };
    if fields.iter().any(|field| field.field_length() > MOST_BYTES) {
        fields.clear();
    }
    Case {
        list_before: vec![7; 2 + 2 * fields.len()],
        item: 0,
        data: fitting::data(random, &fields),
        descriptor,
    }
}

fn descriptors() -> Vec<Vec<u8>> {
    [
        type_codes(),
        field_lengths(),
        parameters(),
        constructs(),
        triplet_lengths(),
        isds(),
        ids(),
        groups(),
        extents(),
        packed::descriptors(),
        floats::descriptors(),
        columns::descriptors(),
        rows::descriptors(),
    ]
    .concat()
}

/// Every type code, as a field of four bytes.
fn type_codes() -> Vec<Vec<u8>> {
    (0..=255)
        .map(|code| sda_of(1, code, four_bytes(code), &[]))
        .collect()
}

/// The type parameters of a field of four bytes, for all types that have such.
fn four_bytes(code: u8) -> [u8; 8] {
    match code & !NULLABLE {
        0x30 => plain_parameters(0, 0x0702),
        _ => plain_parameters(0, 4),
    }
}

/// The field lengths that some rule names, and those beside them.
fn field_lengths() -> Vec<Vec<u8>> {
    let lengths = [
        0, 1, 2, 3, 4, 5, 6, 7, 8, 9, 10, 12, 15, 16, 17, 254, 255, 256, 32_766, 32_767, 32_768,
        65_535,
    ];
    sdas(plain_types(), &lengths)
}

/// An SDA of each type code with each field length.
fn sdas(codes: impl IntoIterator<Item = u8>, lengths: &[u16]) -> Vec<Vec<u8>> {
    let sda = |code, length: &u16| sda_of(1, code, plain_parameters(0, *length), &[]);
    codes
        .into_iter()
        .flat_map(|code| lengths.iter().map(move |length| sda(code, length)))
        .collect()
}

/// Type parameters before the size, of a field of four bytes.
fn parameters() -> Vec<Vec<u8>> {
    plain_types()
        .flat_map(|code| changed_parameters(code, four_bytes(code)))
        .collect()
}

/// SDAs with bytes 0 to 5 of the type parameters, each at 1 and at 2.
fn changed_parameters(code: u8, parameters: [u8; 8]) -> Vec<Vec<u8>> {
    let changed = |byte: usize, value: u8| {
        let mut parameters = parameters;
        parameters[byte] = value;
        sda_of(1, code, parameters, &[])
    };
    (0..6)
        .flat_map(|byte| [1, 2].map(|value| changed(byte, value)))
        .collect()
}

fn plain_types() -> impl Iterator<Item = u8> {
    let mut types = TYPES.to_vec();
    types.sort_unstable();
    types.dedup();
    types.into_iter()
}

/// Construct types around the carried ones, behind an SDA.
fn constructs() -> Vec<Vec<u8>> {
    (0x6E..=0x81)
        .map(|construct| [sda(1, &[]), with_groups(construct, 2, &[[1, 0, 1]; 3])].concat())
        .collect()
}

/// Every LENGTH of each construct up to 21, as the last triplet and before another.
fn triplet_lengths() -> Vec<Vec<u8>> {
    let parameters = [2, 1, 0, 0, 0, 0, 0, 0, 0, 1, 0, 1, 0, 1, 0, 1, 0, 1, 0];
    let groups = [2, 1, 0, 1, 1, 0, 1, 1, 0, 1, 1, 0, 1, 1, 0, 1, 1, 0, 1];
    let more_groups = [0, 1, 0, 1, 1, 0, 1, 1, 0, 1, 1, 0, 1, 1, 0, 1, 1, 0, 1];
    let subset = [0, 1, 0, 1, 0, 0, 0, 0, 0, 0, 0, 0, 0, 0, 0, 0, 0, 0, 0];
    let behind = |construct| [sda(1, &[]), with_groups(construct, 2, &[[1, 0, 1]])].concat();
    let contents = [
        (sda(1, &[]), SDA, parameters),
        (sda(1, &[]), RLO, groups),
        (sda(1, &[]), GDA, groups),
        (behind(RLO), CPT, more_groups),
        (behind(GDA), CPT, more_groups),
        (Vec::new(), ISD, subset),
    ];
    let mut descriptors = Vec::new();
    for (before, construct, content) in contents {
        for length in 0..=21 {
            let mut triplet = vec![length as u8, construct];
            triplet.extend(content);
            triplet.truncate(length.max(2));
            descriptors.push([&before[..], &triplet].concat());
            descriptors.push([&before[..], &triplet, &sda(9, &[])].concat());
        }
    }
    descriptors
}

/// An ISD's contents: id, subset and version; and its place.
fn isds() -> Vec<Vec<u8>> {
    let mut descriptors = Vec::new();
    for id in [0, 1, 2] {
        descriptors.push([vec![5, ISD, id, 0, 0], sda(1, &[])].concat());
    }
    for subset in [
        0x0000, 0x0001, 0x0002, 0x00FF, 0x0100, 0x0101, 0x0102, 0x0200, 0x0201, 0xFF00_u16,
    ] {
        let [high, low] = subset.to_be_bytes();
        descriptors.push([vec![5, ISD, 0, high, low], sda(1, &[])].concat());
        for version in [0, 1, 2, 3] {
            descriptors.push([vec![6, ISD, 0, high, low, version], sda(1, &[])].concat());
        }
    }
    let isd = vec![5, ISD, 0, 1, 0];
    descriptors.extend([
        isd.clone(),
        [isd.clone(), isd.clone()].concat(),
        [sda(1, &[]), isd.clone()].concat(),
        [sda(1, &[]), vec![5, ISD, 1, 1, 1]].concat(),
        [sda(1, &[]), with_groups(RLO, 2, &[[1, 0, 1]]), isd.clone()].concat(),
        [isd, with_groups(CPT, 0, &[[1, 0, 1]])].concat(),
    ]);
    descriptors
}

/// Ids 0, 1, 2 and 255, taken ones, and what CPTs follow.
fn ids() -> Vec<Vec<u8>> {
    let row = |id| with_groups(RLO, id, &[[1, 0, 1]]);
    let more = |id| with_groups(CPT, id, &[[1, 0, 2]]);
    let mut descriptors = Vec::new();
    for id in [0, 1, 2, 255] {
        descriptors.extend([
            sda(id, &[]),
            [sda(1, &[]), sda(id, &[])].concat(),
            [sda(1, &[]), row(id)].concat(),
            [sda(1, &[]), row(id), row(id)].concat(),
            [sda(1, &[]), row(2), sda(id, &[])].concat(),
            [sda(1, &[]), row(2), more(id)].concat(),
            [sda(1, &[]), row(2), more(0), more(id)].concat(),
            [sda(1, &[]), more(id)].concat(),
            [sda(1, &[]), row(2), sda(3, &[]), more(id)].concat(),
        ]);
    }
    descriptors
}

/// References, elements taken and factors, over SDAs of each dimension and over RLOs.
fn groups() -> Vec<Vec<u8>> {
    let lower = [
        sda(1, &[]),
        sda(2, &[3]),
        sda(3, &[2, 3]),
        sda(4, &[2, 1, 3]),
        with_groups(RLO, 5, &[[2, 0, 1], [1, 0, 1]]),
    ]
    .concat();
    let mut descriptors = Vec::new();
    for reference in 0..=7 {
        for taken in [0, 1, 2, 4] {
            for factor in [0, 1, 2] {
                let group = [reference, taken, factor];
                descriptors.push([&lower[..], &with_groups(RLO, 6, &[group])].concat());
            }
        }
    }
    for group in [
        [0, 0, 0],
        [9, 1, 0],
        [5, 1, 0],
        [1, 1, 0],
        [5, 1, 255],
        [2, 255, 255],
    ] {
        let row = with_groups(RLO, 6, &[[1, 0, 1], group]);
        let more = with_groups(CPT, 0, &[[1, 0, 1], group]);
        descriptors.push([&lower[..], &row].concat());
        descriptors.push([&lower[..], &with_groups(RLO, 6, &[[1, 0, 1]]), &more].concat());
    }
    descriptors
}

/// Extents of 0 and of either byte, and far too many items.
fn extents() -> Vec<Vec<u8>> {
    let extents: [&[u16]; 12] = [
        &[0],
        &[1],
        &[2],
        &[256],
        &[0, 1],
        &[1, 0],
        &[0, 1, 1],
        &[1, 0, 1],
        &[1, 1, 0],
        &[4097],
        &[0x8000],
        &[0xFFFF],
    ];
    extents
        .map(|extents| [sda(1, &[]), sda(2, extents)].concat())
        .to_vec()
}

/// Counts around 4,096: of an SDA, of an RLO, and of an RLO with its CPT.
fn counts() -> Vec<Vec<u8>> {
    let extents: [&[u16]; 4] = [&[4096], &[4097], &[17, 241], &[16, 16, 17]];
    let mut descriptors = extents
        .map(|extents| [sda(1, &[]), sda(2, extents)].concat())
        .to_vec();
    for extent in [4095, 4096] {
        let group = [[2, 0, 1], [1, 0, 1]];
        let lower = [sda(1, &[]), sda(2, &[extent])].concat();
        descriptors.push([&lower[..], &with_groups(RLO, 3, &group)].concat());
        let row = with_groups(RLO, 3, &group[..1]);
        descriptors.push([&lower[..], &row, &with_groups(CPT, 0, &group[1..])].concat());
    }
    descriptors
}

/// An SDA of fields without bytes.
fn sda(id: u8, extents: &[u16]) -> Vec<u8> {
    sda_of(id, 0x01, plain_parameters(0, 0), extents)
}

fn case(descriptor: &[u8], data: &[u8], list: usize, item: u32) -> Case {
    Case {
        descriptor: descriptor.to_vec(),
        data: data.to_vec(),
        list_before: vec![7; list],
        item,
    }
}

/// A block cut at each byte, lists around the needed size, and item numbers around the
/// count.
fn blocks() -> Vec<Case> {
    let mut cases = Vec::new();
    let pair = [
        sda_of(1, 0x81, plain_parameters(0, 1), &[]),
        sda_of(2, 0xA3, plain_parameters(0, 2), &[]),
        with_groups(RLO, 3, &[[1, 0, 1], [2, 0, 1]]),
    ]
    .concat();
    let data = [0, 9, 0, 0x80, 0];
    for length in 0..=data.len() {
        cases.push(case(&pair, &data[..length], 6, 1));
    }
    for list in 0..=8 {
        cases.push(case(&pair, &data, list, 0));
    }
    for item in 0..=3 {
        cases.push(case(&pair, &data, 6, item));
        cases.push(case(&pair, &[0, 9, 0x80], 6, item));
        cases.push(case(&pair, &[0, 9, 0x80, 0], 6, item));
    }
    cases
}

/// Values asked of every type: of four bytes, of bytes that fit, and of a null.
fn asked_of_every_type(random: &mut Random) -> Vec<Case> {
    let mut cases = Vec::new();
    for code in plain_types() {
        let plain = behind_a_byte(sda_of(2, code, four_bytes(code), &[]));
        let nullable = behind_a_byte(sda_of(2, code + NULLABLE, four_bytes(code), &[]));
        for bytes in [[0x80, 0, 0, 0], [0, 0, 0, 0x80], [0xFF; 4]] {
            cases.push(case(&plain, &[&[5][..], &bytes].concat(), 6, 1));
        }
        cases.push(case(&nullable, &[5, 0x80], 6, 1));
        cases.push(Case {
            item: 1,
            ..fitting_case(random, plain)
        });
    }
    cases
}

/// Each item of a block asked, and two past the last; with a list too short, and with data
/// a byte short or a byte long.
fn asked_around(descriptor: &[u8], data: &[u8], count: u32) -> Vec<Case> {
    let needed = 2 + 2 * count as usize;
    let shorter = &data[..data.len() - 1];
    let longer = [data, &[0]].concat();
    (0..count + 2)
        .flat_map(|item| {
            [
                case(descriptor, data, needed, item),
                case(descriptor, data, needed - 1, item),
                case(descriptor, shorter, needed, item),
                case(descriptor, &longer, needed, item),
            ]
        })
        .collect()
}

/// A field of one byte, then that of an SDA of id 2.
fn behind_a_byte(sda: Vec<u8>) -> Vec<u8> {
    let row = with_groups(RLO, 3, &[[1, 0, 1], [2, 0, 1]]);
    [sda_of(1, 0x01, plain_parameters(0, 1), &[]), sda, row].concat()
}

/// Files for the dump program: of random blocks, and around their sizes.
pub fn files(seed: u64, count: usize) -> Vec<Vec<u8>> {
    let is_small = |case: &Case| {
        case.descriptor.len() + case.data.len() < SMALL_BYTES
            && fields_of(&case.descriptor, &case.data).len() < SMALL_ITEMS
    };
    let mut files: Vec<Vec<u8>> = Generator::new(seed)
        .filter(is_small)
        .take(count)
        .map(|case| file(&case.descriptor, &case.data))
        .collect();
    // numbers of one to four digits
    for length in [9, 10, 11, 99, 100, 1_000] {
        let descriptor = sda_of(1, 0x01, plain_parameters(0, length), &[2]);
        files.push(file(&descriptor, &vec![0; 2 * usize::from(length)]));
    }
    files.push(file(
        &sda_of(1, 0x81, plain_parameters(0, 0), &[12]),
        &[0x80; 12],
    ));
    files.extend(floats::files());
    files.extend(columns::files());
    files.extend(rows::files());
    files.extend(indicators::files());
    // sizes that the file does not fit, or that are over their limits
    for length in 0..=9 {
        files.push(vec![0; length]);
        files.push(vec![0xFF; length]);
    }
    for size in [
        [0, 0, 0x10, 0],
        [0, 0, 0x10, 1],
        [0, 0, 0x80, 0],
        [0, 0, 0x80, 1],
        [1, 0, 0, 0],
        [0, 1, 0, 0],
    ] {
        files.push([size, [0; 4]].concat());
        files.push([[0; 4], size].concat());
    }
    let good = file(&sda(1, &[]), &[]);
    files.push([&good[..], &[0]].concat());
    files.push(good[..good.len() - 1].to_vec());
    files
}

/// A file of the dump program: descriptor size, data size (four bytes each, most
/// significant first), descriptor, data.
pub fn file(descriptor: &[u8], data: &[u8]) -> Vec<u8> {
    let size = |bytes: &[u8]| (bytes.len() as u32).to_be_bytes();
    [&size(descriptor)[..], &size(data), descriptor, data].concat()
}
