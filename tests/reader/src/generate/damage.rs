//! Damage to the triplets of a valid descriptor.

use super::random::Random;
use super::structured::{isd, sda, with_groups};
use crate::descriptor::{CPT, GDA, RLO, SDA};
use crate::field::NULLABLE;

/// Damages a descriptor once or twice; the result may still be valid.
pub(super) fn damaged(random: &mut Random, mut triplets: Vec<Vec<u8>>) -> Vec<u8> {
    for _ in 0..random.pick(&[1, 1, 1, 2]) {
        damage(random, &mut triplets);
    }
    let mut descriptor = triplets.concat();
    match random.below(12) {
        0 => descriptor.truncate(random.below(descriptor.len() + 1)),
        1 => {
            let count = random.between(1, 2);
            descriptor.extend(random.bytes(count));
        }
        2 if !descriptor.is_empty() => {
            let offset = random.below(descriptor.len());
            descriptor[offset] = random.byte();
        }
        _ => {}
    }
    descriptor
}

fn damage(random: &mut Random, triplets: &mut Vec<Vec<u8>>) {
    match random.below(24) {
        0 | 1 => header(random, triplets),
        2..=5 => parameters(random, triplets),
        6 => extents(random, triplets),
        7..=12 => group(random, triplets),
        13..=15 => column(random, triplets),
        16 => stray(random, triplets),
        17..=20 => rows(random, triplets),
        _ => order(random, triplets),
    }
}

/// Changes a LENGTH, a construct type or an id.
fn header(random: &mut Random, triplets: &mut [Vec<u8>]) {
    let ids = ids(triplets);
    let Some(triplet) = any(random, triplets, is_whole) else {
        return;
    };
    match random.below(3) {
        0 if random.one_in(2) => triplet[0] = random.pick(&[0, 1, 2, 3, 255]),
        0 => triplet[0] = triplet[0].wrapping_add(random.pick(&[1, 2, 3, 0xFF, 0xFD])),
        1 => triplet[1] = random.pick(&[0x70, 0x71, 0x7E, 0x7F, 0x75, 0x76, 0x78, 0x72, 0]),
        _ if ids.is_empty() || random.one_in(3) => triplet[2] = random.pick(&[0, 1, 255]),
        _ => triplet[2] = random.pick(&ids),
    }
}

/// Type codes without a rule and with one, which the other parameters may not fit.
const TYPE_CODES: [u8; 11] = [
    0x00, 0x80, 0x10, 0x22, 0x33, 0x82, 0x03, 0xB0, 0xC0, 0x47, 0xC8,
];

/// Field lengths, in the ranges of the types and beside them.
const LENGTHS: [u16; 10] = [1, 2, 3, 8, 16, 255, 256, 0x7FFF, 0x8000, 0xFFFF];

/// Field lengths of a float: its own, those that give way to its default, and often 16,
/// which only one of the types has.
const FLOAT_LENGTHS: [u16; 10] = [0, 5, 8, 16, 16, 16, 17, 0x0110, 0x8000, 0xFFFF];

/// Digits and fraction digits of a packed decimal, in their ranges and beside them.
const DIGITS: [u16; 10] = [
    0, 0x0001, 0x0101, 0x0102, 0x0180, 0x1212, 0x1213, 0x1300, 0x1F1F, 0xFFFF,
];

/// Changes an SDA's field type or one of its type parameters.
fn parameters(random: &mut Random, triplets: &mut [Vec<u8>]) {
    let Some(triplet) = any(random, triplets, is_sda) else {
        return;
    };
    match random.below(4) {
        0 => triplet[3] = random.byte(),
        1 => triplet[3] = random.pick(&TYPE_CODES),
        2 => {
            let length = random.pick(lengths_around(triplet[3]));
            triplet[10..12].copy_from_slice(&length.to_be_bytes());
        }
        _ => triplet[random.between(4, 9)] = random.pick(&[1, 2, 0x80, 0xFF]),
    }
}

/// Field lengths around those of a type.
fn lengths_around(type_code: u8) -> &'static [u16] {
    match type_code & !NULLABLE {
        0x30 => &DIGITS,
        0x40 | 0x47 | 0x48 => &FLOAT_LENGTHS,
        _ => &LENGTHS,
    }
}

/// Gives an SDA one extent more, or another one.
fn extents(random: &mut Random, triplets: &mut [Vec<u8>]) {
    let Some(triplet) = any(random, triplets, is_sda) else {
        return;
    };
    let choices = [0_u16, 0, 1, 2, 0x1000, 0x1001, 0x7FFF, 0x8000, 0xFFFF];
    let extent = random.pick(&choices).to_be_bytes();
    let count = (triplet.len() - 12) / 2;
    if count == 0 || random.one_in(3) {
        triplet.extend(extent);
        triplet[0] = triplet.len() as u8;
    } else {
        let offset = 12 + 2 * random.below(count);
        triplet[offset..offset + 2].copy_from_slice(&extent);
    }
}

/// Changes a group's reference, elements taken or repetition factor.
fn group(random: &mut Random, triplets: &mut [Vec<u8>]) {
    let ids = ids(triplets);
    let Some(triplet) = any(random, triplets, has_groups) else {
        return;
    };
    let offset = 3 * random.between(1, triplet.len() / 3 - 1);
    match random.below(6) {
        0 => triplet[offset] = random.pick(&[0, 1, 2, 255]),
        1 | 2 if !ids.is_empty() => triplet[offset] = random.pick(&ids),
        3 => triplet[offset + 1] = random.pick(&[1, 2, 9, 255]),
        4 => triplet[offset + 2] = 0,
        _ => triplet[offset + 2] = random.pick(&[2, 17, 64, 255]),
    }
}

/// Changes a column's length, or has it refer to any triplet.
fn column(random: &mut Random, triplets: &mut [Vec<u8>]) {
    let columns = columns(triplets);
    if columns.is_empty() {
        return;
    }
    let (place, offset) = random.pick(&columns);
    if random.one_in(2) {
        triplets[place][offset] = random.pick(&ids(triplets));
        return;
    }
    let id = triplets[place][offset];
    let refers = |triplet: &&Vec<u8>| is_sda(triplet) && triplet[2] == id;
    let type_code = triplets.iter().find(refers).map_or(0, |sda| sda[3]);
    let length = random.pick(lengths_around(type_code));
    triplets[place][offset + 1..offset + 3].copy_from_slice(&length.to_be_bytes());
}

/// Makes the last factor 0, that of any group, or the last one over fields without bytes; or puts
/// something behind factor 0.
fn rows(random: &mut Random, triplets: &mut Vec<Vec<u8>>) {
    match random.below(6) {
        0 => repeat_last(triplets),
        1 => {
            if let Some(triplet) = any(random, triplets, has_groups) {
                let factor = 3 * random.between(2, triplet.len() / 3) - 1;
                triplet[factor] = 0;
            }
        }
        2..=4 => {
            repeat_last(triplets);
            for sda in triplets.iter_mut().filter(|triplet| is_sda(triplet)) {
                sda[3] = 0x01;
                sda[4..12].fill(0);
            }
        }
        _ => {
            repeat_last(triplets);
            triplets.push(behind_rows(random, &ids(triplets)));
        }
    }
}

fn repeat_last(triplets: &mut [Vec<u8>]) {
    if let Some(triplet) = triplets.last_mut().filter(|triplet| has_groups(triplet)) {
        let factor = triplet.len() - 1;
        triplet[factor] = 0;
    }
}

/// Another triplet, or bytes that are none.
fn behind_rows(random: &mut Random, ids: &[u8]) -> Vec<u8> {
    let id = random.pick(&[1, 2, 255]);
    let reference = match ids.is_empty() {
        true => id,
        false => random.pick(ids),
    };
    let group = [reference, 0, random.pick(&[0, 1, 1])];
    match random.below(5) {
        0 => isd(random),
        1 => sda(random, id, &[]),
        2 => with_groups(RLO, id, &[group]),
        3 => with_groups(CPT, 0, &[group]),
        _ => random.bytes(3),
    }
}

/// Puts an ISD or a CPT in any place, well made or not.
fn stray(random: &mut Random, triplets: &mut Vec<Vec<u8>>) {
    let ids = ids(triplets);
    let mut triplet = isd(random);
    if !ids.is_empty() && random.one_in(2) {
        triplet = vec![6, CPT, 0, random.pick(&ids), 0, 1];
    }
    if random.one_in(3) {
        let offset = random.between(2, triplet.len() - 1);
        triplet[offset] = random.pick(&[0, 1, 2, 0xFF]);
    }
    let place = random.between(0, triplets.len());
    triplets.insert(place, triplet);
}

/// Swaps two triplets, or puts a copy of one elsewhere, or leaves one out.
fn order(random: &mut Random, triplets: &mut Vec<Vec<u8>>) {
    if triplets.is_empty() {
        return;
    }
    let (one, other) = (random.below(triplets.len()), random.below(triplets.len()));
    match random.below(3) {
        0 => triplets.swap(one, other),
        1 => triplets.insert(one, triplets[other].clone()),
        _ => {
            triplets.remove(one);
        }
    }
}

/// Any of the triplets that fit.
fn any<'t>(
    random: &mut Random,
    triplets: &'t mut [Vec<u8>],
    fits: fn(&[u8]) -> bool,
) -> Option<&'t mut Vec<u8>> {
    let fitting: Vec<usize> = (0..triplets.len())
        .filter(|&place| fits(&triplets[place]))
        .collect();
    if fitting.is_empty() {
        return None;
    }
    triplets.get_mut(random.pick(&fitting))
}

/// Whether LENGTH is still that of the triplet.
fn is_whole(triplet: &[u8]) -> bool {
    usize::from(triplet[0]) == triplet.len()
}

fn is_sda(triplet: &[u8]) -> bool {
    is_whole(triplet) && triplet[1] == SDA && matches!(triplet.len(), 12..=18)
}

fn has_groups(triplet: &[u8]) -> bool {
    is_whole(triplet) && matches!(triplet[1], RLO | GDA | CPT) && triplet.len() >= 6
}

/// The groups of the GDAs and of their CPTs: which triplet, and where in it.
fn columns(triplets: &[Vec<u8>]) -> Vec<(usize, usize)> {
    let mut columns = Vec::new();
    let mut construct = 0;
    for (place, triplet) in triplets.iter().enumerate() {
        if triplet[1] != CPT {
            construct = triplet[1];
        }
        if construct == GDA && has_groups(triplet) {
            let groups = triplet.len() / 3;
            columns.extend((1..groups).map(|group| (place, 3 * group)));
        }
    }
    columns
}

fn ids(triplets: &[Vec<u8>]) -> Vec<u8> {
    triplets
        .iter()
        .filter(|triplet| matches!(triplet[1], SDA | RLO | GDA))
        .map(|triplet| triplet[2])
        .collect()
}
