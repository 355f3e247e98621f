//! Valid descriptors, made triplet by triplet.

use super::random::Random;
use crate::descriptor::{CPT, GDA, ISD, RLO, SDA};
use crate::field::NULLABLE;

/// The plain field types; the numeric ones stand twice so that they come more often.
pub(super) const TYPES: [u8; 16] = [
    0x01, 0x02, 0x03, 0x07, 0x23, 0x24, 0x23, 0x24, 0x30, 0x30, 0x40, 0x47, 0x48, 0x40, 0x47, 0x48,
];

/// The triplets of a valid descriptor of at most `items` items, and of at most so many in a pass of
/// rows to the end.
pub(super) fn triplets(random: &mut Random, items: usize) -> Vec<Vec<u8>> {
    let mut draft = Draft {
        random,
        items,
        triplets: Vec::new(),
        described: Vec::new(),
    };
    draft.add_all();
    draft.triplets
}

/// An SDA of any carried type, with parameters that are accepted.
pub(super) fn sda(random: &mut Random, id: u8, extents: &[u16]) -> Vec<u8> {
    let plain = random.pick(&TYPES);
    let type_code = plain + random.pick(&[0, 0x80]);
    let parameters = parameters(random, plain);
    sda_of(id, type_code, parameters, extents)
}

pub(super) fn sda_of(id: u8, type_code: u8, parameters: [u8; 8], extents: &[u16]) -> Vec<u8> {
    let mut triplet = vec![12 + 2 * extents.len() as u8, SDA, id, type_code];
    triplet.extend(parameters);
    triplet.extend(extents.iter().flat_map(|extent| extent.to_be_bytes()));
    triplet
}

/// Type parameters of field length F and the mode given. For a packed decimal, the
/// high byte of F is the digits and the low byte the fraction digits.
pub(super) fn plain_parameters(mode: u8, field_length: u16) -> [u8; 8] {
    let [high, low] = field_length.to_be_bytes();
    [0, 0, 0, 0, 0, mode, high, low]
}

fn parameters(random: &mut Random, plain: u8) -> [u8; 8] {
    let mode = match plain {
        0x02 | 0x03 | 0x07 => random.below(2),
        _ => 0,
    };
    let field_length = match plain {
        0x40 | 0x47 | 0x48 if random.one_in(2) => length_that_gives_way(random),
        _ => field_length(random, plain),
    };
    let mut parameters = plain_parameters(mode as u8, field_length as u16);
    if matches!(plain, 0x47 | 0x48) {
        parameters[3] = random.below(2) as u8;
    }
    parameters
}

/// A field length that suits a plain type.
fn field_length(random: &mut Random, plain: u8) -> usize {
    match plain {
        0x30 => digits(random),
        0x40 => random.pick(&[4, 8, 16]),
        0x47 | 0x48 => random.pick(&[4, 8]),
        0x23 | 0x24 => random.pick(&[2, 4, 8]),
        _ if random.one_in(12) => random.below(24),
        _ => random.below(6),
    }
}

/// Digits and fraction digits, often at the ends of their ranges.
fn digits(random: &mut Random) -> usize {
    let digits = match random.below(3) {
        0 => random.pick(&[1, 2, 17, 18]),
        _ => random.between(1, 18),
    };
    let fraction_digits = match random.below(3) {
        0 => random.pick(&[0, digits]),
        _ => random.between(0, digits),
    };
    digits << 8 | fraction_digits
}

/// A float's length that gives way to the type's default.
fn length_that_gives_way(random: &mut Random) -> usize {
    match random.below(3) {
        0 => 0,
        1 => random.pick(&[1, 2, 3, 5, 7, 9, 15, 17, 0x0104, 0x0800, 0x8010, 0xFFFF]),
        _ => random.between(17, 0xFFFF),
    }
}

pub(super) fn isd(random: &mut Random) -> Vec<u8> {
    let mut triplet = vec![5, ISD, 0, random.pick(&[0, 1]), 0];
    if random.one_in(2) {
        triplet[0] = 6;
        triplet.push(1);
    }
    triplet
}

/// An RLO, GDA or CPT (id 0 for a CPT) with the groups given: of an RLO reference, elements
/// taken and repetition factor, of a GDA reference and two bytes of length.
pub(super) fn with_groups(construct: u8, id: u8, groups: &[[u8; 3]]) -> Vec<u8> {
    let mut triplet = vec![3 + 3 * groups.len() as u8, construct, id];
    triplet.extend(groups.concat());
    triplet
}

/// A GDA's group over an SDA of a plain type: a length that suits, or none put in.
fn column_group(random: &mut Random, (id, plain): (u8, u8)) -> [u8; 3] {
    let length = match random.below(4) {
        0 => 0,
        _ => field_length(random, plain) as u16,
    };
    let [high, low] = length.to_be_bytes();
    [id, high, low]
}

/// An id described before, as far as a group needs to know it.
#[derive(Clone, Copy)]
struct Described {
    id: u8,
    count: usize,
    /// The items of one element of an SDA's highest dimension, if it has extents.
    per_element: Option<usize>,
    /// The plain type of an SDA without extents.
    column: Option<u8>,
    /// Whether some item has bytes, whatever the data.
    has_bytes: bool,
}

struct Draft<'r> {
    random: &'r mut Random,
    items: usize,
    triplets: Vec<Vec<u8>>,
    described: Vec<Described>,
}

impl Draft<'_> {
    fn add_all(&mut self) {
        if self.random.one_in(4) {
            let isd = isd(self.random);
            self.triplets.push(isd);
        }
        for _ in 0..self.random.between(1, 5) {
            match self.random.below(3) {
                0 if !self.described.is_empty() => self.add_rlo(),
                1 if !self.columns().is_empty() => self.add_gda(),
                _ => self.add_sda(),
            }
        }
        if self.random.one_in(4) {
            self.add_rows();
        }
    }

    fn add_sda(&mut self) {
        let id = self.fresh_id();
        let dimensions = self.random.pick(&[0, 0, 1, 1, 2, 3]);
        let mut extents = Vec::new();
        let mut left = self.items;
        for _ in 0..dimensions {
            let extent = self.random.between(1, left.min(7));
            left /= extent;
            extents.push(extent as u16);
        }
        let triplet = sda(self.random, id, &extents);
        self.push_sda(triplet, &extents);
    }

    fn push_sda(&mut self, triplet: Vec<u8>, extents: &[u16]) {
        let product = |extents: &[u16]| extents.iter().map(|&extent| usize::from(extent)).product();
        self.described.push(Described {
            id: triplet[2],
            count: product(extents),
            per_element: extents.split_first().map(|(_, lower)| product(lower)),
            column: extents.is_empty().then_some(triplet[3] & !NULLABLE),
            has_bytes: triplet[3] != 0x01 || triplet[10..12] != [0, 0],
        });
        self.triplets.push(triplet);
    }

    fn add_rlo(&mut self) {
        let id = self.fresh_id();
        let mut groups = Vec::new();
        let mut left = self.items;
        for _ in 0..self.random.pick(&[1, 1, 2, 2, 3, 4, 9]) {
            left -= self.add_group(&mut groups, left);
        }
        self.push_groups(RLO, id, &groups);
        self.described.push(Described {
            id,
            count: self.items - left,
            per_element: None,
            column: None,
            has_bytes: groups.iter().any(|group| self.has_bytes(group[0])),
        });
    }

    fn has_bytes(&self, id: u8) -> bool {
        let described = self.described.iter().find(|described| described.id == id);
        described.is_some_and(|described| described.has_bytes)
    }

    /// Adds an RLO with rows to the end, if there is something with bytes to repeat; at times an
    /// RLO over a field without bytes is made before.
    fn add_rows(&mut self) {
        if self.random.one_in(3) {
            let id = self.fresh_id();
            self.push_sda(sda_of(id, 0x01, plain_parameters(0, 0), &[]), &[]);
            self.add_rlo();
        }
        let has_bytes = |described: &Described| described.has_bytes;
        let lower: Vec<Described> = self.described.iter().copied().filter(has_bytes).collect();
        let Some(&last) = lower.last() else {
            return;
        };
        let repeated = match self.random.one_in(2) {
            true => last,
            false => self.random.pick(&lower),
        };
        let id = self.fresh_id();
        let mut groups = Vec::new();
        let mut left = self.items;
        for _ in 0..self.random.pick(&[0, 0, 1, 2, 3]) {
            left -= self.add_group(&mut groups, left);
        }
        let (elements_taken, _) = self.elements(repeated, self.items);
        groups.push([repeated.id, elements_taken, 0]);
        self.push_groups(RLO, id, &groups);
    }

    /// The SDAs without extents: their ids and plain types.
    fn columns(&self) -> Vec<(u8, u8)> {
        self.described
            .iter()
            .filter_map(|described| Some((described.id, described.column?)))
            .collect()
    }

    fn add_gda(&mut self) {
        let columns = self.columns();
        let id = self.fresh_id();
        let count = self.random.pick(&[1, 1, 2, 2, 3, 4, 9]).min(self.items);
        let groups: Vec<[u8; 3]> = (0..count)
            .map(|_| {
                let column = self.random.pick(&columns);
                column_group(self.random, column)
            })
            .collect();
        self.push_groups(GDA, id, &groups);
        self.described.push(Described {
            id,
            count,
            per_element: None,
            column: None,
            has_bytes: groups
                .iter()
                .any(|group| group[1..] != [0, 0] || self.has_bytes(group[0])),
        });
    }

    /// Adds a group of at most `left` items, if there is one, and gives its count.
    fn add_group(&mut self, groups: &mut Vec<[u8; 3]>, left: usize) -> usize {
        let lower = self.random.pick(&self.described);
        let (elements_taken, count) = self.elements(lower, left);
        if count > left {
            return 0;
        }
        let most = (left / count).min(self.random.pick(&[1, 2, 4, 255]));
        let factor = self.random.between(1, most);
        groups.push([lower.id, elements_taken, factor as u8]);
        count * factor
    }

    /// Elements taken of a lower triplet, of at most `left` items, or none; and the count of its
    /// items then.
    fn elements(&mut self, lower: Described, left: usize) -> (u8, usize) {
        match lower.per_element {
            Some(count) if count <= left && self.random.one_in(2) => {
                let most = (left / count).min(self.random.pick(&[4, 9, 255]));
                let elements_taken = self.random.between(1, most);
                (elements_taken as u8, elements_taken * count)
            }
            _ => (0, lower.count),
        }
    }

    /// Puts groups into an RLO or a GDA and, now and then, a chain of CPTs.
    fn push_groups(&mut self, construct: u8, id: u8, groups: &[[u8; 3]]) {
        let mut rest = groups;
        let (mut construct, mut id) = (construct, id);
        while !rest.is_empty() {
            let taken = if self.random.one_in(2) {
                rest.len()
            } else {
                self.random.between(1, rest.len())
            };
            self.triplets
                .push(with_groups(construct, id, &rest[..taken]));
            rest = &rest[taken..];
            (construct, id) = (CPT, 0);
        }
    }

    fn fresh_id(&mut self) -> u8 {
        loop {
            let id = match self.random.below(6) {
                0 => 1,
                1 => 255,
                _ => self.random.between(1, 255) as u8,
            };
            if self.described.iter().all(|described| described.id != id) {
                return id;
            }
        }
    }
}

#[cfg(test)]
mod tests {
    use std::collections::BTreeMap;

    use super::*;
    use crate::unfold;

    #[test]
    fn floats_have_their_own_lengths_and_others() {
        let mut random = Random::new(9);
        let sdas: Vec<Vec<u8>> = (0..2_000).map(|_| sda(&mut random, 1, &[])).collect();
        for type_code in [0x40, 0x47, 0x48, 0xC0, 0xC7, 0xC8] {
            for gives_way in [false, true] {
                let is_meant = |sda: &&Vec<u8>| {
                    let field = unfold(sda).expect("an accepted SDA").fields[0];
                    let is_default = field.parameters() != sda[4..12];
                    sda[3] == type_code && is_default == gives_way
                };
                let times = sdas.iter().filter(is_meant).count();
                assert!(times >= 10, "X'{type_code:X}': {times}");
            }
        }
    }

    #[test]
    fn columns_of_every_type_keep_a_length_or_have_one_put_in() {
        let mut random = Random::new(9);
        let mut met = BTreeMap::new();
        for _ in 0..5_000 {
            for column in columns(&triplets(&mut random, 12)) {
                *met.entry(column).or_insert(0) += 1;
            }
        }
        for plain in TYPES {
            for column in [(plain, false), (plain, true)] {
                let times = met.get(&column).copied().unwrap_or(0);
                assert!(times >= 10, "{column:X?}: {times}");
            }
        }
    }

    /// The plain type of each column, and whether a length is put in.
    fn columns(triplets: &[Vec<u8>]) -> Vec<(u8, bool)> {
        let plain_type = |id| {
            let mut sdas = triplets.iter().filter(|triplet| triplet[1] == SDA);
            let sda = sdas.find(|sda| sda[2] == id).expect("an SDA");
            sda[3] & !NULLABLE
        };
        triplets
            .iter()
            .filter(|triplet| triplet[1] == GDA)
            .flat_map(|gda| gda[3..].chunks_exact(3))
            .map(|column| (plain_type(column[0]), column[1..] != [0, 0]))
            .collect()
    }
}
