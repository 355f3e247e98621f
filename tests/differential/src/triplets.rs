//! Triplets, made and taken apart.

pub const SDA: u8 = 0x70;
pub const RLO: u8 = 0x71;
pub const GDA: u8 = 0x75;
pub const ISD: u8 = 0x7E;
pub const CPT: u8 = 0x7F;

/// A group of an RLO: id referred to, elements taken, repetition factor. A group of a GDA: id
/// referred to, field length.
pub type Group = [u8; 3];

/// How many groups a triplet can hold.
const MOST_GROUPS: usize = 84;

pub fn sda(id: u8, type_code: u8, mode: u8, field_length: u16, extents: &[u16]) -> Vec<u8> {
    let [high, low] = field_length.to_be_bytes();
    let length = 12 + 2 * extents.len() as u8;
    let mut triplet = vec![length, SDA, id, type_code, 0, 0, 0, 0, 0, mode, high, low];
    triplet.extend(extents.iter().flat_map(|extent| extent.to_be_bytes()));
    triplet
}

/// An RLO with the groups given, and as many CPTs as they need.
pub fn row(id: u8, groups: &[Group]) -> Vec<u8> {
    of_parts(RLO, id, groups.chunks(MOST_GROUPS))
}

/// A GDA with the columns given, and as many CPTs as they need.
pub fn layout(id: u8, columns: &[Group]) -> Vec<u8> {
    of_parts(GDA, id, columns.chunks(MOST_GROUPS))
}

/// The group of a GDA.
pub fn column(id: u8, field_length: u16) -> Group {
    let [high, low] = field_length.to_be_bytes();
    [id, high, low]
}

/// An RLO or a GDA with the first part of the groups, and a CPT for each further part.
pub fn of_parts<'g>(construct: u8, id: u8, parts: impl Iterator<Item = &'g [Group]>) -> Vec<u8> {
    let mut triplets = Vec::new();
    for (part, groups) in parts.enumerate() {
        let (construct, id) = if part == 0 { (construct, id) } else { (CPT, 0) };
        triplets.extend([3 + 3 * groups.len() as u8, construct, id]);
        triplets.extend(groups.concat());
    }
    triplets
}

/// Rows one over the other, from id 2 on, each over the id before, with a factor
/// for each row.
pub fn nest(factors: impl Iterator<Item = u8>) -> Vec<u8> {
    (2..)
        .zip(factors)
        .flat_map(|(id, factor)| row(id, &[[id - 1, 0, factor]]))
        .collect()
}

/// The triplets of a valid descriptor.
pub fn triplets(mut descriptor: &[u8]) -> Vec<&[u8]> {
    let mut triplets = Vec::new();
    while let Some(&length) = descriptor.first() {
        let (triplet, rest) = descriptor.split_at(length.into());
        triplets.push(triplet);
        descriptor = rest;
    }
    triplets
}
