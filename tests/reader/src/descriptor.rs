//! The check of a descriptor, which unfolds it into its fields.

use std::collections::BTreeMap;
use std::slice;

use crate::field::Field;
use crate::refusal::*;

pub const MAX_DESCRIPTOR: usize = 4_096;
pub const MAX_ITEMS: usize = 4_096;

pub(crate) const SDA: u8 = 0x70;
pub(crate) const RLO: u8 = 0x71;
pub(crate) const GDA: u8 = 0x75;
pub(crate) const ISD: u8 = 0x7E;
pub(crate) const CPT: u8 = 0x7F;

/// The fields of a descriptor's items, in the items' order.
#[derive(Clone, Debug, PartialEq, Eq)]
pub struct Unfolding {
    /// One field for each item; of rows to the end, those before the rows.
    pub fields: Vec<Field>,
    pub rows: Option<Rows>,
}

impl Unfolding {
    /// All fields, without an end if there are rows to the end.
    pub fn iter(&self) -> impl Iterator<Item = &Field> {
        let repeated = self.rows.iter().flat_map(|rows| rows.fields.iter().cycle());
        self.fields.iter().chain(repeated)
    }

    /// How many items a block has; of rows to the end, with so many passes.
    pub fn count(&self, passes: usize) -> usize {
        self.fields.len() + passes * self.rows.as_ref().map_or(0, Rows::pass_length)
    }

    /// The first fields, so many of them.
    pub fn first(&self, count: usize) -> Vec<Field> {
        self.iter().take(count).copied().collect()
    }
}

/// What rows to the end repeat: some fields, and how often one pass has them.
#[derive(Clone, Debug, PartialEq, Eq)]
pub struct Rows {
    fields: Vec<Field>,
    times: usize,
}

impl Rows {
    /// How many fields one pass has.
    pub fn pass_length(&self) -> usize {
        self.fields.len() * self.times
    }

    /// The fields of one pass.
    pub fn pass(&self) -> impl Iterator<Item = &Field> {
        self.fields.iter().cycle().take(self.pass_length())
    }
}

/// Unfolds a descriptor.
pub fn unfold(descriptor: &[u8]) -> Result<Unfolding, Refusal> {
    if descriptor.len() > MAX_DESCRIPTOR {
        return Err(Refusal::at(OVERSIZE, 0));
    }
    let mut reading = Reading::default();
    let mut rest = descriptor;
    while !rest.is_empty() {
        let place = descriptor.len() - rest.len();
        let length = first_triplet(rest)
            .and_then(|triplet| reading.read(triplet, place == 0, triplet.len() == rest.len()))
            .map_err(|number| Refusal::at(number, place))?;
        rest = &rest[length..];
    }
    reading
        .finish()
        .ok_or(Refusal::at(NOTHING_DESCRIBED, descriptor.len()))
}

fn first_triplet(descriptor: &[u8]) -> Result<&[u8], u32> {
    match descriptor.first() {
        Some(&length) if length >= 2 => descriptor.get(..length.into()).ok_or(TORN_TRIPLET),
        _ => Err(TORN_TRIPLET),
    }
}

/// What an id stands for.
enum Lower {
    Sda {
        field: Field,
        extents: Vec<u16>,
    },
    /// An RLO or a GDA.
    Row {
        fields: Vec<Field>,
    },
}

impl Lower {
    /// The list that an RLO refers to: some fields, and how often they are taken.
    fn list(&self, elements_taken: u8) -> Result<(&[Field], usize), u32> {
        match self {
            Lower::Row { .. } if elements_taken > 0 => Err(NOT_CARRIED),
            Lower::Row { fields } => Ok((fields, 1)),
            Lower::Sda { field, extents } => {
                let count = match extents.split_first() {
                    _ if elements_taken == 0 => product(extents),
                    Some((_, lower)) => u64::from(elements_taken) * product(lower),
                    None => return Err(NOT_CARRIED),
                };
                Ok((slice::from_ref(field), count as usize))
            }
        }
    }

    /// The one field that a GDA refers to, of the size given there.
    fn column(&self, size: [u8; 2]) -> Option<Field> {
        match self {
            Lower::Sda { field, extents } if extents.is_empty() => field.replaced(size),
            _ => None,
        }
    }
}

/// An RLO or a GDA whose CPTs may still follow; it is not described yet.
struct Open {
    construct: u8,
    id: u8,
    fields: Vec<Field>,
    rows: Option<Rows>,
}

impl Open {
    fn add(&mut self, fields: &[Field], times: usize) -> Result<(), u32> {
        if self.fields.len() + fields.len() * times > MAX_ITEMS {
            return Err(TOO_MANY_ITEMS);
        }
        for _ in 0..times {
            self.fields.extend_from_slice(fields);
        }
        Ok(())
    }

    fn repeat_to_the_end(&mut self, fields: &[Field], times: usize) -> Result<(), u32> {
        if fields.iter().all(Field::has_no_bytes) {
            return Err(ENDLESS);
        }
        self.rows = Some(Rows {
            fields: fields.to_vec(),
            times,
        });
        Ok(())
    }
}

fn product(extents: &[u16]) -> u64 {
    extents.iter().map(|&extent| u64::from(extent)).product()
}

/// The descriptor read so far.
#[derive(Default)]
struct Reading {
    described: BTreeMap<u8, Lower>,
    open: Option<Open>,
    last: Option<u8>,
}

impl Reading {
    /// Reads one triplet and gives its length, or the number to refuse it with.
    fn read(&mut self, triplet: &[u8], is_first: bool, is_last: bool) -> Result<usize, u32> {
        match triplet[1] {
            SDA => self.sda(triplet)?,
            RLO | GDA => self.row(triplet, is_last)?,
            CPT => self.cpt(triplet, is_last)?,
            ISD if is_first => isd(triplet)?,
            ISD => return Err(OUT_OF_SEQUENCE),
            _ => return Err(UNKNOWN_CONSTRUCT),
        }
        Ok(triplet.len())
    }

    fn sda(&mut self, triplet: &[u8]) -> Result<(), u32> {
        self.close();
        if !matches!(triplet.len(), 12 | 14 | 16 | 18) {
            return Err(BAD_LENGTH);
        }
        let id = triplet[2];
        let mut parameters = [0; 8];
        parameters.copy_from_slice(&triplet[4..12]);
        let extents: Vec<u16> = triplet[12..]
            .chunks_exact(2)
            .map(|extent| u16::from_be_bytes([extent[0], extent[1]]))
            .collect();
        let field = Field::new(id, triplet[3], parameters).ok_or(BAD_PARAMETER)?;
        if extents.contains(&0) {
            return Err(BAD_PARAMETER);
        }
        if self.described.contains_key(&id) {
            return Err(NAME_TAKEN);
        }
        if product(&extents) > MAX_ITEMS as u64 {
            return Err(TOO_MANY_ITEMS);
        }
        self.describe(id, Lower::Sda { field, extents });
        Ok(())
    }

    fn row(&mut self, triplet: &[u8], is_last: bool) -> Result<(), u32> {
        self.close();
        if !holds_groups(triplet) {
            return Err(BAD_LENGTH);
        }
        let id = triplet[2];
        if id == 0 {
            return Err(BAD_PARAMETER);
        }
        if self.described.contains_key(&id) {
            return Err(NAME_TAKEN);
        }
        let open = Open {
            construct: triplet[1],
            id,
            fields: Vec::new(),
            rows: None,
        };
        self.open = Some(self.add_groups(open, &triplet[3..], is_last)?);
        Ok(())
    }

    fn cpt(&mut self, triplet: &[u8], is_last: bool) -> Result<(), u32> {
        let open = self.open.take().ok_or(OUT_OF_SEQUENCE)?;
        if !holds_groups(triplet) {
            return Err(BAD_LENGTH);
        }
        if triplet[2] != 0 {
            return Err(BAD_PARAMETER);
        }
        self.open = Some(self.add_groups(open, &triplet[3..], is_last)?);
        Ok(())
    }

    /// Adds the groups of one triplet: of an RLO id, elements taken and factor, of a GDA id
    /// and two bytes of size. An RLO's group that ends the descriptor may have factor 0.
    fn add_groups(&self, mut open: Open, groups: &[u8], is_last: bool) -> Result<Open, u32> {
        let mut groups = groups.chunks_exact(3);
        while let Some(group) = groups.next() {
            let lower = self.described.get(&group[0]).ok_or(MISSING_REFERENCE)?;
            if open.construct == GDA {
                let field = lower.column([group[1], group[2]]).ok_or(COLUMN_MISFIT)?;
                open.add(&[field], 1)?;
                continue;
            }
            let (elements_taken, factor) = (group[1], group[2]);
            let ends_descriptor = is_last && groups.len() == 0;
            if factor == 0 && !ends_descriptor {
                return Err(NOT_CARRIED);
            }
            let (fields, times) = lower.list(elements_taken)?;
            match factor {
                0 => open.repeat_to_the_end(fields, times)?,
                _ => open.add(fields, times * usize::from(factor))?,
            }
        }
        Ok(open)
    }

    fn describe(&mut self, id: u8, lower: Lower) {
        self.described.insert(id, lower);
        self.last = Some(id);
    }

    /// No CPT follows any more: the open RLO or GDA is now described.
    fn close(&mut self) {
        if let Some(Open { id, fields, .. }) = self.open.take() {
            self.describe(id, Lower::Row { fields });
        }
    }

    /// The list of the last SDA, RLO or GDA.
    fn finish(mut self) -> Option<Unfolding> {
        let rows = self.open.as_mut().and_then(|open| open.rows.take());
        self.close();
        let fields = match self.described.remove(&self.last?)? {
            Lower::Row { fields } => fields,
            Lower::Sda { field, extents } => vec![field; product(&extents) as usize],
        };
        Some(Unfolding { fields, rows })
    }
}

fn holds_groups(triplet: &[u8]) -> bool {
    triplet.len() >= 6 && triplet.len().is_multiple_of(3)
}

fn isd(triplet: &[u8]) -> Result<(), u32> {
    let (id, subset, version) = match *triplet {
        [_, _, id, high, low] => (id, [high, low], 1),
        [_, _, id, high, low, version] => (id, [high, low], version),
        _ => return Err(BAD_LENGTH),
    };
    if id == 0 && matches!(subset, [0, 0] | [1, 0]) && version == 1 {
        Ok(())
    } else {
        Err(BAD_PARAMETER)
    }
}
