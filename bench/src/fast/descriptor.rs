//! The check of a descriptor, and its unfolding into fields.

use std::num::NonZeroU16;

use library::{Refusal, MAX_DESCRIPTOR};

use super::item::{Field, Layout, FREE};
use super::refusal;

const MAX_ITEMS: u64 = 4_096;

const TORN_TRIPLET: u32 = 2;
const UNKNOWN_CONSTRUCT: u32 = 3;
const OUT_OF_SEQUENCE: u32 = 4;
const BAD_LENGTH: u32 = 5;
const BAD_PARAMETER: u32 = 6;
const NAME_TAKEN: u32 = 7;
const MISSING_REFERENCE: u32 = 8;
const NOT_CARRIED: u32 = 9;
const TOO_MANY_ITEMS: u32 = 10;
const COLUMN_MISFIT: u32 = 21;
const ENDLESS: u32 = 22;

/// The lengths of floats whose field length is none of 4, 8 and 16.
const HEXADECIMAL_DEFAULT: u16 = 8;
const BINARY_DEFAULT: u16 = 4;

const NONE: u8 = 0;

/// A descriptor, parsed.
pub struct Descriptor {
    /// For each id its place among the triplets, counted from 1; `NONE` if it is
    /// not described.
    places: [u8; 256],
    triplets: Vec<Triplet>,
    groups: Vec<Group>,
    columns: Vec<Field>,
    /// The last triplet's id if it is an RLO or a GDA, which CPTs may continue.
    open: Option<u8>,
    /// The group that comes as often as there are data for it.
    repeated: Option<Group>,
}

/// The fields of a descriptor: one for each item, and those that come over and over
/// behind them as long as there are data.
#[derive(Default)]
pub struct Fields {
    pub once: Vec<Field>,
    pub repeated: Vec<Field>,
}

#[derive(Clone, Copy)]
struct Triplet {
    count: u16,
    contents: Contents,
}

#[derive(Clone, Copy)]
enum Contents {
    /// The field and its mode, and the items of one element if there are extents.
    Sda {
        field: Field,
        mode: u8,
        per_element: Option<NonZeroU16>,
    },
    /// The groups from the first to before the end.
    Rlo { first: u16, end: u16 },
    /// The columns from the first to before the end.
    Gda { first: u16, end: u16 },
}

/// So many repetitions of so many items of an SDA, or of a whole RLO or GDA.
#[derive(Clone, Copy)]
struct Group {
    triplet: u8,
    factor: u8,
    items: u16,
}

impl Default for Descriptor {
    fn default() -> Descriptor {
        Descriptor {
            places: [NONE; 256],
            triplets: Vec::new(),
            groups: Vec::new(),
            columns: Vec::new(),
            open: None,
            repeated: None,
        }
    }
}

impl Descriptor {
    pub fn parse(&mut self, descriptor: &[u8]) -> Result<(), Refusal> {
        if descriptor.len() > MAX_DESCRIPTOR {
            return Err(refusal(1, 0));
        }
        self.places.fill(NONE);
        self.triplets.clear();
        self.groups.clear();
        self.columns.clear();
        self.open = None;
        self.repeated = None;
        let mut rest = descriptor;
        while let [length, ..] = *rest {
            let place = descriptor.len() - rest.len();
            let (triplet, behind) = rest
                .split_at_checked(length.into())
                .ok_or(refusal(TORN_TRIPLET, place))?;
            self.read(triplet, place, behind.is_empty())
                .map_err(|number| refusal(number, place))?;
            rest = behind;
        }
        match self.triplets[..] {
            [] => Err(refusal(11, descriptor.len())),
            _ => Ok(()),
        }
    }

    /// The count of an accepted descriptor, without a group that is repeated to the end.
    pub fn count(&self) -> u32 {
        self.triplets.last().map_or(0, |last| last.count.into())
    }

    /// Whether the data tell how many items there are.
    pub fn is_open_ended(&self) -> bool {
        self.repeated.is_some()
    }

    /// The fields of an accepted descriptor.
    pub fn unfold(&self, Fields { once, repeated }: &mut Fields) {
        once.clear();
        if let Some(last) = self.triplets.last() {
            once.reserve(last.count.into());
            match last.contents {
                Contents::Sda { field, .. } => once.resize(last.count.into(), field),
                Contents::Rlo { first, end } => self.unfold_groups(first, end, once),
                Contents::Gda { first, end } => once.extend(self.columns(first, end)),
            }
        }
        repeated.clear();
        if let Some(group) = &self.repeated {
            self.unfold_group(group, repeated);
        }
    }

    fn groups(&self, first: u16, end: u16) -> &[Group] {
        &self.groups[first.into()..end.into()]
    }

    fn columns(&self, first: u16, end: u16) -> &[Field] {
        &self.columns[first.into()..end.into()]
    }

    fn unfold_groups(&self, first: u16, end: u16, fields: &mut Vec<Field>) {
        for group in self.groups(first, end) {
            self.unfold_group(group, fields);
        }
    }

    #[inline(always)]
    fn unfold_group(&self, group: &Group, fields: &mut Vec<Field>) {
        let from = fields.len();
        match self.triplets[usize::from(group.triplet)].contents {
            Contents::Sda { field, .. } => {
                let items = usize::from(group.items) * usize::from(group.factor);
                fields.resize(from + items, field);
                return;
            }
            Contents::Rlo { first, end } => self.unfold_groups(first, end, fields),
            Contents::Gda { first, end } => fields.extend(self.columns(first, end)),
        }
        let to = fields.len();
        for _ in 1..group.factor {
            fields.extend_from_within(from..to);
        }
    }

    fn read(&mut self, triplet: &[u8], place: usize, is_last: bool) -> Result<(), u32> {
        let [_, construct, body @ ..] = triplet else {
            return Err(TORN_TRIPLET);
        };
        match construct {
            0x70 => self.sda(body),
            0x71 => self.rlo(body, is_last),
            0x75 => self.gda(body),
            0x7F => self.cpt(body, is_last),
            0x7E if place == 0 => isd(body),
            0x7E => Err(OUT_OF_SEQUENCE),
            _ => Err(UNKNOWN_CONSTRUCT),
        }
    }

    fn sda(&mut self, body: &[u8]) -> Result<(), u32> {
        self.close();
        let (&[id, type_code, ref parameters @ ..], extents) =
            body.split_first_chunk::<10>().ok_or(BAD_LENGTH)?;
        if !matches!(extents.len(), 0 | 2 | 4 | 6) {
            return Err(BAD_LENGTH);
        }
        let (field, mode) = field(id, type_code, parameters).ok_or(BAD_PARAMETER)?;
        let mut extents = extents
            .chunks_exact(2)
            .map(|extent| u64::from(u16::from_be_bytes([extent[0], extent[1]])));
        let highest = extents.next();
        let lower: u64 = extents.product();
        let count = highest.unwrap_or(1) * lower;
        if count == 0 {
            return Err(BAD_PARAMETER);
        }
        if self.places[usize::from(id)] != NONE {
            return Err(NAME_TAKEN);
        }
        if count > MAX_ITEMS {
            return Err(TOO_MANY_ITEMS);
        }
        self.triplets.push(Triplet {
            count: count as u16,
            contents: Contents::Sda {
                field,
                mode,
                per_element: highest.and(NonZeroU16::new(lower as u16)),
            },
        });
        self.places[usize::from(id)] = self.triplets.len() as u8;
        Ok(())
    }

    fn rlo(&mut self, body: &[u8], is_last: bool) -> Result<(), u32> {
        self.close();
        let (id, groups) = self.named_groups(body)?;
        let first = self.groups.len() as u16;
        let count = self.add_groups(0, groups, is_last)?;
        self.triplets.push(Triplet {
            count,
            contents: Contents::Rlo {
                first,
                end: self.groups.len() as u16,
            },
        });
        self.open = Some(id);
        Ok(())
    }

    fn gda(&mut self, body: &[u8]) -> Result<(), u32> {
        self.close();
        let (id, groups) = self.named_groups(body)?;
        let first = self.columns.len() as u16;
        let count = self.add_columns(0, groups)?;
        self.triplets.push(Triplet {
            count,
            contents: Contents::Gda {
                first,
                end: self.columns.len() as u16,
            },
        });
        self.open = Some(id);
        Ok(())
    }

    /// The id and the groups of an RLO or a GDA.
    fn named_groups<'b>(&self, body: &'b [u8]) -> Result<(u8, &'b [u8]), u32> {
        let (id, groups) = groups(body)?;
        if id == 0 {
            return Err(BAD_PARAMETER);
        }
        if self.places[usize::from(id)] != NONE {
            return Err(NAME_TAKEN);
        }
        Ok((id, groups))
    }

    fn cpt(&mut self, body: &[u8], is_last: bool) -> Result<(), u32> {
        if self.open.is_none() {
            return Err(OUT_OF_SEQUENCE);
        }
        let (id, groups) = groups(body)?;
        if id != 0 {
            return Err(BAD_PARAMETER);
        }
        let before = self.count() as u16;
        let (total, last) = match self.triplets.last().map(|open| open.contents) {
            Some(Contents::Gda { .. }) => {
                (self.add_columns(before, groups)?, self.columns.len() as u16)
            }
            _ => {
                let total = self.add_groups(before, groups, is_last)?;
                (total, self.groups.len() as u16)
            }
        };
        if let Some(Triplet {
            count,
            contents: Contents::Rlo { end, .. } | Contents::Gda { end, .. },
        }) = self.triplets.last_mut()
        {
            *count = total;
            *end = last;
        }
        Ok(())
    }

    /// No CPT follows any more: the open RLO or GDA can now be referred to. An RLO that
    /// only names another RLO once stands for that one, so that long chains of references
    /// are not followed again and again.
    fn close(&mut self) {
        let Some(id) = self.open.take() else {
            return;
        };
        let place = match self.triplets.last().map(|row| row.contents) {
            Some(Contents::Rlo { first, end }) if end - first == 1 => {
                let group = self.groups[usize::from(first)];
                let lower = self.triplets[usize::from(group.triplet)].contents;
                let is_same = group.factor == 1 && matches!(lower, Contents::Rlo { .. });
                is_same.then_some(group.triplet + 1)
            }
            _ => None,
        };
        self.places[usize::from(id)] = place.unwrap_or(self.triplets.len() as u8);
    }

    /// Adds an RLO's or its CPT's groups, and gives the row's count up to them. The last
    /// triplet's last group is repeated to the end of the data if its factor is 0.
    fn add_groups(&mut self, count: u16, groups: &[u8], is_last: bool) -> Result<u16, u32> {
        let (groups, repeated) = match groups.split_last_chunk() {
            Some((before, &[id, taken, 0])) if is_last => (before, Some((id, taken))),
            _ => (groups, None),
        };
        let mut total = u64::from(count);
        for group in groups.chunks_exact(3) {
            let (id, taken, factor) = (group[0], group[1], group[2]);
            let triplet = self.place(id)?;
            if factor == 0 {
                return Err(NOT_CARRIED);
            }
            let items = self.items(triplet, taken)?;
            total += u64::from(factor) * items;
            if total > MAX_ITEMS {
                return Err(TOO_MANY_ITEMS);
            }
            self.groups.push(Group {
                triplet,
                factor,
                items: items as u16,
            });
        }
        if let Some((id, taken)) = repeated {
            self.repeated = Some(self.repeated_group(id, taken)?);
        }
        Ok(total as u16)
    }

    /// A group that is repeated to the end. Its items are counted up to the first that is
    /// one too many in any block.
    fn repeated_group(&self, id: u8, taken: u8) -> Result<Group, u32> {
        let triplet = self.place(id)?;
        let items = self.items(triplet, taken)?;
        if self.is_empty(triplet) {
            return Err(ENDLESS);
        }
        Ok(Group {
            triplet,
            factor: 1,
            items: items.min(MAX_ITEMS + 1) as u16,
        })
    }

    /// The items of a triplet of which so many elements are taken.
    #[inline(always)]
    fn items(&self, triplet: u8, taken: u8) -> Result<u64, u32> {
        let lower = self.triplets[usize::from(triplet)];
        match lower.contents {
            _ if taken == 0 => Ok(lower.count.into()),
            Contents::Sda {
                per_element: Some(count),
                ..
            } => Ok(u64::from(taken) * u64::from(count.get())),
            _ => Err(NOT_CARRIED),
        }
    }

    /// Whether no item of a triplet can have a byte.
    fn is_empty(&self, triplet: u8) -> bool {
        match self.triplets[usize::from(triplet)].contents {
            Contents::Sda { field, .. } => field.is_empty(),
            Contents::Rlo { first, end } => {
                let mut groups = self.groups(first, end).iter();
                groups.all(|group| self.is_empty(group.triplet))
            }
            Contents::Gda { first, end } => self.columns(first, end).iter().all(Field::is_empty),
        }
    }

    /// Adds a GDA's or its CPT's groups, and gives the GDA's count up to them.
    fn add_columns(&mut self, count: u16, groups: &[u8]) -> Result<u16, u32> {
        for group in groups.chunks_exact(3) {
            let (id, length) = (group[0], u16::from_be_bytes([group[1], group[2]]));
            let place = self.place(id)?;
            let Contents::Sda {
                field,
                mode,
                per_element: None,
            } = self.triplets[usize::from(place)].contents
            else {
                return Err(COLUMN_MISFIT);
            };
            self.columns.push(match length {
                0 => field,
                _ => replaced(field, mode, length).ok_or(COLUMN_MISFIT)?,
            });
        }
        Ok(count + (groups.len() / 3) as u16)
    }

    /// Where among the triplets the one with this id is.
    fn place(&self, id: u8) -> Result<u8, u32> {
        self.places[usize::from(id)]
            .checked_sub(1)
            .ok_or(MISSING_REFERENCE)
    }
}

/// The id and the groups of an RLO, a GDA or a CPT.
fn groups(body: &[u8]) -> Result<(u8, &[u8]), u32> {
    match body {
        [id, groups @ ..] if !groups.is_empty() && groups.len() % 3 == 0 => Ok((*id, groups)),
        _ => Err(BAD_LENGTH),
    }
}

fn isd(body: &[u8]) -> Result<(), u32> {
    match body {
        [0, 0 | 1, 0] | [0, 0 | 1, 0, 1] => Ok(()),
        [_, _, _] | [_, _, _, _] => Err(BAD_PARAMETER),
        _ => Err(BAD_LENGTH),
    }
}

/// The field of an SDA and its mode, if its id, type and parameters are good.
fn field(id: u8, type_code: u8, parameters: &[u8; 8]) -> Option<(Field, u8)> {
    let [0, 0, bias_high, bias_low, 0, mode, high, low] = *parameters else {
        return None;
    };
    let length = match (type_code & 0x7F, u16::from_be_bytes([high, low])) {
        (0x30, given) => packed_length(given)?,
        (_, given @ (4 | 8 | 16)) => given,
        (0x40, _) => HEXADECIMAL_DEFAULT,
        (0x47 | 0x48, _) => BINARY_DEFAULT,
        (_, given) => given,
    };
    let highest_bias = u16::from(matches!(type_code & 0x7F, 0x47 | 0x48));
    if id == 0 || u16::from_be_bytes([bias_high, bias_low]) > highest_bias {
        return None;
    }
    Some((field_of_length(id, type_code, mode, length)?, mode))
}

/// The field of an SDA whose length, or digits, a GDA replaces by others that are good.
fn replaced(field: Field, mode: u8, given: u16) -> Option<Field> {
    let length = match field.type_code & 0x7F {
        0x30 => packed_length(given)?,
        _ => given,
    };
    field_of_length(field.id, field.type_code, mode, length)
}

/// A field of so many bytes, if its type has them in this mode.
#[inline(always)]
fn field_of_length(id: u8, type_code: u8, mode: u8, length: u16) -> Option<Field> {
    let layout = match (type_code & 0x7F, length, mode) {
        (0x01, 0..=32_767, 0) => Layout::Fixed,
        (0x02, 0..=32_767, 0 | 1) => Layout::Variable,
        (0x03, 0..=32_767, 0 | 1) => Layout::Terminated,
        (0x07, 0..=255, 0 | 1) => Layout::Short,
        (0x23 | 0x24, 2 | 4 | 8, 0) => Layout::Fixed,
        (0x30, _, 0) => Layout::Fixed,
        (0x40, 4 | 8 | 16, 0) => Layout::Fixed,
        (0x47 | 0x48, 4 | 8, 0) => Layout::Fixed,
        _ => return None,
    };
    let is_free = length == 0 && !matches!(layout, Layout::Fixed);
    Some(Field {
        id,
        type_code,
        layout,
        is_reserved: mode == 0 && !is_free,
        limit: if is_free { FREE } else { length },
    })
}

/// The bytes of a packed decimal, if its digits and fraction digits are good.
fn packed_length(length: u16) -> Option<u16> {
    let [digits, fraction_digits] = length.to_be_bytes();
    let is_good = (1..=18).contains(&digits) && fraction_digits <= digits;
    is_good.then(|| u16::from(digits / 2 + 1))
}
