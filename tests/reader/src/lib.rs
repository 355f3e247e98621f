//! A reader of FD:OCA descriptors and of the data blocks that they describe.
//!
//! A descriptor is unfolded into fields, one for each item; rows to the end repeat
//! theirs. The walk measures the items of a data block by those fields. Every call
//! answers from these two steps.

mod answers;
mod counts;
mod descriptor;
mod dump;
mod field;
mod float;
pub mod generate;
mod refusal;
mod value;
mod walk;

pub use answers::Answers;
pub use counts::Counts;
pub use descriptor::{unfold, Rows, Unfolding, MAX_DESCRIPTOR, MAX_ITEMS};
pub use dump::dump;
pub use field::Field;
pub use refusal::*;
pub use value::{value, Value};
pub use walk::{walk, Note, Parts, MAX_DATA};

use field::Form;

/// Checks a descriptor and gives its item count; of rows to the end, that before the rows.
pub fn check(descriptor: &[u8]) -> Result<u32, Refusal> {
    unfold(descriptor).map(|unfolding| unfolding.fields.len() as u32)
}

/// Lists a block's items: their count n, the block's length, n starts, n SDA ids.
/// Entries beyond keep their contents; on a refusal all entries do.
pub fn list(descriptor: &[u8], data: &[u8], list: &mut [u32]) -> Result<(), Refusal> {
    let unfolding = unfold_for(descriptor, data)?;
    if unfolding.rows.is_none() {
        require_room(list, unfolding.fields.len())?;
    }
    let notes = walk(&unfolding, data)?;
    let count = notes.len();
    require_room(list, count)?;
    list[0] = count as u32;
    list[1] = data.len() as u32;
    for (item, note) in notes.iter().enumerate() {
        list[2 + item] = note.start as u32;
        list[2 + count + item] = note.id.into();
    }
    Ok(())
}

fn require_room(list: &[u32], count: usize) -> Result<(), Refusal> {
    match list.len() >= 2 + 2 * count {
        true => Ok(()),
        false => Err(Refusal::at(SMALL_LIST, 0)),
    }
}

/// An item's state, with the lengths of its parts.
#[derive(Clone, Copy, Debug, Default, PartialEq, Eq)]
pub struct State {
    pub is_null: bool,
    pub type_code: u8,
    pub lead: u32,
    pub value: u32,
    pub spare: u32,
}

impl State {
    /// The state as numbers: null mark, type code, lead, value, spare.
    pub fn numbers(&self) -> [u32; 5] {
        [
            self.is_null.into(),
            self.type_code.into(),
            self.lead,
            self.value,
            self.spare,
        ]
    }
}

/// Tells an item's state.
pub fn state(descriptor: &[u8], data: &[u8], item: u32) -> Result<State, Refusal> {
    find(descriptor, data, item).map(|(_, note)| State {
        is_null: note.is_null,
        type_code: note.type_code,
        lead: note.parts.lead as u32,
        value: note.parts.value as u32,
        spare: note.parts.spare as u32,
    })
}

/// An item's state as numbers, which are zeros on a refusal.
pub fn state_numbers(descriptor: &[u8], data: &[u8], item: u32) -> [u32; 5] {
    state(descriptor, data, item).unwrap_or_default().numbers()
}

/// Lends an item's value: the part of the data that holds it, empty for a null
/// and for whatever the state call refuses.
pub fn lend<'b>(descriptor: &[u8], data: &'b [u8], item: u32) -> &'b [u8] {
    find(descriptor, data, item)
        .ok()
        .and_then(|(_, note)| data.get(note.value()))
        .unwrap_or_default()
}

/// A whole-number item; the value of a null is 0.
#[derive(Clone, Copy, Debug, Default, PartialEq, Eq)]
pub struct Whole {
    pub is_null: bool,
    pub value: i64,
}

/// Reads a whole-number item.
pub fn whole_number(descriptor: &[u8], data: &[u8], item: u32) -> Result<Whole, Refusal> {
    let (field, note) = find(descriptor, data, item)?;
    let bytes = &data[note.value()];
    let value = match field.plain_type() {
        0x23 => signed(bytes.iter()),
        0x24 => signed(bytes.iter().rev()),
        _ => return Err(Refusal::at(WRONG_KIND, note.start)),
    };
    Ok(Whole {
        is_null: note.is_null,
        value,
    })
}

/// The two's complement number of at most eight bytes, most significant byte first.
fn signed<'b>(bytes: impl Iterator<Item = &'b u8> + Clone) -> i64 {
    let is_negative = bytes.clone().next().is_some_and(|high| high & 0x80 != 0);
    let sign = if is_negative { -1 } else { 0 };
    bytes.fold(sign, |value, &byte| value << 8 | i64::from(byte))
}

/// A packed decimal item: its digits as a whole number, which is 0 for a null, and
/// how many of the field's digits are fraction digits.
#[derive(Clone, Copy, Debug, Default, PartialEq, Eq)]
pub struct Packed {
    pub is_null: bool,
    pub value: i64,
    pub fraction_digits: u32,
}

/// Reads a packed decimal item.
pub fn packed(descriptor: &[u8], data: &[u8], item: u32) -> Result<Packed, Refusal> {
    let (field, note) = find(descriptor, data, item)?;
    if field.form() != Form::Packed {
        return Err(Refusal::at(WRONG_KIND, note.start));
    }
    let value = match note.is_null {
        true => 0,
        false => {
            let digits = decimal(&data[note.value()], field.digits());
            digits.ok_or(Refusal::at(BAD_DIGIT, note.start))?
        }
    };
    Ok(Packed {
        is_null: note.is_null,
        value,
        fraction_digits: field.fraction_digits(),
    })
}

/// The number of so many packed digits with the sign behind them, if every half-byte
/// is valid; one that is left over before them is zero.
fn decimal(bytes: &[u8], digits: usize) -> Option<i64> {
    let halves: Vec<u8> = bytes
        .iter()
        .flat_map(|byte| [byte >> 4, byte & 0xF])
        .collect();
    let (sign, before) = halves.split_last()?;
    let (unused, digits) = before.split_at(before.len() - digits);
    if unused.iter().any(|&half| half != 0) {
        return None;
    }
    let magnitude = digits.iter().try_fold(0, |value, &digit| {
        (digit <= 9).then_some(10 * value + i64::from(digit))
    })?;
    match sign {
        0xA | 0xC | 0xE | 0xF => Some(magnitude),
        0xB | 0xD => Some(-magnitude),
        _ => None,
    }
}

/// An item's field, and what the walk notes of the item.
fn find(descriptor: &[u8], data: &[u8], item: u32) -> Result<(Field, Note), Refusal> {
    let unfolding = unfold_for(descriptor, data)?;
    let notes = walk(&unfolding, data)?;
    let mut items = unfolding.iter().copied().zip(notes);
    items.nth(item as usize).ok_or(Refusal::at(NO_SUCH_ITEM, 0))
}

fn unfold_for(descriptor: &[u8], data: &[u8]) -> Result<Unfolding, Refusal> {
    if data.len() > MAX_DATA {
        return Err(Refusal::at(OVERSIZE, 0));
    }
    unfold(descriptor)
}
