//! The walk over a data block, and how it measures an item.

use std::ops::Range;

use crate::descriptor::{Rows, Unfolding, MAX_ITEMS};
use crate::field::{Field, Form};
use crate::refusal::*;

pub const MAX_DATA: usize = 32_768;

/// What the walk notes of an item.
#[derive(Clone, Debug, PartialEq, Eq)]
pub struct Note {
    pub start: usize,
    pub id: u8,
    pub type_code: u8,
    pub is_null: bool,
    pub parts: Parts,
}

impl Note {
    /// Where in the data the value lies; empty for a null.
    pub fn value(&self) -> Range<usize> {
        let start = self.start + self.parts.lead;
        start..start + self.parts.value
    }
}

/// The lengths of an item's parts: what precedes the value, the value, and what follows it.
/// A null is all lead.
#[derive(Clone, Copy, Debug, Default, PartialEq, Eq)]
pub struct Parts {
    /// Null indicator and length field.
    pub lead: usize,
    pub value: usize,
    /// Terminator and reserved space.
    pub spare: usize,
}

impl Parts {
    /// All bytes of the item.
    pub fn total(&self) -> usize {
        self.lead + self.value + self.spare
    }
}

/// Measures the item of each field in turn.
pub fn walk(unfolding: &Unfolding, data: &[u8]) -> Result<Vec<Note>, Refusal> {
    let mut walk = Walk {
        data,
        start: 0,
        notes: Vec::with_capacity(unfolding.fields.len()),
    };
    for field in &unfolding.fields {
        walk.take(field)?;
    }
    match &unfolding.rows {
        Some(rows) => walk.take_rows(rows)?,
        None if walk.has_data_left() => return Err(walk.refusal(SURPLUS)),
        None => {}
    }
    Ok(walk.notes)
}

/// The items taken so far, and where the next one starts.
struct Walk<'d> {
    data: &'d [u8],
    start: usize,
    notes: Vec<Note>,
}

impl Walk<'_> {
    fn take(&mut self, field: &Field) -> Result<(), Refusal> {
        let start = self.start;
        let item = measure(field, &self.data[start..]).map_err(|number| self.refusal(number))?;
        self.notes.push(Note {
            start,
            id: field.id(),
            type_code: field.type_code(),
            is_null: item.is_null,
            parts: item.parts,
        });
        self.start += item.parts.total();
        Ok(())
    }

    /// Takes passes until one would begin with no data left.
    fn take_rows(&mut self, rows: &Rows) -> Result<(), Refusal> {
        while self.has_data_left() {
            for field in rows.pass() {
                if self.notes.len() == MAX_ITEMS {
                    return Err(self.refusal(TOO_MANY_ITEMS));
                }
                self.take(field)?;
            }
        }
        Ok(())
    }

    fn has_data_left(&self) -> bool {
        self.start < self.data.len()
    }

    fn refusal(&self, number: u32) -> Refusal {
        Refusal::at(number, self.start)
    }
}

/// An item at the front of some bytes.
struct Item {
    is_null: bool,
    parts: Parts,
}

fn measure(field: &Field, bytes: &[u8]) -> Result<Item, u32> {
    if !field.is_nullable() {
        return Ok(Item {
            is_null: false,
            parts: measure_value(field, bytes)?,
        });
    }
    let (indicator, rest) = bytes.split_first().ok_or(SHORT_DATA)?;
    let (is_null, behind) = match indicator {
        0x00 => (false, measure_value(field, rest)?),
        0x01..=0x7F => return Err(BAD_INDICATOR),
        0x80..=0xFF => (true, Parts::default()),
    };
    Ok(Item {
        is_null,
        parts: Parts {
            lead: 1 + behind.lead,
            ..behind
        },
    })
}

/// The parts of an item without its null indicator.
fn measure_value(field: &Field, bytes: &[u8]) -> Result<Parts, u32> {
    match field.form() {
        Form::Fixed | Form::Packed => {
            let body = bytes.get(..field.field_length()).ok_or(SHORT_DATA)?;
            Ok(Parts {
                lead: 0,
                value: body.len(),
                spare: 0,
            })
        }
        Form::Variable => match *bytes {
            [high, low, ..] => {
                let count = i16::from_be_bytes([high, low]);
                let count = usize::try_from(count).map_err(|_| BAD_COUNT)?;
                measure_counted(field, bytes, 2, count)
            }
            _ => Err(SHORT_DATA),
        },
        Form::Short => match *bytes {
            [count, ..] => measure_counted(field, bytes, 1, count.into()),
            _ => Err(SHORT_DATA),
        },
        Form::NullTerminated => measure_null_terminated(field, bytes),
    }
}

/// An item whose value has `count` bytes after a length field of `lead` bytes. Mode 0 with F
/// above 0 sends F bytes: what the value leaves of them is spare.
fn measure_counted(field: &Field, bytes: &[u8], lead: usize, count: usize) -> Result<Parts, u32> {
    let field_length = field.field_length();
    if field_length > 0 && count > field_length {
        return Err(BAD_COUNT);
    }
    let parts = Parts {
        lead,
        value: count,
        spare: match field.mode() {
            0 => field_length.saturating_sub(count),
            _ => 0,
        },
    };
    match bytes.len() < parts.total() {
        true => Err(SHORT_DATA),
        false => Ok(parts),
    }
}

/// The zero byte that ends the value belongs to the spare.
fn measure_null_terminated(field: &Field, bytes: &[u8]) -> Result<Parts, u32> {
    let ended = |value, spare| Parts {
        lead: 0,
        value,
        spare,
    };
    let is_zero = |byte: &u8| *byte == 0;
    if field.field_length() == 0 {
        let end = bytes.iter().position(is_zero).ok_or(SHORT_DATA)?;
        return Ok(ended(end, 1));
    }
    let space = field.field_length() + 1;
    let sends_all = field.mode() == 0;
    if sends_all && bytes.len() < space {
        return Err(SHORT_DATA);
    }
    match bytes.iter().take(space).position(is_zero) {
        Some(end) if sends_all => Ok(ended(end, space - end)),
        Some(end) => Ok(ended(end, 1)),
        None if bytes.len() < space => Err(SHORT_DATA),
        None => Err(NO_END),
    }
}
