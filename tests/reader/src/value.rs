//! An item's value, whatever numeric type it has.

use crate::field::Field;
use crate::float::{binary, hexadecimal};
use crate::refusal::*;
use crate::{find, signed};

/// The value of a numeric item. Floats are the same if their bits are.
#[derive(Clone, Copy, Debug)]
pub enum Value {
    Null,
    Whole(i64),
    Real(f64),
}

impl Value {
    /// The value as numbers: its kind (0 null, 1 whole, 2 real), the whole number, and the bits
    /// of the float; what a kind has not is 0.
    pub fn numbers(&self) -> (u32, i64, u64) {
        match *self {
            Value::Null => (0, 0, 0),
            Value::Whole(value) => (1, value, 0),
            Value::Real(value) => (2, 0, value.to_bits()),
        }
    }
}

impl PartialEq for Value {
    fn eq(&self, other: &Value) -> bool {
        self.numbers() == other.numbers()
    }
}

impl Eq for Value {}

impl Default for Value {
    /// What a refusal gives.
    fn default() -> Value {
        Value::Whole(0)
    }
}

/// Reads a whole number, or a float as the 64-bit float of equal value.
pub fn value(descriptor: &[u8], data: &[u8], item: u32) -> Result<Value, Refusal> {
    let (field, note) = find(descriptor, data, item)?;
    if !is_read(&field) {
        return Err(Refusal::at(WRONG_KIND, note.start));
    }
    if note.is_null {
        return Ok(Value::Null);
    }
    let mut bytes = data[note.value()].to_vec();
    if matches!(field.plain_type(), 0x24 | 0x47) {
        bytes.reverse();
    }
    let number = match field.plain_type() {
        0x23 | 0x24 => return Ok(Value::Whole(signed(bytes.iter()))),
        0x40 => Some(hexadecimal(&bytes)),
        _ => binary(&bytes),
    };
    let float = number.and_then(|number| number.float());
    float
        .map(Value::Real)
        .ok_or(Refusal::at(NO_EXACT_FLOAT, note.start))
}

/// Whether a field's items have values that this call reads.
fn is_read(field: &Field) -> bool {
    match field.plain_type() {
        0x23 | 0x24 => true,
        0x40 => matches!(field.field_length(), 4 | 8),
        0x47 | 0x48 => field.bias_indicator() == 0,
        _ => false,
    }
}
