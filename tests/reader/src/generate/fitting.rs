//! Data blocks that fit an unfolding, or fail to in one item.

use super::floats::{any_float, Layout};
use super::random::Random;
use crate::field::{Field, Form};

/// Data that fits the fields.
pub(super) fn data(random: &mut Random, fields: &[Field]) -> Vec<u8> {
    fields
        .iter()
        .flat_map(|field| item(random, field))
        .collect()
}

/// Data that fits all fields but one, whose item has a bad count or no end.
/// None if no field allows that.
pub(super) fn spoiled_data(random: &mut Random, fields: &[Field]) -> Option<Vec<u8>> {
    let spoiled = any_of(random, fields, can_spoil)?;
    let mut data = data(random, &fields[..spoiled]);
    if fields[spoiled].is_nullable() {
        data.push(VALUE_FOLLOWS);
    }
    data.extend(spoiled_value(random, &fields[spoiled]));
    data.extend(self::data(random, &fields[spoiled + 1..]));
    Some(data)
}

/// Data that fits all fields but one, whose item has a bad indicator; behind that is a value, one
/// with a bad count or no end, or none. None if no field is nullable.
pub(super) fn bad_indicator_data(random: &mut Random, fields: &[Field]) -> Option<Vec<u8>> {
    let item = any_of(random, fields, Field::is_nullable)?;
    let field = &fields[item];
    let mut data = data(random, &fields[..item]);
    data.push(bad_indicator(random));
    match random.below(5) {
        0 => return Some(data),
        1 => {}
        2 if can_spoil(field) => data.extend(spoiled_value(random, field)),
        _ => data.extend(value(random, field)),
    }
    data.extend(self::data(random, &fields[item + 1..]));
    Some(data)
}

/// The number of any of the fields that are meant.
fn any_of(random: &mut Random, fields: &[Field], is_meant: fn(&Field) -> bool) -> Option<usize> {
    let meant: Vec<usize> = (0..fields.len())
        .filter(|&item| is_meant(&fields[item]))
        .collect();
    (!meant.is_empty()).then(|| random.pick(&meant))
}

/// Whether an item can have a bad count or no end.
fn can_spoil(field: &Field) -> bool {
    match field.form() {
        Form::Fixed | Form::Packed => false,
        Form::Variable => true,
        Form::NullTerminated | Form::Short => field.field_length() > 0,
    }
}

/// The null indicator before a value.
const VALUE_FOLLOWS: u8 = 0;

fn null_indicator(random: &mut Random) -> u8 {
    match random.below(3) {
        0 => random.between(0x80, 0xFF) as u8,
        _ => random.pick(&[0x80, 0x81, 0xC0, 0xFF]),
    }
}

/// A null indicator that is neither a value's nor a null's.
fn bad_indicator(random: &mut Random) -> u8 {
    match random.below(3) {
        0 => random.between(0x01, 0x7F) as u8,
        _ => random.pick(&[0x01, 0x40, 0x7F]),
    }
}

fn item(random: &mut Random, field: &Field) -> Vec<u8> {
    if !field.is_nullable() {
        return value(random, field);
    }
    if random.one_in(3) {
        return vec![null_indicator(random)];
    }
    let mut item = vec![VALUE_FOLLOWS];
    item.extend(value(random, field));
    item
}

fn value(random: &mut Random, field: &Field) -> Vec<u8> {
    match field.form() {
        Form::Fixed => match Layout::of(field.plain_type(), field.field_length()) {
            Some(layout) => any_float(random, layout),
            None => fixed(random, field.field_length()),
        },
        Form::Variable | Form::Short => counted(random, field),
        Form::NullTerminated => null_terminated(random, field),
        Form::Packed => packed(random, field.digits()),
    }
}

/// Bytes of any kind, or a whole number at the edge of its range in either order.
fn fixed(random: &mut Random, count: usize) -> Vec<u8> {
    let mut bytes = match random.below(4) {
        0 => vec![random.pick(&[0, 0xFF]); count],
        _ => random.bytes(count),
    };
    if count > 0 && random.one_in(3) {
        let end = random.pick(&[0, count - 1]);
        bytes[end] = random.pick(&[0x80, 0x7F, 0xFE, 0x01]);
    }
    bytes
}

/// So many digits with a sign of any kind; now and then one half-byte is not valid.
fn packed(random: &mut Random, digits: usize) -> Vec<u8> {
    let number: Vec<u8> = match random.below(4) {
        0 => vec![random.pick(&[0, 9]); digits],
        _ => (0..digits).map(|_| random.below(10) as u8).collect(),
    };
    let mut halves = half_bytes(&number, random.between(0xA, 0xF) as u8);
    if random.one_in(4) {
        spoil(random, &mut halves, digits);
    }
    bytes_of(&halves)
}

/// The half-bytes of a packed decimal; before an even number of digits one is unused.
pub(super) fn half_bytes(digits: &[u8], sign: u8) -> Vec<u8> {
    let unused: &[u8] = match digits.len() % 2 {
        0 => &[0],
        _ => &[],
    };
    [unused, digits, &[sign]].concat()
}

/// The bytes of an even number of half-bytes.
pub(super) fn bytes_of(half_bytes: &[u8]) -> Vec<u8> {
    half_bytes
        .chunks_exact(2)
        .map(|pair| pair[0] << 4 | pair[1])
        .collect()
}

/// Makes the unused half-byte, the sign or a digit one that is not valid.
fn spoil(random: &mut Random, halves: &mut [u8], digits: usize) {
    let sign = halves.len() - 1;
    let place = match random.below(3) {
        0 => 0,
        1 => sign,
        _ => random.below(sign),
    };
    let is_unused = place + digits < sign;
    let half = if is_unused {
        random.between(1, 0xF)
    } else if place == sign {
        random.below(10)
    } else {
        random.between(0xA, 0xF)
    };
    halves[place] = half as u8;
}

/// How many bytes a value of the field has, often as few or as many as allowed.
fn value_length(random: &mut Random, field: &Field) -> usize {
    let most = match field.field_length() {
        0 => 5,
        field_length => field_length,
    };
    match random.below(4) {
        0 => 0,
        1 => most,
        _ => random.between(0, most),
    }
}

fn length_field(field: &Field, count: usize) -> Vec<u8> {
    match field.form() {
        Form::Short => vec![count as u8],
        _ => (count as u16).to_be_bytes().to_vec(),
    }
}

fn counted(random: &mut Random, field: &Field) -> Vec<u8> {
    let count = value_length(random, field);
    let body = match field.mode() {
        0 => field.field_length().max(count),
        _ => count,
    };
    let mut bytes = length_field(field, count);
    bytes.extend(random.bytes(body));
    bytes
}

fn non_zero(random: &mut Random, count: usize) -> Vec<u8> {
    (0..count).map(|_| random.byte().max(1)).collect()
}

fn null_terminated(random: &mut Random, field: &Field) -> Vec<u8> {
    let count = value_length(random, field);
    let mut bytes = non_zero(random, count);
    bytes.push(0);
    if field.mode() == 0 {
        let reserved = field.field_length().saturating_sub(count);
        bytes.extend(random.bytes(reserved));
    }
    bytes
}

/// The item of a field that can be spoiled, without its null indicator.
fn spoiled_value(random: &mut Random, field: &Field) -> Vec<u8> {
    let field_length = field.field_length();
    let highest = match field.form() {
        Form::NullTerminated => return non_zero(random, field_length + 1),
        Form::Short => 0xFF,
        _ => 0xFFFF,
    };
    let lowest = match field_length {
        0 => 0x8000,
        _ => (field_length + 1).min(highest),
    };
    let count = match random.below(3) {
        0 => lowest,
        1 => highest,
        _ => random.between(lowest, highest),
    };
    let mut bytes = length_field(field, count);
    let body = random.below(field_length + 3);
    bytes.extend(random.bytes(body));
    bytes
}
