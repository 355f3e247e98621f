//! Lead, value and spare of every type and mode, of values from empty to full and of nulls: each
//! item is asked, and the data are cut within each part.

use differential::answers::{self, Part, State};
use differential::triplets::sda;
use reader::{unfold, Field};

use super::codes::compare_parts;
use crate::compare::Comparison;

/// Plain type, modes, field lengths or digits.
const FIELDS: [(u8, &[u8], &[u16]); 10] = [
    (0x01, &[0], &[0, 1, 2, 9]),
    (0x02, &[0, 1], &[0, 1, 2, 9, 300]),
    (0x03, &[0, 1], &[0, 1, 2, 9, 300]),
    (0x07, &[0, 1], &[0, 1, 2, 9, 255]),
    (0x23, &[0], &[2, 4, 8]),
    (0x24, &[0], &[2, 4, 8]),
    (0x30, &[0], &[0x0100, 0x0201, 0x0302, 0x1212]),
    (0x40, &[0], &[0, 4, 8, 16]),
    (0x47, &[0], &[0, 4, 8]),
    (0x48, &[0], &[0, 4, 8]),
];

/// Type code, mode, field length or digits.
pub(super) fn fields() -> impl Iterator<Item = (u8, u8, u16)> {
    FIELDS.into_iter().flat_map(|(plain, modes, lengths)| {
        [plain, plain + 0x80].into_iter().flat_map(move |code| {
            let modes = modes.iter();
            modes.flat_map(move |&mode| lengths.iter().map(move |&length| (code, mode, length)))
        })
    })
}

pub fn every_part(comparison: &mut Comparison) {
    for (code, mode, length) in fields() {
        compare_field(comparison, |extents| sda(1, code, mode, length, extents));
    }
}

/// Compares items of an SDA that has as many of them as its extent.
fn compare_field(comparison: &mut Comparison, sda: impl Fn(&[u16]) -> Vec<u8>) {
    let field = unfold(&sda(&[])).expect("a valid descriptor").fields[0];
    for fill in [0, 0x42] {
        let items = items(&field, fill);
        compare_items(comparison, &sda(&[items.len() as u16]), &items);
    }
}

/// An item, made of its parts.
pub(super) struct Item {
    is_null: bool,
    pub parts: [Vec<u8>; 3],
}

/// Items of values from empty to full, and a null between them.
fn items(field: &Field, fill: u8) -> Vec<Item> {
    let null = Item {
        is_null: true,
        parts: [vec![0x80], Vec::new(), Vec::new()],
    };
    let longest = field.field_length();
    let lengths = match field.plain_type() {
        0x02 | 0x03 | 0x07 if longest > 0 => vec![0, 1, longest - 1, longest],
        0x02 | 0x03 | 0x07 => vec![0, 1, 5],
        _ => vec![longest; 2],
    };
    let mut items: Vec<Item> = lengths
        .into_iter()
        .map(|length| item(field, length, fill))
        .collect();
    if field.is_nullable() {
        items.insert(1, null);
    }
    items
}

/// An item of so long a value, with its reserved space filled up.
pub(super) fn item(field: &Field, length: usize, fill: u8) -> Item {
    let mut lead = vec![0; field.is_nullable().into()];
    let mut spare = Vec::new();
    match field.plain_type() {
        0x02 => lead.extend((length as u16).to_be_bytes()),
        0x03 => spare.push(0),
        0x07 => lead.push(length as u8),
        _ => {}
    }
    if field.mode() == 0 {
        let reserved = field.field_length().saturating_sub(length);
        spare.resize(spare.len() + reserved, fill);
    }
    Item {
        is_null: false,
        parts: [lead, vec![0x41; length], spare],
    }
}

/// Compares the block with the second reader, and each item with the parts that it is made of.
fn compare_items(comparison: &mut Comparison, descriptor: &[u8], items: &[Item]) {
    let data: Vec<u8> = items.iter().flat_map(|item| item.parts.concat()).collect();
    compare_parts(comparison, descriptor, &data);
    comparison.compare(descriptor, &[&data[..], &[0]].concat());
    let mut start = 0;
    for (number, item) in (0..).zip(items) {
        comparison.compare_item(descriptor, &data, number);
        let [lead, value, spare] = item.parts.each_ref().map(|part| part.len() as u32);
        let expected = State {
            is_null: item.is_null.into(),
            type_code: descriptor[3].into(),
            lead,
            value,
            spare,
        };
        let part = Part {
            offset: start + lead,
            length: value,
        };
        let state = answers::state(descriptor, &data, number).results;
        let lent = answers::lend(descriptor, &data, number).results;
        if (state, lent) != (expected, part) {
            comparison.fail(&format!(
                "{descriptor:02X?} {data:02X?}: {state:?} {lent:?} of {number}"
            ));
        }
        start += lead + value + spare;
    }
}
