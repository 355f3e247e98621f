//! Blocks of several items: where each of them starts, its state, and the part that holds its
//! value.

use reader::*;

use crate::support::{assert_block, assert_lent, assert_wrong_kinds, hex, lengths, rows, Answer};

/// An item as it is listed: id, type code, and its bytes with the value in brackets, which
/// divide them into lead, value and spare. A null has no brackets: it is all lead.
pub struct Item {
    id: u8,
    type_code: u8,
    start: usize,
    is_null: bool,
    parts: [Vec<u8>; 3],
}

impl Item {
    fn bytes(&self) -> Vec<u8> {
        self.parts.concat()
    }
}

/// The items of a row, one behind the other.
pub fn items(text: &str) -> Vec<Item> {
    if text.is_empty() {
        return Vec::new();
    }
    let mut start = 0;
    let item = |text: &str| {
        let mut parts: Vec<Vec<u8>> = text.split(['[', ']']).map(hex).collect();
        let is_null = parts.len() == 1;
        parts.resize(3, Vec::new());
        let lead = parts[0].split_off(2);
        let item = Item {
            id: parts[0][0],
            type_code: parts[0][1],
            start,
            is_null,
            parts: [lead, parts[1].clone(), parts[2].clone()],
        };
        start += item.bytes().len();
        item
    };
    text.split(',').map(item).collect()
}

/// Asserts rows of name, descriptor and items; the last item has a byte that is needed.
pub fn assert_cuts(table: &str) {
    for [name, descriptor, text] in rows(table) {
        let (descriptor, items) = (hex(descriptor), items(text));
        let data = assert_items(name, &descriptor, &items);
        let last = items[items.len() - 1].start;
        let cut = Answer::parse(&format!("refused 13 {last}"));
        let surplus = Answer::parse(&format!("refused 16 {}", data.len()));
        assert_block(name, &descriptor, &data[..data.len() - 1], &cut);
        assert_block(name, &descriptor, &[&data[..], &[0]].concat(), &surplus);
    }
}

/// Asserts a block of the items given, and gives its data.
pub fn assert_items(name: &str, descriptor: &[u8], items: &[Item]) -> Vec<u8> {
    let data: Vec<u8> = items.iter().flat_map(Item::bytes).collect();
    assert_list(name, descriptor, &data, items);
    for (number, item) in (0..).zip(items) {
        assert_value(name, descriptor, &data, number, item);
    }
    data
}

fn assert_list(name: &str, descriptor: &[u8], data: &[u8], items: &[Item]) {
    let mut expected = vec![items.len() as u32, data.len() as u32];
    expected.extend(items.iter().map(|item| item.start as u32));
    expected.extend(items.iter().map(|item| u32::from(item.id)));
    let mut entries = vec![0; expected.len()];
    assert_eq!(list(descriptor, data, &mut entries), Ok(()), "{name}");
    assert_eq!(entries, expected, "{name}");
}

fn assert_value(name: &str, descriptor: &[u8], data: &[u8], number: u32, item: &Item) {
    let [lead, value, spare] = item.parts.each_ref().map(|part| part.len() as u32);
    let expected = State {
        is_null: item.is_null,
        type_code: item.type_code,
        lead,
        value,
        spare,
    };
    assert_eq!(state(descriptor, data, number), Ok(expected), "{name}");
    let lent = lend(descriptor, data, number);
    assert_eq!(lent, item.parts[1], "{name}");
    assert_lent(name, lent, &data[item.start..], lengths(&expected));
    let start = item.start as u32;
    assert_wrong_kinds(name, descriptor, data, number, item.type_code, start);
}
