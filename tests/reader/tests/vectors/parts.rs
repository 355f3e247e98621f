//! The three lengths of an item: what precedes its value, the value, and what follows it.

use std::collections::BTreeMap;

use reader::generate::{Case, Generator};
use reader::*;

use crate::cuts::assert_cuts;
use crate::support::{
    assert_behind_indicator, assert_block, assert_blocks, assert_lent, every_sda, hex, is_nullable,
    lengths, parse_refusal, refused, rows, sda, Answer,
};

const BLOCKS: &str = include_str!("part_blocks.txt");
const ROWS: &str = include_str!("part_rows.txt");
const REFUSALS: &str = include_str!("part_refusals.txt");

#[test]
fn blocks_have_the_listed_lengths() {
    assert_blocks(rows(BLOCKS));
}

#[test]
fn an_indicator_is_one_byte_more_of_lead() {
    assert_behind_indicator(rows(BLOCKS));
}

#[test]
fn rows_have_the_listed_parts() {
    assert_cuts(ROWS);
}

#[test]
fn a_null_is_all_lead() {
    for sda in every_sda().iter().filter(|sda| is_nullable(sda)) {
        let null = [1, u32::from(sda[3]), 1, 0, 0];
        let descriptor = [&sda[..], &hex("0671A1B10003")].concat();
        for item in 0..3 {
            let data = [0x80, 0xFF, 0x81];
            assert_eq!(state_numbers(&descriptor, &data, item), null, "{sda:02X?}");
        }
    }
}

/// Items that fill a data block, of values from empty to full.
#[test]
fn the_longest_items() {
    let rows: [(u8, u16, &[u8], usize); 4] = [
        (0x02, 32_766, &[0, 0], 2),
        (0x82, 32_765, &[0, 0, 0], 3),
        (0x03, 32_767, &[], 0),
        (0x83, 32_766, &[0], 1),
    ];
    for (type_code, field_length, lead, lead_length) in rows {
        let descriptor = sda(0xB1, type_code, 0, field_length);
        for value in [0, 1, 255, 256, field_length - 1, field_length] {
            let mut data = [lead, &vec![0x41; value.into()]].concat();
            data.resize(MAX_DATA, 0);
            if type_code & 0x7F == 0x02 {
                data[lead_length - 2..lead_length].copy_from_slice(&value.to_be_bytes());
            }
            let value = usize::from(value);
            let parts = [lead_length, value, MAX_DATA - lead_length - value];
            let name = format!("X'{type_code:X}' {value}");
            assert_block(&name, &descriptor, &data, &Answer::Parts(parts));
        }
    }
}

/// F and L of every value: in mode 0 the rest of F is spare, in mode 1 and for F 0 there is none.
#[test]
fn every_length_of_a_short_string() {
    for (mode, field_length) in [(0, 0), (1, 0), (0, 255), (1, 255), (0, 100), (1, 100)] {
        let descriptor = sda(0xB1, 0x07, mode, field_length);
        let field_length = usize::from(field_length);
        let most = if field_length == 0 { 255 } else { field_length };
        for value in 0..=most {
            let spare = match mode {
                0 if field_length > 0 => field_length - value,
                _ => 0,
            };
            let data = [&[value as u8], &[0x41; 255][..value + spare]].concat();
            let parts = Answer::Parts([1, value, spare]);
            assert_block(&format!("{value}"), &descriptor, &data, &parts);
        }
    }
}

fn assert_zeros(name: &str, descriptor: &[u8], data: &[u8], item: u32, refusal: Refusal) {
    assert_eq!(state(descriptor, data, item), Err(refusal), "{name}");
    assert_eq!(state_numbers(descriptor, data, item), [0; 5], "{name}");
}

#[test]
fn refusals_give_zeros() {
    for [name, descriptor, data, item, refusal] in rows(REFUSALS) {
        let item = item.parse().expect(name);
        let refusal = parse_refusal(refusal);
        assert_zeros(name, &hex(descriptor), &hex(data), item, refusal);
    }
}

#[test]
fn refusals_of_sizes_and_counts_give_zeros() {
    let oversize = parse_refusal("1 0");
    let padded = sda(0xB1, 0x02, 0, 4);
    assert_zeros("descriptor", &[0; 4097], &[], 0, oversize);
    assert_zeros("data", &padded, &vec![0; MAX_DATA + 1], 0, oversize);
    let rows = [padded, hex("0671A1 B10000")].concat();
    let too_many = parse_refusal("10 24576");
    for item in [0, 4095, 4096] {
        let data = [0, 1, 0x41, 0, 0, 0].repeat(4097);
        assert_zeros("4,097 rows", &rows, &data, item, too_many);
    }
    let data = [0, 1, 0x41, 0, 0, 0].repeat(4096);
    assert_eq!(state_numbers(&rows, &data, 4095), [0, 2, 2, 1, 3]);
    assert_eq!(state(&rows, &data, 4096), refused(NO_SUCH_ITEM, 0));
}

/// The starts of a good block's items, and its end.
fn starts(case: &Case) -> Option<Vec<usize>> {
    let mut entries = vec![0; 2 + 2 * MAX_ITEMS];
    list(&case.descriptor, &case.data, &mut entries).ok()?;
    let count = entries[0] as usize;
    let starts = entries[2..2 + count].iter().chain([&entries[1]]);
    Some(starts.map(|&start| start as usize).collect())
}

/// Short good blocks, with the starts of their items and their ends.
pub fn blocks(seed: u64) -> impl Iterator<Item = (Case, Vec<usize>)> {
    let is_short = |case: &Case| case.data.len() <= 200;
    let cases = Generator::new(seed).take(20_000).filter(is_short);
    let blocks = cases.filter_map(|case| starts(&case).map(|starts| (case, starts)));
    blocks.filter(|(_, starts)| starts.len() <= 60)
}

#[test]
fn the_parts_of_all_items_are_the_block() {
    for (case, starts) in blocks(12) {
        let (descriptor, data) = (&case.descriptor, &case.data);
        let mut joined = Vec::new();
        for (item, ends) in (0..).zip(starts.windows(2)) {
            let name = format!("{descriptor:02X?} {data:02X?} {item}");
            let parts = lengths(&state(descriptor, data, item).expect(&name));
            let bytes = &data[ends[0]..ends[1]];
            assert_eq!(parts.iter().sum::<usize>(), bytes.len(), "{name}");
            let lent = lend(descriptor, data, item);
            assert_lent(&name, lent, bytes, parts);
            let (before, behind) = (&bytes[..parts[0]], &bytes[bytes.len() - parts[2]..]);
            joined.extend([before, lent, behind].concat());
        }
        assert_eq!(joined, *data);
    }
}

/// Lead and spare as a field and the value's length settle them.
fn settled(field: &Field, value: usize) -> [usize; 3] {
    let length_field = match field.plain_type() {
        0x02 => 2,
        0x07 => 1,
        _ => 0,
    };
    let terminator = usize::from(field.plain_type() == 0x03);
    let reserved = match field.plain_type() {
        0x02 | 0x03 | 0x07 if field.mode() == 0 && field.field_length() > 0 => {
            field.field_length() - value
        }
        _ => 0,
    };
    let indicator = usize::from(field.is_nullable());
    [indicator + length_field, value, terminator + reserved]
}

/// How a value stands in its field.
#[derive(Debug, PartialEq, Eq, PartialOrd, Ord)]
enum Kind {
    Null,
    Empty,
    Full,
    Between,
}

fn kind(field: &Field, state: &State) -> Kind {
    match state.value as usize {
        _ if state.is_null => Kind::Null,
        0 => Kind::Empty,
        value if value == field.field_length() => Kind::Full,
        _ => Kind::Between,
    }
}

/// Every type, mode and kind of value is met among the generated blocks.
#[test]
fn fields_settle_lead_and_spare() {
    let mut met = BTreeMap::new();
    for (case, starts) in blocks(13) {
        let unfolding = unfold(&case.descriptor).expect("a valid descriptor");
        let fields = unfolding.first(starts.len() - 1);
        for (item, field) in (0..).zip(&fields) {
            let state = state(&case.descriptor, &case.data, item).expect("an item");
            let expected = match state.is_null {
                true => [1, 0, 0],
                false => settled(field, state.value as usize),
            };
            assert_eq!(lengths(&state), expected, "{field:?}");
            let has_length = field.field_length() > 0;
            let met_field = (field.type_code(), field.mode(), has_length);
            *met.entry((met_field, kind(field, &state))).or_insert(0) += 1;
        }
    }
    for expected in kinds() {
        let times = met.get(&expected).copied().unwrap_or(0);
        assert!(times >= 5, "{expected:X?}: {times}");
    }
}

/// Type code, mode and whether F is above 0, with each kind of value that there is.
fn kinds() -> Vec<((u8, u8, bool), Kind)> {
    let mut kinds = Vec::new();
    for plain in [0x01, 0x02, 0x03, 0x07, 0x23, 0x24, 0x30, 0x40, 0x47, 0x48] {
        let is_counted = matches!(plain, 0x02 | 0x03 | 0x07);
        for code in [plain, plain + 0x80] {
            for mode in 0..=u8::from(is_counted) {
                kinds.push(((code, mode, true), Kind::Full));
                if code >= 0x80 {
                    kinds.push(((code, mode, true), Kind::Null));
                }
                if is_counted || plain == 0x01 {
                    kinds.push(((code, mode, false), Kind::Empty));
                }
                if is_counted {
                    kinds.push(((code, mode, true), Kind::Empty));
                    kinds.push(((code, mode, true), Kind::Between));
                    kinds.push(((code, mode, false), Kind::Between));
                }
            }
        }
    }
    kinds
}
