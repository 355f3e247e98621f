//! Null indicators: X'00' before a value, X'80' to X'FF' for a null, and all others, which are
//! refused before anything behind them is read.

use reader::generate::{file, Generator, Random};
use reader::*;

use crate::cuts::assert_cuts;
use crate::parts::blocks;
use crate::support::{assert_block, hex, parse_refusal, refused, rows, sda, Answer};

const ITEMS: &str = include_str!("indicator_items.txt");
const ROWS: &str = include_str!("indicator_rows.txt");
const REFUSALS: &str = include_str!("indicator_refusals.txt");

/// Every indicator, with the bytes of a value behind it and with none.
#[test]
fn every_indicator_of_every_type() {
    for [name, sda, bytes, parts] in rows(ITEMS) {
        let (sda, bytes) = (hex(sda), hex(bytes));
        for indicator in 0..=255 {
            let (whole, alone) = match indicator {
                0x00 if bytes.is_empty() => (parts, parts),
                0x00 => (parts, "refused 13 0"),
                0x01..=0x7F => ("refused 24 0", "refused 24 0"),
                0x80..=0xFF if bytes.is_empty() => ("null", "null"),
                0x80..=0xFF => ("refused 16 1", "null"),
            };
            let item = [&[indicator], &bytes[..]].concat();
            let name = format!("{name} {indicator:02X}");
            assert_block(&name, &sda, &item, &Answer::parse(whole));
            assert_block(&name, &sda, &[indicator], &Answer::parse(alone));
        }
    }
}

/// Three items of an RLO and of a GDA, the second of which is nullable.
const BETWEEN: [&str; 2] = ["0C71A1 B20001 B10001 B20001", "0C75C1 B20000 B10000 B20000"];

/// Every indicator between items that have none.
#[test]
fn every_indicator_between_others() {
    for [name, nullable, bytes, parts] in rows(ITEMS) {
        let (nullable, bytes) = (hex(nullable), hex(bytes));
        for between in BETWEEN {
            let descriptor = [&nullable[..], &sda(0xB2, 0x01, 0, 2), &hex(between)].concat();
            for indicator in 0..=255 {
                let name = format!("{name} {indicator:02X}");
                assert_between(&name, &descriptor, indicator, &bytes, parts);
            }
        }
    }
}

/// Asserts the second item of three: its state, or that it is refused, whole and cut.
fn assert_between(name: &str, descriptor: &[u8], indicator: u8, bytes: &[u8], parts: &str) {
    let before = [0x7F, 0x01, indicator];
    let whole = [&before, bytes, &[0x01, 0x7F]].concat();
    let type_code = descriptor[3].into();
    match indicator {
        0x00 => {
            let Answer::Parts(parts) = Answer::parse(parts) else {
                panic!("{parts}");
            };
            let [lead, value, spare] = parts.map(|length| length as u32);
            let expected = [0, type_code, lead, value, spare];
            assert_eq!(state_numbers(descriptor, &whole, 1), expected, "{name}");
        }
        0x01..=0x7F => {
            let bad = Answer::parse("refused 24 2");
            assert_block(name, descriptor, &whole, &bad);
            assert_block(name, descriptor, &before, &bad);
        }
        0x80..=0xFF => {
            let whole = [&before[..], &[0x01, 0x7F]].concat();
            let expected = [1, type_code, 1, 0, 0];
            assert_eq!(state_numbers(descriptor, &whole, 1), expected, "{name}");
        }
    }
}

#[test]
fn rows_are_cut_as_listed() {
    assert_cuts(ROWS);
}

/// By all calls and by the dump program.
#[test]
fn blocks_are_refused_as_listed() {
    for [name, descriptor, data, refusal] in rows(REFUSALS) {
        let (descriptor, data) = (hex(descriptor), hex(data));
        let answer = Answer::Refused(parse_refusal(refusal));
        assert_block(name, &descriptor, &data, &answer);
        let text = dump(&file(&descriptor, &data));
        assert_eq!(text, format!("refused {refusal}\n"), "{name}");
    }
}

/// The paper's block with another indicator in either item.
#[test]
fn the_dump_tells_number_and_place() {
    let descriptor = hex("0C70B181 0000000000000003 0671A1B10002");
    for (data, text) in [
        ("00616263 80", "items 2 bytes 5\n0 0 129 3\n1 4 129 null\n"),
        ("00616263 FF", "items 2 bytes 5\n0 0 129 3\n1 4 129 null\n"),
        ("00616263 7F", "refused 24 4\n"),
        ("00616263 01616263", "refused 24 4\n"),
        ("01616263 80", "refused 24 0\n"),
    ] {
        assert_eq!(dump(&file(&descriptor, &hex(data))), text, "{data}");
    }
}

/// A row of all listed items.
fn row_of_all() -> (Vec<u8>, Vec<Vec<u8>>) {
    let (mut descriptor, mut groups, mut items) = (Vec::new(), Vec::new(), Vec::new());
    for (id, [_, sda, bytes, _]) in (1..).zip(rows(ITEMS)) {
        let mut sda = hex(sda);
        sda[2] = id;
        descriptor.extend(sda);
        groups.extend([id, 0, 1]);
        items.push([&[0], &hex(bytes)[..]].concat());
    }
    descriptor.extend([3 + groups.len() as u8, 0x71, 0xA1]);
    descriptor.extend(groups);
    (descriptor, items)
}

/// A bad indicator is told whatever item is asked, one before it, one behind it or none.
#[test]
fn every_item_of_a_row_in_turn() {
    let (descriptor, items) = row_of_all();
    let mut entries = vec![0; 2 + 2 * items.len()];
    assert_eq!(list(&descriptor, &items.concat(), &mut entries), Ok(()));
    for bad in 0..items.len() {
        let start = entries[2 + bad];
        for indicator in [0x01, 0x40, 0x7F] {
            let mut items = items.clone();
            items[bad][0] = indicator;
            let data = items.concat();
            for data in [&data[..], &data[..=start as usize]] {
                assert_bad_item(&descriptor, data, start, items.len() as u32);
            }
        }
    }
}

fn assert_bad_item(descriptor: &[u8], data: &[u8], start: u32, count: u32) {
    let name = format!("{data:02X?}");
    let refusal = Refusal {
        number: BAD_INDICATOR,
        place: start,
    };
    assert_block(&name, descriptor, data, &Answer::Refused(refusal));
    for item in 0..=count + 1 {
        assert_eq!(state(descriptor, data, item), Err(refusal), "{name}");
        assert_eq!(whole_number(descriptor, data, item), Err(refusal), "{name}");
        assert_eq!(packed(descriptor, data, item), Err(refusal), "{name}");
        assert_eq!(value(descriptor, data, item), Err(refusal), "{name}");
        assert!(lend(descriptor, data, item).is_empty(), "{name}");
    }
}

/// A list that is too small comes before the items, and with rows to the end behind them.
#[test]
fn a_small_list() {
    let data = hex("0041 0141");
    for length in 0..=7 {
        let of_two = match length {
            0..=5 => refused(SMALL_LIST, 0),
            _ => refused(BAD_INDICATOR, 2),
        };
        let of_rows = refused(BAD_INDICATOR, 2);
        for (row, answer) in [("0671A1 B10002", of_two), ("0671A1 B10000", of_rows)] {
            let descriptor = [sda(0xB1, 0x81, 0, 1), hex(row)].concat();
            let mut entries = vec![7; length];
            assert_eq!(list(&descriptor, &data, &mut entries), answer, "{row}");
            assert!(entries.iter().all(|&entry| entry == 7), "{row}");
        }
    }
}

/// Sizes over their limits come first.
#[test]
fn oversize() {
    let oversize = Answer::parse("refused 1 0");
    let bad = Answer::parse("refused 24 0");
    let sda = sda(0xB1, 0x81, 0, 32_767);
    let data = vec![0x7F; MAX_DATA + 1];
    assert_block("data", &sda, &data, &oversize);
    assert_block("longest data", &sda, &data[1..], &bad);
    let long = [&sda[..], &[0; 4085]].concat();
    assert_block("descriptor", &long, &[0x7F], &oversize);
}

/// In rows to the end of too many items a bad indicator comes first, up to the 4,096th.
#[test]
fn rows_of_too_many_items() {
    let descriptor = [sda(0xB1, 0x81, 0, 1), hex("0671A1 B10000")].concat();
    for before in [0, 1, 2, 4094, 4095, 4096] {
        let mut data = vec![0x80; 2 * MAX_ITEMS];
        data[before] = 0x7F;
        let number = if before < MAX_ITEMS { 24 } else { 10 };
        let answer = Answer::parse(&format!("refused {number} {before}"));
        assert_block("rows", &descriptor, &data, &answer);
        assert_block("the last", &descriptor, &data[..=before], &answer);
    }
}

/// The first byte of an item that is not nullable is no indicator.
#[test]
fn plain_items_have_no_indicator() {
    let assert_value = |plain, size, data: &[u8], answer| {
        let name = format!("X'{plain:02X}' {:02X}", data[0]);
        assert_block(&name, &sda(0xB1, plain, 0, size), data, &answer);
    };
    for first in 0x01..=0x7F {
        for (plain, size, length) in [
            (0x01, 1, 1),
            (0x01, 3, 3),
            (0x23, 2, 2),
            (0x24, 8, 8),
            (0x30, 0x0301, 2),
            (0x40, 4, 4),
            (0x47, 8, 8),
            (0x48, 4, 4),
        ] {
            let data = vec![first; length];
            assert_value(plain, size, &data, Answer::Value(data.clone()));
        }
        assert_value(0x03, 0, &[first, 0], Answer::Value(vec![first]));
        let [short, long] = [1, 256].map(|bytes| usize::from(first) * bytes);
        let short_data = [&[first], &vec![0x41; short][..]].concat();
        let long_data = [&[first, 0], &vec![0x41; long][..]].concat();
        assert_value(0x07, 0, &short_data, Answer::Length(short));
        assert_value(0x02, 0, &long_data, Answer::Length(long));
    }
}

/// The list of a block, with room for any.
fn listed(descriptor: &[u8], data: &[u8]) -> Result<Vec<u32>, Refusal> {
    let mut entries = vec![0; 2 + 2 * MAX_ITEMS];
    list(descriptor, data, &mut entries).map(|()| entries)
}

/// The data with the low bits of every indicator cleared, item by item as far as they can be
/// measured then, and where the first bad indicator was.
fn cleared(unfolding: &Unfolding, data: &[u8]) -> (Vec<u8>, Option<usize>) {
    let mut data = data.to_vec();
    let (mut start, mut bad) = (0, None);
    for field in unfolding.iter().take(MAX_ITEMS) {
        if field.is_nullable() && start < data.len() {
            if bad.is_none() && (0x01..=0x7F).contains(&data[start]) {
                bad = Some(start);
            }
            data[start] &= 0x80;
        }
        let one = Unfolding {
            fields: vec![*field],
            rows: None,
        };
        match walk(&one, &data[start..]) {
            Ok(_) => start = data.len(),
            Err(refusal) if refusal.number == SURPLUS => start += refusal.place as usize,
            Err(_) => break,
        }
    }
    (data, bad)
}

/// A block is accepted if it is so with the low bits cleared, and none of its indicators is bad; a
/// bad one is told at its item, if the items before it can be measured.
#[test]
fn nothing_else_is_refused() {
    let mut met = [0; 4];
    for case in Generator::new(16).take(10_000) {
        let (descriptor, data) = (&case.descriptor, &case.data);
        let unfolding = match unfold(descriptor) {
            Ok(unfolding) if data.len() <= MAX_DATA => unfolding,
            _ => continue,
        };
        let (cleared, bad) = cleared(&unfolding, data);
        let by_cleared = listed(descriptor, &cleared);
        met[2 * usize::from(bad.is_some()) + usize::from(by_cleared.is_ok())] += 1;
        let expected = match bad {
            Some(start) => refused(BAD_INDICATOR, start as u32),
            None => by_cleared,
        };
        assert_eq!(listed(descriptor, data), expected, "{case:02X?}");
    }
    assert!(met.iter().all(|&times| times >= 100), "{met:?}");
}

/// Each indicator of good blocks: made bad, it is told; the low bits of a null's change nothing.
#[test]
fn every_indicator_of_good_blocks() {
    let mut random = Random::new(17);
    for (case, starts) in blocks(17) {
        let descriptor = &case.descriptor;
        let unfolding = unfold(descriptor).expect("a valid descriptor");
        for (item, (field, &start)) in (0..).zip(unfolding.iter().zip(&starts)) {
            if !field.is_nullable() || start == case.data.len() {
                continue;
            }
            let mut data = case.data.clone();
            let is_null = data[start] >= 0x80;
            data[start] = random.between(0x01, 0x7F) as u8;
            let answer = state(descriptor, &data, item);
            assert_eq!(answer, refused(BAD_INDICATOR, start as u32), "{case:02X?}");
            if is_null {
                data[start] |= 0x80;
                let numbers = state_numbers(descriptor, &data, item);
                assert_eq!(numbers, [1, field.type_code().into(), 1, 0, 0]);
                let [changed, before] = [&data, &case.data].map(|data| listed(descriptor, data));
                assert_eq!(changed, before, "{case:02X?}");
            }
        }
    }
}
