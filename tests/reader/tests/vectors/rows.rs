//! Rows to the end: where repetition 0 may stand, what it may repeat, and the items that are then
//! found in the data.

use reader::generate::full_descriptor;
use reader::*;

use crate::cuts::{assert_items, items};
use crate::support::{
    assert_block, assert_check, every_sda, hex, parse_refusal, refused, rows, sda, Answer,
};

const DESCRIPTORS: &str = include_str!("row_descriptors.txt");
const ITEMS: &str = include_str!("row_items.txt");
const REFUSALS: &str = include_str!("row_refusals.txt");
const COUNTS: &str = include_str!("row_counts.txt");

#[test]
fn descriptors_are_judged_as_listed() {
    for [name, descriptor, answer] in rows(DESCRIPTORS) {
        assert_check(name, &hex(descriptor), answer);
    }
}

#[test]
fn items_are_found_as_listed() {
    for [name, descriptor, before, text] in rows(ITEMS) {
        let (descriptor, items) = (hex(descriptor), items(text));
        assert_check(name, &descriptor, &format!("items {before}"));
        let data = assert_items(name, &descriptor, &items);
        assert_count(name, &descriptor, &data, items.len() as u32);
    }
}

/// Asserts the number of items that a block is found to have: lists need room for so many, and
/// there is no item of that number.
fn assert_count(name: &str, descriptor: &[u8], data: &[u8], count: u32) {
    let needed = 2 + 2 * count as usize;
    for length in [needed, needed + 3] {
        let mut entries = vec![7; length];
        assert_eq!(list(descriptor, data, &mut entries), Ok(()), "{name}");
        assert_eq!(entries[..2], [count, data.len() as u32], "{name}");
        assert!(entries[needed..].iter().all(|&entry| entry == 7), "{name}");
    }
    for length in [0, 1, needed - 1] {
        let mut entries = vec![7; length];
        let answer = list(descriptor, data, &mut entries);
        assert_eq!(answer, refused(SMALL_LIST, 0), "{name}");
        assert!(entries.iter().all(|&entry| entry == 7), "{name}");
    }
    if let Some(last) = count.checked_sub(1) {
        assert!(state(descriptor, data, last).is_ok(), "{name}");
    }
    for item in [count, count + 1, u32::MAX] {
        let no_such_item = Refusal {
            number: NO_SUCH_ITEM,
            place: 0,
        };
        assert_eq!(state(descriptor, data, item), Err(no_such_item), "{name}");
        let whole = whole_number(descriptor, data, item);
        assert_eq!(whole, Err(no_such_item), "{name}");
        assert_eq!(packed(descriptor, data, item), Err(no_such_item), "{name}");
        assert_eq!(value(descriptor, data, item), Err(no_such_item), "{name}");
        assert!(lend(descriptor, data, item).is_empty(), "{name}");
    }
}

#[test]
fn blocks_are_refused_as_listed() {
    for [name, descriptor, data, refusal] in rows(REFUSALS) {
        assert_bad_block(name, &hex(descriptor), &hex(data), refusal);
    }
}

/// Asserts that every call refuses a block, the list call also where it has no room.
fn assert_bad_block(name: &str, descriptor: &[u8], data: &[u8], refusal: &str) {
    let refusal = parse_refusal(refusal);
    assert_block(name, descriptor, data, &Answer::Refused(refusal));
    for length in 0..=6 {
        let mut entries = vec![7; length];
        assert_eq!(list(descriptor, data, &mut entries), Err(refusal), "{name}");
        assert!(entries.iter().all(|&entry| entry == 7), "{name}");
    }
}

/// Rows to the end of any SDA without extents, alone and behind a field of it.
#[test]
fn rows_of_every_type() {
    for sda in every_sda() {
        let has_no_bytes = sda[3] == 0x01 && sda[10..] == [0, 0];
        for (rest, count) in [("0671A1 B10000", 0), ("0971A1 B10001 B10000", 1)] {
            let descriptor = [&sda[..], &hex(rest)].concat();
            let expected = match has_no_bytes {
                true => refused(ENDLESS, 12),
                false => Ok(count),
            };
            assert_eq!(check(&descriptor), expected, "{descriptor:02X?}");
        }
    }
}

/// Nothing may stand behind rows to the end, whatever it is.
#[test]
fn no_byte_behind_rows() {
    for descriptor in ["0C70B101 0000000000000001", "0C70B101 0000000000000000"] {
        let descriptor = [hex(descriptor), hex("0671A1 B10000")].concat();
        for byte in 0..=255 {
            let one = [&descriptor[..], &[byte]].concat();
            let two = [&descriptor[..], &[2, byte]].concat();
            assert_eq!(check(&one), refused(NOT_CARRIED, 12), "{byte}");
            assert_eq!(check(&two), refused(NOT_CARRIED, 12), "{byte}");
        }
    }
}

/// Only X'01' of F 0 has items without bytes, and no column that has a length put in.
#[test]
fn every_length_of_the_repeated_field() {
    for length in 0..=u16::MAX {
        let [high, low] = length.to_be_bytes();
        let plain = [sda(0xB1, 0x01, 0, length), hex("0671A1 B10000")].concat();
        let column = [
            sda(0xB1, 0x01, 0, 0),
            vec![6, 0x75, 0xC1, 0xB1, high, low],
            hex("0671A1 C10000"),
        ]
        .concat();
        let (of_plain, of_column) = match length {
            0 => (refused(ENDLESS, 12), refused(ENDLESS, 18)),
            1..=0x7FFF => (Ok(0), Ok(0)),
            _ => (refused(BAD_PARAMETER, 0), refused(COLUMN_MISFIT, 12)),
        };
        assert_eq!(check(&plain), of_plain, "{length}");
        assert_eq!(check(&column), of_column, "{length}");
    }
}

#[test]
fn the_last_of_84_groups() {
    let groups = |last: [u8; 3]| {
        let mut descriptor = sda(0xB1, 0x01, 0, 1);
        descriptor.extend([255, 0x71, 0xA1]);
        descriptor.extend([0xB1, 0, 1].repeat(83));
        descriptor.extend(last);
        descriptor
    };
    let descriptor = groups([0xB1, 0, 0]);
    assert_check("84 groups", &descriptor, "items 83");
    assert_count("no rows", &descriptor, &[5; 83], 83);
    assert_count("three rows", &descriptor, &[5; 86], 86);
    assert_bad_block("a field missing", &descriptor, &[5; 82], "13 82");
    let more = [&descriptor[..], &hex("067F00 B10000")].concat();
    assert_check("and a CPT", &more, "refused 9 12");
    assert_check("elements taken", &groups([0xB1, 1, 0]), "refused 9 12");
}

/// Rows of the longest descriptor.
#[test]
fn rows_that_end_a_descriptor_of_4096_bytes() {
    let mut descriptor = full_descriptor();
    let last = descriptor.len() - 1;
    descriptor[last] = 0;
    assert_check("without bytes", &descriptor, "refused 22 3841");
    descriptor[11] = 1;
    assert_check("of a byte", &descriptor, "items 1343");
    assert_count("two rows", &descriptor, &[5; 1345], 1345);
    descriptor.push(0);
    assert_check("one over", &descriptor, "refused 1 0");
}

#[test]
fn rows_of_the_deepest_nest() {
    let nest = |sda: Vec<u8>| {
        let rlos = (2..=255).flat_map(|id| [6, 0x71, id, id - 1, 0, u8::from(id < 255)]);
        sda.into_iter().chain(rlos).collect::<Vec<u8>>()
    };
    let descriptor = nest(sda(1, 0x23, 0, 2));
    assert_check("255 deep", &descriptor, "items 0");
    assert_count("255 deep", &descriptor, &[0xFF, 0xFE, 0, 7], 2);
    let second = whole_number(&descriptor, &[0xFF, 0xFE, 0, 7], 1);
    assert_eq!(second.map(|whole| whole.value), Ok(7));
    let endless = nest(sda(1, 0x01, 0, 0));
    assert_check("255 deep", &endless, "refused 22 1530");
}

#[test]
fn counts_up_to_4096_are_found_as_listed() {
    for [name, descriptor, data, answer] in rows(COUNTS) {
        let (byte, times) = data.split_once(" times ").expect(name);
        let data = vec![hex(byte)[0]; times.parse().expect(name)];
        let name = &format!("{name}, {times}");
        match answer.split_once(' ') {
            Some(("items", count)) => {
                assert_count(name, &hex(descriptor), &data, count.parse().expect(name));
            }
            Some(("refused", refusal)) => assert_bad_block(name, &hex(descriptor), &data, refusal),
            _ => panic!("{answer}"),
        }
    }
}

/// All 4,096 items with their starts and ids, and the last value.
#[test]
fn a_list_of_4096_found_items() {
    let descriptor = hex("0C70B101 0000000000000001 0671A1 B10002 0671A2 A10000");
    let data: Vec<u8> = (0..4096).map(|item| item as u8).collect();
    let mut entries = vec![9; 2 + 2 * 4096 + 1];
    assert_eq!(list(&descriptor, &data, &mut entries), Ok(()));
    assert_eq!(entries[..2], [4096, 4096]);
    assert!((0..4096).all(|item| entries[2 + item as usize] == item));
    assert!(entries[2 + 4096..2 + 2 * 4096].iter().all(|&id| id == 177));
    assert_eq!(entries[2 + 2 * 4096], 9);
    assert_eq!(lend(&descriptor, &data, 4095), [0xFF]);
}

/// SDA, a good item, a bad item, the bad item's number.
const BAD_ITEMS: &str = "
0C70B101 0000000000000002 | 4141 | 41     | 13
0C70B102 0000000000010002 | 0000 | FFFF   | 14
0C70B103 0000000000010002 | 00   | 414141 | 15
0C70B182 0000000000010002 | 80   | 00     | 13
0C70B182 0000000000010002 | 80   | 7F     | 24
";

#[test]
fn the_4097th_item_is_refused_before_it_is_measured() {
    for [sda, good, bad, number] in rows(BAD_ITEMS) {
        let descriptor = [hex(sda), hex("0671A1 B10000")].concat();
        for (before, number) in [(4095, number), (4096, "10")] {
            let good = hex(good).repeat(before);
            let refusal = format!("{number} {}", good.len());
            let data = [good, hex(bad)].concat();
            assert_bad_block(sda, &descriptor, &data, &refusal);
        }
    }
}

/// Data that is too long comes before all else.
#[test]
fn oversize_data_of_rows() {
    let descriptor = hex("0C70B101 0000000000000008 0671A1 B10000");
    let data = vec![0; MAX_DATA + 1];
    assert_count("full", &descriptor, &data[..MAX_DATA], 4096);
    assert_bad_block("one over", &descriptor, &data, "1 0");
    let endless = hex("0C70B101 0000000000000000 0671A1 B10000");
    assert_bad_block("one over", &endless, &data, "1 0");
}

/// Name, descriptor, data, item, refusal of the call.
const ORDER: &str = "
13 before 17           | 0C70B123 0000000000000002 0671A1B10000                                              | 000000       | 1 | 13 2
13 before 18           | 0C70B101 0000000000000002 0671A1B10000                                              | 000000       | 0 | 13 2
17 of no rows          | 0C70B123 0000000000000002 0671A1B10000                                              |              | 0 | 17 0
17 before 18           | 0C70B101 0000000000000001 0671A1B10000                                              | 0000         | 2 | 17 0
18 at the start        | 0C70B101 0000000000000001 0671A1B10000                                              | 0000         | 1 | 18 1
18 at the second field | 0C70B123 0000000000000002 0C70B201 0000000000000001 0971A1B10001B20001 0671A2A10000 | 000107000208 | 3 | 18 5
18 of a field before   | 0C70B123 0000000000000002 0C70B201 0000000000000001 0971A1B20001B10000              | 070001       | 0 | 18 0
22 before 17           | 0C70B101 0000000000000000 0671A1B10000                                              |              | 9 | 22 12
9 before 17            | 0C70B123 0000000000000002 0671A1B10000 00                                           |              | 9 | 9 12
";

#[test]
fn refusals_of_whole_numbers_come_in_order() {
    for [name, descriptor, data, item, refusal] in rows(ORDER) {
        let item = item.parse().expect(name);
        let answer = whole_number(&hex(descriptor), &hex(data), item);
        assert_eq!(answer, Err(parse_refusal(refusal)), "{name}");
    }
}

#[test]
fn whole_numbers_of_rows() {
    let descriptor = hex("0C70B1A4 0000000000000002 0971A1 B10001 B10000");
    let data = hex("00 FEFF 80 00 0080 00 0100");
    let numbers = [Some(-2), None, Some(-32_768), Some(1)];
    for (item, value) in (0..).zip(numbers) {
        let expected = Whole {
            is_null: value.is_none(),
            value: value.unwrap_or(0),
        };
        assert_eq!(whole_number(&descriptor, &data, item), Ok(expected));
    }
    let none = whole_number(&descriptor, &data, 4);
    assert_eq!(none, refused(NO_SUCH_ITEM, 0));
}

/// A bad digit is found where it is asked for.
#[test]
fn packed_decimals_of_rows() {
    let descriptor = hex("0C70B1B0 0000000000000301 0671A1 B10000");
    let data = hex("00123C 80 001A3C 00456D");
    let value = |is_null, value| {
        Ok(Packed {
            is_null,
            value,
            fraction_digits: 1,
        })
    };
    let answers = [
        value(false, 123),
        value(true, 0),
        refused(BAD_DIGIT, 4),
        value(false, -456),
        refused(NO_SUCH_ITEM, 0),
    ];
    for (item, answer) in (0..).zip(answers) {
        assert_eq!(packed(&descriptor, &data, item), answer, "{item}");
    }
    assert_count("a bad digit", &descriptor, &data, 4);
}
