//! Sizes, counts and nesting at their limits, and the order of the refusals.

use std::ops::RangeInclusive;

use reader::generate::full_descriptor;
use reader::*;

use crate::support::{assert_block, assert_check, hex, parse_refusal, refused, rows, sda, Answer};

/// RLOs 2 to `ids`, each once or more over the one before, the first over SDA 1.
fn nest(sda: Vec<u8>, ids: u8, factor: u8) -> Vec<u8> {
    let rlos = (2..=ids).flat_map(|id| [6, 0x71, id, id - 1, 0, factor]);
    sda.into_iter().chain(rlos).collect()
}

#[test]
fn every_descriptor_of_two_bytes() {
    for (length, construct) in (0..=255).flat_map(|l| (0..=255).map(move |c| (l, c))) {
        let answer = match (length, construct) {
            (2, 0x70 | 0x71 | 0x75 | 0x7E) => "refused 5 0",
            (2, 0x7F) => "refused 4 0",
            (2, _) => "refused 3 0",
            _ => "refused 2 0",
        };
        assert_check("two bytes", &[length, construct], answer);
    }
}

#[test]
fn descriptors_at_their_size_limit() {
    let full = full_descriptor();
    assert_eq!(full.len(), MAX_DESCRIPTOR);
    let over = [&full[..], &[0]].concat();
    assert_check("full", &full, "items 1344");
    assert_check("one over", &over, "refused 1 0");
    assert_check("one under", &full[..MAX_DESCRIPTOR - 1], "refused 2 3841");
    assert_check("far over", &[0; 70_000], "refused 1 0");
}

#[test]
fn data_at_its_size_limit() {
    let fixed = sda(0xB1, 0x81, 0, 32_767);
    let padded = sda(0xB1, 0x02, 0, 32_766);
    let ended = sda(0xB1, 0x03, 0, 32_767);
    let full = vec![0; MAX_DATA];
    let over = vec![0; MAX_DATA + 1];
    let long_value = [&[0x7F, 0xFF][..], &[0x41; 32_766]].concat();
    let rows: [(&str, &[u8], &[u8], &str); 9] = [
        ("X'81' full", &fixed, &full, "length 32767"),
        ("X'81' one under", &fixed, &full[1..], "refused 13 0"),
        ("X'81' one over", &fixed, &over, "refused 1 0"),
        ("X'02' mode 0 full", &padded, &full, "length 0"),
        ("X'02' mode 0 one over", &padded, &over, "refused 1 0"),
        ("X'02' L over F", &padded, &long_value, "refused 14 0"),
        ("X'03' mode 0 full", &ended, &full, "length 0"),
        ("bad descriptor", &[0], &over, "refused 1 0"),
        ("descriptor over, no data", &[0; 4097], &[], "refused 1 0"),
    ];
    for (name, descriptor, data, answer) in rows {
        assert_block(name, descriptor, data, &Answer::parse(answer));
    }
}

#[test]
fn nesting_255_deep() {
    let descriptor = nest(sda(1, 0x23, 0, 2), 255, 1);
    assert_eq!(descriptor.len(), 12 + 254 * 6);
    assert_check("255 deep", &descriptor, "items 1");
    assert_block("255 deep", &descriptor, &[0xFF, 0xFE], &Answer::Whole(-2));
    let one_more = [&descriptor[..], &[6, 0x71, 255, 1, 0, 1]].concat();
    assert_check("no id left", &one_more, "refused 7 1536");
}

#[test]
fn nests_that_double_the_count() {
    for (ids, answer) in [
        (13, "items 4096"),
        (14, "refused 10 84"),
        (255, "refused 10 84"),
    ] {
        assert_check("doubling", &nest(sda(1, 0x01, 0, 0), ids, 2), answer);
    }
}

/// Descriptors of 4,096 items of one byte each.
const LARGEST: [&str; 4] = [
    "0E70B101 0000000000000001 1000",
    "1270B101 0000000000000001 0010 0010 0010",
    "0C70B101 0000000000000001 0671A1B10040 0671A2A10040",
    "1070B101 0000000000000001 0001 0010 0971A1 B1FF01 B10001",
];

#[test]
fn lists_of_4096_items() {
    for descriptor in LARGEST {
        let (descriptor, data) = (hex(descriptor), vec![7; 4096]);
        let mut entries = vec![9; 2 + 2 * 4096 + 1];
        assert_eq!(list(&descriptor, &data, &mut entries), Ok(()));
        assert_eq!(entries[..2], [4096, 4096]);
        assert!((0..4096).all(|item| entries[2 + item as usize] == item));
        assert!(entries[2 + 4096..2 + 2 * 4096].iter().all(|&id| id == 177));
        assert_eq!(entries[2 + 2 * 4096], 9);
        assert_eq!(lend(&descriptor, &data, 4095), [7]);
        assert_eq!(state(&descriptor, &data, 4096), refused(NO_SUCH_ITEM, 0));
    }
}

/// Name, descriptor, data, length of the list, refusal of the list call if any.
const LISTS: &str = "
just long enough        | 0C70B181 0000000000000003 0671A1B10002 | 0061626380 | 6 |
longer                  | 0C70B181 0000000000000003 0671A1B10002 | 0061626380 | 9 |
one short               | 0C70B181 0000000000000003 0671A1B10002 | 0061626380 | 5 | 12 0
no entries              | 0C70B181 0000000000000003 0671A1B10002 | 0061626380 | 0 | 12 0
small before cut        | 0C70B181 0000000000000003 0671A1B10002 | 00         | 5 | 12 0
small before surplus    | 0C70B181 0000000000000003 0671A1B10002 | 808080     | 5 | 12 0
cut                     | 0C70B181 0000000000000003 0671A1B10002 | 80         | 6 | 13 1
descriptor before small | 0C70B181 0000000000000003 02           | 80         | 0 | 2 12
nothing before small    |                                        |            | 0 | 11 0
";

#[test]
fn lists_at_their_size_limit() {
    for [name, descriptor, data, length, refusal] in rows(LISTS) {
        let length: u32 = length.parse().expect(name);
        let before: Vec<u32> = (100..100 + length).collect();
        let mut entries = before.clone();
        let answer = list(&hex(descriptor), &hex(data), &mut entries);
        if refusal.is_empty() {
            assert_eq!(answer, Ok(()), "{name}");
            assert_eq!(entries[..6], [2, 5, 0, 4, 177, 177], "{name}");
            assert_eq!(entries[6..], before[6..], "{name}");
        } else {
            assert_eq!(answer, Err(parse_refusal(refusal)), "{name}");
            assert_eq!(entries, before, "{name}");
        }
    }
    let oversize = vec![0; MAX_DATA + 1];
    assert_eq!(list(&[], &oversize, &mut []), refused(OVERSIZE, 0));
}

/// Name, descriptor, data, item, refusal of the whole-number read.
const ORDER: &str = "
16 before 17     | 0C70B123 0000000000000002              | 000000 | 1 | 16 2
16 before 18     | 0C70B101 0000000000000001              | 0000   | 0 | 16 1
17 before 18     | 0C70B101 0000000000000001              | 00     | 1 | 17 0
18 at the start  | 0C70B101 0000000000000001 0671A1B10002 | 0000   | 1 | 18 1
later item cut   | 0C70B123 0000000000000002 0671A1B10002 | 000000 | 0 | 13 2
6 before 17      | 0C70B123 0000000000000001              |        | 9 | 6 0
";

#[test]
fn refusals_come_in_order() {
    for [name, descriptor, data, item, refusal] in rows(ORDER) {
        let item = item.parse().expect(name);
        let answer = whole_number(&hex(descriptor), &hex(data), item);
        assert_eq!(answer, Err(parse_refusal(refusal)), "{name}");
    }
}

/// Digits of a packed decimal with none to all of them as fraction digits.
pub const DIGITS: [RangeInclusive<u16>; 18] = [
    0x0100..=0x0101,
    0x0200..=0x0202,
    0x0300..=0x0303,
    0x0400..=0x0404,
    0x0500..=0x0505,
    0x0600..=0x0606,
    0x0700..=0x0707,
    0x0800..=0x0808,
    0x0900..=0x0909,
    0x0A00..=0x0A0A,
    0x0B00..=0x0B0B,
    0x0C00..=0x0C0C,
    0x0D00..=0x0D0D,
    0x0E00..=0x0E0E,
    0x0F00..=0x0F0F,
    0x1000..=0x1010,
    0x1100..=0x1111,
    0x1200..=0x1212,
];

/// Plain type, highest mode, highest bias indicator, field lengths that are not refused.
const RULES: &[(u8, u8, u16, &[RangeInclusive<u16>])] = &[
    (0x01, 0, 0, &[0..=32_767]),
    (0x02, 1, 0, &[0..=32_767]),
    (0x03, 1, 0, &[0..=32_767]),
    (0x07, 1, 0, &[0..=255]),
    (0x23, 0, 0, &[2..=2, 4..=4, 8..=8]),
    (0x24, 0, 0, &[2..=2, 4..=4, 8..=8]),
    (0x30, 0, 0, &DIGITS),
    (0x40, 0, 0, &[0..=65_535]),
    (0x47, 0, 1, &[0..=15, 17..=65_535]),
    (0x48, 0, 1, &[0..=15, 17..=65_535]),
];

fn is_allowed(type_code: u8, parameters: [u8; 8]) -> bool {
    let [zero_0, zero_1, bias_high, bias_low, zero_4, mode, high, low] = parameters;
    let length = u16::from_be_bytes([high, low]);
    RULES
        .iter()
        .any(|(plain, highest_mode, highest_bias, lengths)| {
            (type_code == *plain || type_code == plain + 0x80)
                && zero_0 | zero_1 | zero_4 == 0
                && mode <= *highest_mode
                && u16::from_be_bytes([bias_high, bias_low]) <= *highest_bias
                && lengths.iter().any(|range| range.contains(&length))
        })
}

fn assert_parameters(type_code: u8, parameters: [u8; 8]) {
    let descriptor = [&[12, 0x70, 0xB1, type_code], &parameters[..]].concat();
    let expected = match is_allowed(type_code, parameters) {
        true => Ok(1),
        false => refused(BAD_PARAMETER, 0),
    };
    assert_eq!(check(&descriptor), expected, "{descriptor:02X?}");
}

#[test]
fn every_type_code_with_every_field_length() {
    for type_code in 0..=255 {
        for mode in [0, 1, 2, 0x80, 0xFF] {
            for length in (0..=300).chain([32_766, 32_767, 32_768, 65_535]) {
                let [high, low] = u16::to_be_bytes(length);
                assert_parameters(type_code, [0, 0, 0, 0, 0, mode, high, low]);
            }
        }
    }
}

#[test]
fn every_type_code_with_every_parameter_byte() {
    for type_code in 0..=255 {
        for offset in 0..8 {
            for value in 0..=255 {
                for (high, low) in [(0, 0), (0, 4), (7, 2)] {
                    let mut parameters = [0, 0, 0, 0, 0, 0, high, low];
                    parameters[offset] = value;
                    assert_parameters(type_code, parameters);
                }
            }
        }
    }
}

#[test]
fn every_length_of_packed_decimals_and_floats() {
    for type_code in [0x30, 0x40, 0x47, 0x48, 0xB0, 0xC0, 0xC7, 0xC8] {
        for mode in [0, 1] {
            for [high, low] in (0..=u16::MAX).map(u16::to_be_bytes) {
                assert_parameters(type_code, [0, 0, 0, 0, 0, mode, high, low]);
            }
        }
    }
}
