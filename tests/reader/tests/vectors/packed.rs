//! Packed decimals: their parameters, their values, and the refusals of the call that
//! reads them.

use reader::*;

use crate::support::{
    assert_behind_indicator, assert_block, assert_blocks, assert_both_forms, every_sda, hex,
    is_nullable, parse_refusal, refused, rows, sda, Answer,
};

const DESCRIPTORS: &str = include_str!("packed_descriptors.txt");
const BLOCKS: &str = include_str!("packed_blocks.txt");

#[test]
fn parameters_are_judged_as_listed() {
    assert_both_forms(rows(DESCRIPTORS));
}

#[test]
fn values_are_read_as_listed() {
    assert_blocks(rows(BLOCKS));
}

#[test]
fn nullable_values_are_read_behind_their_indicator() {
    assert_behind_indicator(rows(BLOCKS));
}

/// SDA of a nullable decimal, its fraction digits.
const NULLS: &str = "
0C70B1B0 0000000000000100 | 0
0C70B1B0 0000000000000101 | 1
0C70B1B0 0000000000000201 | 1
0C70B1B0 0000000000000802 | 2
0C70B1B0 0000000000001109 | 9
0C70B1B0 0000000000001200 | 0
0C70B1B0 0000000000001212 | 18
";

#[test]
fn a_null_is_zero_with_the_fraction_digits() {
    for [descriptor, fraction_digits] in rows(NULLS) {
        let null = Packed {
            is_null: true,
            value: 0,
            fraction_digits: fraction_digits.parse().expect(descriptor),
        };
        for indicator in [0x80, 0x9A, 0xFF] {
            assert_block(descriptor, &hex(descriptor), &[indicator], &Answer::Null);
            let answer = packed(&hex(descriptor), &[indicator], 0);
            assert_eq!(answer, Ok(null), "{descriptor}");
        }
    }
}

#[test]
fn a_null_of_another_type_is_the_wrong_kind() {
    let nullable = every_sda().into_iter().filter(|sda| is_nullable(sda));
    for sda in nullable.filter(|sda| sda[3] != 0xB0) {
        let descriptor = [sda, hex("0671A1B10002")].concat();
        let answer = |item| packed(&descriptor, &[0x80, 0x80], item);
        assert_eq!(answer(1), refused(WRONG_KIND, 1));
        assert_eq!(answer(2), refused(NO_SUCH_ITEM, 0));
    }
}

/// Name, descriptor, data, item, refusal of the call.
const ORDER: &str = "
6 before all        | 0C70B130 0000000000001300              | A23C         | 9 | 6 0
13 before 20        | 0C70B130 0000000000000300 0671A1B10002 | A23C12       | 0 | 13 2
16 before 20        | 0C70B130 0000000000000300              | A23C00       | 0 | 16 2
16 before 18        | 0C70B101 0000000000000001              | 0000         | 0 | 16 1
17 before 18        | 0C70B101 0000000000000001              | 00           | 1 | 17 0
17 before 20        | 0C70B130 0000000000000300              | A23C         | 1 | 17 0
18 and not 20       | 0C70B101 0000000000000002              | A23C         | 0 | 18 0
18 at the start     | 0C70B123 0000000000000002 0671A1B10002 | 123C123C     | 1 | 18 2
20 at the start     | 0C70B130 0000000000000300 0671A1B10002 | 123CA23C     | 1 | 20 2
20 behind a null    | 0C70B1B0 0000000000000300 0671A1B10002 | 8000A23C     | 1 | 20 1
20 at the indicator | 0C70B1B0 0000000000000300 0671A1B10002 | 00123C001239 | 1 | 20 3
24 before 20        | 0C70B1B0 0000000000000300 0671A1B10002 | 00123C7F1239 | 1 | 24 3
";

#[test]
fn refusals_come_in_order() {
    for [name, descriptor, data, item, refusal] in rows(ORDER) {
        let item = item.parse().expect(name);
        let answer = packed(&hex(descriptor), &hex(data), item);
        assert_eq!(answer, Err(parse_refusal(refusal)), "{name}");
    }
}

/// The second of three items has a bad digit, which only reading that item notices.
#[test]
fn a_bad_digit_is_found_where_it_is_asked_for() {
    let descriptor = hex("0E70B130 0000000000000301 0003");
    let data = hex("123C 1A3C 456D");
    let mut entries = [7; 9];
    assert_eq!(list(&descriptor, &data, &mut entries), Ok(()));
    assert_eq!(entries, [3, 6, 0, 2, 4, 177, 177, 177, 7]);
    let value = |value| {
        Ok(Packed {
            is_null: false,
            value,
            fraction_digits: 1,
        })
    };
    assert_eq!(packed(&descriptor, &data, 0), value(123));
    assert_eq!(packed(&descriptor, &data, 1), refused(BAD_DIGIT, 2));
    assert_eq!(packed(&descriptor, &data, 2), value(-456));
    let spoiled = State {
        is_null: false,
        type_code: 0x30,
        lead: 0,
        value: 2,
        spare: 0,
    };
    assert_eq!(state(&descriptor, &data, 1), Ok(spoiled));
    assert_eq!(lend(&descriptor, &data, 1), [0x1A, 0x3C]);
    let whole = whole_number(&descriptor, &data, 1);
    assert_eq!(whole, refused(WRONG_KIND, 2));
}

/// The number that the hexadecimal text of a packed decimal shows.
fn number(text: &str, digits: usize) -> Option<i64> {
    let (before, sign) = text.split_at(text.len() - 1);
    let (unused, digits) = before.split_at(before.len() - digits);
    let sign = match sign {
        "A" | "C" | "E" | "F" => "+",
        "B" | "D" => "-",
        _ => return None,
    };
    match unused {
        "" | "0" => [sign, digits].concat().parse().ok(),
        _ => None,
    }
}

fn assert_shown(text: &str, digits: usize) {
    let answer = match number(text, digits) {
        Some(value) => Answer::Packed(value, 1),
        None => Answer::BadDigit,
    };
    let descriptor = sda(0xB1, 0x30, 0, (digits as u16) << 8 | 1);
    assert_block(text, &descriptor, &hex(text), &answer);
}

#[test]
fn every_value_of_two_bytes() {
    for digits in [2, 3] {
        for bytes in 0..=u16::MAX {
            assert_shown(&format!("{bytes:04X}"), digits);
        }
    }
}

#[test]
fn every_half_byte_at_every_place() {
    for digits in 1..=18 {
        let unused = if digits % 2 == 0 { "0" } else { "" };
        let number = format!("{unused}{}C", &"123456789012345678"[..digits]);
        for place in 0..number.len() {
            for half_byte in 0..=0xF {
                let mut changed = number.clone();
                changed.replace_range(place..=place, &format!("{half_byte:X}"));
                assert_shown(&changed, digits);
            }
        }
    }
}
