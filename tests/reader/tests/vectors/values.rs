//! Values of numeric items: whole numbers, floats of equal value, and what has neither.

use reader::generate::Random;
use reader::*;

use crate::support::{
    assert_behind_indicator, assert_block, assert_blocks, every_sda, hex, parse_refusal, refused,
    rows, sda, Answer,
};

const BLOCKS: &str = include_str!("value_blocks.txt");
const BITS: &str = include_str!("value_bits.txt");

#[test]
fn values_are_read_as_listed() {
    assert_blocks(rows(BLOCKS));
    assert_blocks(rows(BITS));
}

#[test]
fn nullable_values_are_read_behind_their_indicator() {
    assert_behind_indicator(rows(BLOCKS));
    assert_behind_indicator(rows(BITS));
}

/// X'47' reads the bits of X'48' in the other order.
#[test]
fn bytes_are_reversed() {
    for [name, descriptor, data, answer] in rows(BITS) {
        let (mut descriptor, mut data) = (hex(descriptor), hex(data));
        if descriptor[3] == 0x48 {
            descriptor[3] = 0x47;
            data.reverse();
            assert_block(name, &descriptor, &data, &Answer::parse(answer));
        }
    }
}

/// Descriptor of a nullable item, what the value call gives for a null.
const NULLS: &str = "
0C70B1A3 0000000000000002               | null
0C70B1A3 0000000000000004               | null
0C70B1A3 0000000000000008               | null
0C70B1A4 0000000000000002               | null
0C70B1A4 0000000000000004               | null
0C70B1A4 0000000000000008               | null
0C70B1C0 0000000000000000               | null
0C70B1C0 0000000000000004               | null
0C70B1C0 0000000000000008               | null
0C70B1C0 000000000000FFFF               | null
0C70B1C0 0000000000000010               | refused 18 0
0C70B1C0 0000000000000010 0675C1 B10008 | null
0C70B1C0 0000000000000010 0675C1 B10004 | null
0C70B1C0 0000000000000010 0675C1 B10000 | refused 18 0
0C70B1C0 0000000000000008 0675C1 B10010 | refused 18 0
0C70B1C0 0000000000000000 0675C1 B10010 | refused 18 0
0C70B1C7 0000000000000000               | null
0C70B1C7 0000000000000004               | null
0C70B1C7 0000000000000008               | null
0C70B1C7 0000000100000000               | refused 18 0
0C70B1C7 0000000100000004               | refused 18 0
0C70B1C7 0000000100000008               | refused 18 0
0C70B1C8 0000000000000004               | null
0C70B1C8 0000000000000008               | null
0C70B1C8 0000000000000009               | null
0C70B1C8 0000000000000004 0675C1 B10008 | null
0C70B1C8 0000000100000004 0675C1 B10008 | refused 18 0
0C70B1C8 0000000100000004               | refused 18 0
0C70B1C8 0000000100000008               | refused 18 0
0C70B1C8 000000010000FFFF               | refused 18 0
";

#[test]
fn nulls_go_by_their_field() {
    for [descriptor, answer] in rows(NULLS) {
        for indicator in [0x80, 0x9A, 0xFF] {
            assert_block(descriptor, &hex(descriptor), &[indicator], &Answer::Null);
            assert_asked(descriptor, &hex(descriptor), &[indicator], 0, answer);
        }
    }
}

#[test]
fn a_null_of_a_string_or_a_packed_decimal_is_the_wrong_kind() {
    let is_meant = |sda: &Vec<u8>| matches!(sda[3], 0x81 | 0x82 | 0x83 | 0x87 | 0xB0);
    for sda in every_sda().into_iter().filter(is_meant) {
        let descriptor = [sda, hex("0671A1B10002")].concat();
        assert_asked("null", &descriptor, &[0x80, 0x80], 1, "refused 18 1");
        assert_asked("no item", &descriptor, &[0x80, 0x80], 2, "refused 17 0");
    }
}

const ITEMS: &str = include_str!("value_items.txt");

#[test]
fn items_are_read_as_listed() {
    for [name, descriptor, data, item, answer] in rows(ITEMS) {
        let item = item.parse().expect(name);
        assert_asked(name, &hex(descriptor), &hex(data), item, answer);
    }
}

/// Asserts what the value call gives: `null`, `whole` and a number, `real` and the bits of a
/// float, or `refused` with number and place.
fn assert_asked(name: &str, descriptor: &[u8], data: &[u8], item: u32, answer: &str) {
    let expected = match answer.split_once(' ').unwrap_or((answer, "")) {
        ("null", _) => Ok(Value::Null),
        ("whole", number) => Ok(Value::Whole(number.parse().expect(name))),
        ("real", bits) => Ok(real(u64::from_str_radix(bits, 16).expect(name))),
        ("refused", refusal) => Err(parse_refusal(refusal)),
        _ => panic!("{answer}"),
    };
    assert_eq!(value(descriptor, data, item), expected, "{name}");
}

fn real(bits: u64) -> Value {
    Value::Real(f64::from_bits(bits))
}

#[test]
fn sizes_and_counts_come_first() {
    let float = sda(0xB1, 0x48, 0, 4);
    let rows = [&float[..], &hex("0671A1 B10000")].concat();
    let no_float = [0x7F, 0x80, 0, 0].repeat(8193);
    let full = &no_float[..4 * MAX_ITEMS];
    assert_asked("descriptor", &[0; 4097], full, 0, "refused 1 0");
    assert_asked("data", &rows, &no_float, 0, "refused 1 0");
    assert_asked("rows", &rows, &no_float[..4 * 4097], 0, "refused 10 16384");
    assert_asked("the last row", &rows, full, 4095, "refused 23 16380");
    assert_asked("no row", &rows, full, 4096, "refused 17 0");
}

/// The answer for the one item of a plain type, whose bits are given in the usual order.
fn read(plain: u8, bytes: &[u8]) -> Result<Value, Refusal> {
    let mut bytes = bytes.to_vec();
    if plain == 0x47 {
        bytes.reverse();
    }
    value(&sda(0xB1, plain, 0, bytes.len() as u16), &bytes, 0)
}

/// Every characteristic with a fraction of no bits, of one, of all and of some, with either sign;
/// every pair of bits; and any bits, with some zeros behind them.
fn patterns(characteristic_bits: u32, fraction_bits: u32) -> Vec<u64> {
    let magnitude_bits = characteristic_bits + fraction_bits;
    let ones = (1 << fraction_bits) - 1;
    let mut patterns = Vec::new();
    for high in 0..1 << (characteristic_bits + 1) {
        for low in [0, 1, ones / 3, ones / 2, ones / 2 + 1, ones - 7, ones] {
            patterns.push(high << fraction_bits | low);
        }
    }
    for one in 0..=magnitude_bits {
        patterns.extend((0..=one).map(|other| 1 << one | 1 << other));
    }
    let mut random = Random::new(14);
    for _ in 0..20_000 {
        let zeros = random.below(8);
        patterns.push(random.bits(magnitude_bits + 1) >> zeros << zeros);
    }
    patterns
}

/// A binary float of 8 bytes is the 64-bit float of its bits.
#[test]
fn long_binary_floats_keep_their_bits() {
    for bits in patterns(11, 52) {
        let expected = match f64::from_bits(bits).is_finite() {
            true => Ok(real(bits)),
            false => refused(NO_EXACT_FLOAT, 0),
        };
        for plain in [0x47, 0x48] {
            let answer = read(plain, &bits.to_be_bytes());
            assert_eq!(answer, expected, "X'{plain:X}' {bits:016X}");
        }
    }
}

/// A binary float of 4 bytes is the 32-bit float of its bits.
#[test]
fn short_binary_floats_are_widened() {
    for bits in patterns(8, 23) {
        let short = f32::from_bits(bits as u32);
        let expected = match short.is_finite() {
            true => Ok(Value::Real(short.into())),
            false => refused(NO_EXACT_FLOAT, 0),
        };
        for plain in [0x47, 0x48] {
            let answer = read(plain, &(bits as u32).to_be_bytes());
            assert_eq!(answer, expected, "X'{plain:X}' {bits:08X}");
        }
    }
}

/// A whole number and the power of two that it is multiplied by.
type Product = (u64, i32);

/// The magnitude of a normal 64-bit float.
fn magnitude(float: f64) -> Product {
    let characteristic = float.to_bits() >> 52 & 0x7FF;
    assert_ne!(characteristic, 0, "{float:e}");
    let fraction = float.to_bits() & ((1 << 52) - 1);
    (1 << 52 | fraction, characteristic as i32 - 1023 - 52)
}

/// Whether two products above 0 are equal, as whole numbers times the lower power of two.
fn are_equal(one: Product, other: Product) -> bool {
    let lower = one.1.min(other.1);
    let whole = |(number, power): Product| match power - lower {
        shift @ 0..=64 => Some(u128::from(number) << shift),
        _ => None,
    };
    whole(one).is_some() && whole(one) == whole(other)
}

/// A hexadecimal float of 4 or 8 bytes is its digits as a whole number, times a power of 16. If
/// rounding changes that whole number, no 64-bit float is equal to it.
#[test]
fn hexadecimal_floats_are_equal_or_refused() {
    for digits in [6, 14] {
        for bits in patterns(7, 4 * digits) {
            let answer = read(0x40, &bits.to_be_bytes()[7 - digits as usize / 2..]);
            let fraction = bits & ((1 << (4 * digits)) - 1);
            if fraction as f64 as u64 == fraction {
                assert_hexadecimal(bits, digits, fraction, answer);
            } else {
                assert_eq!(answer, refused(NO_EXACT_FLOAT, 0), "{bits:X}");
            }
        }
    }
}

fn assert_hexadecimal(bits: u64, digits: u32, fraction: u64, answer: Result<Value, Refusal>) {
    let Ok(Value::Real(float)) = answer else {
        panic!("{bits:X}: {answer:?}");
    };
    let sign_and_characteristic = bits >> (4 * digits);
    let is_negative = sign_and_characteristic >= 128;
    assert_eq!(float.is_sign_negative(), is_negative, "{bits:X}");
    if fraction == 0 {
        assert_eq!(float, 0.0, "{bits:X}");
        return;
    }
    let exponent = (sign_and_characteristic % 128) as i32 - 64 - digits as i32;
    let expected = (fraction, 4 * exponent);
    assert!(are_equal(magnitude(float), expected), "{bits:X}: {float:e}");
}
