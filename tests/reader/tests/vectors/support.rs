//! What the tests share: tables of vectors, and the assertions that one row of a
//! table stands for.

use reader::*;

/// The rows of a table whose columns are divided by bars; `#` begins a comment line.
pub fn rows<const N: usize>(table: &str) -> Vec<[&str; N]> {
    table
        .lines()
        .filter(|line| !line.trim().is_empty() && !line.starts_with('#'))
        .map(|line| {
            let columns: Vec<&str> = line.split('|').map(str::trim).collect();
            columns.try_into().expect(line)
        })
        .collect()
}

/// The bytes of a hexadecimal string; blanks are passed over.
pub fn hex(text: &str) -> Vec<u8> {
    let digits: Vec<u32> = text
        .split_whitespace()
        .flat_map(str::chars)
        .map(|digit| digit.to_digit(16).expect(text))
        .collect();
    digits
        .chunks(2)
        .map(|pair| (pair[0] << 4 | pair[1]) as u8)
        .collect()
}

/// What a row says of item 0, or why the block is refused.
#[derive(Clone, Debug)]
pub enum Answer {
    Refused(Refusal),
    Null,
    Length(usize),
    /// The lengths of lead, value and spare.
    Parts([usize; 3]),
    Value(Vec<u8>),
    Whole(i64),
    /// A packed decimal's value and fraction digits.
    Packed(i64, u32),
    /// A packed decimal of a half-byte that is not valid.
    BadDigit,
    /// The bits of a float's value.
    Real(u64),
    /// A float that no 64-bit float is equal to.
    NoFloat,
    /// No whole number and no float that is read.
    WrongKind,
}

impl Answer {
    pub fn parse(text: &str) -> Answer {
        let (word, rest) = text.split_once(' ').unwrap_or((text, ""));
        match word {
            "refused" => Answer::Refused(parse_refusal(rest)),
            "null" => Answer::Null,
            "length" => Answer::Length(rest.parse().expect(text)),
            "parts" => Answer::Parts(parse_parts(rest)),
            "value" => Answer::Value(hex(rest)),
            "whole" => Answer::Whole(rest.parse().expect(text)),
            "packed" => {
                let (value, fraction_digits) = rest.split_once(' ').expect(text);
                Answer::Packed(
                    value.parse().expect(text),
                    fraction_digits.parse().expect(text),
                )
            }
            "bad" => Answer::BadDigit,
            "real" => Answer::Real(u64::from_str_radix(rest, 16).expect(text)),
            "no" => Answer::NoFloat,
            "wrong" => Answer::WrongKind,
            _ => panic!("{text}"),
        }
    }

    /// The answer when a null indicator comes before a plain item at place 0.
    pub fn after_indicator(self) -> Answer {
        match self {
            Answer::Refused(refusal) if refusal.number == SURPLUS => Answer::Refused(Refusal {
                place: refusal.place + 1,
                ..refusal
            }),
            Answer::Parts([lead, value, spare]) => Answer::Parts([lead + 1, value, spare]),
            other => other,
        }
    }
}

/// A number and a place, one space apart.
pub fn parse_refusal(text: &str) -> Refusal {
    let (number, place) = text.split_once(' ').expect(text);
    Refusal {
        number: number.parse().expect(text),
        place: place.parse().expect(text),
    }
}

/// Three lengths, one space apart.
fn parse_parts(text: &str) -> [usize; 3] {
    let lengths = text.split(' ').map(|length| length.parse().expect(text));
    let lengths: Vec<usize> = lengths.collect();
    lengths.try_into().expect(text)
}

/// The lengths of an item's lead, value and spare.
pub fn lengths(state: &State) -> [usize; 3] {
    [state.lead, state.value, state.spare].map(|length| length as usize)
}

pub fn refused<T>(number: u32, place: u32) -> Result<T, Refusal> {
    Err(Refusal { number, place })
}

/// Whether the first SDA's type is nullable.
pub fn is_nullable(descriptor: &[u8]) -> bool {
    descriptor[3] & 0x80 != 0
}

/// An SDA without extents.
pub fn sda(id: u8, type_code: u8, mode: u8, field_length: u16) -> Vec<u8> {
    let [high, low] = field_length.to_be_bytes();
    vec![12, 0x70, id, type_code, 0, 0, 0, 0, 0, mode, high, low]
}

/// An SDA of id B1 for every type code that has a rule, with each mode and with
/// field lengths at the ends of their range.
pub fn every_sda() -> Vec<Vec<u8>> {
    let types: [(&[u8], u8, &[u16]); 7] = [
        (&[0x01], 0, &[0, 1, 32_767]),
        (&[0x02, 0x03], 1, &[0, 1, 32_767]),
        (&[0x07], 1, &[0, 1, 255]),
        (&[0x23, 0x24], 0, &[2, 4, 8]),
        (&[0x30], 0, &[0x0100, 0x0101, 0x1200, 0x1212]),
        (&[0x40], 0, &[0, 4, 8, 16, 65_535]),
        (&[0x47, 0x48], 0, &[0, 4, 8, 65_535]),
    ];
    let mut sdas = Vec::new();
    for (type_codes, highest_mode, lengths) in types {
        for &type_code in type_codes {
            for mode in 0..=highest_mode {
                for &length in lengths {
                    sdas.push(sda(0xB1, type_code, mode, length));
                    sdas.push(sda(0xB1, type_code | 0x80, mode, length));
                }
            }
        }
    }
    sdas
}

/// Asserts what the check gives: `items` and a count, or `refused` with number
/// and place.
pub fn assert_check(name: &str, descriptor: &[u8], answer: &str) {
    let expected = match answer.split_once(' ') {
        Some(("items", count)) => Ok(count.parse().expect(answer)),
        Some(("refused", refusal)) => Err(parse_refusal(refusal)),
        _ => panic!("{answer}"),
    };
    assert_eq!(check(descriptor), expected, "{name}");
}

/// Asserts the check of descriptors that begin with an SDA, of its type and of the
/// nullable form alike.
pub fn assert_both_forms(rows: Vec<[&str; 3]>) {
    for [name, descriptor, answer] in rows {
        let mut descriptor = hex(descriptor);
        assert_check(name, &descriptor, answer);
        descriptor[3] |= 0x80;
        assert_check(name, &descriptor, answer);
    }
}

/// Name, descriptor, data, answer for item 0.
pub type BlockRow<'t> = [&'t str; 4];

pub fn assert_blocks<'t>(rows: impl IntoIterator<Item = BlockRow<'t>>) {
    for [name, descriptor, data, answer] in rows {
        assert_block(name, &hex(descriptor), &hex(data), &Answer::parse(answer));
    }
}

/// Asserts blocks of one plain item with the item made nullable, behind an indicator, good and bad.
pub fn assert_behind_indicator<'t>(rows: impl IntoIterator<Item = BlockRow<'t>>) {
    for [name, descriptor, data, answer] in rows {
        assert_nullable(name, &hex(descriptor), &hex(data), Answer::parse(answer));
    }
}

/// Asserts a block of one plain item with the item made nullable, behind an indicator, good and
/// bad. A refused descriptor comes before both.
pub fn assert_nullable(name: &str, plain: &[u8], data: &[u8], answer: Answer) {
    assert!(!is_nullable(plain), "{name}");
    let mut descriptor = plain.to_vec();
    descriptor[3] |= 0x80;
    let answer = answer.after_indicator();
    let bad = match check(&descriptor) {
        Ok(_) => Answer::parse("refused 24 0"),
        Err(_) => answer.clone(),
    };
    for (indicator, answer) in [(0x00, &answer), (0x01, &bad), (0x7F, &bad)] {
        let data = [&[indicator], data].concat();
        assert_block(name, &descriptor, &data, answer);
    }
}

/// Asserts what all calls with data give for item 0 of a block whose descriptor
/// begins with the item's SDA.
pub fn assert_block(name: &str, descriptor: &[u8], data: &[u8], answer: &Answer) {
    match answer {
        Answer::Refused(refusal) => assert_refused(name, descriptor, data, *refusal),
        _ => assert_item(name, descriptor, data, answer),
    }
}

/// Asserts that every call with data refuses a block, whatever item is asked.
fn assert_refused(name: &str, descriptor: &[u8], data: &[u8], refusal: Refusal) {
    let count = check(descriptor).unwrap_or(0);
    let before: Vec<u32> = (1000..1010 + 2 * count).collect();
    let mut entries = before.clone();
    assert_eq!(list(descriptor, data, &mut entries), Err(refusal), "{name}");
    assert_eq!(entries, before, "{name}: the list");
    for item in [0, 1, 70_000, u32::MAX] {
        assert_eq!(state(descriptor, data, item), Err(refusal), "{name}");
        assert_eq!(state_numbers(descriptor, data, item), [0; 5], "{name}");
        assert_eq!(whole_number(descriptor, data, item), Err(refusal), "{name}");
        assert_eq!(packed(descriptor, data, item), Err(refusal), "{name}");
        assert_eq!(value(descriptor, data, item), Err(refusal), "{name}");
        assert!(lend(descriptor, data, item).is_empty(), "{name}");
    }
}

fn assert_item(name: &str, descriptor: &[u8], data: &[u8], answer: &Answer) {
    let state = state(descriptor, data, 0).expect(name);
    let parts = lengths(&state);
    let lent = lend(descriptor, data, 0);
    assert_lent(name, lent, data, parts);
    assert_eq!(state.type_code, descriptor[3], "{name}");
    assert_eq!(state.is_null, matches!(answer, Answer::Null), "{name}");
    match answer {
        Answer::Length(length) => assert_eq!(lent.len(), *length, "{name}"),
        Answer::Parts(expected) => assert_eq!(parts, *expected, "{name}"),
        Answer::Value(value) => assert_eq!(lent[..], value[..], "{name}"),
        Answer::Null => assert_eq!(parts, [1, 0, 0], "{name}"),
        _ => assert_number(name, descriptor, data, answer),
    }
    assert_wrong_kinds(name, descriptor, data, 0, descriptor[3], 0);
    let mut entries = [u32::MAX; 5];
    if check(descriptor) == Ok(1) {
        let id = unfold(descriptor).expect(name).fields[0].id();
        assert_eq!(list(descriptor, data, &mut entries), Ok(()), "{name}");
        let expected = [1, data.len() as u32, 0, id.into(), u32::MAX];
        assert_eq!(entries, expected, "{name}");
        assert_eq!(parts.iter().sum::<usize>(), data.len(), "{name}");
    }
}

/// Asserts what the value calls give for item 0, which is no null.
fn assert_number(name: &str, descriptor: &[u8], data: &[u8], answer: &Answer) {
    let whole = whole_number(descriptor, data, 0);
    let packed = packed(descriptor, data, 0);
    let value = value(descriptor, data, 0);
    match *answer {
        Answer::Whole(number) => {
            let expected = Whole {
                is_null: false,
                value: number,
            };
            assert_eq!(whole, Ok(expected), "{name}");
            assert_eq!(value, Ok(Value::Whole(number)), "{name}");
        }
        Answer::Packed(number, fraction_digits) => {
            let expected = Packed {
                is_null: false,
                value: number,
                fraction_digits,
            };
            assert_eq!(packed, Ok(expected), "{name}");
        }
        Answer::BadDigit => assert_eq!(packed, refused(BAD_DIGIT, 0), "{name}"),
        Answer::Real(bits) => {
            let expected = Value::Real(f64::from_bits(bits));
            assert_eq!(value, Ok(expected), "{name}");
        }
        Answer::NoFloat => assert_eq!(value, refused(NO_EXACT_FLOAT, 0), "{name}"),
        Answer::WrongKind => assert_eq!(value, refused(WRONG_KIND, 0), "{name}"),
        _ => unreachable!("{name}"),
    }
}

/// Asserts that a value is lent from behind the lead of an item at the front of some bytes.
pub fn assert_lent(name: &str, lent: &[u8], bytes: &[u8], [lead, value, _]: [usize; 3]) {
    let part = &bytes[lead..lead + value];
    assert_eq!(lent.as_ptr_range(), part.as_ptr_range(), "{name}");
}

/// Asserts that the value calls refuse an item at its start, but for those of its type.
pub fn assert_wrong_kinds(
    name: &str,
    descriptor: &[u8],
    data: &[u8],
    item: u32,
    type_code: u8,
    start: u32,
) {
    let plain = type_code & 0x7F;
    if !matches!(plain, 0x23 | 0x24) {
        let answer = whole_number(descriptor, data, item);
        assert_eq!(answer, refused(WRONG_KIND, start), "{name}");
    }
    if plain != 0x30 {
        let answer = packed(descriptor, data, item);
        assert_eq!(answer, refused(WRONG_KIND, start), "{name}");
    }
    if matches!(plain, 0x01 | 0x02 | 0x03 | 0x07 | 0x30) {
        let answer = value(descriptor, data, item);
        assert_eq!(answer, refused(WRONG_KIND, start), "{name}");
    }
}
