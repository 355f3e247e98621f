//! Null indicators: those of values and of nulls, and bad ones, of every nullable type, with bytes
//! behind them and without; and bad ones among the other refusals.

use super::{behind_a_byte, case, file};
use crate::descriptor::{GDA, RLO};
use crate::generate::structured::{plain_parameters, sda_of, with_groups};
use crate::generate::Case;

/// A value's indicator, bad ones, and those of nulls.
const INDICATORS: [u8; 7] = [0, 1, 0x40, 0x7F, 0x80, 0x81, 0xFF];

const BAD: [u8; 3] = [1, 0x40, 0x7F];

/// Type code, mode, field length or digits, and the bytes of a value behind the indicator.
const ITEMS: [(u8, u8, u16, &[u8]); 14] = [
    (0x81, 0, 0, &[]),
    (0x81, 0, 2, &[0x41, 0x42]),
    (0x82, 0, 3, &[0, 1, 0x41, 0x42, 0x43]),
    (0x82, 1, 0, &[0, 1, 0x41]),
    (0x83, 0, 2, &[0x41, 0, 0x42]),
    (0x83, 1, 0, &[0x41, 0]),
    (0x87, 0, 2, &[1, 0x41, 0x42]),
    (0x87, 1, 0, &[1, 0x41]),
    (0xA3, 0, 2, &[0xFF, 0xFE]),
    (0xA4, 0, 4, &[0xFE, 0xFF, 0xFF, 0xFF]),
    (0xB0, 0, 0x0301, &[0x12, 0x3C]),
    (0xC0, 0, 4, &[0x41, 0x10, 0, 0]),
    (0xC7, 0, 0, &[0, 0, 0x80, 0x3F]),
    (0xC8, 0, 8, &[0x3F, 0xF0, 0, 0, 0, 0, 0, 0]),
];

pub(super) fn blocks() -> Vec<Case> {
    [items(), before_others(), pairs(), columns(), rows()].concat()
}

/// Rows of nulls with a bad indicator behind 4,095 of them, and behind 4,096.
pub(super) fn counts() -> Vec<Case> {
    let sda = sda_of(1, 0x81, plain_parameters(0, 1), &[]);
    let rows = [sda, with_groups(RLO, 2, &[[1, 0, 0]])].concat();
    [4095, 4096]
        .map(|nulls| {
            let mut data = vec![0x80; nulls];
            data.push(0x7F);
            case(&rows, &data, 2, 0)
        })
        .to_vec()
}

/// A pair whose second indicator is bad, and rows of pairs whose last one is.
pub(super) fn files() -> Vec<Vec<u8>> {
    let rows = with_groups(RLO, 4, &[[3, 0, 0]]);
    vec![
        file(&pair(), &[0, 9, 0x7F, 0x80, 0]),
        file(&[pair(), rows].concat(), &[0x80, 0x80, 0, 9, 1]),
    ]
}

/// Each item behind a byte, with each indicator: whole, and the indicator alone.
fn items() -> Vec<Case> {
    let mut cases = Vec::new();
    for (code, mode, size, value) in ITEMS {
        let descriptor = behind_a_byte(sda_of(2, code, plain_parameters(mode, size), &[]));
        for indicator in INDICATORS {
            cases.push(case(&descriptor, &[5, indicator], 6, 1));
            if !value.is_empty() {
                let item = [&[5, indicator], value].concat();
                cases.push(case(&descriptor, &item, 6, 1));
            }
        }
    }
    cases
}

/// Items that are refused behind a good indicator, behind bad ones; with a list that has room and
/// one that has none.
fn before_others() -> Vec<Case> {
    let values: [(u8, &[u8]); 9] = [
        (0x82, &[0]),
        (0x82, &[0, 4]),
        (0x82, &[0x80, 0]),
        (0x82, &[0, 1, 0x41]),
        (0x83, &[0x41, 0]),
        (0x83, &[0x41, 0x42, 0x43, 0x44]),
        (0x87, &[4]),
        (0x87, &[1, 0x41]),
        (0x81, &[0x41, 0x42, 0x43, 0x44]),
    ];
    let mut cases = Vec::new();
    for (code, value) in values {
        let descriptor = behind_a_byte(sda_of(2, code, plain_parameters(0, 3), &[]));
        for indicator in [0, 1, 0x7F] {
            let data = [&[5, indicator], value].concat();
            cases.push(case(&descriptor, &data, 6, 1));
            cases.push(case(&descriptor, &data, 5, 0));
        }
    }
    cases
}

/// A row of a byte and a whole number, both nullable.
fn pair() -> Vec<u8> {
    [
        sda_of(1, 0x81, plain_parameters(0, 1), &[]),
        sda_of(2, 0xA3, plain_parameters(0, 2), &[]),
        with_groups(RLO, 3, &[[1, 0, 1], [2, 0, 1]]),
    ]
    .concat()
}

/// Pairs with a bad indicator in either item, cut at each byte and continued, with each item asked.
fn pairs() -> Vec<Case> {
    let blocks = [
        [0x7F, 9, 0, 0x80, 0, 0],
        [0, 9, 0x7F, 0x80, 0, 0],
        [0x80, 0x01, 0x80, 0, 0, 0],
    ];
    let mut cases = Vec::new();
    for data in blocks {
        for length in 1..=data.len() {
            cases.push(case(&pair(), &data[..length], 6, 0));
        }
        for item in 0..=3 {
            cases.push(case(&pair(), &data[..5], 6, item));
        }
    }
    cases
}

/// Columns with lengths put in and kept: good, and with a bad indicator in each of them.
fn columns() -> Vec<Case> {
    let descriptor = [
        sda_of(1, 0xA4, plain_parameters(0, 2), &[]),
        sda_of(2, 0x87, plain_parameters(0, 5), &[]),
        with_groups(GDA, 3, &[[1, 0, 4], [2, 0, 1], [1, 0, 0]]),
    ]
    .concat();
    let good = [0, 1, 0, 0, 0, 0, 1, 0x41, 0, 2, 0];
    let mut cases = vec![case(&descriptor, &good, 8, 0)];
    for start in [0, 5, 8] {
        for indicator in BAD {
            let mut data = good;
            data[start] = indicator;
            cases.push(case(&descriptor, &data, 8, 0));
        }
    }
    cases
}

/// Two passes of pairs behind a field, with a bad indicator in each item; with a list that has room
/// and one that has none, and items of the block and past it.
fn rows() -> Vec<Case> {
    let good = [0x80, 0, 9, 0, 0x80, 0, 0x80, 0, 7, 7];
    let rows = with_groups(RLO, 4, &[[1, 0, 1], [3, 0, 0]]);
    let descriptor = [pair(), rows].concat();
    let mut cases = vec![case(&descriptor, &good, 12, 4)];
    for start in [0, 1, 3, 6, 7] {
        for indicator in BAD {
            let mut data = good;
            data[start] = indicator;
            for (list, item) in [(12, 0), (12, 9), (0, 4)] {
                cases.push(case(&descriptor, &data, list, item));
            }
        }
    }
    cases
}
