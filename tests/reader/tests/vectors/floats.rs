//! Floats: the field lengths that give way to the type's default, and the items that
//! they then have.

use reader::*;

use crate::cuts::assert_cuts;
use crate::support::{assert_block, assert_both_forms, assert_nullable, hex, rows, sda, Answer};

const DESCRIPTORS: &str = include_str!("float_descriptors.txt");
const ROWS: &str = include_str!("float_rows.txt");

#[test]
fn parameters_are_judged_as_listed() {
    assert_both_forms(rows(DESCRIPTORS));
}

/// Plain type, field lengths, answer for the one item.
const LENGTHS: &str = "
40 | 0004                                                             | length 4
40 | 0000 0001 0003 0005 0007 0008 0009 000F 0011 0020 7FFF 8000 FFFF | length 8
40 | 0010                                                             | length 16
47 | 0000 0001 0003 0004 0005 0007 0009 000F 0011 0020 7FFF 8000 FFFF | length 4
47 | 0008                                                             | length 8
47 | 0010                                                             | refused 6 0
48 | 0000 0001 0003 0004 0005 0007 0009 000F 0011 0020 7FFF 8000 FFFF | length 4
48 | 0008                                                             | length 8
48 | 0010                                                             | refused 6 0
";

/// The SDAs of the listed lengths, each with its answer.
fn listed() -> Vec<(Vec<u8>, Answer)> {
    let mut listed = Vec::new();
    for [plain, lengths, answer] in rows(LENGTHS) {
        for length in lengths.split_whitespace() {
            let sda = hex(&format!("0C70B1{plain} 000000000000{length}"));
            listed.push((sda, Answer::parse(answer)));
        }
    }
    listed
}

#[test]
fn items_have_the_listed_lengths() {
    let data: Vec<u8> = (1..=17).collect();
    for (sda, answer) in listed() {
        let Answer::Length(length) = answer else {
            for size in [0, 4, 8, 16] {
                assert_plain_and_nullable(&sda, &data[..size], &answer);
            }
            continue;
        };
        let cut = Answer::parse("refused 13 0");
        let value = Answer::Value(data[..length].to_vec());
        let surplus = Answer::parse(&format!("refused 16 {length}"));
        assert_plain_and_nullable(&sda, &data[..length - 1], &cut);
        assert_plain_and_nullable(&sda, &data[..length], &value);
        assert_plain_and_nullable(&sda, &data[..length + 1], &surplus);
    }
}

#[test]
fn nulls_are_one_byte_and_refusals_stand() {
    for (mut sda, answer) in listed() {
        let null = match answer {
            Answer::Length(_) => Answer::Null,
            refused => refused,
        };
        sda[3] |= 0x80;
        assert_block(&format!("{sda:02X?}"), &sda, &[0x80], &null);
    }
}

#[test]
fn every_other_length_gives_way() {
    for (plain, default) in [(0x40, 8), (0x47, 4), (0x48, 4)] {
        let data = vec![0x42; default];
        let value = Answer::Value(data.clone());
        for length in (0..=u16::MAX).filter(|length| !matches!(length, 4 | 8 | 16)) {
            assert_plain_and_nullable(&sda(0xB1, plain, 0, length), &data, &value);
        }
    }
}

fn assert_plain_and_nullable(sda: &[u8], data: &[u8], answer: &Answer) {
    let name = format!("{sda:02X?}");
    assert_block(&name, sda, data, answer);
    assert_nullable(&name, sda, data, answer.clone());
}

#[test]
fn rows_are_cut_as_listed() {
    assert_cuts(ROWS);
}

/// 4,096 floats of 8 bytes are as long as a data block may be.
#[test]
fn the_longest_block_of_zero_parameters() {
    let descriptor = hex("0E70B140 0000000000000000 1000");
    let data = vec![0x41; MAX_DATA + 1];
    let rows = [
        (32_767, "refused 13 32760"),
        (32_768, "length 8"),
        (32_769, "refused 1 0"),
    ];
    for (length, answer) in rows {
        assert_block(answer, &descriptor, &data[..length], &Answer::parse(answer));
    }
    let last = lend(&descriptor, &data[..MAX_DATA], 4095);
    assert_eq!(last.as_ptr_range(), data[32_760..32_768].as_ptr_range());
}
