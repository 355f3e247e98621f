//! The examples of the scope paper, and the standard's figures 3-4 to 3-8.

use reader::*;

use crate::support::{
    assert_behind_indicator, assert_block, assert_blocks, assert_check, every_sda, hex,
    is_nullable, refused, rows, sda, Answer,
};

const BLOCKS: &str = include_str!("example_blocks.txt");

#[test]
fn blocks_of_one_item() {
    assert_blocks(rows(BLOCKS));
}

#[test]
fn blocks_of_one_nullable_item() {
    assert_behind_indicator(rows(BLOCKS));
}

#[test]
fn a_null_is_its_indicator_alone() {
    let surplus = Answer::parse("refused 16 1");
    let missing = Answer::parse("refused 13 0");
    for sda in every_sda().iter().filter(|sda| is_nullable(sda)) {
        for indicator in [0x80, 0xFF] {
            assert_block("null", sda, &[indicator], &Answer::Null);
            assert_block("surplus", sda, &[indicator, 0], &surplus);
        }
        assert_block("no indicator", sda, &[], &missing);
    }
}

#[test]
fn a_null_whole_number_is_zero_with_its_mark() {
    for type_code in [0xA3, 0xA4] {
        let descriptor = sda(0xB1, type_code, 0, 8);
        let null = Whole {
            is_null: true,
            value: 0,
        };
        assert_eq!(whole_number(&descriptor, &[0x80], 0), Ok(null));
    }
}

#[test]
fn a_null_of_another_type_is_the_wrong_kind() {
    let nullable = every_sda().into_iter().filter(|sda| is_nullable(sda));
    for sda in nullable.filter(|sda| !matches!(sda[3], 0xA3 | 0xA4)) {
        let descriptor = [sda, hex("0671A1B10002")].concat();
        let whole = |item| whole_number(&descriptor, &[0x80, 0x80], item);
        assert_eq!(whole(1), refused(WRONG_KIND, 1));
        assert_eq!(whole(2), refused(NO_SUCH_ITEM, 0));
    }
}

/// Name, what follows any SDA of id B1 without extents, answer of the check.
const AFTER_SDA: &str = "
alone        |                           | items 1
R            | 0671A1B10002              | items 2
repetition 0 | 0671A1B10000 0671A2B10001 | refused 9 12
64 times 64  | 0671A1B10040 0671A2A10040 | items 4096
65 times 64  | 0671A1B10040 0671A2A10041 | refused 10 18
";

#[test]
fn descriptors_after_every_sda() {
    for sda in every_sda() {
        for [name, rest, answer] in rows(AFTER_SDA) {
            assert_check(name, &[&sda[..], &hex(rest)].concat(), answer);
        }
    }
}

#[test]
fn descriptors_without_an_sda() {
    assert_check("empty", &[], "refused 11 0");
    assert_check("itself", &hex("0671A1A10001"), "refused 8 0");
    for data in ["", "00"] {
        let nothing = Answer::parse("refused 11 0");
        assert_block("empty", &[], &hex(data), &nothing);
    }
}

#[test]
fn the_dump_block() {
    let descriptor = hex("0C70B181 0000000000000003 0671A1B10002");
    let data = hex("0061626380");
    let mut entries = [9; 8];
    assert_eq!(list(&descriptor, &data, &mut entries), Ok(()));
    assert_eq!(entries, [2, 5, 0, 4, 177, 177, 9, 9]);
    for (item, is_null, value) in [(0, false, &b"abc"[..]), (1, true, b"")] {
        let expected = State {
            is_null,
            type_code: 129,
            lead: 1,
            value: value.len() as u32,
            spare: 0,
        };
        assert_eq!(state(&descriptor, &data, item), Ok(expected));
        assert_eq!(lend(&descriptor, &data, item), value);
    }
    assert_eq!(state(&descriptor, &data, 2), refused(NO_SUCH_ITEM, 0));
    for (data, answer) in [
        ("00616263", "refused 13 4"),
        ("006162638000", "refused 16 5"),
    ] {
        assert_block(data, &descriptor, &hex(data), &Answer::parse(answer));
    }
}

/// A figure: its descriptor with the fields made X'01' of the shown widths, data
/// that fits, the items in runs of id, length and count, and the number of items
/// and bytes that the papers name.
struct Figure {
    name: &'static str,
    descriptor: &'static str,
    data: &'static str,
    runs: &'static [(u32, u32, usize)],
    size: (u32, usize),
}

const FIGURES: [Figure; 5] = [
    Figure {
        name: "3-4",
        descriptor: "1270B101 0000000000000001 0002 0003 0002",
        data: "abcdefghijkl",
        runs: &[(0xB1, 1, 12)],
        size: (12, 12),
    },
    Figure {
        name: "3-5",
        descriptor: "1070B101 0000000000000003 0004 000B",
        data: "123756111776456711476008234800234765274000278234070237111856181456\
               123457711477456117456711486118476765234070238734000734070238000838",
        runs: &[(0xB1, 3, 44)],
        size: (44, 132),
    },
    Figure {
        name: "3-6",
        descriptor: "0C70B101 0000000000000003 0E70B201 0000000000000001 0009 \
                     0C71A1 B10004 B20401 B20A02 0671A2 A10002",
        data: "123456111476TEX2TEXXXXXXXXXXXXXXXXXX765234000238TEX5TEXXXXXXXXXXXXXXXXXX",
        runs: &[(0xB1, 3, 4), (0xB2, 1, 24), (0xB1, 3, 4), (0xB2, 1, 24)],
        size: (56, 72),
    },
    Figure {
        name: "3-7",
        descriptor: "0E70B101 0000000000000004 0007 0C71A1 B10801 B10501 B10703",
        data: "77451229194723451235568139471234\
               23711257127856811257\
               2375123729472345153756814947\
               6814123712471234423754815947\
               5437568123451237568119476234",
        runs: &[(0xB1, 4, 34)],
        size: (34, 136),
    },
    Figure {
        name: "3-8",
        descriptor: "0E70B101 0000000000000001 0003 0971A1 B10101 B10001 \
                     0971A2 B10001 B10401 0971A3 B10201 B10001 0671A4 B10002 \
                     0C71A5 A10001 A20001 A30001 0671A6 A40003 0971A7 A50001 A60001",
        data: "abbbcccddddeefffggghhhiiijjjkkklll",
        runs: &[(0xB1, 1, 34)],
        size: (34, 34),
    },
];

#[test]
fn figures_have_their_sizes() {
    for figure in FIGURES {
        let count = check(&hex(figure.descriptor));
        assert_eq!(count, Ok(figure.size.0), "{}", figure.name);
        assert_eq!(figure.data.len(), figure.size.1, "{}", figure.name);
    }
}

#[test]
fn figures_are_walked() {
    for figure in FIGURES {
        let (descriptor, data) = (hex(figure.descriptor), figure.data.as_bytes());
        let (mut starts, mut ids, mut position) = (Vec::new(), Vec::new(), 0);
        for &(id, length, count) in figure.runs {
            for item in (starts.len() as u32..).take(count) {
                let end = position + length;
                let value = &data[position as usize..end as usize];
                assert_eq!(lend(&descriptor, data, item), value, "{}", figure.name);
                starts.push(position);
                ids.push(id);
                position = end;
            }
        }
        let expected = [vec![starts.len() as u32, position], starts, ids].concat();
        let mut entries = vec![0; expected.len()];
        assert_eq!(list(&descriptor, data, &mut entries), Ok(()));
        assert_eq!(entries, expected, "{}", figure.name);
    }
}

#[test]
fn figures_refuse_a_byte_less_or_more() {
    for figure in FIGURES {
        let (descriptor, data) = (hex(figure.descriptor), figure.data.as_bytes());
        let last = figure.runs[figure.runs.len() - 1].1 as usize;
        let cut = format!("refused 13 {}", data.len() - last);
        let surplus = format!("refused 16 {}", data.len());
        let (shorter, longer) = (&data[..data.len() - 1], [data, b"X"].concat());
        assert_block(figure.name, &descriptor, shorter, &Answer::parse(&cut));
        assert_block(figure.name, &descriptor, &longer, &Answer::parse(&surplus));
    }
}

#[test]
fn the_data_printed_with_figure_3_6_is_short() {
    let printed = b"123456111476TEX2TEXXXXXXXXXXXXXXXX765234000238TEX5TEXXXXXXXXXXXXXXXX";
    assert_eq!(printed.len(), 68);
    let descriptor = hex(FIGURES[2].descriptor);
    let cut = Answer::parse("refused 13 68");
    assert_block("3-6", &descriptor, printed, &cut);
}
