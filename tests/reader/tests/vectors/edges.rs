//! Edge cases of the descriptor check and of one-item blocks.

use crate::support::{
    assert_behind_indicator, assert_blocks, assert_check, hex, is_nullable, rows, BlockRow,
};

const DESCRIPTORS: &str = include_str!("edge_descriptors.txt");
const BLOCKS: &str = include_str!("edge_blocks.txt");

#[test]
fn descriptors_are_judged_as_listed() {
    for [name, descriptor, answer] in rows(DESCRIPTORS) {
        assert_check(name, &hex(descriptor), answer);
    }
}

#[test]
fn blocks_are_judged_as_listed() {
    assert_blocks(rows(BLOCKS));
}

#[test]
fn an_indicator_may_come_before_the_item() {
    let is_plain = |[_, descriptor, _, _]: &BlockRow| !is_nullable(&hex(descriptor));
    assert_behind_indicator(rows(BLOCKS).into_iter().filter(is_plain));
}
