//! Items within a few bytes of the data's end: of every type, mode and length, good and spoiled, in
//! arrays, in rows, in a group triplet's rows and in rows to the end.

use std::iter;

use differential::triplets::{column, layout, row, sda, Group};
use reader::{unfold, Field, MAX_DATA};

use super::parts;
use crate::compare::Comparison;

/// How many bytes the data may lack, and may have left over.
const MOST_CUT: usize = 20;
const MOST_LEFT: usize = 4;

/// More items than the plan of a short block has room for.
const MANY: usize = 130;

/// Ids: the field that is tried, fields that have one byte each, and a row.
const FIELD: u8 = 1;
const BYTE: u8 = 2;
const NULL: u8 = 3;
const EMPTY: u8 = 4;
const ROW: u8 = 5;

/// The fields behind the one that is tried, and their items.
const BEHIND: [(u8, u8); 3] = [(NULL, 0x80), (EMPTY, 0), (BYTE, 7)];

/// A field that is tried.
struct Tried {
    type_code: u8,
    mode: u8,
    size: u16,
    field: Field,
}

impl Tried {
    fn new((type_code, mode, size): (u8, u8, u16)) -> Tried {
        let sda = sda(FIELD, type_code, mode, size, &[]);
        let field = unfold(&sda).expect("a valid descriptor").fields[0];
        Tried {
            type_code,
            mode,
            size,
            field,
        }
    }

    fn sda(&self, extents: &[u16]) -> Vec<u8> {
        sda(FIELD, self.type_code, self.mode, self.size, extents)
    }

    /// The field, and those of one byte.
    fn sdas(&self) -> Vec<u8> {
        [self.sda(&[]), one_byte()].concat()
    }

    /// The same, but the size is put in as a column's.
    fn sdas_for_columns(&self) -> Vec<u8> {
        let own = match self.field.plain_type() {
            _ if self.size == 0 => 0,
            0x30 => 0x0402,
            _ => 4,
        };
        let sda = sda(FIELD, self.type_code, self.mode, own, &[]);
        [sda, one_byte()].concat()
    }

    fn is_string(&self) -> bool {
        matches!(self.field.plain_type(), 0x02 | 0x03 | 0x07)
    }

    /// The item of a value of this length, with its reserved space filled up.
    fn item(&self, length: usize, fill: u8) -> Vec<u8> {
        parts::item(&self.field, length, fill).parts.concat()
    }

    /// A good item that is no null.
    fn good(&self) -> Vec<u8> {
        match self.field.field_length() {
            0 if self.is_string() => self.item(6, 0),
            longest => self.item(longest, 0),
        }
    }

    fn short(&self) -> Vec<u8> {
        match self.is_string() {
            _ if self.field.is_nullable() => vec![0x80],
            true => self.item(0, 0),
            false => self.good(),
        }
    }

    /// Good items and spoiled ones.
    fn items(&self) -> Vec<Vec<u8>> {
        let longest = self.field.field_length();
        let mut items: Vec<Vec<u8>> = match (self.is_string(), longest) {
            (true, 0) => [0, 1, 6, 18].map(|length| self.item(length, 0)).to_vec(),
            (true, _) => [0, longest / 2, longest]
                .iter()
                .flat_map(|&length| [0, 0x42].map(|fill| self.item(length, fill)))
                .collect(),
            _ => vec![self.good()],
        };
        items.extend(self.spoiled());
        if self.field.is_nullable() {
            items.extend([vec![0x80], vec![0xFF]]);
            for indicator in [0x01, 0x7F] {
                let mut item = self.good();
                item[0] = indicator;
                items.push(item);
            }
        }
        items.sort();
        items.dedup();
        items
    }

    /// Items whose length is negative or too large, and items without an end.
    fn spoiled(&self) -> Vec<Vec<u8>> {
        let longest = self.field.field_length();
        let over = longest as u16 + 1;
        let two_bytes = |count: u16| count.to_be_bytes().to_vec();
        let leads = match (self.field.plain_type(), longest) {
            (0x02, 0) => [0x7FFF, 0x8000, 0xFFFF].map(two_bytes).to_vec(),
            (0x02, _) => [over, 0x7FFF, 0x8000, 0xFFFF].map(two_bytes).to_vec(),
            (0x03, _) => vec![vec![]],
            (0x07, 0) => vec![vec![0xFF]],
            (0x07, 1..255) => vec![vec![over as u8], vec![0xFF]],
            _ => vec![],
        };
        let indicator = vec![0; self.field.is_nullable().into()];
        let bytes = match longest {
            0 => vec![0x41; 18],
            _ => vec![0x41; over.into()],
        };
        let spoiled = |lead: Vec<u8>| [&indicator[..], &lead, &bytes].concat();
        leads.into_iter().map(spoiled).collect()
    }
}

fn one_byte() -> Vec<u8> {
    [
        sda(BYTE, 0x01, 0, 1, &[]),
        sda(NULL, 0x87, 1, 2, &[]),
        sda(EMPTY, 0x07, 0, 0, &[]),
    ]
    .concat()
}

/// Each item as the last one and before short ones.
pub fn every_item(comparison: &mut Comparison) {
    for tried in parts::fields().map(Tried::new) {
        for item in tried.items() {
            for behind in [0, 1, 2, 3, 12] {
                compare_arrays(comparison, &tried, &item, behind);
            }
            for (behind, rows_behind) in [(0, 0), (1, 0), (2, 0), (3, 0), (0, 2)] {
                compare_rows(comparison, &tried, &item, behind, rows_behind);
            }
            compare_full(comparison, &tried, &item);
        }
    }
}

/// Items of one field, as many as an extent says and as many as there are.
fn compare_arrays(comparison: &mut Comparison, tried: &Tried, item: &[u8], behind: usize) {
    let mut items = vec![tried.good(); 3];
    items.push(item.to_vec());
    items.extend(iter::repeat_n(tried.short(), behind));
    let data = items.concat();
    let array = tried.sda(&[items.len() as u16]);
    let rows = [tried.sda(&[]), row(ROW, &[[FIELD, 0, 0]])].concat();
    for descriptor in [array, rows] {
        compare_cut(comparison, &descriptor, &data);
    }
}

/// Rows of a byte, the field and so many others; the item is in the last row, or before rows with
/// short ones.
fn compare_rows(
    comparison: &mut Comparison,
    tried: &Tried,
    item: &[u8],
    behind: usize,
    rows_behind: usize,
) {
    let (ids, bytes): (Vec<u8>, Vec<u8>) = BEHIND[..behind].iter().copied().unzip();
    let ids = [&[BYTE, FIELD], &ids[..]].concat();
    let mut items = vec![tried.good(); 3];
    items.push(item.to_vec());
    items.extend(iter::repeat_n(tried.short(), rows_behind));
    let of_row = |item: &Vec<u8>| [&[7], &item[..], &bytes].concat();
    let rows: Vec<u8> = items.iter().flat_map(of_row).collect();
    let behind_a_byte = [&[9], &rows[..]].concat();

    let groups: Vec<Group> = ids.iter().map(|&id| [id, 0, 1]).collect();
    let size_of = |id| if id == FIELD { tried.size } else { 0 };
    let columns: Vec<Group> = ids.iter().map(|&id| column(id, size_of(id))).collect();
    for lower in [
        [tried.sdas(), row(ROW, &groups)].concat(),
        [tried.sdas_for_columns(), layout(ROW, &columns)].concat(),
    ] {
        let over = |groups: &[Group]| [&lower[..], &row(ROW + 1, groups)].concat();
        compare_cut(comparison, &over(&[[ROW, 0, items.len() as u8]]), &rows);
        compare_cut(comparison, &over(&[[ROW, 0, 0]]), &rows);
        let rows_behind_a_byte = over(&[[BYTE, 0, 1], [ROW, 0, 0]]);
        compare_cut(comparison, &rows_behind_a_byte, &behind_a_byte);
    }
}

/// The item at the end of the longest data.
fn compare_full(comparison: &mut Comparison, tried: &Tried, item: &[u8]) {
    let before = MAX_DATA - item.len();
    let long = sda(ROW, 0x01, 0, before as u16 - 1, &[]);
    let groups = [[BYTE, 0, 1], [ROW, 0, 1], [FIELD, 0, 1]];
    let descriptor = [tried.sdas(), long, row(ROW + 1, &groups)].concat();
    compare_cut(comparison, &descriptor, &[&vec![7; before], item].concat());
}

/// Compares data that are whole, lack some bytes or have some left over.
fn compare_cut(comparison: &mut Comparison, descriptor: &[u8], data: &[u8]) {
    comparison.compare(descriptor, data);
    for length in data.len().saturating_sub(MOST_CUT)..=data.len() {
        comparison.compare_end(descriptor, &data[..length]);
    }
    for left in 1..=MOST_LEFT {
        let left = comparison.random.bytes(left);
        comparison.compare_end(descriptor, &[data, &left].concat());
    }
}

/// Each item before so many of one byte, which are described or are rows to the end: up to 80, and
/// about as many as a long value has.
pub fn every_distance(comparison: &mut Comparison) {
    for tried in parts::fields().map(Tried::new) {
        let longest = tried.field.field_length();
        let far = (longest > 80).then(|| longest - 8..=longest + 8);
        let distances: Vec<usize> = (0..=80).chain(far.into_iter().flatten()).collect();
        for item in tried.items() {
            for &distance in &distances {
                compare_before(comparison, &tried, &item, distance);
            }
        }
    }
}

fn compare_before(comparison: &mut Comparison, tried: &Tried, item: &[u8], distance: usize) {
    let data = [&tried.good().repeat(3), item, &vec![7; distance]].concat();
    let over = |groups: &[Group]| [tried.sdas(), row(ROW, groups)].concat();
    let described = [vec![[FIELD, 0, 4]], bytes(distance)].concat();
    let rows = [[FIELD, 0, 4], [BYTE, 0, 0]];
    for descriptor in [over(&described), over(&rows)] {
        comparison.compare_end(&descriptor, &data);
        comparison.compare_item(&descriptor, &data, 3);
    }
    let behind_many = over(&[bytes(MANY), described].concat());
    comparison.compare_end(&behind_many, &[&[7; MANY], &data[..]].concat());
}

/// Groups of so many items of one byte.
fn bytes(count: usize) -> Vec<Group> {
    let parts = (0..count).step_by(255);
    parts
        .map(|from| [BYTE, 0, (count - from).min(255) as u8])
        .collect()
}

/// Strings of up to 20 bytes behind up to three bytes: one that is described, and as many as
/// there are.
pub fn every_length(comparison: &mut Comparison) {
    let strings = [0x02, 0x03, 0x07, 0x82, 0x83, 0x87];
    let fields = strings
        .iter()
        .flat_map(|&code| [(code, 0, 0), (code, 1, 0), (code, 0, 20), (code, 1, 20)]);
    for tried in fields.map(Tried::new) {
        for length in 0..=20 {
            let item = tried.item(length, 0x42);
            for before in 0..4 {
                let data = [&vec![7; before], &item[..]].concat();
                for times in [1, 0] {
                    let groups = [bytes(before), vec![[FIELD, 0, times]]].concat();
                    let descriptor = [tried.sdas(), row(ROW, &groups)].concat();
                    compare_cut(comparison, &descriptor, &data);
                }
            }
        }
    }
}
