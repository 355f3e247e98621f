//! Rows of fixed length: data that end at every byte of the last two rows and behind them, and as
//! many rows as a block may have.

use differential::triplets::{column, layout, row, sda, Group};
use reader::{unfold, walk, MAX_DATA, MAX_ITEMS};

use crate::compare::Comparison;

/// Plain type, and field length or digits.
type Columns = &'static [(u8, u16)];

const ROWS: [Columns; 7] = [
    &[(0x01, 3)],
    &[(0x23, 2), (0x01, 1), (0x01, 0), (0x48, 4)],
    &[(0x01, 0), (0x30, 0x0302), (0x01, 0)],
    &[(0x01, 0), (0x01, 0)],
    &[
        (0x23, 8),
        (0x40, 0),
        (0x01, 5),
        (0x24, 4),
        (0x47, 4),
        (0x30, 0x1202),
        (0x01, 0),
        (0x48, 8),
    ],
    &[(0x01, 300), (0x23, 2)],
    &[(0x01, 1); 9],
];

/// Ids: fields of three bytes, of none and of a string, the row, and what stands over it.
const BYTES: u8 = 20;
const NOTHING: u8 = 21;
const STRING: u8 = 22;
const ROW: u8 = 23;
const OVER: u8 = 24;

/// The groups of the last row.
const FORMS: [&[Group]; 12] = [
    &[[ROW, 0, 1]],
    &[[ROW, 0, 2]],
    &[[ROW, 0, 5]],
    &[[ROW, 0, 0]],
    &[[BYTES, 0, 1], [ROW, 0, 3]],
    &[[BYTES, 0, 1], [ROW, 0, 0]],
    &[[NOTHING, 0, 1], [ROW, 0, 0]],
    &[[STRING, 0, 1], [ROW, 0, 3]],
    &[[STRING, 0, 1], [ROW, 0, 0]],
    &[[ROW, 0, 3], [STRING, 0, 1]],
    &[[ROW, 0, 2], [STRING, 0, 1], [ROW, 0, 2]],
    &[[ROW, 0, 2], [STRING, 0, 1], [ROW, 0, 0]],
];

/// How many bytes more than the rows have the data may have.
const MOST_LEFT: usize = 4;

/// A row, with the triplets that describe it.
struct Row {
    triplets: Vec<u8>,
    items: usize,
    bytes: usize,
}

impl Row {
    fn new(triplets: Vec<u8>) -> Row {
        let fields = unfold(&triplets).expect("a valid descriptor").fields;
        Row {
            triplets,
            items: fields.len(),
            bytes: fields.iter().map(|field| field.field_length()).sum(),
        }
    }

    fn of(columns: Columns) -> Row {
        Row::new([fields(columns), row(ROW, &groups(columns))].concat())
    }

    /// The columns of a GDA.
    fn of_layout(columns: Columns) -> Row {
        let kept: Vec<Group> = ids(columns).map(|id| column(id, 0)).collect();
        Row::new([fields(columns), layout(ROW, &kept)].concat())
    }

    /// A row of two rows.
    fn doubled(columns: Columns) -> Row {
        let one = row(OVER, &groups(columns));
        Row::new([fields(columns), one, row(ROW, &[[OVER, 0, 2]])].concat())
    }

    fn under(&self, groups: &[Group]) -> Vec<u8> {
        [&self.triplets[..], &row(OVER + 1, groups)].concat()
    }
}

fn ids(columns: Columns) -> impl Iterator<Item = u8> {
    1..=columns.len() as u8
}

fn groups(columns: Columns) -> Vec<Group> {
    ids(columns).map(|id| [id, 0, 1]).collect()
}

/// The columns' fields, and the others.
fn fields(columns: Columns) -> Vec<u8> {
    let own = ids(columns).zip(columns);
    let mut fields: Vec<u8> = own
        .flat_map(|(id, &(type_code, size))| sda(id, type_code, 0, size, &[]))
        .collect();
    fields.extend(sda(BYTES, 0x01, 0, 3, &[]));
    fields.extend(sda(NOTHING, 0x01, 0, 0, &[]));
    fields.extend(sda(STRING, 0x07, 1, 5, &[]));
    fields
}

pub fn every_size(comparison: &mut Comparison) {
    for columns in ROWS {
        for row in [
            Row::of(columns),
            Row::of_layout(columns),
            Row::doubled(columns),
        ] {
            for groups in FORMS {
                let descriptor = row.under(groups);
                let mut data = Vec::new();
                for group in groups {
                    data.extend(group_data(comparison, &row, *group));
                }
                data.extend(comparison.random.bytes(MOST_LEFT));
                let last = 2 * row.bytes + MOST_LEFT;
                for size in data.len().saturating_sub(last)..=data.len() {
                    compare_each(comparison, &descriptor, &data[..size]);
                }
            }
        }
    }
}

/// Data that fit a group; of rows to the end, three.
fn group_data(comparison: &mut Comparison, row: &Row, [id, _, factor]: Group) -> Vec<u8> {
    let rows = match factor {
        0 => 3,
        _ => factor.into(),
    };
    match id {
        ROW => comparison.random.bytes(rows * row.bytes),
        BYTES => comparison.random.bytes(3),
        STRING => vec![2, 0x41, 0x42],
        _ => Vec::new(),
    }
}

/// Compares a block, and if it is good, on each of its items.
fn compare_each(comparison: &mut Comparison, descriptor: &[u8], data: &[u8]) {
    comparison.compare(descriptor, data);
    let notes = unfold(descriptor).and_then(|unfolding| walk(&unfolding, data));
    for item in 0..notes.map_or(0, |notes| notes.len()) {
        comparison.compare_item(descriptor, data, item as u32);
    }
}

pub fn counts(comparison: &mut Comparison) {
    described(comparison);
    most_rows(comparison);
    longest_data(comparison);
}

/// Rows that are described, of about 128 items and about 4,096.
fn described(comparison: &mut Comparison) {
    for (columns, factors) in [
        (ROWS[0], [[127, 1], [128, 1], [129, 1], [63, 65], [64, 64]]),
        (ROWS[1], [[31, 1], [32, 1], [33, 1], [31, 33], [32, 32]]),
        (ROWS[6], [[13, 1], [14, 1], [15, 1], [91, 5], [65, 7]]),
    ] {
        let lower = Row::of(columns);
        for [low, high] in factors {
            let rows = row(OVER, &[[ROW, 0, low]]);
            let row = Row::new([&lower.triplets[..], &rows].concat());
            let all = usize::from(high) * row.bytes;
            let data = comparison.random.bytes(all + MOST_LEFT);
            let descriptor = row.under(&[[OVER, 0, high]]);
            for size in all - 2 * lower.bytes..=data.len() {
                comparison.compare(&descriptor, &data[..size]);
            }
        }
    }
}

/// Rows to the end up to the last that a block has room for and past it, behind up to two fields.
fn most_rows(comparison: &mut Comparison) {
    for columns in [
        &[(0x01, 1)][..],
        &[(0x01, 1), (0x01, 0), (0x23, 2)],
        &[(0x01, 0), (0x01, 5), (0x24, 2), (0x01, 0), (0x01, 0)],
        ROWS[6],
    ] {
        let row = Row::of(columns);
        for before in 0..3 {
            let rows = (MAX_ITEMS - before) / row.items;
            let end = 3 * before + rows * row.bytes;
            let data = comparison.random.bytes(end + 2 * row.bytes);
            let fields = (before > 0).then_some([BYTES, 0, before as u8]);
            let groups: Vec<Group> = fields.into_iter().chain([[ROW, 0, 0]]).collect();
            let descriptor = row.under(&groups);
            for size in end - row.bytes..=data.len() {
                comparison.compare(&descriptor, &data[..size]);
            }
        }
    }
}

/// Rows to the end that end in the last bytes that data can have.
fn longest_data(comparison: &mut Comparison) {
    for columns in [&[(0x01, 20), (0x23, 4)][..], &[(0x40, 16)], ROWS[5]] {
        let row = Row::of(columns);
        let data = comparison.random.bytes(MAX_DATA + 1);
        for groups in [&[[ROW, 0, 0]][..], &[[BYTES, 0, 1], [ROW, 0, 0]]] {
            let descriptor = row.under(groups);
            for size in MAX_DATA - 2 * row.bytes..=MAX_DATA + 1 {
                comparison.compare(&descriptor, &data[..size]);
            }
        }
    }
}
