//! The blocks that are timed.

use library::generate::{full_descriptor, Random};
use library::triplets::{column, layout, row, sda};
use library::{MAX_DESCRIPTOR, MAX_ITEMS};

pub struct Input {
    pub name: &'static str,
    pub descriptor: Vec<u8>,
    pub data: Vec<u8>,
    /// How many items a call walks over.
    pub items: u32,
}

pub fn inputs() -> Vec<Input> {
    vec![
        input("rows of 20 columns", MIXED.by_rows(), MIXED.data()),
        input("rows by a group triplet", MIXED.by_a_group(), MIXED.data()),
        input("rows to the end", MIXED.to_the_end(), MIXED.data()),
        input("few rows to the end", FEW.to_the_end(), FEW.data()),
        long_row(),
        input("fixed rows of 24 columns", FIXED.by_rows(), FIXED.data()),
        input(
            "fixed rows by a group triplet",
            FIXED.by_a_group(),
            FIXED.data(),
        ),
        input(
            "nullable, a tenth null",
            NULLABLE.by_rows(),
            NULLABLE.data(),
        ),
        input("packed decimals", DECIMALS.by_rows(), DECIMALS.data()),
        input(
            "fixed integers",
            sda(1, 0x23, 0, 8, &[4096]),
            bytes(4096 * 8),
        ),
        strings("variable strings", (0x82, 1, 40), 3000),
        strings("counted, mode 0", (0x02, 0, 14), 2000),
        terminated_strings("null-terminated, mode 1", 1, 24),
        terminated_strings("null-terminated, mode 0", 0, 15),
        input("deep nest", deep_nest(), bytes(4096 * 2)),
        wide_row(),
        input("all null", sda(1, 0x82, 1, 40, &[64, 64]), vec![0x80; 4096]),
        input("two items", two_items(), b"\0abc\x80".to_vec()),
        cut_at_the_end(),
        input("descriptor of 4,096 bytes", hostile(), bytes(4096)),
        input("1,344 groups", full_descriptor(), Vec::new()),
    ]
}

/// The items are those of the list, or those described where the block is refused.
fn input(name: &'static str, descriptor: Vec<u8>, data: Vec<u8>) -> Input {
    let mut list = vec![0; 2 + 2 * MAX_ITEMS];
    let listed = library::list(&descriptor, &data, &mut list).map(|()| list[0]);
    let items = listed.or_else(|_| library::check(&descriptor));
    Input {
        name,
        descriptor,
        data,
        items: items.unwrap_or(0),
    }
}

fn bytes(count: usize) -> Vec<u8> {
    Random::new(1).bytes(count)
}

/// Type code, mode, and field length or digits.
type Column = (u8, u8, u16);

/// Rows of columns.
struct Table {
    columns: &'static [Column],
    rows: u8,
    /// One nullable item in so many is null.
    nulls: usize,
}

const MIXED: Table = Table {
    columns: &[
        (0x23, 0, 4),
        (0xA3, 0, 2),
        (0x82, 1, 20),
        (0x01, 0, 3),
        (0x23, 0, 8),
        (0x02, 1, 30),
        (0xA3, 0, 4),
        (0x87, 1, 12),
        (0x48, 0, 8),
        (0x81, 0, 5),
        (0x24, 0, 4),
        (0x83, 1, 16),
        (0xA4, 0, 2),
        (0x02, 0, 6),
        (0xC0, 0, 4),
        (0x07, 1, 20),
        (0x23, 0, 2),
        (0x82, 1, 40),
        (0xC8, 0, 8),
        (0x03, 1, 12),
    ],
    rows: 200,
    nulls: 5,
};

const FEW: Table = Table {
    columns: &[(0x23, 0, 4), (0x82, 1, 20), (0xA3, 0, 2), (0x01, 0, 3)],
    rows: 5,
    nulls: 5,
};

const FIXED: Table = Table {
    columns: &[
        (0x23, 0, 4),
        (0x01, 0, 6),
        (0x48, 0, 8),
        (0x23, 0, 2),
        (0x30, 0, 0x0702),
        (0x01, 0, 1),
        (0x24, 0, 8),
        (0x40, 0, 4),
        (0x01, 0, 12),
        (0x23, 0, 8),
        (0x30, 0, 0x0300),
        (0x47, 0, 4),
        (0x01, 0, 3),
        (0x24, 0, 2),
        (0x48, 0, 4),
        (0x23, 0, 4),
        (0x01, 0, 10),
        (0x30, 0, 0x0F02),
        (0x40, 0, 8),
        (0x24, 0, 4),
        (0x01, 0, 2),
        (0x23, 0, 2),
        (0x47, 0, 8),
        (0x01, 0, 5),
    ],
    rows: 170,
    nulls: 5,
};

const NULLABLE: Table = Table {
    columns: &[
        (0xA3, 0, 4),
        (0x82, 1, 20),
        (0x81, 0, 3),
        (0xC8, 0, 8),
        (0xB0, 0, 0x0702),
        (0x87, 1, 12),
        (0xA4, 0, 2),
        (0x83, 1, 16),
        (0xA3, 0, 8),
        (0x82, 0, 6),
        (0xC0, 0, 4),
        (0x81, 0, 8),
        (0xA3, 0, 2),
        (0x87, 0, 5),
        (0xC7, 0, 4),
        (0x83, 0, 7),
    ],
    rows: 250,
    nulls: 10,
};

const DECIMALS: Table = Table {
    columns: &[
        (0x30, 0, 0x0100),
        (0xB0, 0, 0x0302),
        (0x30, 0, 0x0502),
        (0x30, 0, 0x0702),
        (0xB0, 0, 0x0902),
        (0x30, 0, 0x0B04),
        (0x30, 0, 0x0F02),
        (0xB0, 0, 0x1200),
        (0x30, 0, 0x0200),
        (0xB0, 0, 0x0401),
        (0x30, 0, 0x0602),
        (0x30, 0, 0x0800),
        (0xB0, 0, 0x0A03),
        (0x30, 0, 0x0C02),
        (0x30, 0, 0x1006),
        (0xB0, 0, 0x1102),
    ],
    rows: 250,
    nulls: 10,
};

impl Table {
    fn by_rows(&self) -> Vec<u8> {
        self.repeated(self.rows)
    }

    /// As many rows as the data have.
    fn to_the_end(&self) -> Vec<u8> {
        self.repeated(0)
    }

    fn repeated(&self, factor: u8) -> Vec<u8> {
        let (mut descriptor, mut groups) = (Vec::new(), Vec::new());
        for (id, &(type_code, mode, size)) in (1..).zip(self.columns) {
            descriptor.extend(sda(id, type_code, mode, size, &[]));
            groups.push([id, 0, 1]);
        }
        let id = self.row_id();
        descriptor.extend(row(id, &groups));
        descriptor.extend(row(id + 1, &[[id, 0, factor]]));
        descriptor
    }

    /// The columns have their lengths from a GDA.
    fn by_a_group(&self) -> Vec<u8> {
        let (mut descriptor, mut columns) = (Vec::new(), Vec::new());
        for (id, &(type_code, mode, size)) in (1..).zip(self.columns) {
            let own = match type_code & 0x7F {
                0x30 => 0x0400,
                _ => 4,
            };
            descriptor.extend(sda(id, type_code, mode, own, &[]));
            columns.push(column(id, size));
        }
        let id = self.row_id();
        descriptor.extend(layout(id, &columns));
        descriptor.extend(row(id + 1, &[[id, 0, self.rows]]));
        descriptor
    }

    fn row_id(&self) -> u8 {
        self.columns.len() as u8 + 1
    }

    fn data(&self) -> Vec<u8> {
        let mut random = Random::new(2);
        let columns = self.columns.iter().cycle();
        columns
            .take(self.columns.len() * usize::from(self.rows))
            .flat_map(|&column| item(&mut random, column, self.nulls))
            .collect()
    }
}

/// An item that fits; one nullable one in so many is null.
fn item(random: &mut Random, (type_code, mode, size): Column, nulls: usize) -> Vec<u8> {
    let mut item = Vec::new();
    if type_code >= 0x80 {
        if random.one_in(nulls) {
            return vec![0x80];
        }
        item.push(0);
    }
    let limit = usize::from(size);
    let count = random.between(0, limit.min(12));
    let sent = if mode == 0 { limit } else { count };
    match type_code & 0x7F {
        0x02 => {
            item.extend((count as u16).to_be_bytes());
            item.extend(text(random, sent));
        }
        0x07 => {
            item.push(count as u8);
            item.extend(text(random, sent));
        }
        0x03 => {
            item.extend(text(random, count));
            item.push(0);
            item.extend(text(random, sent - count));
        }
        0x30 => {
            let [digits, _] = size.to_be_bytes();
            item.extend(random.bytes(usize::from(digits / 2 + 1)));
        }
        _ => item.extend(random.bytes(limit)),
    }
    item
}

fn text(random: &mut Random, length: usize) -> Vec<u8> {
    (0..length).map(|_| b'a' + random.below(26) as u8).collect()
}

fn strings(name: &'static str, column: Column, count: u16) -> Input {
    let mut random = Random::new(3);
    let data = (0..count).flat_map(|_| item(&mut random, column, 5));
    let (type_code, mode, length) = column;
    let descriptor = sda(1, type_code, mode, length, &[count]);
    input(name, descriptor, data.collect())
}

fn terminated_strings(name: &'static str, mode: u8, limit: u16) -> Input {
    let mut random = Random::new(4);
    let mut data = Vec::new();
    for _ in 0..2000 {
        let count = random.between(0, limit.into());
        data.extend(text(&mut random, count));
        data.push(0);
        if mode == 0 {
            data.extend(text(&mut random, usize::from(limit) - count));
        }
    }
    input(name, sda(1, 0x03, mode, limit, &[2000]), data)
}

/// 250 rows one over the other, of which twelve stand for the one before twice.
fn deep_nest() -> Vec<u8> {
    let mut descriptor = sda(1, 0x23, 0, 2, &[]);
    for id in 2..=251 {
        let factor = if id % 20 == 0 { 2 } else { 1 };
        descriptor.extend(row(id, &[[id - 1, 0, factor]]));
    }
    descriptor
}

fn wide_row() -> Input {
    let fields = [(0x23, 0, 4), (0x82, 1, 20), (0x01, 0, 6), (0x87, 1, 9)];
    let mut random = Random::new(5);
    let mut descriptor = Vec::new();
    for (id, (type_code, mode, length)) in (1..).zip(fields) {
        descriptor.extend(sda(id, type_code, mode, length, &[1]));
    }
    let (mut groups, mut data) = (Vec::new(), Vec::new());
    for _ in 0..1300 {
        let id = random.between(1, 4);
        let (taken, factor) = (random.below(3), random.between(1, 3));
        groups.push([id as u8, taken as u8, factor as u8]);
        for _ in 0..taken.max(1) * factor {
            data.extend(item(&mut random, fields[id - 1], 5));
        }
    }
    descriptor.extend(row(5, &groups));
    input("row of 1,300 groups", descriptor, data)
}

fn two_items() -> Vec<u8> {
    [sda(0xB1, 0x81, 0, 3, &[]), row(0xA1, &[[0xB1, 0, 2]])].concat()
}

/// Rows to the end of 255 times 4,096 items, and data that end in the first of them.
fn long_row() -> Input {
    let items = 1000;
    let descriptor = [sda(1, 0x01, 0, 1, &[1, 4096]), row(2, &[[1, 255, 0]])].concat();
    Input {
        items,
        ..input(
            "1,000 of 1,044,480 items",
            descriptor,
            bytes(items as usize),
        )
    }
}

/// Rows whose last item lacks its last byte.
fn cut_at_the_end() -> Input {
    let mut data = MIXED.data();
    data.pop();
    input("rows cut in the last item", MIXED.by_rows(), data)
}

/// A descriptor as long as its limit: rows of many groups that stand unused, and
/// a nest of 240 rows, of which twelve name the row before in two groups.
fn hostile() -> Vec<u8> {
    let mut descriptor = sda(1, 0x01, 0, 1, &[1, 1]);
    for id in 242..=251 {
        descriptor.extend(row(id, &[[1, 1, 1]; 84]));
    }
    descriptor.extend(row(252, &[[1, 0, 1]; 17]));
    for id in 2..=241 {
        let lower = [id - 1, 0, 1];
        let groups = [lower, lower];
        let count = if id % 20 == 0 { 2 } else { 1 };
        descriptor.extend(row(id, &groups[..count]));
    }
    assert_eq!(descriptor.len(), MAX_DESCRIPTOR);
    descriptor
}
