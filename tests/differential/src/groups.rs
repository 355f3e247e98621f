//! The groups of cases, the same ones in every run.

mod codes;
mod descriptor_bytes;
mod ends;
mod fixed_rows;
mod floats;
mod forms;
mod indicators;
mod layouts;
mod limits;
mod packed;
mod parts;
mod rows;
mod values;

use reader::generate::{Case, Generator};
use reader::NO_SUCH_ITEM;

use crate::compare::Comparison;

pub struct Group {
    pub name: &'static str,
    pub run: fn(&mut Comparison),
}

pub const GROUPS: [Group; 38] = [
    Group {
        name: "valid blocks of every form",
        run: forms::every_form,
    },
    Group {
        name: "data cut at every byte, continued and changed",
        run: forms::varied_data,
    },
    Group {
        name: "every change of a descriptor byte",
        run: descriptor_bytes::every_change,
    },
    Group {
        name: "valid, damaged and hostile descriptors",
        run: generated,
    },
    Group {
        name: "nests up to 255 deep",
        run: limits::nests,
    },
    Group {
        name: "counts around 4,096",
        run: limits::counts,
    },
    Group {
        name: "rows of 1,300 groups",
        run: limits::long_rows,
    },
    Group {
        name: "sizes at and over their limits",
        run: limits::sizes,
    },
    Group {
        name: "every type code",
        run: codes::every_code,
    },
    Group {
        name: "every number of digits and fraction digits",
        run: packed::every_parameter,
    },
    Group {
        name: "every half-byte of packed decimals",
        run: packed::every_half_byte,
    },
    Group {
        name: "every field length of floats",
        run: floats::every_field_length,
    },
    Group {
        name: "floats with data of every size",
        run: floats::every_size_of_data,
    },
    Group {
        name: "columns of every type code",
        run: layouts::every_code,
    },
    Group {
        name: "every length put in for a column",
        run: layouts::every_length,
    },
    Group {
        name: "columns with data of every size",
        run: layouts::every_size_of_data,
    },
    Group {
        name: "every short run of triplets around a layout",
        run: layouts::every_run,
    },
    Group {
        name: "layouts of 84 to 1,334 columns",
        run: layouts::long_layouts,
    },
    Group {
        name: "rows to the end of every type code",
        run: rows::every_code,
    },
    Group {
        name: "rows to the end, cut at every byte, continued and changed",
        run: rows::varied_data,
    },
    Group {
        name: "every short run of triplets around rows to the end",
        run: rows::every_run,
    },
    Group {
        name: "rows to the end around 4,096 items",
        run: rows::counts,
    },
    Group {
        name: "valid and damaged rows to the end",
        run: rows::generated,
    },
    Group {
        name: "lead, value and spare of every type and mode",
        run: parts::every_part,
    },
    Group {
        name: "values of floats of every characteristic",
        run: values::every_characteristic,
    },
    Group {
        name: "values of floats of one bit and of two",
        run: values::few_bits,
    },
    Group {
        name: "values of floats around 53 significant bits",
        run: values::significant_bits,
    },
    Group {
        name: "values of any bits",
        run: values::any_bits,
    },
    Group {
        name: "values of floats of other lengths",
        run: values::other_lengths,
    },
    Group {
        name: "every null indicator of every nullable type",
        run: indicators::every_indicator,
    },
    Group {
        name: "every null indicator among other items",
        run: indicators::every_place,
    },
    Group {
        name: "bad null indicators in items that are not asked for",
        run: indicators::every_item,
    },
    Group {
        name: "items at the end of data that are cut or go on",
        run: ends::every_item,
    },
    Group {
        name: "items at every distance from the data's end",
        run: ends::every_distance,
    },
    Group {
        name: "strings of every length at the data's end",
        run: ends::every_length,
    },
    Group {
        name: "rows of fixed length that end at every byte",
        run: fixed_rows::every_size,
    },
    Group {
        name: "rows of fixed length around 128 and 4,096 items and the longest data",
        run: fixed_rows::counts,
    },
    Group {
        name: "random bytes",
        run: random_bytes,
    },
];

fn generated(comparison: &mut Comparison) {
    for case in Generator::new(1).take(90_000) {
        comparison.compare(&case.descriptor, &case.data);
    }
}

fn random_bytes(comparison: &mut Comparison) {
    for _ in 0..40_000 {
        let lengths = [comparison.random.below(40), comparison.random.below(12)];
        let [descriptor, data] = lengths.map(|length| comparison.random.bytes(length));
        comparison.compare(&descriptor, &data);
    }
    for case in Generator::new(2).filter(is_accepted).take(30_000) {
        let length = comparison.random.below(2 * case.data.len() + 2);
        let data = comparison.random.bytes(length);
        comparison.compare(&case.descriptor, &data);
    }
}

/// Further cases, as long as they are asked for.
pub fn more(comparison: &mut Comparison, mut goes_on: impl FnMut(&Comparison) -> bool) {
    for case in Generator::new(3) {
        if !goes_on(comparison) {
            return;
        }
        comparison.compare(&case.descriptor, &case.data);
        let mut changed = case;
        for _ in 0..comparison.random.between(1, 4) {
            let random = &mut comparison.random;
            let bytes = match random.below(3) {
                0 => &mut changed.descriptor,
                _ => &mut changed.data,
            };
            if bytes.is_empty() {
                continue;
            }
            let offset = random.below(bytes.len());
            bytes[offset] = match random.below(3) {
                0 => random.byte(),
                _ => random.pick(&[0, 1, 2, 0x7F, 0x80, 0xFF]),
            };
            comparison.compare(&changed.descriptor, &changed.data);
        }
    }
}

/// A good block has an item 0, or no items.
fn is_accepted(case: &Case) -> bool {
    let first = reader::state(&case.descriptor, &case.data, 0);
    let number = first.map_err(|refusal| refusal.number);
    matches!(number, Ok(_) | Err(NO_SUCH_ITEM))
}
