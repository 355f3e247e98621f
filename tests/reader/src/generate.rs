//! A generator of random cases, the same ones for the same seed.

mod damage;
mod edges;
mod extremes;
mod fitting;
mod floats;
mod random;
mod structured;

pub use edges::{edges, file, files, limits};
pub use extremes::{full_descriptor, full_group};
pub use random::Random;

use std::env;

use crate::field::Field;
use crate::{unfold, walk, Unfolding};

/// The longest descriptor, data block and unfolding of an ordinary case.
const SMALL_BYTES: usize = 120;
const SMALL_ITEMS: usize = 60;

/// The plain types of whole numbers, packed decimals and floats.
const NUMERIC_TYPES: [u8; 6] = [0x23, 0x24, 0x30, 0x40, 0x47, 0x48];

/// The input of all calls.
#[derive(Clone, Debug, PartialEq, Eq)]
pub struct Case {
    pub descriptor: Vec<u8>,
    pub data: Vec<u8>,
    pub list_before: Vec<u32>,
    pub item: u32,
}

/// The seed and the count of cases that a program was called with.
pub fn seed_and_count() -> Option<(u64, usize)> {
    let mut words = env::args().skip(1);
    let seed = words.next()?.parse().ok()?;
    let count = words.next()?.parse().ok()?;
    words.next().is_none().then_some((seed, count))
}

/// An endless run of cases.
pub struct Generator {
    random: Random,
}

/// A valid descriptor with data that fits, and the fields of its items.
struct Block {
    triplets: Vec<Vec<u8>>,
    fields: Vec<Field>,
    data: Vec<u8>,
}

impl Iterator for Generator {
    type Item = Case;

    fn next(&mut self) -> Option<Case> {
        let (descriptor, data) = match self.random.below(1000) {
            0..=299 => self.fitting(),
            300..=579 => self.varied_data(),
            580..=879 => self.damaged(),
            880..=899 => (extremes::nothing(&mut self.random), self.few_bytes()),
            900..=919 => extremes::large_count(&mut self.random),
            920..=927 => extremes::large_rows(&mut self.random),
            928..=984 => self.hostile(),
            _ => {
                let (descriptor, data) = self.damaged();
                extremes::at_limits(&mut self.random, descriptor, data)
            }
        };
        Some(self.case(descriptor, data))
    }
}

impl Generator {
    pub fn new(seed: u64) -> Generator {
        Generator {
            random: Random::new(seed),
        }
    }

    /// Adds a list and an item number.
    fn case(&mut self, descriptor: Vec<u8>, data: Vec<u8>) -> Case {
        let fields = fields_of(&descriptor, &data);
        Case {
            list_before: self.list_before(fields.len()),
            item: self.item(&fields),
            descriptor,
            data,
        }
    }

    fn block(&mut self) -> Block {
        loop {
            let items = self.random.pick(&[1, 2, 3, 5, 8, 12, 16, 30, 58]);
            let triplets = structured::triplets(&mut self.random, items);
            let descriptor = triplets.concat();
            let unfolding = unfold(&descriptor).expect("a valid descriptor");
            let fields = self.some_fields(&unfolding);
            let data = fitting::data(&mut self.random, &fields);
            let is_small = descriptor.len() < SMALL_BYTES && data.len() < SMALL_BYTES;
            if is_small || self.random.one_in(20) {
                return Block {
                    triplets,
                    fields,
                    data,
                };
            }
        }
    }

    /// The fields of a descriptor's items; of rows to the end, with some passes or none.
    fn some_fields(&mut self, unfolding: &Unfolding) -> Vec<Field> {
        let mut passes = self.random.pick(&[0, 1, 1, 2, 3, 4, 6, 8, SMALL_ITEMS]);
        while passes > 0 && unfolding.count(passes) > SMALL_ITEMS {
            passes -= 1;
        }
        unfolding.first(unfolding.count(passes))
    }

    fn fitting(&mut self) -> (Vec<u8>, Vec<u8>) {
        let block = self.block();
        (block.triplets.concat(), block.data)
    }

    /// A valid descriptor; the data is cut, too long, changed, spoiled or has a bad indicator.
    fn varied_data(&mut self) -> (Vec<u8>, Vec<u8>) {
        let block = self.block();
        let mut data = block.data;
        match self.random.below(8) {
            0 if !data.is_empty() => data.truncate(self.random.below(data.len())),
            1 => data.extend(self.few_bytes()),
            2 | 3 if !data.is_empty() => {
                let offset = self.random.below(data.len());
                data[offset] = self
                    .random
                    .pick(&[0, 1, 0x7F, 0x80, 0xFF, data[offset] ^ 1]);
            }
            4 | 5 => {
                if let Some(bad) = fitting::bad_indicator_data(&mut self.random, &block.fields) {
                    data = bad;
                }
            }
            _ => {
                if let Some(spoiled) = fitting::spoiled_data(&mut self.random, &block.fields) {
                    data = spoiled;
                }
            }
        }
        (block.triplets.concat(), data)
    }

    /// A damaged descriptor; the data fits what it was, or what it has become.
    fn damaged(&mut self) -> (Vec<u8>, Vec<u8>) {
        let block = self.block();
        let descriptor = damage::damaged(&mut self.random, block.triplets);
        let data = match self.small_fit(&descriptor) {
            Some(data) if self.random.one_in(2) => data,
            _ => block.data,
        };
        (descriptor, data)
    }

    fn hostile(&mut self) -> (Vec<u8>, Vec<u8>) {
        let descriptor = extremes::hostile_descriptor(&mut self.random);
        let data = match self.small_fit(&descriptor) {
            Some(data) if !self.random.one_in(3) => data,
            _ => self.few_bytes(),
        };
        (descriptor, data)
    }

    /// Data that fits a descriptor, if it is valid and the data is short.
    fn small_fit(&mut self, descriptor: &[u8]) -> Option<Vec<u8>> {
        let fields = self.some_fields(&unfold(descriptor).ok()?);
        let space: usize = fields.iter().map(|field| field.field_length() + 4).sum();
        (space < 6 * SMALL_BYTES).then(|| fitting::data(&mut self.random, &fields))
    }

    fn few_bytes(&mut self) -> Vec<u8> {
        let count = self.random.pick(&[1, 1, 2, 3, 17]);
        match self.random.below(3) {
            0 => vec![self.random.byte(); count],
            _ => self.random.bytes(count),
        }
    }

    /// A list that is just long enough, longer or too short, with old contents
    /// that let a wrong write be seen.
    fn list_before(&mut self, count: usize) -> Vec<u32> {
        let needed = 2 + 2 * count;
        let length = match self.random.below(10) {
            _ if count > SMALL_ITEMS => self.random.below(12),
            0 => needed - 1,
            1 => self.random.below(needed),
            2..=4 => needed + self.random.pick(&[1, 1, 2, 20]),
            _ => needed,
        };
        let first = self.random.word();
        match self.random.below(4) {
            0 => vec![u32::MAX; length],
            1 => vec![first % 10; length],
            2 => (0..length as u32).map(|entry| 1000 + entry).collect(),
            _ => (0..length).map(|_| self.random.word() % 1000).collect(),
        }
    }

    /// An item number: often of a numeric item, at times of no item.
    fn item(&mut self, fields: &[Field]) -> u32 {
        let count = fields.len();
        let numbers: Vec<usize> = (0..count)
            .filter(|&item| NUMERIC_TYPES.contains(&fields[item].plain_type()))
            .collect();
        match self.random.below(20) {
            0 => count as u32,
            1 => (count + self.random.between(1, 4)) as u32,
            2 => self.random.pick(&[u32::MAX, 1 << 31, 65_536, 4_096, 256]),
            _ if count == 0 => 0,
            3..=9 if !numbers.is_empty() => self.random.pick(&numbers) as u32,
            _ => self.random.below(count) as u32,
        }
    }
}

/// The fields of a block's items; of a refused block, those that its descriptor alone gives.
fn fields_of(descriptor: &[u8], data: &[u8]) -> Vec<Field> {
    let Ok(unfolding) = unfold(descriptor) else {
        return Vec::new();
    };
    match walk(&unfolding, data) {
        Ok(notes) => unfolding.first(notes.len()),
        Err(_) => unfolding.fields,
    }
}

#[cfg(test)]
mod tests {
    use super::*;
    use crate::refusal::{BAD_COUNT, BAD_INDICATOR, NO_END};

    #[test]
    fn blocks_fit_unless_spoiled() {
        let mut generator = Generator::new(11);
        for _ in 0..2_000 {
            let block = generator.block();
            let unfolding = unfold(&block.triplets.concat()).expect("a valid descriptor");
            let count = walk(&unfolding, &block.data).map(|notes| notes.len());
            assert_eq!(count, Ok(block.fields.len()));
            assert_eq!(unfolding.first(block.fields.len()), block.fields);
            if let Some(data) = fitting::spoiled_data(&mut generator.random, &block.fields) {
                let number = walk(&unfolding, &data).map_err(|refusal| refusal.number);
                assert!(matches!(number, Err(BAD_COUNT | NO_END)));
            }
            if let Some(data) = fitting::bad_indicator_data(&mut generator.random, &block.fields) {
                let number = walk(&unfolding, &data).map_err(|refusal| refusal.number);
                assert_eq!(number, Err(BAD_INDICATOR));
            }
        }
    }
}
