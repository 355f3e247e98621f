//! One case put to both readers, call by call.

use std::fmt::Debug;

use differential::answers::{self, Part};
use reader::generate::Random;
use reader::{unfold, walk, Counts, Refusal, State};

/// How many mismatches are printed.
const PRINTED: u64 = 10;

/// How many items are asked for at the end, and by how many entries the list is too long.
const LAST_ITEMS: u32 = 4;
const SPARE_ENTRIES: usize = 9;

/// All cases so far.
pub struct Comparison {
    pub cases: u64,
    pub mismatches: u64,
    /// How often the calls have given each number.
    pub numbers: Counts,
    pub random: Random,
}

impl Comparison {
    pub fn new(seed: u64) -> Comparison {
        Comparison {
            cases: 0,
            mismatches: 0,
            numbers: Counts::default(),
            random: Random::new(seed),
        }
    }

    /// Compares all calls on a descriptor and its data.
    pub fn compare(&mut self, descriptor: &[u8], data: &[u8]) {
        self.cases += 1;
        let block = Block { descriptor, data };
        self.compare_check(block);
        let count = count(block);
        let length = self.list_length(2 + 2 * count as usize);
        self.compare_list(block, length);
        let any = self.random.below(count.max(1) as usize) as u32;
        let last = count.saturating_sub(1);
        for item in [0, last, any, count, count + 1, u32::MAX] {
            self.compare_item(descriptor, data, item);
        }
    }

    /// Compares the check, the list with room to spare, and the states of the last items and of one
    /// past them.
    pub fn compare_end(&mut self, descriptor: &[u8], data: &[u8]) {
        self.cases += 1;
        let block = Block { descriptor, data };
        self.compare_check(block);
        let count = count(block);
        self.compare_list(block, 2 + 2 * count as usize + SPARE_ENTRIES);
        for item in count.saturating_sub(LAST_ITEMS)..=count {
            let expected = reader::state(descriptor, data, item);
            self.compare_state(block, item, expected);
        }
    }

    /// Counts something that should not be, and prints it.
    pub fn fail(&mut self, message: &str) {
        self.mismatches += 1;
        if self.mismatches <= PRINTED {
            println!("{message}");
        }
    }

    fn compare_check(&mut self, block: Block) {
        let checked = answers::check(block.descriptor);
        let expected = reader::check(block.descriptor);
        self.agree(block, "check", checked, expected.into());
        self.met(checked.number);
    }

    /// As many entries as are needed, or some more, or too few.
    fn list_length(&mut self, needed: usize) -> usize {
        match self.random.below(8) {
            0 => needed - 1,
            1 => self.random.below(needed),
            2..=4 => needed + self.random.between(1, 9),
            _ => needed,
        }
    }

    fn compare_list(&mut self, block: Block, length: usize) {
        let before = 0xF000_0000..0xF000_0000 + length as u32;
        let mut by_library: Vec<u32> = before.collect();
        let mut by_reader = by_library.clone();
        let answer = answers::list(block.descriptor, block.data, &mut by_library);
        let expected = reader::list(block.descriptor, block.data, &mut by_reader);
        let call = format!("list of {length} entries");
        self.agree(block, &call, answer, expected.into());
        self.agree(block, "entries afterwards", by_library, by_reader);
        self.met(answer.number);
    }

    /// Compares the calls for one item.
    pub fn compare_item(&mut self, descriptor: &[u8], data: &[u8], item: u32) {
        let block = Block { descriptor, data };
        let expected = reader::state(descriptor, data, item);
        self.compare_state(block, item, expected);

        let lent = answers::lend(descriptor, data, item);
        let part = reader::lend(descriptor, data, item);
        let expected = expected.map(|_| place_of(part, data));
        self.agree(block, &format!("lend {item}"), lent, expected.into());
        let bytes = lent.results.of(data);
        self.agree(block, &format!("bytes of {item}"), bytes, Some(part));
        self.met(lent.number);

        let whole = answers::whole_number(descriptor, data, item);
        let expected = reader::whole_number(descriptor, data, item);
        self.agree(block, &format!("whole {item}"), whole, expected.into());
        self.met(whole.number);

        let packed = answers::packed(descriptor, data, item);
        let expected = reader::packed(descriptor, data, item);
        self.agree(block, &format!("packed {item}"), packed, expected.into());
        self.met(packed.number);

        let value = answers::value(descriptor, data, item);
        let expected = reader::value(descriptor, data, item);
        self.agree(block, &format!("value {item}"), value, expected.into());
        self.met(value.number);
    }

    fn compare_state(&mut self, block: Block, item: u32, expected: Result<State, Refusal>) {
        let state = answers::state(block.descriptor, block.data, item);
        self.agree(block, &format!("state of {item}"), state, expected.into());
        self.met(state.number);
    }

    fn agree<T: PartialEq + Debug>(&mut self, block: Block, call: &str, library: T, reader: T) {
        if library != reader {
            self.fail(&format!(
                "mismatch in {call}\n  descriptor {}\n  data {}\n  library {library:?}\n  reader {reader:?}",
                hex(block.descriptor),
                hex(block.data),
            ));
        }
    }

    fn met(&mut self, number: u32) {
        if self.numbers.add(number).is_none() {
            self.fail(&format!("number {number}"));
        }
    }
}

#[derive(Clone, Copy)]
struct Block<'b> {
    descriptor: &'b [u8],
    data: &'b [u8],
}

/// How many items a block has; of a refused one, as many as its descriptor alone gives.
fn count(block: Block) -> u32 {
    let count = unfold(block.descriptor).map(|unfolding| match walk(&unfolding, block.data) {
        Ok(notes) => notes.len(),
        Err(_) => unfolding.fields.len(),
    });
    count.unwrap_or(0) as u32
}

/// Where a part lies in the data, also an empty one.
fn place_of(part: &[u8], data: &[u8]) -> Part {
    let offset = part.as_ptr().addr().wrapping_sub(data.as_ptr().addr());
    Part {
        offset: offset as u32,
        length: part.len() as u32,
    }
}

fn hex(bytes: &[u8]) -> String {
    bytes.iter().map(|byte| format!("{byte:02X}")).collect()
}
