//! The calls of the proved library, each with all of its results as they are given.

use reader::Refusal;

extern "C" {
    fn fdoca_check(
        descriptor: *const u8,
        descriptor_length: usize,
        place: &mut u32,
        items: &mut u32,
    ) -> u32;

    fn fdoca_list(
        descriptor: *const u8,
        descriptor_length: usize,
        data: *const u8,
        data_length: usize,
        list: *mut u32,
        list_length: usize,
        place: &mut u32,
    ) -> u32;

    fn fdoca_state(
        descriptor: *const u8,
        descriptor_length: usize,
        data: *const u8,
        data_length: usize,
        item: u32,
        place: &mut u32,
        is_null: &mut u32,
        type_code: &mut u32,
        lead: &mut u32,
        value: &mut u32,
        spare: &mut u32,
    ) -> u32;

    fn fdoca_lend(
        descriptor: *const u8,
        descriptor_length: usize,
        data: *const u8,
        data_length: usize,
        item: u32,
        place: &mut u32,
        offset: &mut u32,
        length: &mut u32,
    ) -> u32;

    fn fdoca_whole_number(
        descriptor: *const u8,
        descriptor_length: usize,
        data: *const u8,
        data_length: usize,
        item: u32,
        place: &mut u32,
        is_null: &mut u32,
        value: &mut i64,
    ) -> u32;

    fn fdoca_packed(
        descriptor: *const u8,
        descriptor_length: usize,
        data: *const u8,
        data_length: usize,
        item: u32,
        place: &mut u32,
        is_null: &mut u32,
        value: &mut i64,
        fraction_digits: &mut u32,
    ) -> u32;

    fn fdoca_value(
        descriptor: *const u8,
        descriptor_length: usize,
        data: *const u8,
        data_length: usize,
        item: u32,
        place: &mut u32,
        kind: &mut u32,
        whole: &mut i64,
        real: &mut f64,
    ) -> u32;
}

/// What a call gives: number 0 and place 0 if accepted; if refused, the default results, which
/// are zeros or the whole number 0.
#[derive(Clone, Copy, Debug, PartialEq, Eq)]
pub struct Answer<T> {
    pub number: u32,
    pub place: u32,
    pub results: T,
}

impl<T> Answer<T> {
    pub fn accepted(self) -> Result<T, Refusal> {
        match self.number {
            0 => Ok(self.results),
            number => Err(Refusal {
                number,
                place: self.place,
            }),
        }
    }
}

impl<T, R: Default + From<T>> From<Result<T, Refusal>> for Answer<R> {
    fn from(result: Result<T, Refusal>) -> Answer<R> {
        let (Refusal { number, place }, results) = match result {
            Ok(results) => (
                Refusal {
                    number: 0,
                    place: 0,
                },
                results.into(),
            ),
            Err(refusal) => (refusal, R::default()),
        };
        Answer {
            number,
            place,
            results,
        }
    }
}

/// An item's state, with the lengths of its parts. The null mark is 0 or 1.
#[derive(Clone, Copy, Debug, Default, PartialEq, Eq)]
pub struct State {
    pub is_null: u32,
    pub type_code: u32,
    pub lead: u32,
    pub value: u32,
    pub spare: u32,
}

impl From<reader::State> for State {
    fn from(state: reader::State) -> State {
        State {
            is_null: state.is_null.into(),
            type_code: state.type_code.into(),
            lead: state.lead,
            value: state.value,
            spare: state.spare,
        }
    }
}

/// Where in the data a value lies.
#[derive(Clone, Copy, Debug, Default, PartialEq, Eq)]
pub struct Part {
    pub offset: u32,
    pub length: u32,
}

impl Part {
    /// The bytes there, if the data go so far.
    pub fn of(self, data: &[u8]) -> Option<&[u8]> {
        data.get(self.offset as usize..)?
            .get(..self.length as usize)
    }
}

/// A whole-number item. The null mark is 0 or 1.
#[derive(Clone, Copy, Debug, Default, PartialEq, Eq)]
pub struct Whole {
    pub is_null: u32,
    pub value: i64,
}

impl From<reader::Whole> for Whole {
    fn from(whole: reader::Whole) -> Whole {
        Whole {
            is_null: whole.is_null.into(),
            value: whole.value,
        }
    }
}

/// A packed decimal item. The null mark is 0 or 1.
#[derive(Clone, Copy, Debug, Default, PartialEq, Eq)]
pub struct Packed {
    pub is_null: u32,
    pub value: i64,
    pub fraction_digits: u32,
}

impl From<reader::Packed> for Packed {
    fn from(packed: reader::Packed) -> Packed {
        Packed {
            is_null: packed.is_null.into(),
            value: packed.value,
            fraction_digits: packed.fraction_digits,
        }
    }
}

/// A numeric item's value: kind 0 null, 1 whole, 2 real, and the bits of the float.
#[derive(Clone, Copy, Debug, PartialEq, Eq)]
pub struct Value {
    pub kind: u32,
    pub whole: i64,
    pub real: u64,
}

impl Default for Value {
    /// The whole number 0.
    fn default() -> Value {
        reader::Value::default().into()
    }
}

impl From<reader::Value> for Value {
    fn from(value: reader::Value) -> Value {
        let (kind, whole, real) = value.numbers();
        Value { kind, whole, real }
    }
}

/// What a result holds before the call, so that one that is not written is seen.
const UNWRITTEN: u32 = 0xDEAD_BEEF;
const UNWRITTEN_VALUE: i64 = i64::MIN + 1;
const UNWRITTEN_REAL: f64 = f64::from_bits(0x7FF8_DEAD_BEEF_DEAD);

pub fn check(descriptor: &[u8]) -> Answer<u32> {
    let (mut place, mut results) = (UNWRITTEN, UNWRITTEN);
    let number = unsafe {
        fdoca_check(
            descriptor.as_ptr(),
            descriptor.len(),
            &mut place,
            &mut results,
        )
    };
    Answer {
        number,
        place,
        results,
    }
}

pub fn list(descriptor: &[u8], data: &[u8], list: &mut [u32]) -> Answer<()> {
    let mut place = UNWRITTEN;
    let number = unsafe {
        fdoca_list(
            descriptor.as_ptr(),
            descriptor.len(),
            data.as_ptr(),
            data.len(),
            list.as_mut_ptr(),
            list.len(),
            &mut place,
        )
    };
    Answer {
        number,
        place,
        results: (),
    }
}

pub fn state(descriptor: &[u8], data: &[u8], item: u32) -> Answer<State> {
    let mut place = UNWRITTEN;
    let mut results = State {
        is_null: UNWRITTEN,
        type_code: UNWRITTEN,
        lead: UNWRITTEN,
        value: UNWRITTEN,
        spare: UNWRITTEN,
    };
    let number = unsafe {
        fdoca_state(
            descriptor.as_ptr(),
            descriptor.len(),
            data.as_ptr(),
            data.len(),
            item,
            &mut place,
            &mut results.is_null,
            &mut results.type_code,
            &mut results.lead,
            &mut results.value,
            &mut results.spare,
        )
    };
    Answer {
        number,
        place,
        results,
    }
}

pub fn lend(descriptor: &[u8], data: &[u8], item: u32) -> Answer<Part> {
    let mut place = UNWRITTEN;
    let mut results = Part {
        offset: UNWRITTEN,
        length: UNWRITTEN,
    };
    let number = unsafe {
        fdoca_lend(
            descriptor.as_ptr(),
            descriptor.len(),
            data.as_ptr(),
            data.len(),
            item,
            &mut place,
            &mut results.offset,
            &mut results.length,
        )
    };
    Answer {
        number,
        place,
        results,
    }
}

pub fn whole_number(descriptor: &[u8], data: &[u8], item: u32) -> Answer<Whole> {
    let mut place = UNWRITTEN;
    let mut results = Whole {
        is_null: UNWRITTEN,
        value: UNWRITTEN_VALUE,
    };
    let number = unsafe {
        fdoca_whole_number(
            descriptor.as_ptr(),
            descriptor.len(),
            data.as_ptr(),
            data.len(),
            item,
            &mut place,
            &mut results.is_null,
            &mut results.value,
        )
    };
    Answer {
        number,
        place,
        results,
    }
}

pub fn packed(descriptor: &[u8], data: &[u8], item: u32) -> Answer<Packed> {
    let mut place = UNWRITTEN;
    let mut results = Packed {
        is_null: UNWRITTEN,
        value: UNWRITTEN_VALUE,
        fraction_digits: UNWRITTEN,
    };
    let number = unsafe {
        fdoca_packed(
            descriptor.as_ptr(),
            descriptor.len(),
            data.as_ptr(),
            data.len(),
            item,
            &mut place,
            &mut results.is_null,
            &mut results.value,
            &mut results.fraction_digits,
        )
    };
    Answer {
        number,
        place,
        results,
    }
}

pub fn value(descriptor: &[u8], data: &[u8], item: u32) -> Answer<Value> {
    let (mut place, mut kind) = (UNWRITTEN, UNWRITTEN);
    let (mut whole, mut real) = (UNWRITTEN_VALUE, UNWRITTEN_REAL);
    let number = unsafe {
        fdoca_value(
            descriptor.as_ptr(),
            descriptor.len(),
            data.as_ptr(),
            data.len(),
            item,
            &mut place,
            &mut kind,
            &mut whole,
            &mut real,
        )
    };
    Answer {
        number,
        place,
        results: Value {
            kind,
            whole,
            real: real.to_bits(),
        },
    }
}
