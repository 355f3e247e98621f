//! The calls of the proved library, in the shape of the independent reader's, whose
//! types and numbers they share.

pub mod answers;
pub mod triplets;

pub use reader::*;

pub fn check(descriptor: &[u8]) -> Result<u32, Refusal> {
    answers::check(descriptor).accepted()
}

pub fn list(descriptor: &[u8], data: &[u8], list: &mut [u32]) -> Result<(), Refusal> {
    answers::list(descriptor, data, list).accepted()
}

pub fn state(descriptor: &[u8], data: &[u8], item: u32) -> Result<State, Refusal> {
    let state = answers::state(descriptor, data, item).accepted()?;
    Ok(State {
        is_null: is_marked(state.is_null),
        type_code: state.type_code.try_into().expect("a type code of one byte"),
        lead: state.lead,
        value: state.value,
        spare: state.spare,
    })
}

pub fn state_numbers(descriptor: &[u8], data: &[u8], item: u32) -> [u32; 5] {
    let state = answers::state(descriptor, data, item).results;
    [
        state.is_null,
        state.type_code,
        state.lead,
        state.value,
        state.spare,
    ]
}

/// The part of the data that is lent.
pub fn lend<'b>(descriptor: &[u8], data: &'b [u8], item: u32) -> &'b [u8] {
    let part = answers::lend(descriptor, data, item).results;
    part.of(data).expect("a part within the data")
}

pub fn whole_number(descriptor: &[u8], data: &[u8], item: u32) -> Result<Whole, Refusal> {
    let whole = answers::whole_number(descriptor, data, item).accepted()?;
    Ok(Whole {
        is_null: is_marked(whole.is_null),
        value: whole.value,
    })
}

pub fn packed(descriptor: &[u8], data: &[u8], item: u32) -> Result<Packed, Refusal> {
    let packed = answers::packed(descriptor, data, item).accepted()?;
    Ok(Packed {
        is_null: is_marked(packed.is_null),
        value: packed.value,
        fraction_digits: packed.fraction_digits,
    })
}

/// The value of the kind given; what the kind has not is 0.
pub fn value(descriptor: &[u8], data: &[u8], item: u32) -> Result<Value, Refusal> {
    let value = answers::value(descriptor, data, item).accepted()?;
    Ok(match (value.kind, value.whole, value.real) {
        (0, 0, 0) => Value::Null,
        (1, whole, 0) => Value::Whole(whole),
        (2, 0, bits) => Value::Real(f64::from_bits(bits)),
        _ => panic!("{value:?}"),
    })
}

fn is_marked(mark: u32) -> bool {
    assert!(mark <= 1, "null mark {mark}");
    mark == 1
}
