//! Everything that the calls answer for one case.

use crate::generate::Case;
use crate::{check, lend, list, packed, state, value, whole_number};
use crate::{Packed, Refusal, State, Value, Whole};

#[derive(Clone, Debug, PartialEq, Eq)]
pub struct Answers {
    pub check: Result<u32, Refusal>,
    pub list: Result<(), Refusal>,
    pub list_after: Vec<u32>,
    pub state: Result<State, Refusal>,
    pub lent: Vec<u8>,
    pub whole: Result<Whole, Refusal>,
    pub packed: Result<Packed, Refusal>,
    pub value: Result<Value, Refusal>,
}

impl Answers {
    pub fn of(case: &Case) -> Answers {
        let (descriptor, data) = (&case.descriptor, &case.data);
        let mut list_after = case.list_before.clone();
        Answers {
            check: check(descriptor),
            list: list(descriptor, data, &mut list_after),
            list_after,
            state: state(descriptor, data, case.item),
            lent: lend(descriptor, data, case.item).to_vec(),
            whole: whole_number(descriptor, data, case.item),
            packed: packed(descriptor, data, case.item),
            value: value(descriptor, data, case.item),
        }
    }

    /// The numbers of check, list, state, whole-number, packed decimal and value read, 0
    /// where accepted.
    pub fn numbers(&self) -> [u32; 6] {
        [
            number(&self.check),
            number(&self.list),
            number(&self.state),
            number(&self.whole),
            number(&self.packed),
            number(&self.value),
        ]
    }

    /// All answers as one list of numbers. Each call gives its number and place,
    /// then its results, which on a refusal are zeros, but for the kind of the
    /// whole number 0; the list and the lent bytes have their length before them;
    /// a whole number is its null mark, its sign and its magnitude, which is
    /// `-value - 1` for a negative value; a packed decimal has its fraction digits
    /// behind the same; a value is its kind, sign and magnitude of the whole
    /// number, and the bits of the float.
    pub fn flat(&self) -> Vec<u64> {
        let mut flat = Vec::new();
        flat.extend(call(&self.check, |&count| [count.into()]));
        flat.extend(call(&self.list, |()| []));
        flat.push(self.list_after.len() as u64);
        flat.extend(self.list_after.iter().map(|&entry| u64::from(entry)));
        flat.extend(call(&self.state, |state| state.numbers().map(u64::from)));
        flat.push(self.lent.len() as u64);
        flat.extend(self.lent.iter().map(|&byte| u64::from(byte)));
        flat.extend(call(&self.whole, |whole| {
            let [sign, magnitude] = sign_and_magnitude(whole.value);
            [whole.is_null.into(), sign, magnitude]
        }));
        flat.extend(call(&self.packed, |packed| {
            let [sign, magnitude] = sign_and_magnitude(packed.value);
            let fraction_digits = packed.fraction_digits.into();
            [packed.is_null.into(), sign, magnitude, fraction_digits]
        }));
        flat.extend(call(&self.value, |value| {
            let (kind, whole, bits) = value.numbers();
            let [sign, magnitude] = sign_and_magnitude(whole);
            [kind.into(), sign, magnitude, bits]
        }));
        flat
    }
}

fn sign_and_magnitude(value: i64) -> [u64; 2] {
    let is_negative = value < 0;
    let magnitude = if is_negative { !value } else { value };
    [is_negative.into(), magnitude as u64]
}

fn number<T>(answer: &Result<T, Refusal>) -> u32 {
    answer.as_ref().map_or_else(|refusal| refusal.number, |_| 0)
}

/// Number and place, then the results; a refusal has the default ones.
fn call<T: Default, const N: usize>(
    answer: &Result<T, Refusal>,
    results: impl FnOnce(&T) -> [u64; N],
) -> Vec<u64> {
    let place = answer.as_ref().map_or_else(|refusal| refusal.place, |_| 0);
    let results = results(answer.as_ref().unwrap_or(&T::default()));
    [&[number(answer).into(), place.into()][..], &results].concat()
}
