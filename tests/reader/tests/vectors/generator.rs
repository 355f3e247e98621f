//! The random cases, and what must hold of the answers to any of them.

use std::collections::BTreeMap;

use reader::generate::{limits, Case, Generator};
use reader::*;

#[test]
fn the_same_seed_gives_the_same_cases() {
    let first: Vec<Case> = Generator::new(7).take(300).collect();
    let again: Vec<Case> = Generator::new(7).take(300).collect();
    let other: Vec<Case> = Generator::new(8).take(300).collect();
    assert_eq!(first, again);
    assert_ne!(first, other);
}

#[test]
fn every_number_is_met() {
    let mut met = Counts::default();
    for case in Generator::new(1).take(2_000) {
        for number in Answers::of(&case).numbers() {
            met.add(number).expect("a number that calls give");
        }
    }
    assert!(met.fewest() >= 10, "{met:?}");
}

#[test]
fn packed_decimals_of_every_kind_are_read() {
    let read = |case: Case| packed(&case.descriptor, &case.data, case.item).ok();
    let decimals: Vec<Packed> = Generator::new(6).take(2_000).filter_map(read).collect();
    let assert_often = |name: &str, is_kind: fn(&&Packed) -> bool| {
        let times = decimals.iter().filter(is_kind).count();
        assert!(times >= 10, "{name}: {times} of {}", decimals.len());
    };
    assert_often("null", |decimal| decimal.is_null);
    assert_often("plus", |decimal| decimal.value > 0);
    assert_often("minus", |decimal| decimal.value < 0);
    assert_often("whole", |decimal| decimal.fraction_digits == 0);
    assert_often("long", |decimal| decimal.value.abs() >= 10_i64.pow(16));
}

/// What the value call says of binary floats of 4 bytes and of 8.
const SHORT: &[&str] = &["null", "zero", "real", "no float"];
const LONG: &[&str] = &["null", "zero", "denormal", "real", "no float"];

/// Plain type, field length, bias indicator, and what the value call says of such items.
const VALUES: [(u8, usize, u16, &[&str]); 16] = [
    (0x01, 2, 0, &["wrong kind"]),
    (0x23, 2, 0, &["null", "whole"]),
    (0x23, 8, 0, &["null", "whole"]),
    (0x24, 4, 0, &["null", "whole"]),
    (0x30, 2, 0, &["wrong kind"]),
    (0x40, 4, 0, &["null", "zero", "real"]),
    (0x40, 8, 0, &["null", "zero", "real", "no float"]),
    (0x40, 16, 0, &["wrong kind"]),
    (0x47, 4, 0, SHORT),
    (0x47, 4, 1, &["wrong kind"]),
    (0x47, 8, 0, LONG),
    (0x47, 8, 1, &["wrong kind"]),
    (0x48, 4, 0, SHORT),
    (0x48, 4, 1, &["wrong kind"]),
    (0x48, 8, 0, LONG),
    (0x48, 8, 1, &["wrong kind"]),
];

/// A word for what the value call says of an item.
fn value_word(case: &Case) -> Option<&'static str> {
    match value(&case.descriptor, &case.data, case.item) {
        Ok(Value::Null) => Some("null"),
        Ok(Value::Whole(_)) => Some("whole"),
        Ok(Value::Real(0.0)) => Some("zero"),
        Ok(Value::Real(real)) if real.is_subnormal() => Some("denormal"),
        Ok(Value::Real(_)) => Some("real"),
        Err(refusal) if refusal.number == WRONG_KIND => Some("wrong kind"),
        Err(refusal) if refusal.number == NO_EXACT_FLOAT => Some("no float"),
        Err(_) => None,
    }
}

#[test]
fn values_of_every_kind_are_asked() {
    let mut met = BTreeMap::new();
    for case in Generator::new(6).take(20_000) {
        if let Some(word) = value_word(&case) {
            let unfolding = unfold(&case.descriptor).expect("a valid descriptor");
            let field = unfolding.iter().nth(case.item as usize).expect("an item");
            let parameters = (field.field_length(), field.bias_indicator());
            let key = (field.plain_type(), parameters, word);
            *met.entry(key).or_insert(0) += 1;
        }
    }
    for (plain, length, bias_indicator, words) in VALUES {
        for &word in words {
            let key = (plain, (length, bias_indicator), word);
            let times = met.get(&key).copied().unwrap_or(0);
            assert!(times >= 5, "{key:X?}: {times}");
        }
    }
}

/// Bad indicators at the front and behind other items, also of rows to the end; and good blocks all
/// the same.
#[test]
fn bad_indicators_are_met() {
    let [mut good, mut first, mut later, mut in_rows] = [0; 4];
    for case in Generator::new(6).take(5_000) {
        let Ok(unfolding) = unfold(&case.descriptor) else {
            continue;
        };
        match walk(&unfolding, &case.data) {
            Ok(_) => good += 1,
            Err(refusal) if refusal.number == BAD_INDICATOR => {
                let is_first = refusal.place == 0;
                first += u32::from(is_first);
                later += u32::from(!is_first);
                in_rows += u32::from(!is_first && unfolding.rows.is_some());
            }
            Err(_) => {}
        }
    }
    assert!(good >= 2_500, "{good}");
    let met = [first, later, in_rows];
    assert!(met.iter().all(|&times| times >= 30), "{met:?}");
}

#[test]
fn most_cases_are_small() {
    let is_small = |case: &Case| {
        case.descriptor.len() < 120
            && case.data.len() < 120
            && check(&case.descriptor).unwrap_or(0) <= 60
    };
    let small = Generator::new(3).take(2_000).filter(is_small).count();
    assert!(small > 1_700, "{small}");
}

/// The list call agrees with the unfolding and the walk.
fn assert_list(case: &Case, answers: &Answers) {
    let before = &case.list_before;
    if answers.list.is_err() {
        assert_eq!(answers.list_after, *before);
        return;
    }
    let unfolding = unfold(&case.descriptor).expect("a valid descriptor");
    let notes = walk(&unfolding, &case.data).expect("a good block");
    let mut expected = vec![notes.len() as u32, case.data.len() as u32];
    expected.extend(notes.iter().map(|note| note.start as u32));
    expected.extend(notes.iter().map(|note| u32::from(note.id)));
    expected.extend_from_slice(&before[expected.len()..]);
    assert_eq!(answers.list_after, expected);
}

const NULL: Parts = Parts {
    lead: 1,
    value: 0,
    spare: 0,
};

/// The items of an accepted block lie one after the other and fill it.
fn assert_notes(unfolding: &Unfolding, notes: &[Note], data: &[u8]) {
    let mut position = 0;
    assert_whole_passes(unfolding, notes.len());
    for (field, note) in unfolding.iter().zip(notes) {
        assert_eq!(note.start, position);
        assert_eq!((note.id, note.type_code), (field.id(), field.type_code()));
        position += note.parts.total();
        assert!(note.start <= note.value().start && note.value().end <= position);
        assert!(!note.is_null || (field.is_nullable() && note.parts == NULL));
    }
    assert_eq!(position, data.len());
}

/// A block has all items of its descriptor, and whole passes behind them.
fn assert_whole_passes(unfolding: &Unfolding, items: usize) {
    let behind = items - unfolding.fields.len();
    match &unfolding.rows {
        Some(rows) => assert_eq!(behind % rows.pass_length(), 0),
        None => assert_eq!(behind, 0),
    }
    assert!(items <= MAX_ITEMS);
}

#[test]
fn answers_agree_with_each_other() {
    for case in Generator::new(2).take(5_000) {
        let answers = Answers::of(&case);
        assert_list(&case, &answers);
        if let Ok(unfolding) = unfold(&case.descriptor) {
            if let Ok(notes) = walk(&unfolding, &case.data) {
                assert_notes(&unfolding, &notes, &case.data);
            }
        }
        match answers.state {
            Ok(state) => assert_eq!(state.value as usize, answers.lent.len()),
            Err(refusal) => {
                assert!(answers.lent.is_empty());
                assert_eq!(answers.whole, Err(refusal));
                assert_eq!(answers.packed, Err(refusal));
                assert_eq!(answers.value, Err(refusal));
            }
        }
        if let Ok(whole) = answers.whole {
            let expected = match whole.is_null {
                true => Value::Null,
                false => Value::Whole(whole.value),
            };
            assert_eq!(answers.value, Ok(expected));
        }
    }
}

/// A value is lent as the part of the data that holds it.
#[test]
fn values_are_lent_from_the_data() {
    for case in Generator::new(4).take(1_000) {
        let lent = lend(&case.descriptor, &case.data, case.item).as_ptr_range();
        let data = case.data.as_ptr_range();
        let is_inside = data.start <= lent.start && lent.end <= data.end;
        assert!(is_inside || lent.start == lent.end);
    }
}

/// A good block with its unfolding and what the walk notes of it.
struct Good {
    case: Case,
    unfolding: Unfolding,
    notes: Vec<Note>,
}

impl Good {
    /// The first item of each pass of rows to the end.
    fn passes(&self) -> Option<Vec<usize>> {
        let length = self.unfolding.rows.as_ref()?.pass_length();
        let items = self.unfolding.fields.len()..self.notes.len();
        Some(items.step_by(length).collect())
    }
}

/// Short good blocks among so many cases.
fn good_blocks(seed: u64, count: usize) -> impl Iterator<Item = Good> {
    let is_short = |case: &Case| case.data.len() <= 200;
    let cases = Generator::new(seed).take(count).filter(is_short);
    cases.filter_map(|case| {
        let unfolding = unfold(&case.descriptor).ok()?;
        let notes = walk(&unfolding, &case.data).ok()?;
        (notes.len() <= 60).then_some(Good {
            case,
            unfolding,
            notes,
        })
    })
}

/// A block without rows to the end that ends earlier or goes on is refused: no accepted block is
/// the beginning of another one.
#[test]
fn an_accepted_block_refuses_to_be_cut_or_continued() {
    let blocks = good_blocks(5, 1_500).filter(|block| block.unfolding.rows.is_none());
    for block in blocks {
        let (unfolding, data) = (&block.unfolding, &block.case.data);
        for length in 0..data.len() {
            let cut = walk(unfolding, &data[..length]).map_err(|refusal| refusal.number);
            assert_eq!(cut, Err(SHORT_DATA));
        }
        let longer = [&data[..], &[0]].concat();
        let surplus = Refusal {
            number: SURPLUS,
            place: data.len() as u32,
        };
        assert_eq!(walk(unfolding, &longer), Err(surplus));
    }
}

/// Rows to the end may be cut before any pass, and nowhere else.
#[test]
fn rows_to_the_end_are_cut_between_passes() {
    let mut cuts = 0;
    for block in good_blocks(5, 3_000) {
        let Some(passes) = block.passes() else {
            continue;
        };
        let data = &block.case.data;
        for length in 0..data.len() {
            let starts_here = |item: &usize| block.notes[*item].start == length;
            let whole = passes.iter().copied().find(starts_here);
            let cut = walk(&block.unfolding, &data[..length]).map(|notes| notes.len());
            let cut = cut.map_err(|refusal| refusal.number);
            assert_eq!(cut, whole.ok_or(SHORT_DATA));
            cuts += u32::from(whole.is_some());
        }
    }
    assert!(cuts >= 500, "{cuts}");
}

/// Rows to the end read like the same rows with the number of their passes as factor.
#[test]
fn rows_to_the_end_are_as_many_as_there_are() {
    let mut met = 0;
    for block in good_blocks(8, 3_000) {
        let passes = block.passes().unwrap_or_default().len();
        if passes == 0 {
            continue;
        }
        let mut counted = block.case.clone();
        let factor = counted.descriptor.len() - 1;
        counted.descriptor[factor] = passes as u8;
        assert_eq!(check(&counted.descriptor), Ok(block.notes.len() as u32));
        let [rows, counted] = [&block.case, &counted].map(Answers::of);
        let expected = Answers {
            check: rows.check,
            ..counted
        };
        assert_eq!(rows, expected);
        met += 1;
    }
    assert!(met >= 200, "{met}");
}

#[test]
fn rows_to_the_end_have_none_to_many_passes() {
    let mut met = [0; 10];
    for passes in good_blocks(9, 6_000).filter_map(|block| block.passes()) {
        met[passes.len().min(9)] += 1;
    }
    assert!(met.iter().all(|&times| times > 0), "{met:?}");
    assert!(met[..4].iter().all(|&times| times >= 20), "{met:?}");
}

/// The walk's number 10, among the fixed cases and among the random ones.
#[test]
fn rows_to_the_end_of_too_many_items_are_met() {
    let is_met = |case: &Case| {
        let answer = state(&case.descriptor, &case.data, case.item);
        let number = answer.map_err(|refusal| refusal.number);
        check(&case.descriptor).is_ok() && number == Err(TOO_MANY_ITEMS)
    };
    let fixed = limits().into_iter().filter(is_met).count();
    assert!(fixed >= 5, "{fixed}");
    let random = Generator::new(1).take(5_000).filter(is_met).count();
    assert!(random >= 5, "{random}");
}
