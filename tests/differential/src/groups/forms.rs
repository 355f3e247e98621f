//! Valid blocks of every field type, mode and kind of triplet, and changes of
//! their data.

use std::collections::BTreeSet;

use differential::triplets::{triplets, CPT, GDA, ISD, RLO, SDA};
use reader::generate::{Case, Generator};
use reader::{unfold, walk, Field, Note, Unfolding};

use super::is_accepted;
use crate::compare::Comparison;

/// What a descriptor can have.
#[derive(Clone, Copy, Debug, PartialEq, Eq, PartialOrd, Ord)]
enum Form {
    Field {
        type_code: u8,
        mode: u8,
        has_length: bool,
    },
    /// The type code of a null.
    Null(u8),
    /// The type code of a string with reserved space, and whether its value leaves some of that.
    Reserved(u8, bool),
    /// The digits of a packed decimal.
    Digits(u8),
    /// The type code of a float, its field length and its bias indicator.
    Float(u8, usize, u16),
    /// The type code of a float whose field length gives way to the type's default.
    Default(u8),
    Extents(usize),
    ElementsTaken,
    Repetition,
    Nest,
    Continuation,
    Support,
    /// The type code of a column, and whether a length is put in.
    Column(u8, bool),
    LayoutContinuation,
    RowOfLayouts,
    /// The construct that rows to the end repeat.
    Rows(u8),
    RowsOfElementsTaken,
    RowsBehindFields,
    RowsInContinuation,
    /// How many passes rows to the end have, up to three.
    Passes(usize),
}

const FREE_LENGTHS: [bool; 2] = [false, true];
const SOME_LENGTH: [bool; 1] = [true];

/// Plain type, modes, whether the field length is above 0.
const TYPES: [(u8, &[u8], &[bool]); 10] = [
    (0x01, &[0], &FREE_LENGTHS),
    (0x02, &[0, 1], &FREE_LENGTHS),
    (0x03, &[0, 1], &FREE_LENGTHS),
    (0x07, &[0, 1], &FREE_LENGTHS),
    (0x23, &[0], &SOME_LENGTH),
    (0x24, &[0], &SOME_LENGTH),
    (0x30, &[0], &SOME_LENGTH),
    (0x40, &[0], &SOME_LENGTH),
    (0x47, &[0], &SOME_LENGTH),
    (0x48, &[0], &SOME_LENGTH),
];

/// Plain type, field length, bias indicator.
const FLOATS: [(u8, usize, u16); 11] = [
    (0x40, 4, 0),
    (0x40, 8, 0),
    (0x40, 16, 0),
    (0x47, 4, 0),
    (0x47, 4, 1),
    (0x47, 8, 0),
    (0x47, 8, 1),
    (0x48, 4, 0),
    (0x48, 4, 1),
    (0x48, 8, 0),
    (0x48, 8, 1),
];

pub fn every_form(comparison: &mut Comparison) {
    let mut missing = all_forms();
    for case in Generator::new(4).filter(is_accepted).take(20_000) {
        comparison.compare(&case.descriptor, &case.data);
        for form in forms(&case) {
            missing.remove(&form);
        }
    }
    if !missing.is_empty() {
        comparison.fail(&format!("no valid block has {missing:?}"));
    }
}

fn all_forms() -> BTreeSet<Form> {
    let mut forms = BTreeSet::from([
        Form::Extents(0),
        Form::Extents(1),
        Form::Extents(2),
        Form::Extents(3),
        Form::ElementsTaken,
        Form::Repetition,
        Form::Nest,
        Form::Continuation,
        Form::Support,
        Form::LayoutContinuation,
        Form::RowOfLayouts,
        Form::RowsOfElementsTaken,
        Form::RowsBehindFields,
        Form::RowsInContinuation,
    ]);
    forms.extend([SDA, RLO, GDA].map(Form::Rows));
    forms.extend((0..=3).map(Form::Passes));
    forms.extend((1..=18).map(Form::Digits));
    forms.extend(float_forms());
    for (plain, modes, lengths) in TYPES {
        forms.insert(Form::Null(plain + 0x80));
        for type_code in [plain, plain + 0x80] {
            if modes.len() > 1 {
                forms.extend([false, true].map(|is_left| Form::Reserved(type_code, is_left)));
            }
            forms.extend([false, true].map(|is_put_in| Form::Column(type_code, is_put_in)));
            for &mode in modes {
                forms.extend(lengths.iter().map(|&has_length| Form::Field {
                    type_code,
                    mode,
                    has_length,
                }));
            }
        }
    }
    forms
}

fn float_forms() -> impl Iterator<Item = Form> {
    let defaults = [0x40, 0x47, 0x48, 0xC0, 0xC7, 0xC8].map(Form::Default);
    let floats = FLOATS
        .into_iter()
        .flat_map(|(plain, length, bias_indicator)| {
            [plain, plain + 0x80].map(|code| Form::Float(code, length, bias_indicator))
        });
    defaults.into_iter().chain(floats)
}

fn forms(case: &Case) -> Vec<Form> {
    let unfolding = unfold(&case.descriptor).expect("a valid descriptor");
    let notes = walk(&unfolding, &case.data).expect("a good block");
    let fields = unfolding.first(notes.len());
    let mut forms: Vec<Form> = fields.iter().map(field_form).collect();
    let items = fields.iter().zip(&notes);
    forms.extend(items.filter_map(|(field, note)| part_form(field, note)));
    forms.extend(fields.iter().filter_map(number_form));
    forms.extend(rows_forms(&unfolding, notes.len()));
    let triplets = triplets(&case.descriptor);
    let mut continued = 0;
    for triplet in &triplets {
        let construct = triplet[1];
        if construct != CPT {
            continued = construct;
        }
        let groups = triplet[3..].chunks_exact(3);
        match (construct, continued) {
            (SDA, _) => {
                forms.push(Form::Extents((triplet.len() - 12) / 2));
                forms.extend(default_form(triplet, &fields));
            }
            (ISD, _) => forms.push(Form::Support),
            (_, GDA) => {
                forms.extend((construct == CPT).then_some(Form::LayoutContinuation));
                forms.extend(groups.map(|group| column_form(group, &triplets)));
            }
            _ => {
                let has_rows = triplet[triplet.len() - 1] == 0;
                forms.extend((construct == CPT).then_some(Form::Continuation));
                forms.extend((construct == CPT && has_rows).then_some(Form::RowsInContinuation));
                forms.extend(groups.flat_map(|group| group_forms(group, &triplets)));
            }
        }
    }
    forms
}

fn rows_forms(unfolding: &Unfolding, count: usize) -> Vec<Form> {
    let before = unfolding.fields.len();
    let Some(rows) = &unfolding.rows else {
        return Vec::new();
    };
    let passes = (count - before) / rows.pass_length();
    let mut forms = vec![Form::Passes(passes.min(3))];
    forms.extend((before > 0).then_some(Form::RowsBehindFields));
    forms
}

fn field_form(field: &Field) -> Form {
    Form::Field {
        type_code: field.type_code(),
        mode: field.mode(),
        has_length: field.field_length() > 0,
    }
}

fn number_form(field: &Field) -> Option<Form> {
    let type_code = field.type_code();
    match field.plain_type() {
        0x30 => Some(Form::Digits(field.parameters()[6])),
        0x40 | 0x47 | 0x48 => {
            let length = field.field_length();
            Some(Form::Float(type_code, length, field.bias_indicator()))
        }
        _ => None,
    }
}

fn part_form(field: &Field, note: &Note) -> Option<Form> {
    let type_code = field.type_code();
    if note.is_null {
        return Some(Form::Null(type_code));
    }
    let is_string = matches!(field.plain_type(), 0x02 | 0x03 | 0x07);
    let is_reserved = is_string && field.mode() == 0 && field.field_length() > 0;
    let is_left = note.parts.value < field.field_length();
    is_reserved.then_some(Form::Reserved(type_code, is_left))
}

/// The form of an SDA with a field of its own for which other parameters hold.
fn default_form(sda: &[u8], fields: &[Field]) -> Option<Form> {
    let own = unfold(sda).ok()?.fields[0];
    let is_met = own.parameters() != sda[4..12] && fields.contains(&own);
    is_met.then_some(Form::Default(own.type_code()))
}

/// The triplet that a group refers to.
fn lower<'t>(group: &[u8], triplets: &[&'t [u8]]) -> &'t [u8] {
    let mut described = triplets.iter().filter(|triplet| triplet[1] != CPT);
    described
        .find(|triplet| triplet[2] == group[0])
        .expect("a reference of a valid descriptor")
}

fn column_form(group: &[u8], triplets: &[&[u8]]) -> Form {
    Form::Column(lower(group, triplets)[3], group[1..] != [0, 0])
}

fn group_forms(group: &[u8], triplets: &[&[u8]]) -> impl Iterator<Item = Form> {
    let construct = lower(group, triplets)[1];
    [
        (group[1] > 0).then_some(Form::ElementsTaken),
        (group[2] > 1).then_some(Form::Repetition),
        (group[2] == 0).then_some(Form::Rows(construct)),
        (group[1] > 0 && group[2] == 0).then_some(Form::RowsOfElementsTaken),
        (construct == RLO).then_some(Form::Nest),
        (construct == GDA).then_some(Form::RowOfLayouts),
    ]
    .into_iter()
    .flatten()
}

pub fn varied_data(comparison: &mut Comparison) {
    let is_small = |length: usize| length < 60;
    let blocks = Generator::new(5)
        .filter(is_accepted)
        .filter(|case| is_small(case.data.len()) && is_small(case.descriptor.len()));
    for case in blocks.take(600) {
        let (descriptor, data) = (&case.descriptor, case.data);
        for length in 0..data.len() {
            comparison.compare(descriptor, &data[..length]);
        }
        for surplus in [&[0][..], &[0x80], &[0xFF; 2], &[0; 17]] {
            comparison.compare(descriptor, &[&data, surplus].concat());
        }
        for offset in 0..data.len() {
            let old = data[offset];
            let mut changed = data.clone();
            for byte in [0, 1, 0x7F, 0x80, 0xFF, old ^ 1, old ^ 0x80] {
                changed[offset] = byte;
                comparison.compare(descriptor, &changed);
            }
        }
    }
}
