//! Field types, and the type parameters that each of them allows.

/// How an item is laid out after any null indicator.
#[derive(Clone, Copy, Debug, PartialEq, Eq)]
pub(crate) enum Form {
    /// F bytes.
    Fixed,
    /// A two-byte signed length, then bytes.
    Variable,
    /// Bytes up to a zero byte.
    NullTerminated,
    /// A one-byte unsigned length, then bytes.
    Short,
    /// Decimal digits and a sign, two half-bytes a byte.
    Packed,
}

enum FieldLengths {
    UpTo(u16),
    OneOf(&'static [u16]),
    /// In place of F: digits from 1 to this number, and at most as many fraction digits.
    Digits(u8),
}

struct Rule {
    type_code: u8,
    form: Form,
    lengths: FieldLengths,
    highest_mode: u8,
    highest_bias: u16,
}

const fn rule(type_code: u8, form: Form, lengths: FieldLengths) -> Rule {
    Rule {
        type_code,
        form,
        lengths,
        highest_mode: if matches!(form, Form::Fixed | Form::Packed) {
            0
        } else {
            1
        },
        highest_bias: if matches!(type_code, 0x47 | 0x48) {
            1
        } else {
            0
        },
    }
}

const RULES: [Rule; 10] = [
    rule(0x01, Form::Fixed, FieldLengths::UpTo(32_767)),
    rule(0x02, Form::Variable, FieldLengths::UpTo(32_767)),
    rule(0x03, Form::NullTerminated, FieldLengths::UpTo(32_767)),
    rule(0x07, Form::Short, FieldLengths::UpTo(255)),
    rule(0x23, Form::Fixed, FieldLengths::OneOf(&[2, 4, 8])),
    rule(0x24, Form::Fixed, FieldLengths::OneOf(&[2, 4, 8])),
    rule(0x30, Form::Packed, FieldLengths::Digits(18)),
    rule(0x40, Form::Fixed, FieldLengths::OneOf(&[4, 8, 16])),
    rule(0x47, Form::Fixed, FieldLengths::OneOf(&[4, 8])),
    rule(0x48, Form::Fixed, FieldLengths::OneOf(&[4, 8])),
];

/// Added to a type code, this makes its nullable form.
pub(crate) const NULLABLE: u8 = 0x80;

impl Rule {
    fn of(plain: u8) -> Option<&'static Rule> {
        RULES.iter().find(|rule| rule.type_code == plain)
    }

    fn allows(&self, parameters: &[u8; 8]) -> bool {
        let [reserved_0, reserved_1, bias @ .., reserved_4, mode, byte_6, byte_7] = *parameters;
        let length = u16::from_be_bytes([byte_6, byte_7]);
        [reserved_0, reserved_1, reserved_4] == [0, 0, 0]
            && u16::from_be_bytes(bias) <= self.highest_bias
            && mode <= self.highest_mode
            && match self.lengths {
                FieldLengths::UpTo(highest) => length <= highest,
                FieldLengths::OneOf(lengths) => lengths.contains(&length),
                FieldLengths::Digits(most) => (1..=most).contains(&byte_6) && byte_7 <= byte_6,
            }
    }
}

/// The parameters that hold for a plain type: for a field length other than 4, 8 or 16
/// a float has its type's default.
fn parameters_that_hold(plain: u8, mut parameters: [u8; 8]) -> [u8; 8] {
    let default = match plain {
        0x40 => 8,
        0x47 | 0x48 => 4,
        _ => return parameters,
    };
    if !matches!(parameters[6..], [0, 4 | 8 | 16]) {
        parameters[6..].copy_from_slice(&[0, default]);
    }
    parameters
}

/// A field of the unfolding: an SDA's id, type code and the parameters that hold for it.
#[derive(Clone, Copy, Debug, PartialEq, Eq)]
pub struct Field {
    id: u8,
    type_code: u8,
    parameters: [u8; 8],
    form: Form,
}

impl Field {
    /// The field of an SDA, unless its id is 0, its type has no rule or the
    /// rule does not allow the parameters that hold for it.
    pub(crate) fn new(id: u8, type_code: u8, parameters: [u8; 8]) -> Option<Field> {
        let plain = type_code & !NULLABLE;
        let rule = Rule::of(plain)?;
        let parameters = parameters_that_hold(plain, parameters);
        (id != 0 && rule.allows(&parameters)).then_some(Field {
            id,
            type_code,
            parameters,
            form: rule.form,
        })
    }

    /// The field with bytes 6 and 7 of its parameters replaced, unless its type's rule does
    /// not allow that. Zero replaces nothing; there is no default.
    pub(crate) fn replaced(&self, size: [u8; 2]) -> Option<Field> {
        if size == [0, 0] {
            return Some(*self);
        }
        let mut field = *self;
        field.parameters[6..].copy_from_slice(&size);
        Rule::of(self.plain_type())?
            .allows(&field.parameters)
            .then_some(field)
    }

    pub fn id(&self) -> u8 {
        self.id
    }

    pub fn type_code(&self) -> u8 {
        self.type_code
    }

    /// The type code without the nullable bit.
    pub fn plain_type(&self) -> u8 {
        self.type_code & !NULLABLE
    }

    pub fn is_nullable(&self) -> bool {
        self.type_code & NULLABLE != 0
    }

    /// The eight type parameters that hold, which are the SDA's but for a float's default
    /// and for a length that a GDA puts in.
    pub fn parameters(&self) -> [u8; 8] {
        self.parameters
    }

    /// 0 or 1 of a binary float, 0 of any other type.
    pub fn bias_indicator(&self) -> u16 {
        u16::from_be_bytes([self.parameters[2], self.parameters[3]])
    }

    /// Mode 0 sends all of the reserved space, mode 1 only what the value needs.
    pub fn mode(&self) -> u8 {
        self.parameters[5]
    }

    /// The field length F that holds; of a packed decimal, the bytes that its digits and
    /// sign take.
    pub fn field_length(&self) -> usize {
        match self.form {
            Form::Packed => self.digits() / 2 + 1,
            _ => u16::from_be_bytes([self.parameters[6], self.parameters[7]]).into(),
        }
    }

    /// Whether the field's items have no bytes, whatever the data.
    pub(crate) fn has_no_bytes(&self) -> bool {
        self.type_code == 0x01 && self.field_length() == 0
    }

    /// The digits of a packed decimal.
    pub(crate) fn digits(&self) -> usize {
        self.parameters[6].into()
    }

    /// How many of a packed decimal's digits are fraction digits.
    pub(crate) fn fraction_digits(&self) -> u32 {
        self.parameters[7].into()
    }

    pub(crate) fn form(&self) -> Form {
        self.form
    }
}

#[cfg(test)]
mod tests {
    use super::*;

    #[test]
    fn a_field_carries_the_parameters_that_hold() {
        let rows: [(u8, u64, Option<u64>); 11] = [
            (0x40, 0, Some(8)),
            (0xC0, 0, Some(8)),
            (0x47, 0, Some(4)),
            (0xC8, 0, Some(4)),
            (0x48, 0x0000_0001_0000_FFFF, Some(0x0000_0001_0000_0004)),
            (0x40, 16, Some(16)),
            (0x47, 8, Some(8)),
            (0x47, 16, None),
            (0x40, 0x0000_0000_0001_0000, None),
            (0x23, 0, None),
            (0x01, 0, Some(0)),
        ];
        for (type_code, parameters, held) in rows {
            let field = Field::new(1, type_code, parameters.to_be_bytes());
            let carried = field.map(|field| u64::from_be_bytes(field.parameters()));
            assert_eq!(carried, held, "X'{type_code:X}' {parameters:016X}");
        }
    }

    #[test]
    fn a_replaced_length_suits_or_there_is_no_field() {
        let rows: [(u8, u64, u16, Option<u64>); 12] = [
            (0x01, 5, 0x7FFF, Some(0x7FFF)),
            (0x01, 5, 0x8000, None),
            (0x01, 5, 0, Some(5)),
            (0x82, 0x0001_0005, 9, Some(0x0001_0009)),
            (0x07, 0x0001_0005, 255, Some(0x0001_00FF)),
            (0x07, 0x0001_0005, 256, None),
            (0xB0, 0x0301, 0x0503, Some(0x0503)),
            (0xB0, 0x0301, 0x0305, None),
            (0x40, 0xFFFF, 0, Some(8)),
            (0x40, 0xFFFF, 0xFFFF, None),
            (0xC7, 0x0000_0001_0000_0000, 8, Some(0x0000_0001_0000_0008)),
            (0xC7, 0x0000_0001_0000_0000, 16, None),
        ];
        for (type_code, parameters, length, held) in rows {
            let field = Field::new(1, type_code, parameters.to_be_bytes());
            let replaced = field.and_then(|field| field.replaced(length.to_be_bytes()));
            let carried = replaced.map(|field| u64::from_be_bytes(field.parameters()));
            assert_eq!(carried, held, "X'{type_code:X}' {parameters:016X} {length}");
        }
    }
}
