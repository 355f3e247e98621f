//! Fields, and how an item is measured by its field.

#[derive(Clone, Copy)]
pub enum Layout {
    Fixed,
    /// A length field of one byte, then bytes.
    Short,
    /// A length field of two bytes, then bytes.
    Variable,
    /// Bytes up to a zero byte.
    Terminated,
}

#[derive(Clone, Copy)]
pub struct Field {
    pub id: u8,
    pub type_code: u8,
    pub layout: Layout,
    /// Whether a value always has all of its space.
    pub is_reserved: bool,
    /// The longest value: the field length, or more than any block has.
    pub limit: u16,
}

/// The limit of a value that may have any length.
pub const FREE: u16 = u16::MAX;

/// A measured item: its null mark, its value's length, and the length of all.
#[derive(Clone, Copy)]
pub struct Item {
    pub is_null: bool,
    pub value: usize,
    pub length: usize,
}

const SHORT_DATA: u32 = 13;
const BAD_COUNT: u32 = 14;
const NO_END: u32 = 15;
const BAD_INDICATOR: u32 = 24;

impl Field {
    /// Whether every item is a fixed string without bytes.
    pub fn is_empty(&self) -> bool {
        self.type_code == 0x01 && self.limit == 0
    }

    /// The lengths of what precedes an item's value, of the value, and of what follows it.
    pub fn parts(&self, item: Item) -> [usize; 3] {
        let length_field = match self.layout {
            _ if item.is_null => 0,
            Layout::Fixed | Layout::Terminated => 0,
            Layout::Short => 1,
            Layout::Variable => 2,
        };
        let lead = usize::from(self.type_code >= 0x80) + length_field;
        [lead, item.value, item.length - lead - item.value]
    }

    #[inline(always)]
    pub fn measure(&self, bytes: &[u8]) -> Result<Item, u32> {
        let body = match bytes {
            _ if self.type_code < 0x80 => bytes,
            [] => return Err(SHORT_DATA),
            [0x80..=0xFF, ..] => {
                return Ok(Item {
                    is_null: true,
                    value: 0,
                    length: 1,
                })
            }
            [0, rest @ ..] => rest,
            _ => return Err(BAD_INDICATOR),
        };
        let (value, rest) = self.measure_value(body)?;
        Ok(Item {
            is_null: false,
            value,
            length: bytes.len() - rest.len(),
        })
    }

    /// The value's length, and what follows the item.
    #[inline(always)]
    fn measure_value<'b>(&self, bytes: &'b [u8]) -> Result<(usize, &'b [u8]), u32> {
        let limit = usize::from(self.limit);
        match (self.layout, bytes) {
            (Layout::Fixed, _) => Ok((limit, bytes.get(limit..).ok_or(SHORT_DATA)?)),
            (Layout::Short, &[count, ref body @ ..]) => self.counted(count.into(), body),
            (Layout::Variable, &[0x80..=0xFF, _, ..]) => Err(BAD_COUNT),
            (Layout::Variable, &[high, low, ref body @ ..]) => {
                self.counted(u16::from_be_bytes([high, low]).into(), body)
            }
            (Layout::Terminated, _) => self.terminated(bytes),
            _ => Err(SHORT_DATA),
        }
    }

    #[inline(always)]
    fn counted<'b>(&self, count: usize, body: &'b [u8]) -> Result<(usize, &'b [u8]), u32> {
        let limit = usize::from(self.limit);
        if count > limit {
            return Err(BAD_COUNT);
        }
        let sent = if self.is_reserved { limit } else { count };
        Ok((count, body.get(sent..).ok_or(SHORT_DATA)?))
    }

    #[inline(always)]
    fn terminated<'b>(&self, bytes: &'b [u8]) -> Result<(usize, &'b [u8]), u32> {
        let space = usize::from(self.limit) + 1;
        let (reach, failure) = match bytes.get(..space) {
            Some(reach) => (reach, NO_END),
            None if self.is_reserved => return Err(SHORT_DATA),
            None => (bytes, SHORT_DATA),
        };
        let end = reach.iter().position(|&byte| byte == 0).ok_or(failure)?;
        let sent = if self.is_reserved { space } else { end + 1 };
        Ok((end, bytes.get(sent..).ok_or(SHORT_DATA)?))
    }
}
