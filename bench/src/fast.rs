//! A reader in plain Rust, written for speed. Its buffers are kept between calls.

mod descriptor;
mod item;

use library::{Refusal, State, MAX_DATA, MAX_ITEMS};

use descriptor::{Descriptor, Fields};
use item::{Field, Item};

fn refusal(number: u32, place: usize) -> Refusal {
    Refusal {
        number,
        place: place as u32,
    }
}

#[derive(Default)]
pub struct Reader {
    descriptor: Descriptor,
    fields: Fields,
    starts: Vec<u32>,
}

impl Reader {
    pub fn check(&mut self, descriptor: &[u8]) -> Result<u32, Refusal> {
        self.descriptor.parse(descriptor)?;
        Ok(self.descriptor.count())
    }

    pub fn list(
        &mut self,
        descriptor: &[u8],
        data: &[u8],
        list: &mut [u32],
    ) -> Result<(), Refusal> {
        let count = self.check_both(descriptor, data)?;
        if !self.descriptor.is_open_ended() && list.len() < 2 + 2 * count {
            return Err(refusal(12, 0));
        }
        self.descriptor.unfold(&mut self.fields);
        self.starts.clear();
        let starts = &mut self.starts;
        walk(&self.fields, data, |_, start, _| starts.push(start as u32))?;

        let found = starts.len();
        let list = list.get_mut(..2 + 2 * found).ok_or(refusal(12, 0))?;
        list[0] = found as u32;
        list[1] = data.len() as u32;
        let (list_starts, list_ids) = list[2..].split_at_mut(found);
        list_starts.copy_from_slice(starts);
        let (once, repeated) = list_ids.split_at_mut(count);
        write_ids(once, &self.fields.once);
        for row in repeated.chunks_mut(self.fields.repeated.len().max(1)) {
            write_ids(row, &self.fields.repeated);
        }
        Ok(())
    }

    pub fn state(&mut self, descriptor: &[u8], data: &[u8], item: u32) -> Result<State, Refusal> {
        self.check_both(descriptor, data)?;
        self.descriptor.unfold(&mut self.fields);
        let mut state = Err(refusal(17, 0));
        let mut number = 0;
        walk(&self.fields, data, |field, _, measured| {
            if number == item {
                let [lead, value, spare] = field.parts(measured).map(|length| length as u32);
                state = Ok(State {
                    is_null: measured.is_null,
                    type_code: field.type_code,
                    lead,
                    value,
                    spare,
                });
            }
            number += 1;
        })?;
        state
    }

    fn check_both(&mut self, descriptor: &[u8], data: &[u8]) -> Result<usize, Refusal> {
        if data.len() > MAX_DATA {
            return Err(refusal(1, 0));
        }
        Ok(self.check(descriptor)? as usize)
    }
}

fn write_ids(ids: &mut [u32], fields: &[Field]) {
    for (id, field) in ids.iter_mut().zip(fields) {
        *id = field.id.into();
    }
}

/// Measures the item of each field, then of the repeated fields over and over as long as
/// there are data, and notes field, start and item.
fn walk(
    fields: &Fields,
    data: &[u8],
    mut note: impl FnMut(&Field, usize, Item),
) -> Result<(), Refusal> {
    let Fields { once, repeated } = fields;
    let mut rest = data;
    let mut pass = &once[..];
    let mut is_cut = false;
    let mut room = MAX_ITEMS;
    loop {
        for field in pass {
            let start = data.len() - rest.len();
            let item = field
                .measure(rest)
                .map_err(|number| refusal(number, start))?;
            rest = &rest[item.length..];
            note(field, start, item);
        }
        let place = data.len() - rest.len();
        match (rest, &repeated[..]) {
            _ if is_cut => return Err(refusal(10, place)),
            ([], _) => return Ok(()),
            (_, []) => return Err(refusal(16, place)),
            _ => {}
        }
        room -= pass.len();
        is_cut = room < repeated.len();
        pass = if is_cut { &repeated[..room] } else { repeated };
    }
}
