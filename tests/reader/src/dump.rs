//! The text of the dump program.

use crate::refusal::*;
use crate::{unfold_for, walk, MAX_DATA, MAX_DESCRIPTOR};

/// What the dump program prints of a file: descriptor size, data size (four bytes
/// each, most significant first), descriptor, data.
pub fn dump(file: &[u8]) -> String {
    listing(file)
        .unwrap_or_else(|refusal| format!("refused {} {}\n", refusal.number, refusal.place))
}

fn listing(file: &[u8]) -> Result<String, Refusal> {
    let (descriptor, data) = parts(file)?;
    let notes = walk(&unfold_for(descriptor, data)?, data)?;
    let mut text = format!("items {} bytes {}\n", notes.len(), data.len());
    for (item, note) in notes.iter().enumerate() {
        let length = match note.is_null {
            true => "null".to_string(),
            false => note.parts.value.to_string(),
        };
        text += &format!("{item} {} {} {length}\n", note.start, note.type_code);
    }
    Ok(text)
}

/// The descriptor and the data of a file that fits its sizes.
fn parts(file: &[u8]) -> Result<(&[u8], &[u8]), Refusal> {
    let bad_file = Refusal::at(BAD_FILE, 0);
    let (&first, rest) = file.split_first_chunk::<4>().ok_or(bad_file)?;
    let (&second, rest) = rest.split_first_chunk::<4>().ok_or(bad_file)?;
    let sizes = [first, second].map(|size| u32::from_be_bytes(size) as usize);
    if sizes[0] > MAX_DESCRIPTOR || sizes[1] > MAX_DATA {
        return Err(Refusal::at(OVERSIZE, 0));
    }
    if rest.len() != sizes[0] + sizes[1] {
        return Err(bad_file);
    }
    Ok(rest.split_at(sizes[0]))
}

#[cfg(test)]
mod tests {
    use super::*;

    const PAPER: [u8; 31] = [
        0, 0, 0, 18, 0, 0, 0, 5, 0x0C, 0x70, 0xB1, 0x81, 0, 0, 0, 0, 0, 0, 0, 3, 0x06, 0x71, 0xA1,
        0xB1, 0, 2, 0, 0x61, 0x62, 0x63, 0x80,
    ];

    #[test]
    fn the_papers_file() {
        let text = "items 2 bytes 5\n0 0 129 3\n1 4 129 null\n";
        assert_eq!(dump(&PAPER), text);
        assert_eq!(dump(&PAPER[..30]), "refused 19 0\n");
    }

    #[test]
    fn floats_of_zero_parameters() {
        let descriptor = [0x0E, 0x70, 0xB1, 0xC0, 0, 0, 0, 0, 0, 0, 0, 0, 0, 2];
        let file = [
            &[0, 0, 0, 14, 0, 0, 0, 10],
            &descriptor[..],
            &[0; 9],
            &[0x80],
        ]
        .concat();
        let text = "items 2 bytes 10\n0 0 192 8\n1 9 192 null\n";
        assert_eq!(dump(&file), text);
    }

    #[test]
    fn columns_of_their_own_lengths() {
        let descriptor = [
            0x0C, 0x70, 0xB1, 0xA3, 0, 0, 0, 0, 0, 0, 0, 8, 0x0C, 0x75, 0xC1, 0xB1, 0, 2, 0xB1, 0,
            4, 0xB1, 0, 0,
        ];
        let file = [
            &[0, 0, 0, 24, 0, 0, 0, 9],
            &descriptor[..],
            &[0; 8],
            &[0x80],
        ]
        .concat();
        let text = "items 3 bytes 9\n0 0 163 2\n1 3 163 4\n2 8 163 null\n";
        assert_eq!(dump(&file), text);
    }

    #[test]
    fn rows_to_the_end() {
        let mut descriptor = [
            0x0C, 0x70, 0xB1, 0x01, 0, 0, 0, 0, 0, 0, 0, 0, 0x06, 0x71, 0xA1, 0xB1, 0, 0,
        ];
        let rows: [(u8, &[u8], &str); 4] = [
            (2, &[], "items 0 bytes 0\n"),
            (2, &[7; 4], "items 2 bytes 4\n0 0 1 2\n1 2 1 2\n"),
            (2, &[7; 5], "refused 13 4\n"),
            (0, &[], "refused 22 12\n"),
        ];
        for (field_length, data, text) in rows {
            descriptor[11] = field_length;
            let sizes = [0, 0, 0, 18, 0, 0, 0, data.len() as u8];
            let file = [&sizes[..], &descriptor, data].concat();
            assert_eq!(dump(&file), text);
        }
    }

    #[test]
    fn files_that_do_not_fit_their_sizes() {
        let rows: [(&[u8], &str); 6] = [
            (&[], "refused 19 0\n"),
            (&[0; 7], "refused 19 0\n"),
            (&[0; 8], "refused 11 0\n"),
            (&[0; 9], "refused 19 0\n"),
            (&[0, 0, 0x10, 1, 0, 0, 0, 0], "refused 1 0\n"),
            (&[0, 0, 0, 0, 0, 0, 0x80, 1], "refused 1 0\n"),
        ];
        for (file, text) in rows {
            assert_eq!(dump(file), text);
        }
    }
}
