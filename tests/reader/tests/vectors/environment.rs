//! The environmental descriptors of DRDA Volume 1, table 5-20, and array data of
//! table 5-28.

use reader::{check, list, whole_number};

use crate::support::{assert_check, hex, rows};

/// The SDAs of XMLSIE and NXMLSIE stand there with a byte too many, as printed.
const DESCRIPTORS: &str = include_str!("environment.txt");

#[test]
fn simple_data_arrays_are_judged_by_their_types() {
    for [name, _, sda, answer] in rows(DESCRIPTORS) {
        assert_check(name, &hex(sda), answer);
    }
}

#[test]
fn metadata_triplets_are_not_carried() {
    for [name, metadata, sda, _] in rows(DESCRIPTORS) {
        assert_check(name, &hex(&[metadata, sda].concat()), "refused 3 0");
    }
}

#[test]
fn the_carried_types_stand_together() {
    let carried: Vec<Vec<u8>> = rows(DESCRIPTORS)
        .into_iter()
        .filter(|[_, _, _, answer]| *answer == "items 1")
        .map(|[_, _, sda, _]| hex(sda))
        .collect();
    let groups: Vec<u8> = carried.iter().flat_map(|sda| [sda[2], 0, 2]).collect();
    let row = [&[3 + groups.len() as u8, 0x71, 0xE0], &groups[..]].concat();
    assert_eq!(check(&carried.concat()), Ok(1));
    let count = 2 * carried.len() as u32;
    assert_eq!(check(&[carried.concat(), row].concat()), Ok(count));
}

#[test]
fn the_first_type_not_carried_is_refused() {
    let sdas = rows(DESCRIPTORS).into_iter().map(|[_, _, sda, _]| sda);
    let descriptor: Vec<u8> = sdas.flat_map(hex).collect();
    assert_check("I1 after four others", &descriptor, "refused 6 48");
}

/// Two nullable SMALLINT, and their values.
const ARRAYS: &str = "
00 0028 00 0019 | 40  | 25
00 00AA 00 00A0 | 170 | 160
";

#[test]
fn arrays_of_nullable_integers_are_read() {
    let descriptor = hex("0E7005A3 00000000 00000002 0002");
    for [data, first, second] in rows(ARRAYS) {
        let data = hex(data);
        let mut entries = [0; 6];
        assert_eq!(list(&descriptor, &data, &mut entries), Ok(()));
        assert_eq!(entries, [2, 6, 0, 3, 5, 5]);
        for (item, value) in [(0, first), (1, second)] {
            let whole = whole_number(&descriptor, &data, item).expect(value);
            assert_eq!(whole.value.to_string(), value);
        }
    }
}
