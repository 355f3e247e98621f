//! Every call on every input: first the answers are compared, then the calls timed.

use std::hint::black_box;

use library::MAX_ITEMS;

use crate::fast::Reader;
use crate::inputs::{inputs, Input};
use crate::timing::{in_turns, Timing};

/// The timing of a call on an input.
#[derive(Clone)]
pub struct Measurement {
    pub call: String,
    pub input: String,
    pub items: u32,
    pub timing: Timing,
}

impl Measurement {
    /// Reads a line that [`print_all`] wrote.
    pub fn parse(line: &str) -> Option<Measurement> {
        let columns: Vec<&str> = line.split('|').collect();
        let [call, input, items, library, rust, ratio] = columns.try_into().ok()?;
        Some(Measurement {
            call: call.to_string(),
            input: input.to_string(),
            items: items.parse().ok()?,
            timing: Timing {
                library: library.parse().ok()?,
                rust: rust.parse().ok()?,
                ratio: ratio.parse().ok()?,
            },
        })
    }
}

type Call = (&'static str, fn(&Input) -> Timing);

const CALLS: [Call; 4] = [
    ("list", list),
    ("list anew", list_anew),
    ("state", state),
    ("check", check),
];

/// Measures all, and prints a line for each.
pub fn print_all() {
    let inputs = inputs();
    for (name, call) in CALLS {
        for input in &inputs {
            let Timing {
                library,
                rust,
                ratio,
            } = call(input);
            println!(
                "{name}|{}|{}|{library}|{rust}|{ratio}",
                input.name, input.items
            );
        }
    }
}

fn list(input: &Input) -> Timing {
    time_list(input, |_| ())
}

/// The list beside a reader that keeps no buffers between calls, as the library keeps none.
fn list_anew(input: &Input) -> Timing {
    time_list(input, |reader| *reader = Reader::default())
}

fn time_list(input: &Input, before: impl Fn(&mut Reader)) -> Timing {
    let (descriptor, data) = (&input.descriptor[..], &input.data[..]);
    let mut reader = Reader::default();
    let mut by_library = vec![7; 2 + 2 * MAX_ITEMS];
    let mut by_rust = by_library.clone();
    assert_eq!(
        library::list(descriptor, data, &mut by_library),
        reader.list(descriptor, data, &mut by_rust)
    );
    assert_eq!(by_library, by_rust);
    in_turns(
        || {
            let answer = library::list(black_box(descriptor), black_box(data), &mut by_library);
            let _ = black_box(answer);
        },
        || {
            before(&mut reader);
            let answer = reader.list(black_box(descriptor), black_box(data), &mut by_rust);
            let _ = black_box(answer);
        },
    )
}

fn state(input: &Input) -> Timing {
    let (descriptor, data) = (&input.descriptor[..], &input.data[..]);
    let mut reader = Reader::default();
    let count = input.items;
    for item in [0, count / 2, count.saturating_sub(1), count] {
        assert_eq!(
            library::state(descriptor, data, item),
            reader.state(descriptor, data, item)
        );
    }
    in_turns(
        || {
            let answer = library::state(black_box(descriptor), black_box(data), count / 2);
            let _ = black_box(answer);
        },
        || {
            let answer = reader.state(black_box(descriptor), black_box(data), count / 2);
            let _ = black_box(answer);
        },
    )
}

fn check(input: &Input) -> Timing {
    let descriptor = &input.descriptor[..];
    let mut reader = Reader::default();
    assert_eq!(library::check(descriptor), reader.check(descriptor));
    in_turns(
        || {
            let _ = black_box(library::check(black_box(descriptor)));
        },
        || {
            let _ = black_box(reader.check(black_box(descriptor)));
        },
    )
}
