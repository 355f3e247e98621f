//! Writes cases for tests in other languages.
//!
//! `cases SEED COUNT` writes the fixed cases, then COUNT random ones, to standard output, one
//! behind the other, each in the form of the dump program's file.

use std::io::{self, BufWriter, Write};
use std::process::ExitCode;

use reader::generate::{edges, file, limits, seed_and_count, Generator};

fn main() -> ExitCode {
    let Some((seed, count)) = seed_and_count() else {
        eprintln!("usage: cases SEED COUNT");
        return ExitCode::from(2);
    };
    match write(seed, count) {
        Ok(()) => ExitCode::SUCCESS,
        Err(error) => {
            eprintln!("{error}");
            ExitCode::from(2)
        }
    }
}

fn write(seed: u64, count: usize) -> io::Result<()> {
    let mut out = BufWriter::new(io::stdout().lock());
    let random = Generator::new(seed).take(count);
    for case in edges().into_iter().chain(limits()).chain(random) {
        out.write_all(&file(&case.descriptor, &case.data))?;
    }
    out.flush()
}
