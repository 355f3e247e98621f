//! Prints cases and the reader's answers as a table for a proof checker.
//!
//! `table SEED COUNT` writes the fixed cases (short ones, files with the text that the
//! dump program prints, long ones), then COUNT random ones to standard output, in chunks of 50 or, of
//! long ones, 4, and one line to standard error: how often each number was met by a random case. The exit status is
//! 1 unless every number that the calls can give was met at least ten times.

use std::io::{self, BufWriter, Write};
use std::process::ExitCode;
use std::slice::Chunks;

use reader::generate::{edges, files, limits, seed_and_count, Case, Generator};
use reader::{dump, Answers, Counts};

const CHUNK: usize = 50;
const LONG_CHUNK: usize = 4;
const FILE_CHUNK: usize = 5;
const SHORTEST_RUN: usize = 16;
const FEWEST: u64 = 10;
const FILES: usize = 100;

fn main() -> ExitCode {
    let Some((seed, count)) = seed_and_count() else {
        eprintln!("usage: table SEED COUNT");
        return ExitCode::from(2);
    };
    match print(seed, count) {
        Ok(met) => {
            eprintln!("{}", counts_line(&met));
            ExitCode::from(u8::from(met.fewest() < FEWEST))
        }
        Err(error) => {
            eprintln!("{error}");
            ExitCode::from(2)
        }
    }
}

/// Prints the table and tells how often each number was met.
fn print(seed: u64, count: usize) -> io::Result<Counts> {
    let mut out = BufWriter::new(io::stdout().lock());
    let random: Vec<Case> = Generator::new(seed).take(count).collect();
    print_cases(
        &mut out,
        "edges",
        edges().chunks(CHUNK),
        &mut Counts::default(),
    )?;
    print_files(&mut out, &files(seed, FILES))?;
    print_cases(
        &mut out,
        "limits",
        limits().chunks(LONG_CHUNK),
        &mut Counts::default(),
    )?;
    let mut met = Counts::default();
    print_cases(&mut out, "cases", random.chunks(CHUNK), &mut met)?;
    out.flush()?;
    Ok(met)
}

fn print_cases(
    out: &mut impl Write,
    name: &str,
    chunks: Chunks<Case>,
    met: &mut Counts,
) -> io::Result<()> {
    for (number, chunk) in chunks.enumerate() {
        let mut rows = Vec::new();
        for case in chunk {
            let answers = Answers::of(case);
            for number in answers.numbers() {
                met.add(number).expect("a number that calls give");
            }
            rows.push(case_text(case, &answers));
        }
        let name = format!("{name}{number}");
        print_rows(out, &name, "Case", &rows)?;
        writeln!(
            out,
            "agree_{name} : map answered {name} ≡ map expected {name}"
        )?;
        writeln!(out, "unfolding {name} answered everything")?;
        writeln!(out, "agree_{name} = refl\n")?;
    }
    Ok(())
}

fn print_files(out: &mut impl Write, files: &[Vec<u8>]) -> io::Result<()> {
    for (number, chunk) in files.chunks(FILE_CHUNK).enumerate() {
        let row = |file: &Vec<u8>| {
            let text = dump(file);
            format!(
                "printed ({}) ({})",
                byte_string(file),
                byte_string(text.as_bytes())
            )
        };
        let rows: Vec<String> = chunk.iter().map(row).collect();
        let name = format!("files{number}");
        print_rows(out, &name, "Printed", &rows)?;
        writeln!(out, "agree_{name} : map dumped {name} ≡ map text {name}")?;
        writeln!(out, "unfolding {name} everything")?;
        writeln!(out, "agree_{name} = refl\n")?;
    }
    Ok(())
}

/// A list of rows of some type.
fn print_rows(out: &mut impl Write, name: &str, row: &str, rows: &[String]) -> io::Result<()> {
    writeln!(out, "{name} : List {row}")?;
    writeln!(out, "unfolding bytes")?;
    writeln!(out, "{name} =\n    {}\n    ∷ []\n", rows.join("\n    ∷ "))
}

fn counts_line(met: &Counts) -> String {
    let counts: Vec<String> = met
        .iter()
        .map(|(number, times)| format!("{number}:{times}"))
        .collect();
    counts.join(" ")
}

fn case_text(case: &Case, answers: &Answers) -> String {
    format!(
        "case ({}) ({}) ({}) {} ({})",
        byte_string(&case.descriptor),
        byte_string(&case.data),
        number_list(&case.list_before),
        case.item,
        cons_list(&answers.flat())
    )
}

/// Splits a list into runs of equal entries and the stretches between them.
fn segments<T: PartialEq>(list: &[T]) -> Vec<&[T]> {
    let mut segments = Vec::new();
    let mut rest = list;
    let mut plain = 0;
    while plain < rest.len() {
        let run = rest[plain..]
            .iter()
            .take_while(|&entry| *entry == rest[plain])
            .count();
        if run < SHORTEST_RUN {
            plain += run;
            continue;
        }
        segments.extend([&rest[..plain], &rest[plain..plain + run]]);
        rest = &rest[plain + run..];
        plain = 0;
    }
    segments.push(rest);
    segments.retain(|segment| !segment.is_empty());
    segments
}

fn is_run<T: PartialEq>(segment: &[T]) -> bool {
    segment.len() >= SHORTEST_RUN && segment.iter().all(|entry| *entry == segment[0])
}

fn joined(parts: Vec<String>) -> String {
    if parts.is_empty() {
        "[]".to_string()
    } else {
        parts.join(" ++ ")
    }
}

fn byte_string(bytes: &[u8]) -> String {
    let part = |segment: &&[u8]| {
        if is_run(segment) {
            return format!("replicate {} {}", segment.len(), segment[0]);
        }
        let hex: String = segment.iter().map(|byte| format!("{byte:02X}")).collect();
        format!("bytes {} 0x{hex}", segment.len())
    };
    joined(segments(bytes).iter().map(part).collect())
}

fn number_list(list: &[u32]) -> String {
    let segments = segments(list);
    if let [plain] = segments[..] {
        if !is_run(plain) {
            return cons_list(plain);
        }
    }
    let part = |segment: &&[u32]| {
        if is_run(segment) {
            return format!("replicate {} {}", segment.len(), segment[0]);
        }
        format!("({})", cons_list(segment))
    };
    joined(segments.iter().map(part).collect())
}

fn cons_list<T: ToString>(list: &[T]) -> String {
    list.iter()
        .map(|entry| entry.to_string() + " ∷ ")
        .chain(["[]".to_string()])
        .collect()
}

#[cfg(test)]
mod tests {
    use super::*;

    #[test]
    fn byte_strings_are_printed_in_segments() {
        let long = [&[1, 0xAB][..], &[0; 16], &[0xC; 15], &[7; 20]].concat();
        let hex = "0C".repeat(15);
        let text =
            format!("bytes 2 0x01AB ++ replicate 16 0 ++ bytes 15 0x{hex} ++ replicate 20 7");
        let rows: [(&[u8], &str); 4] = [
            (&[], "[]"),
            (&[0, 5], "bytes 2 0x0005"),
            (&[200; 16], "replicate 16 200"),
            (&long, &text),
        ];
        for (bytes, text) in rows {
            assert_eq!(byte_string(bytes), text);
        }
    }

    #[test]
    fn number_lists_are_printed_in_segments() {
        let long = [&[1, 2][..], &[9; 16], &[3]].concat();
        let rows: [(&[u32], &str); 4] = [
            (&[], "[]"),
            (&[4, 5], "4 ∷ 5 ∷ []"),
            (&[6; 17], "replicate 17 6"),
            (&long, "(1 ∷ 2 ∷ []) ++ replicate 16 9 ++ (3 ∷ [])"),
        ];
        for (list, text) in rows {
            assert_eq!(number_list(list), text);
        }
    }
}
