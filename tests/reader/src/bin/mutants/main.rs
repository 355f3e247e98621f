//! Makes mutants of definitions: files in which one token is another one.
//!
//! `mutants SPECS NAMED SAME OUT` reads the definitions `SPECS/*.antt`, mutants that
//! no rule makes from `NAMED` (lines `FILE | old text | new text`), and mutants that
//! mean the same as the definition from `SAME` (lines
//! `FILE.DEFINITION | old line | new line | reason`). It writes each changed file to
//! `OUT/NUMBER.antt`, and one line for it to standard output: number, file, line
//! number, `same` or `-`, definition, old line and new line, with tabs between them.
//! The exit status is 1 if a named mutant or one of `SAME` does not occur.
//!
//! The rules, for code only (no comments, no `use` and no fixity lines):
//!
//! - a numeral, one more, and for bounds and byte places one less too; left out are
//!   universe levels and the 0 that `get_or` gives past a list's end
//! - `leb` and `ltb`, `<` and `≤`, `≡` and `≢`, `&&` and `||`, each for the other;
//!   `eqb` denied; `not` left out
//! - a constructor without arguments (`true` and `false` too) on the right side, the
//!   next one of its type
//! - the place of a refusal, 0

mod changes;
mod names;
mod tokens;

use std::env;
use std::fs;
use std::io;
use std::path::Path;
use std::process::ExitCode;

use changes::changes;
use names::Names;
use tokens::{code, tokens};

fn main() -> ExitCode {
    let arguments: Vec<String> = env::args().skip(1).collect();
    let [specs, named, same, out] = &arguments[..] else {
        eprintln!("usage: mutants SPECS NAMED SAME OUT");
        return ExitCode::from(2);
    };
    let done = all_mutants(Path::new(specs), Path::new(named), Path::new(same))
        .and_then(|mutants| write_all(&mutants, Path::new(out)).map_err(|error| error.to_string()));
    match done {
        Ok(()) => ExitCode::SUCCESS,
        Err(reason) => {
            eprintln!("{reason}");
            ExitCode::from(1)
        }
    }
}

/// A file of definitions.
pub(crate) struct Source {
    name: String,
    lines: Vec<String>,
}

/// One line of a file, changed.
#[derive(Clone, Debug, PartialEq, Eq)]
struct Mutant {
    file: String,
    line: usize,
    definition: String,
    old: String,
    new: String,
    is_same: bool,
    text: String,
}

fn write_all(mutants: &[Mutant], out: &Path) -> io::Result<()> {
    for (index, mutant) in mutants.iter().enumerate() {
        let number = index + 1;
        fs::write(out.join(format!("{number}.antt")), &mutant.text)?;
        println!(
            "{number}\t{}\t{}\t{}\t{}\t{}\t{}",
            mutant.file,
            mutant.line + 1,
            if mutant.is_same { "same" } else { "-" },
            mutant.definition,
            mutant.old.trim(),
            mutant.new.trim()
        );
    }
    Ok(())
}

fn all_mutants(specs: &Path, named: &Path, same: &Path) -> Result<Vec<Mutant>, String> {
    let sources = sources(specs).map_err(|error| format!("{}: {error}", specs.display()))?;
    let mut mutants = by_rules(&sources);
    for row in rows(named)? {
        let [file, old, new] = &row[..] else {
            return Err(format!("not `FILE | old | new`: {}", row.join(" | ")));
        };
        let mutant = by_name(&sources, file, old, new)?;
        if !mutants.iter().any(|other| other.text == mutant.text) {
            mutants.push(mutant);
        }
    }
    for row in rows(same)? {
        let [place, old, new, _reason] = &row[..] else {
            return Err(format!(
                "not `FILE.DEFINITION | old | new | reason`: {}",
                row.join(" | ")
            ));
        };
        let found = mutants.iter_mut().find(|mutant| {
            format!("{}.{}", mutant.file, mutant.definition) == *place
                && mutant.old.trim() == old
                && mutant.new.trim() == new
        });
        found
            .ok_or(format!("no such mutant: {place} | {old} | {new}"))?
            .is_same = true;
    }
    Ok(mutants)
}

/// The files of a folder, but for the list of its modules.
fn sources(specs: &Path) -> io::Result<Vec<Source>> {
    let mut sources = Vec::new();
    for entry in fs::read_dir(specs)? {
        let path = entry?.path();
        let stem = path.file_stem().unwrap_or_default().to_string_lossy();
        if path.extension().is_some_and(|end| end == "antt") && stem != "Lib" {
            sources.push(Source {
                name: stem.to_string(),
                lines: fs::read_to_string(&path)?
                    .lines()
                    .map(str::to_string)
                    .collect(),
            });
        }
    }
    sources.sort_by(|one, other| one.name.cmp(&other.name));
    Ok(sources)
}

/// The rows of a file: columns between bars; `#` begins a line that is no row.
fn rows(path: &Path) -> Result<Vec<Vec<String>>, String> {
    let text = fs::read_to_string(path).map_err(|error| format!("{}: {error}", path.display()))?;
    Ok(text
        .lines()
        .filter(|line| !line.trim().is_empty() && !line.starts_with('#'))
        .map(|line| {
            line.split(" | ")
                .map(|column| column.trim().to_string())
                .collect()
        })
        .collect())
}

fn by_name(sources: &[Source], file: &str, old: &str, new: &str) -> Result<Mutant, String> {
    let source = sources
        .iter()
        .find(|source| source.name == file)
        .ok_or(format!("no file {file}"))?;
    let lines: Vec<usize> = (0..source.lines.len())
        .filter(|&line| source.lines[line].contains(old))
        .collect();
    let [line] = lines[..] else {
        return Err(format!(
            "{file}: in {} lines, not in one: {old}",
            lines.len()
        ));
    };
    let definitions = definitions(&source.lines);
    let changed = source.lines[line].replacen(old, new, 1);
    Ok(mutant(source, line, &definitions[line], changed, &[]))
}

/// The mutant of a file with one line changed, and lines that bring in names that
/// the file did not use.
fn mutant(
    source: &Source,
    line: usize,
    definition: &str,
    changed: String,
    uses: &[String],
) -> Mutant {
    let mut lines = source.lines.clone();
    let old = std::mem::replace(&mut lines[line], changed.clone());
    let first_use = lines
        .iter()
        .position(|text| text.starts_with("use "))
        .unwrap_or(0);
    lines.splice(first_use..first_use, uses.iter().cloned());
    Mutant {
        file: source.name.clone(),
        line,
        definition: definition.to_string(),
        old,
        new: changed,
        is_same: false,
        text: lines.join("\n") + "\n",
    }
}

fn by_rules(sources: &[Source]) -> Vec<Mutant> {
    let names = Names::of(sources);
    let mut mutants = Vec::new();
    for source in sources {
        let definitions = definitions(&source.lines);
        for (line, text) in source.lines.iter().enumerate() {
            for change in changes(text, &names) {
                let mut changed = text.clone();
                changed.replace_range(change.start..change.end, &change.new);
                let uses: Vec<String> = change
                    .needs
                    .iter()
                    .filter(|need| !source.has(need))
                    .filter_map(|need| names.use_line(need, &source.name))
                    .collect();
                mutants.push(mutant(source, line, &definitions[line], changed, &uses));
            }
        }
    }
    mutants
}

impl Source {
    /// Whether the file uses a name anywhere.
    fn has(&self, name: &str) -> bool {
        let operator = format!("◌{name}◌");
        self.lines.iter().any(|line| {
            tokens(line)
                .iter()
                .take_while(|token| !token.text.starts_with("--"))
                .any(|token| token.text == name || token.text == operator)
        })
    }
}

/// The definition that each line belongs to: the last name that was given a type.
fn definitions(lines: &[String]) -> Vec<String> {
    let mut last = String::new();
    lines
        .iter()
        .map(|line| {
            let tokens = code(line);
            let words: Vec<&str> = tokens
                .iter()
                .map(|token| token.text)
                .filter(|text| !["abbrev", "unfoldable", "pub"].contains(text))
                .collect();
            match words[..] {
                ["data" | "record", name, ..] => last = name.to_string(),
                [name, ":", ..] => last = name.to_string(),
                [name, ..] if !line.starts_with(' ') && words.contains(&":") => {
                    last = name.to_string();
                }
                _ => {}
            }
            last.clone()
        })
        .collect()
}

#[cfg(test)]
mod tests {
    use super::*;

    #[test]
    fn a_line_belongs_to_the_last_name_with_a_type() {
        let lines = [
            "-- a comment: of two",
            "unfoldable pub check : ℕ → ℕ",
            "check d = do",
            "  n ← f d",
            "pub data Sign : Type 0 where",
            "  plus minus : Sign",
            "  other : 3 < 4 → Sign",
        ]
        .map(str::to_string);
        let expected = ["", "check", "check", "check", "Sign", "Sign", "other"];
        assert_eq!(definitions(&lines), expected);
    }
}
