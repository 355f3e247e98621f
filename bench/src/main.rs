//! Times the proved library beside a reader in plain Rust, on the same inputs, in
//! turns, and prints a table.
//!
//! Where the stack and the code happen to lie changes the times, so many processes
//! of each program named by the arguments measure, and the table has their medians.
//! The programs differ in where the library's code lies. Those behind `--beside` are
//! another work tree's: they measure by turns with the others, and have a table of their
//! own. A mean is over the inputs that every tree has.

mod fast;
mod inputs;
mod measure;
mod placement;
mod timing;

use std::env;
use std::io;
use std::path::{Path, PathBuf};
use std::process::Command;

use measure::Measurement;
use timing::{geometric_mean, median, Timing};

/// Processes of each program: where the system places the stack at random, it lies elsewhere in each.
const PROCESSES: usize = 25;
const MEASURE: &str = "--measure";
const BESIDE: &str = "--beside";

/// The programs of a work tree, and what each of their processes measured.
struct Tree<'a> {
    programs: &'a [PathBuf],
    runs: Vec<Vec<Measurement>>,
}

fn main() -> io::Result<()> {
    let mut arguments: Vec<PathBuf> = env::args_os().skip(1).map(PathBuf::from).collect();
    if arguments == [Path::new(MEASURE)] {
        measure::print_all();
        return Ok(());
    }
    if arguments.is_empty() {
        arguments.push(env::current_exe()?);
    }
    let mut trees: Vec<Tree> = arguments
        .split(|word| word == Path::new(BESIDE))
        .map(|programs| Tree {
            programs,
            runs: Vec::new(),
        })
        .collect();
    for _ in 0..PROCESSES {
        for tree in &mut trees {
            for program in tree.programs {
                tree.runs.push(measure_in_process(program)?);
            }
        }
    }
    for tree in &trees {
        print_tree(tree, |row| trees.iter().all(|tree| tree.has(row)));
    }
    Ok(())
}

impl Tree<'_> {
    /// Whether this call on this input was measured.
    fn has(&self, row: &Measurement) -> bool {
        let mut rows = self.runs.iter().flatten();
        rows.any(|own| own.call == row.call && own.input == row.input)
    }
}

fn print_tree(tree: &Tree, is_shared: impl Fn(&Measurement) -> bool) {
    let Some(first) = tree.runs.first() else {
        return;
    };
    let rows: Vec<Measurement> = (0..first.len())
        .map(|row| median_of_runs(&tree.runs, row))
        .collect();
    println!("{}", tree.programs[0].display());
    print_table(&rows);
    print_means(&rows, is_shared);
    print_longest(&rows);
}

fn measure_in_process(program: &Path) -> io::Result<Vec<Measurement>> {
    let output = Command::new(program).arg(MEASURE).output()?;
    let text = String::from_utf8_lossy(&output.stdout);
    let rows: Vec<Measurement> = text.lines().filter_map(Measurement::parse).collect();
    match output.status.success() && !rows.is_empty() {
        true => Ok(rows),
        false => Err(io::Error::other(
            String::from_utf8_lossy(&output.stderr).into_owned(),
        )),
    }
}

fn median_of_runs(runs: &[Vec<Measurement>], row: usize) -> Measurement {
    let of = |part: fn(&Timing) -> f64| median(runs.iter().map(|run| part(&run[row].timing)));
    Measurement {
        timing: Timing {
            library: of(|timing| timing.library),
            rust: of(|timing| timing.rust),
            ratio: of(|timing| timing.ratio),
        },
        ..runs[0][row].clone()
    }
}

fn print_table(rows: &[Measurement]) {
    println!("| Call | Input | Items | Library ns/item | Rust ns/item | Library µs | Ratio |");
    println!("|---|---|--:|--:|--:|--:|--:|");
    for row in rows {
        let per_item = |time: f64| time / f64::from(row.items.max(1));
        println!(
            "| {} | {} | {} | {:.2} | {:.2} | {:.2} | {:.2} |",
            row.call,
            row.input,
            row.items,
            per_item(row.timing.library),
            per_item(row.timing.rust),
            row.timing.library / 1000.0,
            row.timing.ratio
        );
    }
    println!();
}

fn print_means(rows: &[Measurement], is_shared: impl Fn(&Measurement) -> bool) {
    for call in ["list", "list anew", "state", "check"] {
        let of_call = rows.iter().filter(|row| row.call == call && is_shared(row));
        let ratios: Vec<f64> = of_call.map(|row| row.timing.ratio).collect();
        println!("{call}: geometric mean {:.2}", geometric_mean(&ratios));
    }
}

fn print_longest(rows: &[Measurement]) {
    let longest = rows
        .iter()
        .max_by(|one, other| one.timing.library.total_cmp(&other.timing.library));
    if let Some(row) = longest {
        let time = row.timing.library / 1000.0;
        println!("longest call: {} of {}, {time:.1} µs", row.call, row.input);
    }
}
