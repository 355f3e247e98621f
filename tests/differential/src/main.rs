//! Compares the proved library with the independent reader on all calls.
//!
//! `--cases N` goes on after the groups until there are N cases, `--minutes N`
//! for so long.

mod compare;
mod groups;

use std::env;
use std::process::ExitCode;
use std::time::{Duration, Instant};

use compare::Comparison;
use groups::GROUPS;

const PROGRESS: Duration = Duration::from_secs(10);

/// How far a longer run goes on.
enum Goal {
    Cases(u64),
    Time(Duration),
}

fn main() -> ExitCode {
    let arguments: Vec<String> = env::args().skip(1).collect();
    let arguments: Vec<&str> = arguments.iter().map(String::as_str).collect();
    let goal = match arguments[..] {
        [] => Some(Goal::Cases(0)),
        ["--cases", count] => count.parse().ok().map(Goal::Cases),
        ["--minutes", count] => count.parse().ok().map(Goal::minutes),
        _ => None,
    };
    match goal {
        Some(goal) => run(goal),
        None => {
            eprintln!("usage: differential [--cases N | --minutes N]");
            ExitCode::from(2)
        }
    }
}

fn run(goal: Goal) -> ExitCode {
    let start = Instant::now();
    let mut comparison = Comparison::new(7);
    let mut results = Results::default();
    for group in GROUPS {
        results.group(&mut comparison, group.name, group.run);
    }
    if !goal.is_met(&comparison, start) {
        results.group(&mut comparison, "further cases", |comparison| {
            go_on(comparison, &goal, start)
        });
    }
    results.group(&mut comparison, "every number of the calls", |comparison| {
        if comparison.numbers.fewest() == 0 {
            comparison.fail("a number did not occur");
        }
    });
    println!(
        "{} cases in {:.1} s",
        comparison.cases,
        start.elapsed().as_secs_f64()
    );
    for (number, times) in comparison.numbers.iter() {
        println!("number {number:2}: {times}");
    }
    println!("{} passed, {} failed", results.passed, results.failed);
    ExitCode::from(u8::from(results.failed > 0))
}

impl Goal {
    fn minutes(count: u64) -> Goal {
        Goal::Time(Duration::from_secs(60 * count))
    }

    fn is_met(&self, comparison: &Comparison, start: Instant) -> bool {
        match self {
            Goal::Cases(count) => comparison.cases >= *count,
            Goal::Time(time) => start.elapsed() >= *time,
        }
    }
}

/// Further cases up to the goal, with a line of progress now and then.
fn go_on(comparison: &mut Comparison, goal: &Goal, start: Instant) {
    let mut shown = Instant::now();
    groups::more(comparison, |comparison| {
        if shown.elapsed() >= PROGRESS {
            shown = Instant::now();
            println!(
                "{} cases, {} mismatches, {} s",
                comparison.cases,
                comparison.mismatches,
                start.elapsed().as_secs()
            );
        }
        !goal.is_met(comparison, start)
    });
}

#[derive(Default)]
struct Results {
    passed: u32,
    failed: u32,
}

impl Results {
    fn group(
        &mut self,
        comparison: &mut Comparison,
        name: &str,
        run: impl FnOnce(&mut Comparison),
    ) {
        let (cases, mismatches) = (comparison.cases, comparison.mismatches);
        run(comparison);
        let is_passed = comparison.mismatches == mismatches;
        let (count, word) = match is_passed {
            true => (&mut self.passed, "passed"),
            false => (&mut self.failed, "failed"),
        };
        *count += 1;
        println!("{word}: {name} ({} cases)", comparison.cases - cases);
    }
}
