//! The tables that are printed.

use std::process::ExitCode;
use std::time::Duration;

#[cfg(feature = "ours")]
use crate::ours;
use crate::outcome::Outcome;
use crate::plain::{Counts, Engine, OpenTable, SIZES, Shortage, StdTable, Table};
use crate::rules::{self, Rule};
use crate::timing::shortest;

/// Both sides on every rule. Fails where they tell different things.
pub fn both_sides() -> ExitCode {
    println!(
        "{:22} {:>9} {:>9} {:>7} {:>10} {:>12} {:>10} {:>6}",
        "rule", "set", "verdict", "nodes", "plain ms", "ns/question", "ours ms", "ratio"
    );
    let differing = rules::table().iter().filter(|rule| !row(rule)).count();
    if differing > 0 {
        println!("MISMATCH: the sides tell different things of {differing} rules");
        return ExitCode::FAILURE;
    }
    ExitCode::SUCCESS
}

/// Prints one rule's row, and says whether both sides agree.
fn row(rule: &Rule) -> bool {
    let (counts, plain_time) = plain::<OpenTable>(rule);
    let ours = ours(rule);
    let (ours_column, ratio_column) = match ours {
        Some((_, time)) => (in_ms(time), format!("{:.2}", time.div_duration_f64(plain_time))),
        None => ("-".to_string(), "-".to_string()),
    };
    println!(
        "{:22} {} {:>10} {:>12} {:>10} {:>6}",
        rule.name,
        count_columns(&counts),
        in_ms(plain_time),
        ns_each(&counts, plain_time),
        ours_column,
        ratio_column
    );
    let told: Outcome = counts.map(Into::into).map_err(Into::into);
    match ours {
        Some((ours_told, _)) if ours_told != told => {
            println!("  MISMATCH\n    plain {told:?}\n    ours  {ours_told:?}");
            false
        }
        _ => true,
    }
}

fn plain<T: Table>(rule: &Rule) -> (Result<Counts, Shortage>, Duration) {
    let mut engine = Engine::<T>::new(SIZES);
    shortest(|| engine.work(rule.text.as_bytes()))
}

#[cfg(feature = "ours")]
fn ours(rule: &Rule) -> Option<(Outcome, Duration)> {
    Some(shortest(|| ours::work(rule.text.as_bytes())))
}

#[cfg(not(feature = "ours"))]
fn ours(_: &Rule) -> Option<(Outcome, Duration)> {
    None
}

/// The plain side over both kinds of tables.
pub fn both_tables() -> ExitCode {
    println!("{:22} {:>12} {:>12} {:>6}", "rule", "open ms", "std ms", "ratio");
    for rule in rules::table() {
        let (_, open) = plain::<OpenTable>(&rule);
        let (_, std) = plain::<StdTable>(&rule);
        let ratio = std.div_duration_f64(open);
        println!("{:22} {:>12} {:>12} {ratio:>6.2}", rule.name, in_ms(open), in_ms(std));
    }
    ExitCode::SUCCESS
}

fn count_columns(counts: &Result<Counts, Shortage>) -> String {
    match counts {
        Ok(counts) => format!(
            "{:>9} {:>9} {:>7}",
            counts.opened_by_set, counts.opened_by_verdict, counts.nodes
        ),
        Err(Shortage) => format!("{:>27}", format!("over {} nodes", SIZES.nodes)),
    }
}

fn in_ms(time: Duration) -> String {
    format!("{:.3}", time.as_secs_f64() * 1e3)
}

fn ns_each(counts: &Result<Counts, Shortage>, time: Duration) -> String {
    match counts {
        Ok(counts) => {
            let opened = counts.opened_by_set + counts.opened_by_verdict;
            format!("{:.1}", time.as_secs_f64() * 1e9 / opened as f64)
        }
        Err(Shortage) => "-".to_string(),
    }
}
