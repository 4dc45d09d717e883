//! Measures the decision-diagram engine in plain Rust and, with the feature `ours`, the verified one beside it.

mod check;
#[cfg(feature = "ours")]
mod ours;
mod outcome;
mod plain;
mod report;
mod rules;
mod timing;

use std::process::ExitCode;
use std::thread;

use plain::{Engine, OpenTable, Shortage, Sizes};

const USAGE: &str = "\
benchmark                             measures every rule
benchmark --tables                    the plain side over each kind of table
benchmark --instructions RULE         runs one rule once, by its name or its text
benchmark --sizes NODES NOTES RULE    what smaller memories cost in questions
benchmark --check FILE                compares the plain side with vectors";

/// The verified programs have as much stack.
const STACK: usize = 64 << 20;

fn main() -> ExitCode {
    let thread = thread::Builder::new().stack_size(STACK).spawn(run);
    thread.expect("a thread starts").join().expect("it ends by itself")
}

fn run() -> ExitCode {
    let arguments: Vec<String> = std::env::args().skip(1).collect();
    let arguments: Vec<&str> = arguments.iter().map(String::as_str).collect();
    match arguments[..] {
        [] => report::both_sides(),
        ["--tables"] => report::both_tables(),
        ["--instructions", rule] => instructions(&rules::text_of(rule)),
        ["--sizes", nodes, notes, rule] => match (nodes.parse(), notes.parse()) {
            (Ok(nodes), Ok(notes)) => in_sizes(Sizes { nodes, notes }, &rules::text_of(rule)),
            _ => usage(),
        },
        ["--check", file] => check_file(file),
        _ => usage(),
    }
}

fn usage() -> ExitCode {
    eprintln!("{USAGE}");
    ExitCode::FAILURE
}

fn instructions(text: &str) -> ExitCode {
    println!("plain {:?}", plain::work(text.as_bytes()));
    #[cfg(feature = "ours")]
    println!("ours  {:?}", ours::work(text.as_bytes()));
    ExitCode::SUCCESS
}

fn in_sizes(sizes: Sizes, text: &str) -> ExitCode {
    match questions_in_sizes(sizes, text.as_bytes()) {
        Ok(()) => ExitCode::SUCCESS,
        Err(Shortage) => {
            println!("more than {} nodes", sizes.nodes);
            ExitCode::FAILURE
        }
    }
}

/// Prints how many questions are opened, beside how many different ones there are, which a memo that is never full opens.
fn questions_in_sizes(sizes: Sizes, text: &[u8]) -> Result<(), Shortage> {
    let endless = Sizes { notes: 1 << 40, ..sizes };
    let opened = Engine::<OpenTable>::new(sizes).work(text)?;
    let different = Engine::<OpenTable>::new(endless).work(text)?;
    let alone = Engine::<OpenTable>::new(sizes).verdict_alone(text)?;
    let different_alone = Engine::<OpenTable>::new(endless).verdict_alone(text)?;
    print_row("the family", opened.opened_by_set, different.opened_by_set);
    print_row("the verdict after it", opened.opened_by_verdict, different.opened_by_verdict);
    print_row("the verdict without notes", alone, different_alone);
    Ok(())
}

fn print_row(what: &str, opened: u64, different: u64) {
    let ratio = opened as f64 / different as f64;
    println!("{what:26} opened {opened:>9}, different {different:>9}, ratio {ratio:.3}");
}

fn check_file(file: &str) -> ExitCode {
    let lines = match std::fs::read_to_string(file) {
        Ok(lines) => lines,
        Err(error) => {
            eprintln!("{file}: {error}");
            return ExitCode::FAILURE;
        }
    };
    let agreement = check::check(&lines);
    println!("{agreement}");
    if agreement.is_whole() { ExitCode::SUCCESS } else { ExitCode::FAILURE }
}
