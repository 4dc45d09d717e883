//! Compares the plain side with vectors of an independent implementation.
//! A line has a rule's bytes and what a program of small memories writes for it, in hex: the rule's sheet or a denial.

use std::fmt;

use crate::plain::{Engine, OpenTable, SIZES, Shortage, Sizes};

/// The memories that the vectors were made with.
const SMALL: Sizes = Sizes { nodes: 2_048, notes: 2_048 };

const TOO_MANY_NODES: &[u8] = b"no 14\n";

#[derive(Default)]
pub struct Agreement {
    sheets: Score,
    sheets_in_small: Score,
    shortages_in_small: Score,
    other_denials: u32,
}

#[derive(Default)]
struct Score {
    agree: u32,
    of: u32,
}

impl Score {
    fn count(&mut self, agrees: bool) {
        self.of += 1;
        self.agree += u32::from(agrees);
    }

    fn is_full(&self) -> bool {
        self.agree == self.of
    }
}

impl Agreement {
    pub fn is_whole(&self) -> bool {
        self.sheets.is_full() && self.sheets_in_small.is_full() && self.shortages_in_small.is_full()
    }
}

impl fmt::Display for Score {
    fn fmt(&self, f: &mut fmt::Formatter<'_>) -> fmt::Result {
        write!(f, "{} of {} agree", self.agree, self.of)
    }
}

impl fmt::Display for Agreement {
    fn fmt(&self, f: &mut fmt::Formatter<'_>) -> fmt::Result {
        writeln!(f, "sheets, byte for byte:             {}", self.sheets)?;
        writeln!(f, "the same in the vectors' memories: {}", self.sheets_in_small)?;
        writeln!(f, "too many nodes for them:           {}", self.shortages_in_small)?;
        write!(f, "denied for the text or the buffer: {}, left out", self.other_denials)
    }
}

/// Compares every line.
pub fn check(lines: &str) -> Agreement {
    let mut engine = Engine::<OpenTable>::new(SIZES);
    let mut small = Engine::<OpenTable>::new(SMALL);
    let mut agreement = Agreement::default();
    for line in lines.lines() {
        let (rule, written) = line.split_once(' ').expect("a line has two fields");
        let (rule, written) = (bytes(rule), bytes(written));
        if written == TOO_MANY_NODES {
            agreement.shortages_in_small.count(sheet(&mut small, &rule) == Err(Shortage));
        } else if written.starts_with(b"no ") {
            agreement.other_denials += 1;
        } else {
            agreement.sheets.count(sheet(&mut engine, &rule).as_ref() == Ok(&written));
            agreement.sheets_in_small.count(sheet(&mut small, &rule) == Ok(written));
        }
    }
    agreement
}

/// A rule's sheet: the verdict, the numbers of smallest passing and stopping groups, where each part begins,
/// the length, and then the groups of both parts, falling; each number in eight bytes, the most significant first.
fn sheet(engine: &mut Engine<OpenTable>, rule: &[u8]) -> Result<Vec<u8>, Shortage> {
    let solved = engine.solve(rule)?;
    let passing = engine.passing_groups(&solved);
    let stopping = engine.stopping_groups(&solved);
    let (q, t) = (passing.len() as u64, stopping.len() as u64);
    let header = [solved.verdict() as u64, q, t, 48, 48 + 8 * q, 48 + 8 * (q + t)];
    let numbers = [header.as_slice(), &passing, &stopping].concat();
    Ok(numbers.into_iter().flat_map(u64::to_be_bytes).collect())
}

fn bytes(hex: &str) -> Vec<u8> {
    let digits = hex.strip_prefix('-').unwrap_or(hex);
    let byte = |pair: &[u8]| {
        let pair = std::str::from_utf8(pair).expect("hex is ASCII");
        u8::from_str_radix(pair, 16).expect("a pair of hex digits")
    };
    digits.as_bytes().chunks(2).map(byte).collect()
}
