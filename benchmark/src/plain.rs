//! The engine in plain Rust: the algorithm of the verified one, asking the same questions in the same order.
//! A rule's text becomes terms, each term a diagram, and from the rule's diagram comes the verdict.

mod memo;
mod nodes;
mod sight;
mod solve;
mod table;
mod terms;
#[cfg(test)]
mod tests;

use memo::Memo;
use nodes::{Diagram, Nodes};
use solve::{Answer, Solver};
use terms::Term;

pub use nodes::Shortage;
pub use table::{OpenTable, StdTable, Table};

/// How many nodes and notes there may be.
#[derive(Clone, Copy)]
pub struct Sizes {
    pub nodes: usize,
    pub notes: usize,
}

/// The sizes that are measured.
pub const SIZES: Sizes = Sizes { nodes: 65_536, notes: 65_536 };

#[derive(Clone, Copy, PartialEq, Eq, Debug)]
pub enum Verdict {
    Nondominated = 1,
    Dominated = 2,
    Clash = 3,
}

/// What came of a rule.
#[derive(Clone, Copy, PartialEq, Eq, Debug)]
pub struct Counts {
    /// Questions opened to work out the rule's family.
    pub opened_by_set: u64,
    /// Questions opened to work out the verdict.
    pub opened_by_verdict: u64,
    /// Nodes held at the end.
    pub nodes: usize,
    /// Smallest passing groups.
    pub passing: u64,
    /// Smallest stopping groups.
    pub stopping: u64,
    pub verdict: Verdict,
}

/// Works out a rule's family and its verdict, from nothing. Never inlined, so that its instructions can be counted.
#[inline(never)]
pub fn work(text: &[u8]) -> Result<Counts, Shortage> {
    Engine::<OpenTable>::new(SIZES).work(text)
}

/// A rule that is worked out. Its diagrams stay in the engine until the next rule.
pub struct Solved {
    judged: Judged,
    opened_by_set: u64,
    opened_by_verdict: u64,
}

/// The diagrams of the smallest passing and the smallest stopping groups, and the verdict on them.
struct Judged {
    passing: Diagram,
    stopping: Diagram,
    verdict: Verdict,
}

impl Solved {
    pub fn verdict(&self) -> Verdict {
        self.judged.verdict
    }
}

/// Node memory and memo over one kind of table. Each rule finds them empty, but allocated as the last one left them.
pub struct Engine<T> {
    solver: Solver<T>,
}

impl<T: Table> Engine<T> {
    pub fn new(sizes: Sizes) -> Self {
        let nodes = Nodes::with_room(sizes.nodes);
        Engine { solver: Solver::new(nodes, Memo::with_places(sizes.notes)) }
    }

    /// Works out a rule's family and its verdict.
    pub fn work(&mut self, text: &[u8]) -> Result<Counts, Shortage> {
        let solved = self.solve(text)?;
        Ok(self.counts(&solved))
    }

    pub fn solve(&mut self, text: &[u8]) -> Result<Solved, Shortage> {
        self.solver.clear();
        let passing = self.set(&terms::read::<T>(text))?;
        let opened_by_set = std::mem::take(&mut self.solver.opened);
        let judged = self.judge_or_again(passing)?;
        Ok(Solved { judged, opened_by_set, opened_by_verdict: self.solver.opened })
    }

    /// How many questions a rule's verdict opens when only its family is there, and no note.
    pub fn verdict_alone(&mut self, text: &[u8]) -> Result<u64, Shortage> {
        self.solver.clear();
        let passing = self.set(&terms::read::<T>(text))?;
        let passing = self.solver.keep_only(passing);
        self.judge(passing)?;
        Ok(self.solver.opened)
    }

    /// The numbers of the smallest passing groups, falling.
    pub fn passing_groups(&self, solved: &Solved) -> Vec<u64> {
        self.solver.nodes.groups(solved.judged.passing)
    }

    /// The numbers of the smallest stopping groups, falling.
    pub fn stopping_groups(&self, solved: &Solved) -> Vec<u64> {
        self.solver.nodes.groups(solved.judged.stopping)
    }

    fn counts(&self, solved: &Solved) -> Counts {
        let counts = self.solver.nodes.counts();
        Counts {
            opened_by_set: solved.opened_by_set,
            opened_by_verdict: solved.opened_by_verdict,
            nodes: self.solver.nodes.len(),
            passing: counts[solved.judged.passing.index()],
            stopping: counts[solved.judged.stopping.index()],
            verdict: solved.judged.verdict,
        }
    }

    /// The family of the last term: each term is worked out once, from those before it.
    fn set(&mut self, terms: &[Term]) -> Answer {
        let mut families: Vec<Diagram> = Vec::with_capacity(terms.len());
        for term in terms {
            families.push(match *term {
                Term::Member(v) => self.solver.nodes.build(v, Diagram::NONE, Diagram::ALWAYS)?,
                Term::Both(a, b) => self.solver.both(families[a as usize], families[b as usize])?,
                Term::Either(a, b) => {
                    self.solver.either(families[a as usize], families[b as usize])?
                }
            });
        }
        Ok(*families.last().expect("a rule has a term"))
    }

    /// Where places run short, all but the family is thrown out, and the verdict is tried once more.
    fn judge_or_again(&mut self, passing: Diagram) -> Result<Judged, Shortage> {
        self.judge(passing).or_else(|Shortage| {
            let passing = self.solver.keep_only(passing);
            self.judge(passing)
        })
    }

    fn judge(&mut self, passing: Diagram) -> Result<Judged, Shortage> {
        let stopping = self.solver.turn(passing)?;
        let verdict = if self.solver.less(passing, stopping)? != Diagram::NONE {
            Verdict::Clash
        } else if self.solver.less(stopping, passing)? != Diagram::NONE {
            Verdict::Dominated
        } else {
            Verdict::Nondominated
        };
        Ok(Judged { passing, stopping, verdict })
    }
}
