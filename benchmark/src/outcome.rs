//! What each side tells of a rule, in one form, to be compared.

use crate::plain::{Counts, Shortage};

#[derive(Clone, Copy, PartialEq, Eq, Debug)]
pub struct Told {
    pub opened_by_set: u64,
    pub opened_by_verdict: u64,
    /// 1 nondominated, 2 dominated, 3 clash.
    pub verdict: u64,
    /// How many smallest passing groups there are.
    pub passing: u64,
    /// How many smallest stopping groups there are.
    pub stopping: u64,
}

/// The number of a denial.
#[derive(Clone, Copy, PartialEq, Eq, Debug)]
pub struct Denied(pub u64);

impl Denied {
    /// The nodes do not fit.
    pub const NODES: Denied = Denied(14);
}

pub type Outcome = Result<Told, Denied>;

impl From<Counts> for Told {
    fn from(counts: Counts) -> Told {
        Told {
            opened_by_set: counts.opened_by_set,
            opened_by_verdict: counts.opened_by_verdict,
            verdict: counts.verdict as u64,
            passing: counts.passing,
            stopping: counts.stopping,
        }
    }
}

impl From<Shortage> for Denied {
    fn from(_: Shortage) -> Denied {
        Denied::NODES
    }
}
