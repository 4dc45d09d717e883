//! The answers that are given at sight, tried in the order written.

use super::nodes::Diagram;

const NONE: Diagram = Diagram::NONE;
const ALWAYS: Diagram = Diagram::ALWAYS;

#[inline(always)]
pub fn either(f: Diagram, g: Diagram) -> Option<Diagram> {
    if f == NONE {
        Some(g)
    } else if g == NONE {
        Some(f)
    } else if f == ALWAYS || g == ALWAYS {
        Some(ALWAYS)
    } else if f == g {
        Some(f)
    } else {
        None
    }
}

#[inline(always)]
pub fn both(f: Diagram, g: Diagram) -> Option<Diagram> {
    if f == NONE || g == NONE {
        Some(NONE)
    } else if f == ALWAYS {
        Some(g)
    } else if g == ALWAYS || f == g {
        Some(f)
    } else {
        None
    }
}

#[inline(always)]
pub fn less(f: Diagram, g: Diagram) -> Option<Diagram> {
    if f == NONE {
        Some(NONE)
    } else if g == NONE {
        Some(f)
    } else if g == ALWAYS {
        Some(NONE)
    } else if f == ALWAYS {
        Some(f)
    } else if f == g {
        Some(NONE)
    } else {
        None
    }
}

#[inline(always)]
pub fn turn(f: Diagram) -> Option<Diagram> {
    match f {
        NONE => Some(ALWAYS),
        ALWAYS => Some(NONE),
        _ => None,
    }
}
