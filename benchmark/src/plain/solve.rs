//! The questions on diagrams. One that neither sight nor a note answers is opened:
//! it asks further ones on the parts of its operands, in the order written, and builds its answer.
//! The members of open questions rise, so at most 48 are open together and recursion is safe.
//!
//! Asking is inlined and opening is not: most questions end with the asking, and then cost no call.

use super::memo::{Kind, Memo, Question};
use super::nodes::{Diagram, Nodes, Shortage, Split};
use super::sight;
use super::table::Table;

pub type Answer = Result<Diagram, Shortage>;

pub struct Solver<T> {
    pub nodes: Nodes<T>,
    memo: Memo<T>,
    /// How many questions were opened since the count was last put to 0.
    pub opened: u64,
}

impl<T: Table> Solver<T> {
    pub fn new(nodes: Nodes<T>, memo: Memo<T>) -> Self {
        Solver { nodes, memo, opened: 0 }
    }

    /// Takes out every node and every note.
    pub fn clear(&mut self) {
        self.nodes.clear();
        self.memo.forget();
        self.opened = 0;
    }

    /// Throws out all nodes but those of one diagram. Places change their meaning by that, so every note goes too.
    pub fn keep_only(&mut self, root: Diagram) -> Diagram {
        self.memo.forget();
        self.opened = 0;
        self.nodes.keep_only(root)
    }

    /// The smallest groups that contain a group of f or of g.
    #[inline(always)]
    pub fn either(&mut self, f: Diagram, g: Diagram) -> Answer {
        let question = Question::new(Kind::Either, f, g);
        match sight::either(f, g).or_else(|| self.memo.recall(question)) {
            Some(answer) => Ok(answer),
            None => self.open_either(question, f, g),
        }
    }

    /// The smallest groups that contain a group of f and one of g.
    #[inline(always)]
    pub fn both(&mut self, f: Diagram, g: Diagram) -> Answer {
        let question = Question::new(Kind::Both, f, g);
        match sight::both(f, g).or_else(|| self.memo.recall(question)) {
            Some(answer) => Ok(answer),
            None => self.open_both(question, f, g),
        }
    }

    /// The groups of f that contain no group of g.
    #[inline(always)]
    pub fn less(&mut self, f: Diagram, g: Diagram) -> Answer {
        let question = Question::new(Kind::Less, f, g);
        match sight::less(f, g).or_else(|| self.memo.recall(question)) {
            Some(answer) => Ok(answer),
            None => self.open_less(question, f, g),
        }
    }

    /// The smallest groups that share a member with every group of f.
    #[inline(always)]
    pub fn turn(&mut self, f: Diagram) -> Answer {
        let question = Question::new(Kind::Turn, f, Diagram::NONE);
        match sight::turn(f).or_else(|| self.memo.recall(question)) {
            Some(answer) => Ok(answer),
            None => self.open_turn(question, f),
        }
    }

    #[inline(never)]
    fn open_either(&mut self, question: Question, f: Diagram, g: Diagram) -> Answer {
        self.opened += 1;
        let Split { member, f0, f1, g0, g1 } = self.nodes.split(f, g);
        let low = self.either(f0, g0)?;
        let highs = self.either(f1, g1)?;
        let high = self.less(highs, low)?;
        self.close(question, member, low, high)
    }

    #[inline(never)]
    fn open_both(&mut self, question: Question, f: Diagram, g: Diagram) -> Answer {
        self.opened += 1;
        let Split { member, f0, f1, g0, g1 } = self.nodes.split(f, g);
        let low = self.both(f0, g0)?;
        let in_both = self.both(f1, g1)?;
        let in_first = self.both(f1, g0)?;
        let highs = self.either(in_both, in_first)?;
        let in_second = self.both(f0, g1)?;
        let highs = self.either(highs, in_second)?;
        let high = self.less(highs, low)?;
        self.close(question, member, low, high)
    }

    #[inline(never)]
    fn open_less(&mut self, question: Question, f: Diagram, g: Diagram) -> Answer {
        self.opened += 1;
        let Split { member, f0, f1, g0, g1 } = self.nodes.split(f, g);
        let low = self.less(f0, g0)?;
        let highs = self.less(f1, g1)?;
        let high = self.less(highs, g0)?;
        self.close(question, member, low, high)
    }

    #[inline(never)]
    fn open_turn(&mut self, question: Question, f: Diagram) -> Answer {
        self.opened += 1;
        let node = self.nodes.node(f);
        let without = self.turn(node.low())?;
        let with = self.turn(node.high())?;
        let low = self.both(without, with)?;
        let high = self.less(without, low)?;
        self.close(question, node.member(), low, high)
    }

    /// Builds the answer to an open question, and notes it.
    #[inline]
    fn close(&mut self, question: Question, member: u8, low: Diagram, high: Diagram) -> Answer {
        let answer = self.nodes.build(member, low, high)?;
        self.memo.note(question, answer);
        Ok(answer)
    }
}
