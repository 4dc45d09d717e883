//! Notes of questions with their answers, in two halves. New notes go into the current half;
//! when it is full the other is emptied and becomes current, so the newer half of a full memo is always left.

use super::nodes::Diagram;
use super::table::Table;

/// Numbered from 1 so that no question packs to 0.
#[derive(Clone, Copy)]
pub enum Kind {
    Either = 1,
    Both = 2,
    Less = 3,
    Turn = 4,
}

/// A question in one word: its kind above the first operand above the second.
#[derive(Clone, Copy)]
pub struct Question(u64);

impl Question {
    #[inline]
    pub fn new(kind: Kind, f: Diagram, g: Diagram) -> Question {
        let kind = (kind as u64) << (2 * Diagram::BITS);
        Question(kind | u64::from(f.number()) << Diagram::BITS | u64::from(g.number()))
    }
}

pub struct Memo<T> {
    current: T,
    older: T,
    /// How many notes a half may have.
    half: usize,
}

impl<T: Table> Memo<T> {
    /// An empty memo of so many places, an even number from 2 on.
    pub fn with_places(places: usize) -> Self {
        assert!(places >= 2 && places.is_multiple_of(2));
        Memo { current: T::default(), older: T::default(), half: places / 2 }
    }

    #[inline(always)]
    pub fn recall(&self, question: Question) -> Option<Diagram> {
        let answer = match self.current.get(question.0) {
            None if self.older.len() > 0 => self.older.get(question.0),
            found => found,
        };
        answer.map(Diagram::from_number)
    }

    /// Notes the answer to a question that has no note.
    #[inline]
    pub fn note(&mut self, question: Question, answer: Diagram) {
        if self.current.len() == self.half {
            self.turn_over();
        }
        self.current.insert(question.0, answer.number());
    }

    #[cold]
    fn turn_over(&mut self) {
        std::mem::swap(&mut self.current, &mut self.older);
        self.current.clear();
    }

    pub fn forget(&mut self) {
        self.current.clear();
        self.older.clear();
    }
}
