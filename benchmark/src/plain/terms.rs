//! Rule text to terms. A rule is a member number, or a word with its figure and a list of items in brackets;
//! it expands to members, boths and eithers. Each different term is held once, after the terms that it names.

use super::table::Table;

/// The place of a term, in order of arrival.
type Place = u32;

/// A text of valid length has fewer terms than a place of so many bits can tell.
const PLACE_BITS: u32 = 17;

#[derive(Clone, Copy)]
pub enum Term {
    Member(u8),
    Both(Place, Place),
    Either(Place, Place),
}

impl Term {
    /// Different for different terms, and never 0.
    fn key(self) -> u64 {
        let (kind, first, second) = match self {
            Term::Member(v) => (1, 0, v.into()),
            Term::Both(a, b) => (2, a, b),
            Term::Either(a, b) => (3, a, b),
        };
        kind << (2 * PLACE_BITS) | u64::from(first) << PLACE_BITS | u64::from(second)
    }
}

/// The terms of a rule. The rule itself is the last, since it contains all the others.
pub fn read<T: Table>(text: &[u8]) -> Vec<Term> {
    let mut terms = Terms::<T>::default();
    Reader { rest: text }.item(&mut terms);
    terms.in_order
}

/// What is left of a rule's text, which is taken to be valid.
struct Reader<'a> {
    rest: &'a [u8],
}

impl Reader<'_> {
    fn skip_blanks(&mut self) {
        self.rest = self.rest.trim_ascii_start();
    }

    /// The longest run of bytes of one class from here on, which may be empty.
    fn run(&mut self, class: fn(&u8) -> bool) -> &str {
        self.skip_blanks();
        let length = self.rest.iter().take_while(|byte| class(byte)).count();
        let (run, rest) = self.rest.split_at(length);
        self.rest = rest;
        std::str::from_utf8(run).expect("a class has bytes of ASCII alone")
    }

    /// The number from here on, if there is one.
    fn number(&mut self) -> Option<usize> {
        self.run(u8::is_ascii_digit).parse().ok()
    }

    /// A word's figure.
    fn figure(&mut self) -> usize {
        self.number().expect("a valid rule has a figure here")
    }

    /// Takes the bracket, if it is what comes next.
    fn takes(&mut self, bracket: u8) -> bool {
        self.skip_blanks();
        match self.rest.split_first() {
            Some((&first, rest)) if first == bracket => {
                self.rest = rest;
                true
            }
            _ => false,
        }
    }

    fn item<T: Table>(&mut self, terms: &mut Terms<T>) -> Place {
        if let Some(member) = self.number() {
            return terms.put(Term::Member(member as u8));
        }
        match self.run(u8::is_ascii_lowercase) {
            "all" => {
                let items = self.list(terms);
                terms.least(items.len(), &items)
            }
            "any" => {
                let items = self.list(terms);
                terms.least(1, &items)
            }
            "least" => {
                let k = self.figure();
                let items = self.list(terms);
                terms.least(k, &items)
            }
            "grid" => {
                let width = self.figure();
                let items = self.list(terms);
                terms.grid(width, &items)
            }
            word => panic!("no word of a rule: {word:?}"),
        }
    }

    fn list<T: Table>(&mut self, terms: &mut Terms<T>) -> Vec<Place> {
        assert!(self.takes(b'('), "a valid rule has a list here");
        let mut items = Vec::new();
        while !self.takes(b')') {
            items.push(self.item(terms));
        }
        items
    }
}

struct Terms<T> {
    in_order: Vec<Term>,
    places: T,
}

impl<T: Table> Default for Terms<T> {
    fn default() -> Self {
        Terms { in_order: Vec::new(), places: T::default() }
    }
}

impl<T: Table> Terms<T> {
    /// The place of a term, which is put in where it is not held.
    fn put(&mut self, term: Term) -> Place {
        let fresh = self.in_order.len() as Place;
        let place = self.places.get_or_insert(term.key(), fresh);
        if place == fresh {
            self.in_order.push(term);
        }
        place
    }

    /// `least k` of m items is all of them where k = m, any where k = 1,
    /// and else either the first with `least k - 1` of the rest, or `least k` of the rest.
    /// It is made from the last item to the first: `row[j]` is `least j` of the items passed, for each j still wanted.
    fn least(&mut self, k: usize, items: &[Place]) -> Place {
        let mut row = vec![0; k + 1];
        for (before, &item) in items.iter().enumerate().rev() {
            let left = items.len() - before;
            let fewest = k.saturating_sub(before).max(1);
            for j in (fewest..=k.min(left)).rev() {
                row[j] = self.least_from(item, left, j, row[j - 1], row[j]);
            }
        }
        row[k]
    }

    /// `least j` of an item and those after it, `left` together, from `least j - 1` and `least j` of those after it.
    fn least_from(
        &mut self,
        item: Place,
        left: usize,
        j: usize,
        fewer: Place,
        same: Place,
    ) -> Place {
        if left == 1 {
            item
        } else if j == left {
            self.put(Term::Both(item, fewer))
        } else if j == 1 {
            self.put(Term::Either(item, same))
        } else {
            let with = self.put(Term::Both(item, fewer));
            self.put(Term::Either(with, same))
        }
    }

    /// Of the items in rows: all of some row, and some of every row.
    fn grid(&mut self, width: usize, items: &[Place]) -> Place {
        let rows = || items.chunks(width);
        let whole: Vec<Place> = rows().map(|row| self.least(width, row)).collect();
        let some_whole = self.least(1, &whole);
        let touched: Vec<Place> = rows().map(|row| self.least(1, row)).collect();
        let each_touched = self.least(touched.len(), &touched);
        self.put(Term::Both(some_whole, each_touched))
    }
}
