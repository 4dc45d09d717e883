//! What a diagram's name and a chain's link cost in a chained table of nodes and questions: as numbers of four bytes, and as
//! an enum and an option of eight. `cargo run --release --bin layouts` prints the milliseconds of the same work in each layout.

use std::hint::black_box;
use std::mem::size_of;
use std::time::{Duration, Instant};

/// The name of a diagram.
trait Name: Copy + PartialEq {
    fn of(place: u32) -> Self;
    fn word(self) -> u32;
}

#[derive(Clone, Copy, PartialEq)]
struct Code(u32);

impl Name for Code {
    fn of(place: u32) -> Code {
        Code(place + 2)
    }

    fn word(self) -> u32 {
        self.0
    }
}

#[derive(Clone, Copy, PartialEq)]
#[allow(dead_code)] // none and always are only there for the layout
enum View {
    None,
    Always,
    Node(u32),
}

impl Name for View {
    fn of(place: u32) -> View {
        View::Node(place)
    }

    fn word(self) -> u32 {
        match self {
            View::None => 0,
            View::Always => 1,
            View::Node(place) => place.wrapping_add(2),
        }
    }
}

/// A place, or none.
trait Link: Copy {
    fn none() -> Self;
    fn to(place: u32) -> Self;
    fn place(self) -> Option<u32>;
}

#[derive(Clone, Copy)]
struct Past(u32);

impl Link for Past {
    fn none() -> Past {
        Past(0)
    }

    fn to(place: u32) -> Past {
        Past(place + 1)
    }

    fn place(self) -> Option<u32> {
        self.0.checked_sub(1)
    }
}

impl Link for Option<u32> {
    fn none() -> Option<u32> {
        None
    }

    fn to(place: u32) -> Option<u32> {
        Some(place)
    }

    fn place(self) -> Option<u32> {
        self
    }
}

/// A key with the words of its hash.
trait Key: Copy + PartialEq {
    fn words(self) -> [u32; 3];
}

#[derive(Clone, Copy, PartialEq)]
struct Node<N> {
    member: u8,
    low: N,
    high: N,
}

impl<N: Name> Key for Node<N> {
    fn words(self) -> [u32; 3] {
        [u32::from(self.member), self.low.word(), self.high.word()]
    }
}

#[derive(Clone, Copy, PartialEq)]
enum Question<N> {
    Either(N, N),
    Both(N, N),
    Less(N, N),
    Turn(N),
}

impl<N: Name> Key for Question<N> {
    fn words(self) -> [u32; 3] {
        match self {
            Question::Either(f, g) => [0, f.word(), g.word()],
            Question::Both(f, g) => [1, f.word(), g.word()],
            Question::Less(f, g) => [2, f.word(), g.word()],
            Question::Turn(f) => [3, f.word(), 0],
        }
    }
}

fn hash(words: [u32; 3]) -> u32 {
    let hash = words
        .iter()
        .fold(0, |hash: u32, word| (hash ^ word).wrapping_mul(0x9e37_79b1).rotate_left(13));
    (hash ^ (hash >> 16)).wrapping_mul(0x85eb_ca6b)
}

#[derive(Clone, Copy)]
struct Slot<K, L> {
    key: K,
    head: L,
    next: L,
}

struct Interner<K, L> {
    slots: Vec<Slot<K, L>>,
    used: u32,
}

impl<K: Key, L: Link> Interner<K, L> {
    fn new(size: usize, key: K) -> Interner<K, L> {
        let blank = Slot { key, head: L::none(), next: L::none() };
        Interner { slots: vec![blank; size], used: 0 }
    }

    #[inline(never)]
    fn find(&self, key: K) -> Option<u32> {
        let mut cursor = self.slots[hash(key.words()) as usize % self.slots.len()].head;
        loop {
            let place = cursor.place()?;
            let slot = &self.slots[place as usize];
            if slot.key == key {
                return Some(place);
            }
            cursor = slot.next;
        }
    }

    #[inline(never)]
    fn intern(&mut self, key: K) -> Option<u32> {
        if let Some(place) = self.find(key) {
            return Some(place);
        }
        let place = self.used;
        let bucket = hash(key.words()) as usize % self.slots.len();
        let older = self.slots[bucket].head;
        let slot = self.slots.get_mut(place as usize)?;
        slot.key = key;
        slot.next = older;
        self.slots[bucket].head = L::to(place);
        self.used += 1;
        Some(place)
    }
}

/// Interns the same nodes and questions twice, over diagrams at places that were made up.
fn work<N: Name, L: Link>(
    nodes: &mut Interner<Node<N>, L>,
    questions: &mut Interner<Question<N>, L>,
    size: u32,
) {
    for _ in 0..2 {
        let mut state = 1u64;
        for i in 0..size {
            state = state
                .wrapping_mul(6_364_136_223_846_793_005)
                .wrapping_add(1_442_695_040_888_963_407);
            let f = N::of((state >> 40) as u32 % (i + 1));
            let g = N::of((state >> 20) as u32 % (i + 1));
            let question = match i % 4 {
                0 => Question::Either(f, g),
                1 => Question::Both(f, g),
                2 => Question::Less(f, g),
                _ => Question::Turn(f),
            };
            black_box(questions.intern(question));
            black_box(nodes.intern(Node { member: (i % 48) as u8, low: f, high: g }));
        }
    }
}

/// The shortest of some runs.
fn shortest<N: Name, L: Link>(size: u32) -> Duration {
    let run = |_| {
        let idle = N::of(0);
        let mut nodes =
            Interner::<_, L>::new(size as usize, Node { member: 0, low: idle, high: idle });
        let mut questions = Interner::<_, L>::new(size as usize, Question::Turn(idle));
        let start = Instant::now();
        work(&mut nodes, &mut questions, size);
        start.elapsed()
    };
    (0..15).map(run).min().unwrap_or_default()
}

fn row<N: Name, L: Link>(label: &str) {
    let bytes = size_of::<Slot<Node<N>, L>>();
    let [small, large] = [2_048, 65_536].map(|size| 1e3 * shortest::<N, L>(size).as_secs_f64());
    println!("{label:<34}{bytes:>3} bytes{small:>9.3} ms{large:>9.3} ms");
}

fn main() {
    println!("{:<34}{:>9}{:>12}{:>12}", "", "a node", "2,048", "65,536");
    row::<Code, Past>("numbers");
    row::<Code, Option<u32>>("diagrams numbers, links options");
    row::<View, Past>("diagrams enums, links numbers");
    row::<View, Option<u32>>("enums and options");
}
