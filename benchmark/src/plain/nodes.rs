//! Diagrams of families of groups. A node (v, low, high) has in low the groups without v,
//! and in high those with v, v taken out; every member below it is larger.
//! Each node is held once, at a place in order of arrival, so the parts of a node stand before it.

use super::table::Table;

/// A family of groups of which none contains another: none, always, or the node at a place.
#[derive(Clone, Copy, PartialEq, Eq, Debug)]
pub struct Diagram(u32);

impl Diagram {
    /// No group.
    pub const NONE: Diagram = Diagram(0);
    /// The empty group alone.
    pub const ALWAYS: Diagram = Diagram(1);
    /// As many bits has the number of a diagram.
    pub const BITS: u32 = 17;

    #[inline]
    pub fn from_number(number: u32) -> Diagram {
        Diagram(number)
    }

    #[inline]
    pub fn number(self) -> u32 {
        self.0
    }

    #[inline]
    pub fn index(self) -> usize {
        self.0 as usize
    }
}

/// Nodes begin after none and always.
const FIRST_NODE: usize = 2;

/// A node in one word, which is also its key: the member above low above high.
#[derive(Clone, Copy)]
pub struct Node(u64);

impl Node {
    /// Stands for none and for always, with a member above every other.
    const LEAF: Node = Node(63 << (2 * Diagram::BITS));

    #[inline]
    fn new(member: u8, low: Diagram, high: Diagram) -> Node {
        let member = u64::from(member) << (2 * Diagram::BITS);
        Node(member | u64::from(low.0) << Diagram::BITS | u64::from(high.0))
    }

    #[inline]
    pub fn member(self) -> u8 {
        (self.0 >> (2 * Diagram::BITS)) as u8
    }

    #[inline]
    pub fn low(self) -> Diagram {
        Diagram((self.0 >> Diagram::BITS) as u32 & ((1 << Diagram::BITS) - 1))
    }

    #[inline]
    pub fn high(self) -> Diagram {
        Diagram(self.0 as u32 & ((1 << Diagram::BITS) - 1))
    }
}

/// There is no place left for a node.
#[derive(Clone, Copy, PartialEq, Eq, Debug)]
pub struct Shortage;

/// Two operands taken apart at the smaller of their top members.
pub struct Split {
    pub member: u8,
    pub f0: Diagram,
    pub f1: Diagram,
    pub g0: Diagram,
    pub g1: Diagram,
}

/// The nodes by place, and the place of each.
pub struct Nodes<T> {
    nodes: Vec<Node>,
    places: T,
    /// How many nodes there may be.
    room: usize,
}

impl<T: Table> Nodes<T> {
    pub fn with_room(room: usize) -> Self {
        assert!(FIRST_NODE + room <= 1 << Diagram::BITS);
        Nodes { nodes: vec![Node::LEAF; FIRST_NODE], places: T::default(), room }
    }

    /// How many nodes are held.
    #[inline]
    pub fn len(&self) -> usize {
        self.places.len()
    }

    #[inline]
    pub fn node(&self, diagram: Diagram) -> Node {
        self.nodes[diagram.index()]
    }

    /// The groups of `low`, and those of `high` with the member added.
    #[inline]
    pub fn build(&mut self, member: u8, low: Diagram, high: Diagram) -> Result<Diagram, Shortage> {
        if high == Diagram::NONE {
            return Ok(low);
        }
        let node = Node::new(member, low, high);
        if self.len() == self.room {
            return self.places.get(node.0).map(Diagram).ok_or(Shortage);
        }
        let fresh = self.nodes.len() as u32;
        let place = self.places.get_or_insert(node.0, fresh);
        if place == fresh {
            self.nodes.push(node);
        }
        Ok(Diagram(place))
    }

    #[inline]
    pub fn split(&self, f: Diagram, g: Diagram) -> Split {
        let member = self.node(f).member().min(self.node(g).member());
        let (f0, f1) = self.parts(f, member);
        let (g0, g1) = self.parts(g, member);
        Split { member, f0, f1, g0, g1 }
    }

    /// The groups without a member and those with it, taken out, of a diagram with no smaller one.
    #[inline]
    fn parts(&self, diagram: Diagram, member: u8) -> (Diagram, Diagram) {
        let node = self.node(diagram);
        if node.member() == member { (node.low(), node.high()) } else { (diagram, Diagram::NONE) }
    }

    /// Takes out every node.
    pub fn clear(&mut self) {
        self.nodes.truncate(FIRST_NODE);
        self.places.clear();
    }

    /// Takes out every node but those of one diagram, and tells where that diagram is then.
    pub fn keep_only(&mut self, root: Diagram) -> Diagram {
        let reached = self.reached_from(root);
        let before = self.nodes.clone();
        self.clear();
        let mut moved = vec![Diagram::NONE, Diagram::ALWAYS];
        for (node, reached) in before.iter().zip(reached).skip(FIRST_NODE) {
            let (low, high) = (moved[node.low().index()], moved[node.high().index()]);
            moved.push(match reached {
                true => self
                    .build(node.member(), low, high)
                    .expect("some of the nodes have room where all had"),
                false => Diagram::NONE,
            });
        }
        moved[root.index()]
    }

    /// For each diagram, whether it is a part of the root: one pass downward, since parts stand before the whole.
    fn reached_from(&self, root: Diagram) -> Vec<bool> {
        let mut reached = vec![false; self.nodes.len()];
        reached[root.index()] = true;
        for place in (FIRST_NODE..=root.index()).rev() {
            if reached[place] {
                let node = self.nodes[place];
                reached[node.low().index()] = true;
                reached[node.high().index()] = true;
            }
        }
        reached
    }

    /// The number of groups of each diagram: one pass upward.
    pub fn counts(&self) -> Vec<u64> {
        let mut counts = Vec::with_capacity(self.nodes.len());
        counts.extend([0, 1]);
        for node in &self.nodes[FIRST_NODE..] {
            counts.push(counts[node.low().index()] + counts[node.high().index()]);
        }
        counts
    }

    /// The numbers of a diagram's groups, falling. A group's number is the sum of 2^(48 - v) over its members v.
    pub fn groups(&self, diagram: Diagram) -> Vec<u64> {
        let mut groups = Vec::new();
        self.list(diagram, 0, &mut groups);
        groups
    }

    fn list(&self, diagram: Diagram, above: u64, groups: &mut Vec<u64>) {
        match diagram {
            Diagram::NONE => {}
            Diagram::ALWAYS => groups.push(above),
            _ => {
                let node = self.node(diagram);
                self.list(node.high(), above | 1 << (48 - node.member()), groups);
                self.list(node.low(), above, groups);
            }
        }
    }
}
