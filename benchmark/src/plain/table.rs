//! Tables from packed keys to small numbers, in two designs: one tuned by hand, and the standard library's.
//! Keys of nodes, notes and terms are never 0 and have at most 47 bits; values have at most 17.

use std::collections::HashMap;
use std::hash::{BuildHasherDefault, Hasher};

pub trait Table: Default {
    /// How many keys are held.
    fn len(&self) -> usize;

    /// The value of a key, or none where the key is not held.
    fn get(&self, key: u64) -> Option<u32>;

    /// Gives a value to a key that is not held.
    fn insert(&mut self, key: u64, value: u32);

    /// The value of a key; one that is not held gets `fresh`.
    fn get_or_insert(&mut self, key: u64, fresh: u32) -> u32;

    /// Takes out every key. What was allocated stays.
    fn clear(&mut self);
}

/// Multiplied by this odd number, keys that are close together end up far apart, by their high bits.
const SPREAD: u64 = 0xF135_7AEA_2E62_A9C5;

const VALUE_BITS: u32 = 17;
const VALUE_MASK: u64 = (1 << VALUE_BITS) - 1;

/// Open addressing. A slot is one word, the key above its value; 0 is a free slot.
/// At most a quarter of the slots is taken, so the first slot looked at mostly decides.
pub struct OpenTable {
    slots: Vec<u64>,
    /// By how much a spread key is shifted down to the number of its first slot.
    shift: u32,
    len: usize,
}

const FIRST_SLOTS: usize = 16;
const SLOTS_FOR_A_KEY: usize = 4;
const GROWTH: usize = 4;

/// Where the search for a key ends: at its value, or at the free slot where it belongs.
enum Found {
    Value(u32),
    Free(usize),
}

impl OpenTable {
    fn with_slots(count: usize) -> Self {
        OpenTable { slots: vec![0; count], shift: 64 - count.trailing_zeros(), len: 0 }
    }

    #[inline(always)]
    fn find(&self, key: u64) -> Found {
        let mask = self.slots.len() - 1;
        let mut slot = (key.wrapping_mul(SPREAD) >> self.shift) as usize;
        loop {
            let entry = self.slots[slot];
            if entry >> VALUE_BITS == key {
                return Found::Value((entry & VALUE_MASK) as u32);
            }
            if entry == 0 {
                return Found::Free(slot);
            }
            slot = (slot + 1) & mask;
        }
    }

    #[inline]
    fn fill(&mut self, slot: usize, key: u64, value: u32) {
        self.slots[slot] = key << VALUE_BITS | u64::from(value);
        self.len += 1;
        if self.len * SLOTS_FOR_A_KEY > self.slots.len() {
            self.grow();
        }
    }

    #[cold]
    fn grow(&mut self) {
        let mut larger = OpenTable::with_slots(self.slots.len() * GROWTH);
        for entry in self.slots.iter().filter(|&&entry| entry != 0) {
            larger.insert(entry >> VALUE_BITS, (entry & VALUE_MASK) as u32);
        }
        *self = larger;
    }
}

impl Default for OpenTable {
    fn default() -> Self {
        OpenTable::with_slots(FIRST_SLOTS)
    }
}

impl Table for OpenTable {
    #[inline]
    fn len(&self) -> usize {
        self.len
    }

    #[inline(always)]
    fn get(&self, key: u64) -> Option<u32> {
        match self.find(key) {
            Found::Value(value) => Some(value),
            Found::Free(_) => None,
        }
    }

    #[inline]
    fn insert(&mut self, key: u64, value: u32) {
        self.get_or_insert(key, value);
    }

    #[inline]
    fn get_or_insert(&mut self, key: u64, fresh: u32) -> u32 {
        match self.find(key) {
            Found::Value(value) => value,
            Found::Free(slot) => {
                self.fill(slot, key, fresh);
                fresh
            }
        }
    }

    fn clear(&mut self) {
        self.slots.fill(0);
        self.len = 0;
    }
}

/// The standard library's table, with a hash of one multiplication.
#[derive(Default)]
pub struct StdTable(HashMap<u64, u32, BuildHasherDefault<SpreadHasher>>);

#[derive(Default)]
pub struct SpreadHasher(u64);

impl Hasher for SpreadHasher {
    fn write(&mut self, _: &[u8]) {
        unreachable!("keys are words");
    }

    fn write_u64(&mut self, key: u64) {
        // The library takes the place from the low bits, and the best ones of a product are high.
        self.0 = key.wrapping_mul(SPREAD).rotate_left(26);
    }

    fn finish(&self) -> u64 {
        self.0
    }
}

impl Table for StdTable {
    fn len(&self) -> usize {
        self.0.len()
    }

    #[inline]
    fn get(&self, key: u64) -> Option<u32> {
        self.0.get(&key).copied()
    }

    #[inline]
    fn insert(&mut self, key: u64, value: u32) {
        self.0.insert(key, value);
    }

    #[inline]
    fn get_or_insert(&mut self, key: u64, fresh: u32) -> u32 {
        *self.0.entry(key).or_insert(fresh)
    }

    fn clear(&mut self) {
        self.0.clear();
    }
}
