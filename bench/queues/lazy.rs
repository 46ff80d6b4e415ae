//! The standard library's heap as a queue of 64 tickets. A drop leaves the entry in the heap, where a take passes it over.

use std::cmp::Reverse;
use std::collections::BinaryHeap;

const TICKETS: usize = 64;

pub struct LazyHeap {
    keys: [Option<u32>; TICKETS],
    entries: BinaryHeap<Reverse<(u32, u8)>>,
}

impl LazyHeap {
    pub fn new() -> Self {
        LazyHeap {
            keys: [None; TICKETS],
            entries: BinaryHeap::with_capacity(4 * TICKETS),
        }
    }

    pub fn put(&mut self, ticket: usize, key: u32) -> bool {
        if self.keys[ticket].is_some() {
            return false;
        }
        if self.entries.len() == 4 * TICKETS {
            let keys = &self.keys;
            self.entries
                .retain(|Reverse((key, ticket))| keys[*ticket as usize] == Some(*key));
        }
        self.keys[ticket] = Some(key);
        self.entries.push(Reverse((key, ticket as u8)));
        true
    }

    pub fn drop(&mut self, ticket: usize) -> Option<u32> {
        self.keys[ticket].take()
    }

    pub fn take(&mut self, limit: u32) -> Option<(usize, u32)> {
        while let Some(Reverse((key, ticket))) = self.entries.peek().copied() {
            let ticket = ticket as usize;
            if self.keys[ticket] != Some(key) {
                self.entries.pop();
                continue;
            }
            if limit < key {
                return None;
            }
            self.entries.pop();
            self.keys[ticket] = None;
            return Some((ticket, key));
        }
        None
    }
}
