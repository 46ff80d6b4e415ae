//! A binary heap of at most 64 tickets, with an index by ticket number.

/// How many tickets there are.
pub const TICKETS: usize = 64;

/// The slot of a ticket that holds no key.
const NOWHERE: u8 = u8::MAX;

#[derive(Clone, Copy)]
struct Entry<K> {
    key: K,
    ticket: u8,
}

/// The entries stand in heap order, the first in slot 0; `slots` tells where each ticket stands.
pub struct Heap<K> {
    entries: [Entry<K>; TICKETS],
    slots: [u8; TICKETS],
    size: usize,
}

impl<K: Copy + Ord + Default> Heap<K> {
    pub fn new() -> Self {
        let nothing = Entry {
            key: K::default(),
            ticket: 0,
        };
        Heap {
            entries: [nothing; TICKETS],
            slots: [NOWHERE; TICKETS],
            size: 0,
        }
    }

    /// The slot in which a ticket stands, if it holds a key.
    fn slot_of(&self, ticket: usize) -> Option<usize> {
        let slot = self.slots[ticket];
        (slot != NOWHERE).then_some(slot as usize)
    }

    /// Gives a ticket a key, and tells whether it had none.
    pub fn put(&mut self, ticket: usize, key: K) -> bool {
        if self.slots[ticket] != NOWHERE {
            return false;
        }
        let slot = self.size;
        self.size += 1;
        self.sift_up(
            slot,
            Entry {
                key,
                ticket: ticket as u8,
            },
        );
        true
    }

    /// Takes a ticket's key away and returns it.
    pub fn drop(&mut self, ticket: usize) -> Option<K> {
        let slot = self.slot_of(ticket)?;
        let key = self.entries[slot].key;
        self.slots[ticket] = NOWHERE;
        self.fill(slot);
        Some(key)
    }

    /// Gives a ticket a key, or none, whatever it held.
    pub fn set(&mut self, ticket: usize, key: Option<K>) {
        match (self.slot_of(ticket), key) {
            (Some(slot), Some(key)) => self.sift(
                slot,
                Entry {
                    key,
                    ticket: ticket as u8,
                },
            ),
            (None, Some(key)) => {
                self.put(ticket, key);
            }
            (_, None) => {
                self.drop(ticket);
            }
        }
    }

    /// Takes out the ticket with the first key, if that is not after the limit.
    pub fn take(&mut self, limit: K) -> Option<(usize, K)> {
        let first = self.entries[..self.size].first().copied()?;
        if limit < first.key {
            return None;
        }
        self.slots[first.ticket as usize] = NOWHERE;
        self.fill(0);
        Some((first.ticket as usize, first.key))
    }

    /// Moves the last entry into a slot that has become free.
    fn fill(&mut self, slot: usize) {
        self.size -= 1;
        if slot < self.size {
            self.sift(slot, self.entries[self.size]);
        }
    }

    fn sift(&mut self, slot: usize, entry: Entry<K>) {
        if slot > 0 && entry.key < self.entries[(slot - 1) / 2].key {
            self.sift_up(slot, entry);
        } else {
            self.sift_down(slot, entry);
        }
    }

    fn sift_up(&mut self, mut slot: usize, entry: Entry<K>) {
        while slot > 0 {
            let parent = (slot - 1) / 2;
            let above = self.entries[parent];
            if entry.key >= above.key {
                break;
            }
            self.seat(slot, above);
            slot = parent;
        }
        self.seat(slot, entry);
    }

    fn sift_down(&mut self, mut slot: usize, entry: Entry<K>) {
        let entries = self.size;
        loop {
            let mut child = 2 * slot + 1;
            if child >= entries {
                break;
            }
            if child + 1 < entries && self.entries[child + 1].key < self.entries[child].key {
                child += 1;
            }
            let below = self.entries[child];
            if entry.key <= below.key {
                break;
            }
            self.seat(slot, below);
            slot = child;
        }
        self.seat(slot, entry);
    }

    fn seat(&mut self, slot: usize, entry: Entry<K>) {
        self.entries[slot] = entry;
        self.slots[entry.ticket as usize] = slot as u8;
    }
}
