//! The same list of pseudo-random calls on one of two queues of 64 tickets, as the program crate `queue_bench` makes it
//! on the proved queues: `queues binary|lazy CALLS` prints a sum over what the calls answered.

#[path = "../handwritten/heap.rs"]
#[allow(dead_code)]
mod heap;
mod lazy;

use heap::{Heap, TICKETS};
use lazy::LazyHeap;
use std::env;
use std::process::ExitCode;

/// The number of the refusal of a ticket that holds a key.
const TICKET_HELD: u64 = 12;

trait Queue {
    fn put(&mut self, ticket: usize, key: u32) -> bool;
    fn drop(&mut self, ticket: usize) -> Option<u32>;
    fn take(&mut self, limit: u32) -> Option<(usize, u32)>;
}

impl Queue for Heap<u32> {
    fn put(&mut self, ticket: usize, key: u32) -> bool {
        Heap::put(self, ticket, key)
    }

    fn drop(&mut self, ticket: usize) -> Option<u32> {
        Heap::drop(self, ticket)
    }

    fn take(&mut self, limit: u32) -> Option<(usize, u32)> {
        Heap::take(self, limit)
    }
}

impl Queue for LazyHeap {
    fn put(&mut self, ticket: usize, key: u32) -> bool {
        LazyHeap::put(self, ticket, key)
    }

    fn drop(&mut self, ticket: usize) -> Option<u32> {
        LazyHeap::drop(self, ticket)
    }

    fn take(&mut self, limit: u32) -> Option<(usize, u32)> {
        LazyHeap::take(self, limit)
    }
}

/// Makes the calls, and returns the sum over what they answered. Of eight draws five are puts, two drops and one a take. The
/// key's lowest part is the ticket, so that no two tickets hold one key.
fn run_calls(queue: &mut impl Queue, calls: u32) -> u64 {
    let mut word: u64 = 1;
    let mut sum: u64 = 0;
    for _ in 0..calls {
        word = word
            .wrapping_mul(6_364_136_223_846_793_005)
            .wrapping_add(1_442_695_040_888_963_407);
        let ticket = (word >> 58) as usize % TICKETS;
        let key = ((word >> 29) as u32 % (1 << 26)) << 6 | ticket as u32;
        let answer = match word >> 55 & 7 {
            0 | 1 => queue.drop(ticket).map_or(1, |key| u64::from(key) + 2),
            2 => queue.take(key).map_or(1, |(_, key)| u64::from(key) + 2),
            _ if queue.put(ticket, key) => 0,
            _ => TICKET_HELD,
        };
        sum = sum.wrapping_mul(31).wrapping_add(answer);
    }
    sum
}

fn main() -> ExitCode {
    let words: Vec<String> = env::args().collect();
    let [_, queue, calls] = words.as_slice() else {
        eprintln!("queues binary|lazy CALLS");
        return ExitCode::FAILURE;
    };
    let Ok(calls) = calls.parse() else {
        eprintln!("no number of calls");
        return ExitCode::FAILURE;
    };
    let sum = match queue.as_str() {
        "binary" => run_calls(&mut Heap::new(), calls),
        "lazy" => run_calls(&mut LazyHeap::new(), calls),
        _ => {
            eprintln!("the queue is `binary` or `lazy`");
            return ExitCode::FAILURE;
        }
    };
    println!("{sum}");
    ExitCode::SUCCESS
}
