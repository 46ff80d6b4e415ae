//! The board: the list, the queue of the instants at which its certificates fail, and the clock.

use crate::heap::Heap;
use crate::instant::Instant;
use crate::list::{Course, List};
use std::ops::Range;

const MOST_POSITION: i32 = 100_000_000;
const MOST_SPEED: i16 = 1_000;
const MOST_BASE: i64 = 33_654_432_000;

/// Why a call is refused.
#[derive(Clone, Copy, Debug, PartialEq, Eq)]
pub enum Refusal {
    NumberZero,
    OutOfRange,
    ClockHasFraction,
    AlreadyAboard,
    Full,
    UnknownVessel,
    NoSuchInstant,
    Early,
    FewRows,
}

/// A mend: the instant at which two vessels drew level, in lowest terms, and their numbers.
#[allow(dead_code)] // the replay prints no rows
#[derive(Clone, Copy)]
pub struct Row {
    pub at: Instant,
    pub rear: u16,
    pub front: u16,
}

pub struct Board {
    list: List,
    queue: Heap<Instant>,
    clock: Instant,
}

fn is_speed_out(speed: i16) -> bool {
    !(-MOST_SPEED..=MOST_SPEED).contains(&speed)
}

impl Board {
    pub fn new() -> Self {
        Board {
            list: List::new(),
            queue: Heap::new(),
            clock: Instant::START,
        }
    }

    pub fn clock(&self) -> Instant {
        self.clock
    }

    /// The courses from rear to front.
    pub fn courses(&self) -> &[Course] {
        self.list.courses()
    }

    fn second(&self) -> i64 {
        i64::from(self.clock.seconds)
    }

    /// Gives a certificate's ticket the instant at which it fails.
    fn renew(&mut self, certificate: usize) {
        self.queue.set(certificate, self.list.failure(certificate));
    }

    fn renew_all(&mut self, certificates: Range<usize>) {
        for certificate in certificates {
            self.renew(certificate);
        }
    }

    pub fn enter(&mut self, number: u16, position: i32, speed: i16) -> Result<(), Refusal> {
        if number == 0 {
            return Err(Refusal::NumberZero);
        }
        if !(-MOST_POSITION..=MOST_POSITION).contains(&position) || is_speed_out(speed) {
            return Err(Refusal::OutOfRange);
        }
        if self.clock.numerator != 0 {
            return Err(Refusal::ClockHasFraction);
        }
        if self.list.place_of(number).is_some() {
            return Err(Refusal::AlreadyAboard);
        }
        if self.list.is_full() {
            return Err(Refusal::Full);
        }
        let second = self.second();
        let base = i64::from(position) - i64::from(speed) * second;
        let last = self.courses().len();
        let place = self.list.insert(
            Course {
                base,
                number,
                speed,
            },
            second,
        );
        self.renew_all(List::certificates_around(place, last));
        Ok(())
    }

    pub fn leave(&mut self, number: u16) -> Result<(), Refusal> {
        if number == 0 {
            return Err(Refusal::NumberZero);
        }
        if self.clock.numerator != 0 {
            return Err(Refusal::ClockHasFraction);
        }
        let place = self.list.place_of(number).ok_or(Refusal::UnknownVessel)?;
        self.list.remove(place);
        self.renew_all(List::certificates_around(place, self.courses().len()));
        Ok(())
    }

    pub fn steer(&mut self, number: u16, speed: i16) -> Result<(), Refusal> {
        if number == 0 {
            return Err(Refusal::NumberZero);
        }
        if is_speed_out(speed) {
            return Err(Refusal::OutOfRange);
        }
        let second = self.second();
        let steered = self.list.place_of(number).map(|place| {
            let base = self.courses()[place].position(second) - i64::from(speed) * second;
            (
                place,
                Course {
                    base,
                    number,
                    speed,
                },
            )
        });
        if steered.is_some_and(|(_, course)| course.base.abs() > MOST_BASE) {
            return Err(Refusal::OutOfRange);
        }
        if self.clock.numerator != 0 {
            return Err(Refusal::ClockHasFraction);
        }
        let (old, course) = steered.ok_or(Refusal::UnknownVessel)?;
        let new = self.list.replace(old, course, second);
        self.renew_all(List::certificates_around(old.min(new), old.max(new) + 1));
        Ok(())
    }

    /// Advances the clock, and writes a row for each mend. `rows` gets no longer than its capacity.
    pub fn advance(
        &mut self,
        seconds: u32,
        numerator: u16,
        denominator: u16,
        rows: &mut Vec<Row>,
    ) -> Result<(), Refusal> {
        let goal =
            Instant::of_clock(seconds, numerator, denominator).ok_or(Refusal::NoSuchInstant)?;
        if goal < self.clock {
            return Err(Refusal::Early);
        }
        if rows.capacity() < self.list.load() {
            return Err(Refusal::FewRows);
        }
        rows.clear();
        while let Some((certificate, at)) = self.queue.take(goal) {
            let (rear, front) = self.list.exchange(certificate);
            rows.push(Row {
                at: at.lowest(),
                rear: rear.number,
                front: front.number,
            });
            // the certificate itself never fails again: its rear is now the slower one
            if certificate > 0 {
                self.renew(certificate - 1);
            }
            self.renew(certificate + 1);
        }
        self.clock = goal.lowest();
        Ok(())
    }
}
