//! The kinetic sorted list: courses from rear to front, at whole seconds in order by who is behind whom.

use crate::instant::{Instant, LAST_SECOND};
use std::ops::Range;

/// The most vessels that can be aboard.
pub const MOST: usize = 64;

#[derive(Clone, Copy)]
pub struct Course {
    /// the position reckoned back to second 0
    pub base: i64,
    pub number: u16,
    pub speed: i16,
}

impl Course {
    pub fn position(&self, second: i64) -> i64 {
        self.base + i64::from(self.speed) * second
    }

    /// Whether this vessel is behind another at a whole second.
    fn is_behind(&self, other: &Course, second: i64) -> bool {
        (self.position(second), self.speed, self.number)
            < (other.position(second), other.speed, other.number)
    }
}

/// How many pairs with a faster rear a vessel of a speed makes with those behind it and those in front of it.
fn crossings(rears: &[Course], fronts: &[Course], speed: i16) -> usize {
    let faster = rears.iter().filter(|rear| rear.speed > speed).count();
    let slower = fronts.iter().filter(|front| front.speed < speed).count();
    faster + slower
}

pub struct List {
    courses: Vec<Course>,
    /// the number of pairs whose rear is faster
    load: usize,
}

impl List {
    pub fn new() -> Self {
        List {
            courses: Vec::with_capacity(MOST),
            load: 0,
        }
    }

    pub fn courses(&self) -> &[Course] {
        &self.courses
    }

    pub fn load(&self) -> usize {
        self.load
    }

    pub fn is_full(&self) -> bool {
        self.courses.len() == MOST
    }

    /// The place of a vessel, counted from the rear.
    pub fn place_of(&self, number: u16) -> Option<usize> {
        self.courses
            .iter()
            .position(|course| course.number == number)
    }

    /// Puts a course in its place, and returns the place.
    pub fn insert(&mut self, course: Course, second: i64) -> usize {
        let place = self
            .courses
            .partition_point(|other| other.is_behind(&course, second));
        let (rears, fronts) = self.courses.split_at(place);
        self.load += crossings(rears, fronts, course.speed);
        self.courses.insert(place, course);
        place
    }

    /// Takes the course at a place out.
    pub fn remove(&mut self, place: usize) -> Course {
        let course = self.courses.remove(place);
        let (rears, fronts) = self.courses.split_at(place);
        self.load -= crossings(rears, fronts, course.speed);
        course
    }

    /// Gives the vessel at a place another course with the same position, and returns its new place.
    pub fn replace(&mut self, place: usize, course: Course, second: i64) -> usize {
        let (rears, fronts) = (&self.courses[..place], &self.courses[place + 1..]);
        let stays = rears
            .last()
            .is_none_or(|other| other.is_behind(&course, second))
            && fronts
                .first()
                .is_none_or(|other| course.is_behind(other, second));
        if stays {
            self.load += crossings(rears, fronts, course.speed);
            self.load -= crossings(rears, fronts, self.courses[place].speed);
            self.courses[place] = course;
            place
        } else {
            self.remove(place);
            self.insert(course, second)
        }
    }

    /// Exchanges the vessel at a place, which is faster, with the next one, and returns the two as they were.
    pub fn exchange(&mut self, place: usize) -> (Course, Course) {
        let (rear, front) = (self.courses[place], self.courses[place + 1]);
        self.courses.swap(place, place + 1);
        self.load -= 1;
        (rear, front)
    }

    /// When the certificate between a place and the next fails, if it does before the clock's last second is over.
    pub fn failure(&self, place: usize) -> Option<Instant> {
        let [rear, front] = self.courses.get(place..place + 2)? else {
            return None;
        };
        if rear.speed <= front.speed {
            return None;
        }
        let gain = (i32::from(rear.speed) - i32::from(front.speed)) as u64;
        let lead = (front.base - rear.base) as u64;
        let seconds = lead / gain;
        if seconds > u64::from(LAST_SECOND) {
            return None;
        }
        Some(Instant {
            seconds: seconds as u32,
            numerator: (lead % gain) as u16,
            denominator: gain as u16,
        })
    }

    /// The certificates from the one before a place on, below an end.
    pub fn certificates_around(place: usize, end: usize) -> Range<usize> {
        place.saturating_sub(1)..end
    }
}
