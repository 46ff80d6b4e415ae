//! The page: what is written of a trace.

use crate::instant::Instant;
use crate::list::Course;

/// How many bytes the page has.
pub const PAGE: usize = 32_768;

/// The length of the longest line: the instant, a colon, 64 numbers of five digits with a space before each, a line feed.
const LINE: usize = "16777215 999/1000".len() + 1 + 64 * 6 + 1;

/// The digits of the numbers below 100, two for each.
const PAIRS: &[u8; 200] = b"0001020304050607080910111213141516171819\
2021222324252627282930313233343536373839\
4041424344454647484950515253545556575859\
6061626364656667686970717273747576777879\
8081828384858687888990919293949596979899";

pub struct Page {
    bytes: Vec<u8>,
}

struct Line {
    bytes: [u8; LINE],
    length: usize,
}

impl Line {
    fn push(&mut self, byte: u8) {
        self.bytes[self.length] = byte;
        self.length += 1;
    }

    fn push_number(&mut self, mut number: u32) {
        let mut digits = [0; 10];
        let mut first = digits.len();
        while number >= 100 {
            let pair = (number % 100) as usize * 2;
            number /= 100;
            first -= 2;
            digits[first..first + 2].copy_from_slice(&PAIRS[pair..pair + 2]);
        }
        if number >= 10 {
            let pair = number as usize * 2;
            first -= 2;
            digits[first..first + 2].copy_from_slice(&PAIRS[pair..pair + 2]);
        } else {
            first -= 1;
            digits[first] = b'0' + number as u8;
        }
        for digit in &digits[first..] {
            self.push(*digit);
        }
    }
}

impl Page {
    pub fn new() -> Self {
        Page {
            bytes: Vec::with_capacity(PAGE),
        }
    }

    pub fn as_bytes(&self) -> &[u8] {
        &self.bytes
    }

    /// Writes an order line, and tells whether it fits.
    pub fn write_order(&mut self, clock: Instant, courses: &[Course]) -> bool {
        let mut line = Line {
            bytes: [0; LINE],
            length: 0,
        };
        line.push_number(clock.seconds);
        if clock.numerator != 0 {
            line.push(b' ');
            line.push_number(u32::from(clock.numerator));
            line.push(b'/');
            line.push_number(u32::from(clock.denominator));
        }
        line.push(b':');
        for course in courses.iter().rev() {
            line.push(b' ');
            line.push_number(u32::from(course.number));
        }
        line.push(b'\n');
        let fits = self.bytes.len() + line.length <= PAGE;
        if fits {
            self.bytes.extend_from_slice(&line.bytes[..line.length]);
        }
        fits
    }
}
