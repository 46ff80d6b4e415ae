//! Replays a trace with no certificates and no queue: the courses are sorted anew at each advance and each order line.
//! Input and output are those of the hand-written program; no code is shared, so that each can be checked by the other.

use std::fmt::Write as _;
use std::io::{self, Read, Write as _};

/// How many bytes of the input are looked at, and how many the page has.
const TRACE: usize = 32_768;
const PAGE: usize = 32_768;

#[derive(Clone, Copy)]
struct Vessel {
    number: u16,
    speed: i64,
    base: i64,
}

/// The clock, in lowest terms.
struct Clock {
    seconds: i64,
    numerator: i64,
    denominator: i64,
}

struct Board {
    vessels: Vec<Vessel>,
    clock: Clock,
}

type Refused = ();

fn refuse_if(condition: bool) -> Result<(), Refused> {
    if condition {
        Err(())
    } else {
        Ok(())
    }
}

fn divisor(a: i64, b: i64) -> i64 {
    if b == 0 {
        a
    } else {
        divisor(b, a % b)
    }
}

impl Board {
    fn find(&self, number: u16) -> Option<usize> {
        (0..self.vessels.len()).find(|&i| self.vessels[i].number == number)
    }

    fn enter(&mut self, number: u16, position: i32, speed: i16) -> Result<(), Refused> {
        let out = position.unsigned_abs() > 100_000_000 || speed.unsigned_abs() > 1_000;
        let aboard = self.find(number).is_some();
        refuse_if(
            number == 0 || out || self.clock.numerator != 0 || aboard || self.vessels.len() >= 64,
        )?;
        let speed = i64::from(speed);
        let base = i64::from(position) - speed * self.clock.seconds;
        self.vessels.push(Vessel {
            number,
            speed,
            base,
        });
        Ok(())
    }

    fn leave(&mut self, number: u16) -> Result<(), Refused> {
        refuse_if(number == 0 || self.clock.numerator != 0)?;
        let index = self.find(number).ok_or(())?;
        self.vessels.remove(index);
        Ok(())
    }

    fn steer(&mut self, number: u16, speed: i16) -> Result<(), Refused> {
        refuse_if(number == 0 || speed.unsigned_abs() > 1_000 || self.clock.numerator != 0)?;
        let index = self.find(number).ok_or(())?;
        let vessel = &mut self.vessels[index];
        let speed = i64::from(speed);
        let base = vessel.base + (vessel.speed - speed) * self.clock.seconds;
        refuse_if(base.abs() > 33_654_432_000)?;
        (vessel.speed, vessel.base) = (speed, base);
        Ok(())
    }

    /// An advance is never refused for want of rows: 2,016 are as many as there are pairs among 64 vessels.
    fn advance(&mut self, seconds: u32, numerator: u16, denominator: u16) -> Result<(), Refused> {
        let (seconds, numerator, denominator) = (
            i64::from(seconds),
            i64::from(numerator),
            i64::from(denominator),
        );
        refuse_if(denominator == 0 || denominator > 1_000 || numerator >= denominator)?;
        refuse_if(seconds * denominator + numerator > 16_777_216 * denominator)?;
        let old = &self.clock;
        let here = old.seconds * old.denominator + old.numerator;
        refuse_if((seconds * denominator + numerator) * old.denominator < here * denominator)?;
        let d = divisor(denominator, numerator);
        self.clock = Clock {
            seconds,
            numerator: numerator / d,
            denominator: denominator / d,
        };
        self.sort();
        Ok(())
    }

    /// Sorts the vessels from rear to front.
    fn sort(&mut self) {
        let Clock {
            seconds,
            numerator,
            denominator,
        } = self.clock;
        let time = seconds * denominator + numerator;
        self.vessels.sort_unstable_by_key(|vessel| {
            (
                vessel.base * denominator + vessel.speed * time,
                vessel.speed,
                vessel.number,
            )
        });
    }

    fn order_line(&mut self) -> String {
        self.sort();
        let mut line = self.clock.seconds.to_string();
        if self.clock.numerator > 0 {
            let _ = write!(line, " {}/{}", self.clock.numerator, self.clock.denominator);
        }
        line.push(':');
        for vessel in self.vessels.iter().rev() {
            let _ = write!(line, " {}", vessel.number);
        }
        line.push('\n');
        line
    }
}

/// Splits a trace into its bytes as they are asked for, big-endian.
struct Reader<'a> {
    trace: &'a [u8],
    place: usize,
}

impl Reader<'_> {
    fn left(&self) -> usize {
        self.trace.len() - self.place
    }

    fn number(&mut self, bytes: usize) -> u32 {
        let end = self.place + bytes;
        let number = self.trace[self.place..end]
            .iter()
            .fold(0, |n, &byte| n << 8 | u32::from(byte));
        self.place = end;
        number
    }

    fn u16(&mut self) -> u16 {
        self.number(2) as u16
    }

    fn i16(&mut self) -> i16 {
        self.u16() as i16
    }
}

/// Does the records of a trace in turn. The answer is the fault and its place, or none after the end record.
fn replay(trace: &[u8], page: &mut String) -> Option<(u8, usize)> {
    if trace.len() < 5 {
        return Some((13, 0));
    }
    if &trace[..3] != b"FWT" {
        return Some((14, 0));
    }
    if trace[3..5] != [0, 1] {
        return Some((15, 0));
    }
    let start = Clock {
        seconds: 0,
        numerator: 0,
        denominator: 1,
    };
    let mut board = Board {
        vessels: Vec::new(),
        clock: start,
    };
    let mut reader = Reader { trace, place: 5 };
    loop {
        let place = reader.place;
        if reader.left() == 0 {
            return Some((13, place));
        }
        let kind = reader.number(1) as u8;
        let fields = match kind {
            b'E' | b'A' => 8,
            b'S' => 4,
            b'L' => 2,
            b'Q' | b'Z' => 0,
            _ => return Some((16, place)),
        };
        if reader.left() < fields {
            return Some((13, place));
        }
        let done = match kind {
            b'E' => board.enter(reader.u16(), reader.number(4) as i32, reader.i16()),
            b'A' => board.advance(reader.number(4), reader.u16(), reader.u16()),
            b'S' => board.steer(reader.u16(), reader.i16()),
            b'L' => board.leave(reader.u16()),
            b'Q' => {
                let line = board.order_line();
                if page.len() + line.len() > PAGE {
                    return Some((19, place));
                }
                page.push_str(&line);
                Ok(())
            }
            _ if reader.left() > 0 => return Some((17, place + 1)),
            _ => return None,
        };
        if done.is_err() {
            return Some((18, place));
        }
    }
}

fn main() -> io::Result<()> {
    let mut trace = Vec::new();
    io::stdin()
        .lock()
        .take(TRACE as u64)
        .read_to_end(&mut trace)?;
    let mut page = String::with_capacity(PAGE);
    if let Some((fault, place)) = replay(&trace, &mut page) {
        page.push_str(&format!("stop {fault} at {place}\n"));
    }
    io::stdout().lock().write_all(page.as_bytes())
}
