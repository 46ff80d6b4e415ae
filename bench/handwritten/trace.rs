//! Replays a trace.

use crate::board::{Board, Refusal, Row};
use crate::page::Page;

const MARK: [u8; 3] = *b"FWT";
const VERSION: u16 = 1;

/// As many rows as there are pairs among 64 vessels.
const ROWS: usize = 2_016;

/// What stops a replay.
#[derive(Clone, Copy, Debug, PartialEq, Eq)]
pub enum Fault {
    Short = 13,
    BadMark = 14,
    BadVersion = 15,
    UnknownKind = 16,
    AfterEnd = 17,
    Refused = 18,
    PageFull = 19,
}

pub struct Stop {
    pub fault: Fault,
    pub place: usize,
}

enum Record {
    Enter {
        number: u16,
        position: i32,
        speed: i16,
    },
    Leave {
        number: u16,
    },
    Steer {
        number: u16,
        speed: i16,
    },
    Advance {
        seconds: u32,
        numerator: u16,
        denominator: u16,
    },
    Order,
    End,
}

impl From<Refusal> for Fault {
    fn from(_: Refusal) -> Fault {
        Fault::Refused
    }
}

/// The record at the head of some bytes, and how long it is.
fn read_record(bytes: &[u8]) -> Result<(Record, usize), Fault> {
    match *bytes {
        [0x45, n, m, a, b, c, d, s, t, ..] => Ok((
            Record::Enter {
                number: u16::from_be_bytes([n, m]),
                position: i32::from_be_bytes([a, b, c, d]),
                speed: i16::from_be_bytes([s, t]),
            },
            9,
        )),
        [0x4C, n, m, ..] => Ok((
            Record::Leave {
                number: u16::from_be_bytes([n, m]),
            },
            3,
        )),
        [0x53, n, m, s, t, ..] => Ok((
            Record::Steer {
                number: u16::from_be_bytes([n, m]),
                speed: i16::from_be_bytes([s, t]),
            },
            5,
        )),
        [0x41, a, b, c, d, n, m, e, f, ..] => Ok((
            Record::Advance {
                seconds: u32::from_be_bytes([a, b, c, d]),
                numerator: u16::from_be_bytes([n, m]),
                denominator: u16::from_be_bytes([e, f]),
            },
            9,
        )),
        [0x51, ..] => Ok((Record::Order, 1)),
        [0x5A, ..] => Ok((Record::End, 1)),
        [] | [0x45 | 0x4C | 0x53 | 0x41, ..] => Err(Fault::Short),
        _ => Err(Fault::UnknownKind),
    }
}

fn check_header(trace: &[u8]) -> Result<(), Fault> {
    let [a, b, c, v, w, ..] = *trace else {
        return Err(Fault::Short);
    };
    if [a, b, c] != MARK {
        return Err(Fault::BadMark);
    }
    if u16::from_be_bytes([v, w]) != VERSION {
        return Err(Fault::BadVersion);
    }
    Ok(())
}

struct Replay<'a> {
    board: Board,
    rows: Vec<Row>,
    page: &'a mut Page,
}

impl Replay<'_> {
    fn perform(&mut self, record: Record) -> Result<(), Fault> {
        match record {
            Record::Enter {
                number,
                position,
                speed,
            } => self.board.enter(number, position, speed)?,
            Record::Leave { number } => self.board.leave(number)?,
            Record::Steer { number, speed } => self.board.steer(number, speed)?,
            Record::Advance {
                seconds,
                numerator,
                denominator,
            } => {
                self.board
                    .advance(seconds, numerator, denominator, &mut self.rows)?;
                // nothing reads the rows: this keeps the compiler from leaving them out
                std::hint::black_box(&self.rows);
            }
            Record::Order => {
                if !self
                    .page
                    .write_order(self.board.clock(), self.board.courses())
                {
                    return Err(Fault::PageFull);
                }
            }
            Record::End => {}
        }
        Ok(())
    }
}

/// Replays a trace onto a page, up to its end or a fault.
pub fn replay(trace: &[u8], page: &mut Page) -> Result<(), Stop> {
    check_header(trace).map_err(|fault| Stop { fault, place: 0 })?;
    let mut replay = Replay {
        board: Board::new(),
        rows: Vec::with_capacity(ROWS),
        page,
    };
    let mut place = 5;
    loop {
        let (record, length) =
            read_record(&trace[place..]).map_err(|fault| Stop { fault, place })?;
        if let Record::End = record {
            break;
        }
        replay
            .perform(record)
            .map_err(|fault| Stop { fault, place })?;
        place += length;
    }
    if place + 1 < trace.len() {
        return Err(Stop {
            fault: Fault::AfterEnd,
            place: place + 1,
        });
    }
    Ok(())
}
