//! Instants: whole seconds and a fraction of a second.

use std::cmp::Ordering;

/// The clock's last second.
pub const LAST_SECOND: u32 = 16_777_216;

/// An instant. Its fraction need not be in lowest terms.
#[derive(Clone, Copy, Debug)]
pub struct Instant {
    pub seconds: u32,
    pub numerator: u16,
    pub denominator: u16,
}

impl Instant {
    pub const START: Instant = Instant {
        seconds: 0,
        numerator: 0,
        denominator: 1,
    };

    /// The instant of these numbers, if it is one of the clock's.
    pub fn of_clock(seconds: u32, numerator: u16, denominator: u16) -> Option<Instant> {
        let late = seconds > LAST_SECOND || (seconds == LAST_SECOND && numerator > 0);
        if denominator > 1000 || numerator >= denominator || late {
            return None;
        }
        Some(Instant {
            seconds,
            numerator,
            denominator,
        })
    }

    /// The same instant in lowest terms.
    pub fn lowest(self) -> Instant {
        if self.numerator == 0 {
            return Instant {
                denominator: 1,
                ..self
            };
        }
        let divisor = greatest_common_divisor(self.numerator, self.denominator);
        Instant {
            numerator: self.numerator / divisor,
            denominator: self.denominator / divisor,
            ..self
        }
    }
}

fn greatest_common_divisor(mut a: u16, mut b: u16) -> u16 {
    while b != 0 {
        (a, b) = (b, a % b);
    }
    a
}

impl Default for Instant {
    fn default() -> Self {
        Instant::START
    }
}

impl Ord for Instant {
    #[inline]
    fn cmp(&self, other: &Self) -> Ordering {
        self.seconds.cmp(&other.seconds).then_with(|| {
            let own = u32::from(self.numerator) * u32::from(other.denominator);
            let others = u32::from(other.numerator) * u32::from(self.denominator);
            own.cmp(&others)
        })
    }
}

impl PartialOrd for Instant {
    #[inline]
    fn partial_cmp(&self, other: &Self) -> Option<Ordering> {
        Some(self.cmp(other))
    }
}

impl PartialEq for Instant {
    fn eq(&self, other: &Self) -> bool {
        self.cmp(other).is_eq()
    }
}

impl Eq for Instant {}
