//! Moments until which a call waits.

use std::thread;
use std::time::{Duration, Instant};

use crate::error::Error;

/// So long a server has for the exchange in which a call's time ends: it isn't given up for a late look.
pub(crate) const GRACE: Duration = Duration::from_secs(1);

const FIRST_PAUSE: Duration = Duration::from_millis(1);
const LONGEST_PAUSE: Duration = Duration::from_millis(50);

/// When the time of a call is over; never, if there is no such moment.
#[derive(Clone, Copy, Debug)]
pub(crate) struct Deadline(Option<Instant>);

impl Deadline {
    pub(crate) const NEVER: Deadline = Deadline(None);

    /// So long from now on. A time that no clock can tell is never over.
    pub(crate) fn after(time: Option<Duration>) -> Deadline {
        Deadline(time.and_then(|time| Instant::now().checked_add(time)))
    }

    pub(crate) fn is_over(self) -> bool {
        self.0.is_some_and(|end| end <= Instant::now())
    }

    /// The time that is left, which isn't 0; none if there is no end.
    pub(crate) fn left(self) -> Result<Option<Duration>, Error> {
        let Some(end) = self.0 else { return Ok(None) };
        let left = end.saturating_duration_since(Instant::now());
        if left.is_zero() {
            return Err(Error::Timeout);
        }
        Ok(Some(left))
    }

    /// The moment until which the server has to answer, in a call of this deadline at a session of so much patience.
    pub(crate) fn of_answers(self, patience: Option<Duration>) -> Deadline {
        match self.0 {
            Some(end) => Deadline(Some(end.max(Instant::now() + GRACE))),
            None => Deadline::after(patience),
        }
    }
}

/// Growing pauses between tries.
pub(crate) struct Pauses(Duration);

impl Pauses {
    pub(crate) fn new() -> Pauses {
        Pauses(FIRST_PAUSE)
    }

    /// Sleeps, and not beyond the deadline.
    pub(crate) fn pause(&mut self, deadline: Deadline) {
        let left = deadline.0.map_or(self.0, |end| end.saturating_duration_since(Instant::now()));
        thread::sleep(self.0.min(left));
        self.0 = (self.0 * 2).min(LONGEST_PAUSE);
    }
}
