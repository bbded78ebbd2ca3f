//! What a server refuses, by number.

use std::fmt;

macro_rules! refusals {
    ($($number:literal $name:ident $meaning:literal;)*) => {
        /// A refusal: a reply like others, after which the session goes on.
        #[derive(Clone, Copy, Debug, PartialEq, Eq, Hash)]
        #[non_exhaustive]
        pub enum Refusal {
            $(#[doc = $meaning] $name,)*
            /// A number that this client has no name for.
            Unknown(u8),
        }

        impl Refusal {
            /// The refusal of this number.
            pub const fn from_number(number: u8) -> Refusal {
                match number {
                    $($number => Refusal::$name,)*
                    _ => Refusal::Unknown(number),
                }
            }

            /// Its number, as a frame has it.
            pub const fn number(self) -> u8 {
                match self {
                    $(Refusal::$name => $number,)*
                    Refusal::Unknown(number) => number,
                }
            }

            /// Its name, as texts have it.
            pub const fn name(self) -> &'static str {
                match self {
                    $(Refusal::$name => stringify!($name),)*
                    Refusal::Unknown(_) => "Unknown",
                }
            }

            /// What it means.
            pub const fn meaning(self) -> &'static str {
                match self {
                    $(Refusal::$name => $meaning,)*
                    Refusal::Unknown(_) => "This client has no name for the number.",
                }
            }
        }
    };
}

refusals! {
    1 NotAdmitted "The job isn't live at this node, or the key isn't its own.";
    2 BadId "An id or a job number is invalid.";
    3 Exists "It is there already: a copy, a grant, a borrower, or the session's job.";
    4 Absent "There is no copy of it here, and for a get no node has it sealed.";
    5 NotSealed "The copy is still being written or fetched.";
    6 AlreadySealed "The copy isn't being written any more.";
    7 BadSize "A length is outside its range: an object has 1 to 16,777,216 bytes, and at most the window.";
    8 OutOfBounds "Offset and count pass the object's end.";
    9 Full "There is no room in the job's window, or there are no device bytes for what would be spilled.";
    10 Pending "Not yet: ask again.";
    11 NotHeld "This session has no hold on it; to an Unpin, it isn't pinned any more.";
    12 Granted "A granted object isn't deleted.";
    13 NotGranted "It is another job's object, which this job may not use so; or there is no such grant.";
    14 DeviceFailed "A spill or a restore of this job failed.";
    15 Damaged "What was restored or fetched isn't what was sealed.";
    16 Busy "The job has 8 device works in flight.";
    17 TooMany "A count of this job or copy is at its limit.";
    18 Gone "The task has ended here.";
    19 NoMemory "The server is out of memory.";
    20 Malformed "The server has no such command, and ends the session.";
    21 NoRoom "There is no place for a window in the node's memory.";
    22 NotOwner "The task isn't the owner, or the copy isn't a primary.";
    23 NotResident "The copy isn't a primary that lies sealed in memory.";
    24 Stale "There is no such work, job or entry.";
}

impl fmt::Display for Refusal {
    fn fmt(&self, f: &mut fmt::Formatter<'_>) -> fmt::Result {
        write!(f, "{} {}: {}", self.number(), self.name(), self.meaning())
    }
}

#[cfg(test)]
mod tests {
    use super::*;

    #[test]
    fn each_number_is_kept() {
        for number in 0..=u8::MAX {
            let refusal = Refusal::from_number(number);
            assert_eq!(refusal.number(), number);
            assert_eq!(refusal == Refusal::Unknown(number), !(1..=24).contains(&number), "{refusal}");
        }
    }

    #[test]
    fn its_text_says_what_it_means() {
        assert_eq!(Refusal::Pending.to_string(), "10 Pending: Not yet: ask again.");
        assert_eq!(Refusal::Unknown(77).to_string(), "77 Unknown: This client has no name for the number.");
    }
}
