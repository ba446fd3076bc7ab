use crate::account::Spot;
use rekwonuda::Refusal;
use std::io::{self, ErrorKind};

/// How a command ends, from good to bad: of several files the worst counts.
///
/// A file that is not covered may be sound; one that is damaged is known not to be; and of one that
/// cannot be read nothing is known, not even that it is there.
#[derive(Clone, Copy, Debug, PartialEq, Eq, PartialOrd, Ord)]
pub enum Outcome {
    Accepted,
    Done,
    Absent,
    /// Of several things that were asked for, some are absent.
    Incomplete,
    NotCovered,
    Damaged,
    Error,
}

impl Outcome {
    /// The exit status.
    pub fn status(self) -> u8 {
        match self {
            Outcome::Accepted | Outcome::Done => 0,
            Outcome::Damaged | Outcome::Incomplete => 1,
            Outcome::Error => 2,
            Outcome::Absent => 3,
            Outcome::NotCovered => 4,
        }
    }

    pub fn word(self) -> &'static str {
        match self {
            Outcome::Accepted => "accepted",
            Outcome::Done => "done",
            Outcome::Damaged => "damaged",
            Outcome::Error => "error",
            Outcome::Absent => "absent",
            Outcome::Incomplete => "incomplete",
            Outcome::NotCovered => "not covered",
        }
    }
}

/// Why a command does not end well.
pub enum Failure {
    /// The library refused, while it read that part of the file.
    Refused(Refusal, Spot),
    /// What was asked for is not there.
    Absent(String),
    /// What was asked for is there, and of a kind that is not read here.
    NotCovered(String),
    /// Wrong usage, or a file cannot be read or written.
    Error(String),
    /// Nobody reads standard output any more.
    Unread,
}

/// Names the part of the file that a call was about, for the case that it refuses.
pub trait At<T> {
    fn at(self, spot: Spot) -> Result<T, Failure>;
}

impl<T> At<T> for Result<T, Refusal> {
    fn at(self, spot: Spot) -> Result<T, Failure> {
        self.map_err(|refusal| Failure::Refused(refusal, spot))
    }
}

impl From<io::Error> for Failure {
    /// Of a write to standard output.
    fn from(error: io::Error) -> Failure {
        match error.kind() {
            ErrorKind::BrokenPipe => Failure::Unread,
            _ => Failure::Error(format!("cannot write to standard output: {error}")),
        }
    }
}

#[cfg(test)]
mod tests {
    use super::*;

    #[test]
    fn the_worst_of_several_counts() {
        let statuses = [
            Outcome::Accepted,
            Outcome::Absent,
            Outcome::NotCovered,
            Outcome::Damaged,
            Outcome::Error,
        ]
        .map(Outcome::status);
        assert_eq!(statuses, [0, 3, 4, 1, 2]);
        assert_eq!(Outcome::Error.max(Outcome::Damaged), Outcome::Error);
    }
}
