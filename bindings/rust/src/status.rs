//! What a call of the library answers.

use crate::calls::OTHER_INTERFACE;
use core::fmt;

/// What a call found, or why it found nothing: the `lfi_status` of docs/C.md.
#[derive(Clone, Copy, Debug, PartialEq, Eq, Hash)]
pub enum Status {
    /// 0: no word breaks a rule, or what was asked for is done.
    Lawful,
    /// 1: a word breaks a rule.
    Refused,
    /// 2: not 1 to 4,194,304 whole words; or a piece isn't whole words, or is longer than what is to come.
    BadLength,
    /// 3: words are still to come.
    Incomplete,
    /// 4: the numbers can't be a state's, or a fault's.
    BadState,
    /// 5: there is no such profile.
    UnknownProfile,
    /// 6: there is no such module.
    UnknownModule,
    /// 7: a text is longer than the library has room for.
    NoRoom,
    /// The library that is linked isn't of the interface [`crate::VERSION`]: it wasn't asked.
    OtherInterface,
    /// A number that this crate doesn't know.
    Other(u32),
}

impl Status {
    pub(crate) fn of(number: u32) -> Status {
        match number {
            0 => Status::Lawful,
            1 => Status::Refused,
            2 => Status::BadLength,
            3 => Status::Incomplete,
            4 => Status::BadState,
            5 => Status::UnknownProfile,
            6 => Status::UnknownModule,
            7 => Status::NoRoom,
            OTHER_INTERFACE => Status::OtherInterface,
            other => Status::Other(other),
        }
    }

    /// `Ok` where what was asked for is done.
    pub(crate) fn done(self) -> Result<(), Status> {
        match self {
            Status::Lawful => Ok(()),
            other => Err(other),
        }
    }
}

impl fmt::Display for Status {
    fn fmt(&self, f: &mut fmt::Formatter<'_>) -> fmt::Result {
        match self {
            Status::Lawful => f.write_str("lawful"),
            Status::Refused => f.write_str("refused"),
            Status::BadLength => f.write_str("bad length"),
            Status::Incomplete => f.write_str("words are missing"),
            Status::BadState => f.write_str("bad state"),
            Status::UnknownProfile => f.write_str("unknown profile"),
            Status::UnknownModule => f.write_str("unknown module"),
            Status::NoRoom => f.write_str("no room for the text"),
            Status::OtherInterface => f.write_str("the library is of another interface"),
            Status::Other(number) => write!(f, "unknown status {number}"),
        }
    }
}

impl core::error::Error for Status {}

#[cfg(test)]
mod tests {
    use super::*;

    /// The numbers of docs/C.md, and what its table says of them in a few words.
    #[test]
    fn each_text() {
        let rows = [
            (0, Status::Lawful, "lawful"),
            (1, Status::Refused, "refused"),
            (2, Status::BadLength, "bad length"),
            (3, Status::Incomplete, "words are missing"),
            (4, Status::BadState, "bad state"),
            (5, Status::UnknownProfile, "unknown profile"),
            (6, Status::UnknownModule, "unknown module"),
            (7, Status::NoRoom, "no room for the text"),
            (OTHER_INTERFACE, Status::OtherInterface, "the library is of another interface"),
            (8, Status::Other(8), "unknown status 8"),
        ];
        for (number, status, text) in rows {
            assert_eq!((Status::of(number), status.to_string().as_str()), (status, text));
        }
    }
}
