//! Faults: the first word of a module that breaks a rule, and the fault of a stream.

use crate::{calls::LfiFault, Status};
use core::fmt;

/// A rule of docs/PROFILE.md, "Rules".
#[derive(Clone, Copy, Debug, PartialEq, Eq, PartialOrd, Ord, Hash)]
pub enum Rule {
    /// 1: each word has to be an instruction of the profile.
    Spelled = 1,
    /// 2: a load or store goes through registers that keep it in the slot.
    AccessConfined,
    /// 3: x21 may not be written.
    BaseKept,
    /// 4: x18, x23 and x24 are written by the guard alone.
    AddressGuarded,
    /// 5: x30 is written by the guard, calls and loads of 64 bits alone.
    LinkGuarded,
    /// 6: x22 may be written only as w22.
    OffsetNarrow,
    /// 7: sp may be written by few instructions only.
    StackBounded,
    /// 8: a direct branch may go only to a word of the module.
    TargetInside,
    /// 9: an indirect branch goes through registers with an address in the slot.
    BranchBounded,
    /// 10: the word meets what the word before opens.
    NeedMet,
}

impl Rule {
    const ALL: [Rule; 10] = [
        Rule::Spelled,
        Rule::AccessConfined,
        Rule::BaseKept,
        Rule::AddressGuarded,
        Rule::LinkGuarded,
        Rule::OffsetNarrow,
        Rule::StackBounded,
        Rule::TargetInside,
        Rule::BranchBounded,
        Rule::NeedMet,
    ];

    /// Its number, 1 to 10.
    pub fn number(self) -> u32 {
        self as u32
    }

    fn of(number: u32) -> Option<Rule> {
        Rule::ALL.into_iter().find(|it| it.number() == number)
    }
}

/// The first fault of a module.
#[derive(Clone, Copy, Debug, PartialEq, Eq, Hash)]
pub struct Fault {
    /// The place of the word, counted from 0.
    pub word: u32,
    /// The rule of the least number that it breaks.
    pub rule: Rule,
}

impl Fault {
    pub(crate) fn numbers(self) -> LfiFault {
        LfiFault { word: self.word, rule: self.rule.number() }
    }
}

impl fmt::Display for Fault {
    fn fmt(&self, f: &mut fmt::Formatter<'_>) -> fmt::Result {
        write!(f, "word {} rule {}", self.word, self.rule.number())
    }
}

/// Why code isn't a lawful module.
#[derive(Clone, Copy, Debug, PartialEq, Eq, Hash)]
pub enum Violation {
    /// A word breaks a rule; this is the first.
    Refused(Fault),
    /// The code isn't 1 to 4,194,304 whole words; or a piece isn't whole words, or is longer than what is to come.
    BadLength,
    /// Words are still to come, and none so far breaks a rule; or a module ended before all came.
    Incomplete,
    /// Nothing is judged: the library answered what these calls never bring about, or what this crate doesn't know.
    Unjudged(Status),
}

/// What a status and a fault of the library tell of code.
pub(crate) fn verdict(status: u32, fault: LfiFault) -> Result<(), Violation> {
    match (Status::of(status), Rule::of(fault.rule)) {
        (Status::Lawful, _) => Ok(()),
        (Status::Refused, Some(rule)) => Err(Violation::Refused(Fault { word: fault.word, rule })),
        (Status::BadLength, _) => Err(Violation::BadLength),
        (Status::Incomplete, _) => Err(Violation::Incomplete),
        (other, _) => Err(Violation::Unjudged(other)),
    }
}

impl fmt::Display for Violation {
    fn fmt(&self, f: &mut fmt::Formatter<'_>) -> fmt::Result {
        match self {
            Violation::Refused(fault) => fault.fmt(f),
            Violation::BadLength => f.write_str("bad length"),
            Violation::Incomplete => f.write_str("words are missing"),
            Violation::Unjudged(status) => write!(f, "not judged: {status}"),
        }
    }
}

impl core::error::Error for Violation {}

/// The fault of a stream: docs/PROFILE.md, "Faults".
#[derive(Clone, Copy, Debug, PartialEq, Eq, Hash)]
pub enum StreamFault {
    /// 1: unknown kind of message.
    Kind,
    /// 2: second byte not zero.
    SecondByte,
    /// 3: no such module.
    Module,
    /// 4: page length out of range.
    PageLength,
    /// 5: close with numbers.
    CloseNumbers,
    /// 6: word count out of range.
    WordCount,
    /// 7: entry past the last word.
    Entry,
    /// 9: input ended too early.
    Ended,
    /// A number that these calls don't tell.
    Other(u32),
}

impl StreamFault {
    pub(crate) fn of(number: u32) -> StreamFault {
        match number {
            1 => StreamFault::Kind,
            2 => StreamFault::SecondByte,
            3 => StreamFault::Module,
            4 => StreamFault::PageLength,
            5 => StreamFault::CloseNumbers,
            6 => StreamFault::WordCount,
            7 => StreamFault::Entry,
            9 => StreamFault::Ended,
            other => StreamFault::Other(other),
        }
    }

    /// Its number.
    pub fn number(self) -> u32 {
        match self {
            StreamFault::Kind => 1,
            StreamFault::SecondByte => 2,
            StreamFault::Module => 3,
            StreamFault::PageLength => 4,
            StreamFault::CloseNumbers => 5,
            StreamFault::WordCount => 6,
            StreamFault::Entry => 7,
            StreamFault::Ended => 9,
            StreamFault::Other(number) => number,
        }
    }
}

impl fmt::Display for StreamFault {
    fn fmt(&self, f: &mut fmt::Formatter<'_>) -> fmt::Result {
        match self {
            StreamFault::Kind => f.write_str("unknown kind of message"),
            StreamFault::SecondByte => f.write_str("second byte not zero"),
            StreamFault::Module => f.write_str("no such module"),
            StreamFault::PageLength => f.write_str("page length out of range"),
            StreamFault::CloseNumbers => f.write_str("close with numbers"),
            StreamFault::WordCount => f.write_str("word count out of range"),
            StreamFault::Entry => f.write_str("entry past the last word"),
            StreamFault::Ended => f.write_str("input ended too early"),
            StreamFault::Other(number) => write!(f, "fault {number}"),
        }
    }
}

impl core::error::Error for StreamFault {}

#[cfg(test)]
mod tests {
    use super::*;

    /// docs/C.md, the table of statuses: 0 alone is lawful, and what isn't one of 0 to 3 says that nothing was judged.
    #[test]
    fn each_verdict() {
        let (none, fault) = (LfiFault { word: 0, rule: 0 }, LfiFault { word: 7, rule: 2 });
        assert_eq!(verdict(0, none), Ok(()));
        assert_eq!(verdict(1, fault), Err(Violation::Refused(Fault { word: 7, rule: Rule::AccessConfined })));
        assert_eq!(verdict(2, none), Err(Violation::BadLength));
        assert_eq!(verdict(3, none), Err(Violation::Incomplete));
        assert_eq!(verdict(4, none), Err(Violation::Unjudged(Status::BadState)));
        assert_eq!(verdict(5, none), Err(Violation::Unjudged(Status::UnknownProfile)));
        assert_eq!(verdict(6, none), Err(Violation::Unjudged(Status::UnknownModule)));
        assert_eq!(verdict(7, none), Err(Violation::Unjudged(Status::NoRoom)));
        assert_eq!(verdict(8, none), Err(Violation::Unjudged(Status::Other(8))));
        for rule in [0, 11] {
            assert_eq!(verdict(1, LfiFault { word: 7, rule }), Err(Violation::Unjudged(Status::Refused)));
        }
    }
}
