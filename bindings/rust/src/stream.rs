//! A stream of modules, read in pieces, whose code is judged as it comes.

use crate::{
    calls::{self, LfiEvent, LfiStream},
    fault::verdict,
    ModuleNumber, Profile, Status, StreamFault, Violation,
};
use core::iter::FusedIterator;

/// How a module ended.
#[derive(Clone, Copy, Debug, PartialEq, Eq)]
pub enum Reason {
    /// By its Close.
    Closed,
    /// By the stream's fault.
    Lost(StreamFault),
    /// By a page that isn't due, hasn't its length, or is of the other kind: this is its index.
    PageFault(u32),
}

/// What bytes of a stream brought.
#[derive(Clone, Copy, Debug, PartialEq, Eq)]
pub enum Event<'p> {
    /// A module opens.
    Open {
        /// The module.
        module: ModuleNumber,
        /// Its words in all.
        words: u32,
        /// The word at which it is entered.
        entry: u32,
        /// The profile by which its code is judged.
        profile: Profile,
        /// The bytes of a full page of it: 4,096 or 16,384.
        page_bytes: u32,
    },
    /// These bytes are code of a module.
    Code {
        /// The module.
        module: ModuleNumber,
        /// Where in the module's code the first of them belongs.
        offset: usize,
        /// The bytes, in the piece that was handed in. They were judged there: copy them from here.
        bytes: &'p [u8],
        /// Whether a page is whole with them.
        ends_page: bool,
        /// What is found of all whole words of the module that were told so far.
        verdict: Result<(), Violation>,
    },
    /// A message of a module is passed over.
    Stray {
        /// The module.
        module: ModuleNumber,
    },
    /// A module has ended.
    End {
        /// The module.
        module: ModuleNumber,
        /// Its words in all.
        words: u32,
        /// How many of its pages came.
        pages: u32,
        /// How it ended.
        reason: Reason,
        /// `Ok`: it is complete and lawful. [`Violation::Refused`]: the first fault of its whole pages. Else
        /// [`Violation::Incomplete`].
        verdict: Result<(), Violation>,
    },
    /// The stream's fault: nothing after it is read. [`Stream::end`] tells which modules it loses.
    Fault(StreamFault),
    /// The library told what these calls never bring about, or what this crate doesn't know: nothing after it is read.
    Unreadable,
}

impl<'p> Event<'p> {
    /// What the library told of these bytes; `None` where it is nothing that a host has to do.
    fn of(told: &LfiEvent, bytes: &'p [u8]) -> Option<Event<'p>> {
        match told.kind {
            0 => None,
            5 => Some(Event::Fault(StreamFault::of(told.number))),
            1..=4 => Some(Event::of_module(told, bytes).unwrap_or(Event::Unreadable)),
            _ => Some(Event::Unreadable),
        }
    }

    fn of_module(told: &LfiEvent, bytes: &'p [u8]) -> Option<Event<'p>> {
        let (module, verdict) = (ModuleNumber::new(told.module)?, verdict(told.verdict, told.fault));
        let &LfiEvent { words, entry, page_bytes, pages, offset, .. } = told;
        Some(match told.kind {
            1 => Event::Open { module, words, entry, profile: Profile::of(told.profile)?, page_bytes },
            2 => Event::Code { module, offset, bytes, ends_page: told.ended == 1, verdict },
            3 => Event::Stray { module },
            _ => Event::End { module, words, pages, reason: Event::reason(told)?, verdict },
        })
    }

    fn reason(told: &LfiEvent) -> Option<Reason> {
        match told.reason {
            1 => Some(Reason::Closed),
            2 => Some(Reason::Lost(StreamFault::of(told.number))),
            3 => Some(Reason::PageFault(told.number)),
            _ => None,
        }
    }
}

/// A connection's stream (docs/PROFILE.md, "Streams") of which some bytes came: plain numbers, 840 bytes of them.
///
/// ```
/// use lfi_verifier::{Event, Stream};
///
/// // An Open of module 0 with one word, a page with `ret`, and a Close.
/// let text = [&[1u8, 0, 0, 0, 1, 0, 0, 0, 0, 0, 0, 0][..], &[2, 0, 0, 0, 0, 0, 0, 0, 4, 0, 0, 0], &[0xC0, 0x03, 0x5F, 0xD6],
///     &[3, 0, 0, 0, 0, 0, 0, 0, 0, 0, 0, 0]].concat();
/// let (mut stream, mut code, mut complete) = (Stream::new().expect("a stream begins"), Vec::new(), 0);
/// for piece in text.chunks(5) {
///     for event in stream.read(piece) {
///         match event {
///             Event::Code { bytes, .. } => code.extend_from_slice(bytes),
///             Event::End { verdict: Ok(()), .. } => complete += 1,
///             _ => {}
///         }
///     }
/// }
/// assert_eq!(stream.end().next(), None);
/// assert_eq!((complete, code), (1, vec![0xC0, 0x03, 0x5F, 0xD6]));
/// ```
#[derive(Clone, Debug)]
pub struct Stream {
    numbers: LfiStream,
    /// Whether its fault was told.
    is_over: bool,
}

impl Stream {
    /// A stream of which no byte came. It fails with a library of another interface alone.
    pub fn new() -> Result<Stream, Status> {
        let (status, numbers) = calls::stream_init(Profile::One.number());
        Status::of(status).done()?;
        Ok(Stream { numbers, is_over: false })
    }

    /// Goes on in the next bytes, cut in any way: the iterator reads them, and tells each thing that they bring. What it
    /// didn't come to when it is dropped wasn't read: [`Events::rest`].
    #[must_use = "the bytes are read by the iterator"]
    pub fn read<'s, 'p>(&'s mut self, piece: &'p [u8]) -> Events<'s, 'p> {
        Events { stream: self, rest: piece }
    }

    /// Tells the end of the input: a fault, where there is one that wasn't told yet, and each module that it loses.
    #[must_use = "the end is told by the iterator"]
    pub fn end(&mut self) -> Ends<'_> {
        Ends { stream: self, is_done: false }
    }
}

/// What the bytes of a piece bring.
#[derive(Debug)]
pub struct Events<'s, 'p> {
    stream: &'s mut Stream,
    rest: &'p [u8],
}

impl<'p> Events<'_, 'p> {
    /// The bytes that weren't read yet.
    pub fn rest(&self) -> &'p [u8] {
        self.rest
    }
}

impl<'p> Iterator for Events<'_, 'p> {
    type Item = Event<'p>;

    fn next(&mut self) -> Option<Event<'p>> {
        while !self.rest.is_empty() && !self.stream.is_over {
            let (used, told) = calls::stream_next(&mut self.stream.numbers, self.rest);
            let event = match self.rest.split_at_checked(used) {
                Some((bytes, rest)) if used > 0 || told.kind != 0 => {
                    self.rest = rest;
                    Event::of(&told, bytes)
                }
                _ => Some(Event::Unreadable),
            };
            self.stream.is_over = matches!(event, Some(Event::Fault(_) | Event::Unreadable));
            if event.is_some() {
                return event;
            }
        }
        None
    }
}

impl FusedIterator for Events<'_, '_> {}

/// What the end of a stream brings.
#[derive(Debug)]
pub struct Ends<'s> {
    stream: &'s mut Stream,
    is_done: bool,
}

impl Iterator for Ends<'_> {
    type Item = Event<'static>;

    fn next(&mut self) -> Option<Event<'static>> {
        if self.is_done {
            return None;
        }
        let (_, told) = calls::stream_end(&mut self.stream.numbers);
        let event = Event::of(&told, &[]);
        self.stream.is_over = true;
        self.is_done = matches!(event, None | Some(Event::Unreadable));
        event
    }
}

impl FusedIterator for Ends<'_> {}

/// What a host can't bring about: numbers that these calls didn't write, and events that the library doesn't tell.
#[cfg(test)]
#[allow(clippy::expect_used, clippy::indexing_slicing, clippy::panic)]
mod tests {
    use super::*;

    /// The Open of module 5 with one word, its page with `ret`, and its Close.
    const OPEN: [u8; 12] = [1, 0, 5, 0, 1, 0, 0, 0, 0, 0, 0, 0];
    const PAGE: [u8; 16] = [2, 0, 5, 0, 0, 0, 0, 0, 4, 0, 0, 0, 0xC0, 0x03, 0x5F, 0xD6];
    const CLOSE: [u8; 12] = [3, 0, 5, 0, 0, 0, 0, 0, 0, 0, 0, 0];

    /// docs/C.md, "A stream": code of a module whose verdict's numbers it can't have is told, and wasn't judged.
    #[test]
    fn code_that_is_not_judged() {
        let mut stream = Stream::new().expect("a stream");
        assert!(matches!(stream.read(&OPEN).next(), Some(Event::Open { .. })));
        stream.numbers.verdicts.modules[5].profile = 0;
        let told: Vec<_> = stream.read(&PAGE).collect();
        let module = ModuleNumber::new(5).expect("there is a module 5");
        let verdict = Err(Violation::Unjudged(Status::BadState));
        assert_eq!(told, [Event::Code { module, offset: 0, bytes: &PAGE[12..], ends_page: true, verdict }]);
    }

    /// It is told by a piece and by the end, once each, and nothing is read.
    #[test]
    fn numbers_of_no_stream() {
        let mut stream = Stream::new().expect("a stream");
        stream.numbers.text.feed.place = 3;
        assert_eq!(stream.read(&OPEN).collect::<Vec<_>>(), [Event::Unreadable]);
        assert_eq!(stream.read(&CLOSE).next(), None);
        assert_eq!(stream.end().collect::<Vec<_>>(), [Event::Unreadable]);
    }

    /// Kinds, modules, profiles and reasons that this crate doesn't know.
    #[test]
    fn unknown_events() {
        let open = LfiEvent { kind: 1, module: 15, words: 1, profile: 2, page_bytes: 4_096, ..LfiEvent::default() };
        let end = LfiEvent { kind: 4, module: 15, words: 1, reason: 1, ..LfiEvent::default() };
        assert!(matches!(Event::of(&open, &[]), Some(Event::Open { .. })));
        assert!(matches!(Event::of(&end, &[]), Some(Event::End { .. })));
        let unknown = [
            LfiEvent { kind: 6, ..open },
            LfiEvent { kind: 7, ..open },
            LfiEvent { module: 16, ..open },
            LfiEvent { profile: 0, ..open },
            LfiEvent { profile: 3, ..open },
            LfiEvent { reason: 0, ..end },
            LfiEvent { reason: 4, ..end },
        ];
        for told in unknown {
            assert_eq!(Event::of(&told, &[]), Some(Event::Unreadable));
        }
    }
}
