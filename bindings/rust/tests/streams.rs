//! What a stream tells: each event with each of its fields, and each fault of a header. What is wanted is written out from
//! docs/PROFILE.md, "Streams" and "Faults", and from what include/lfi_verifier.h says of an event.

use lfi_verifier::{Event, Fault, ModuleNumber, Profile, Reason, Rule, Stream, StreamFault, Violation};

const NOP: u32 = 0xD503_201F;
const RET: u32 = 0xD65F_03C0;
/// `ldar x0, [x18]`, an instruction of profile 2 alone.
const ACQUIRE: u32 = 0xC8DF_FE40;
/// `mov x21, x0`, which breaks rule 3.
const BASE_WRITTEN: u32 = 0xAA00_03F5;

fn module(number: u32) -> ModuleNumber {
    ModuleNumber::new(number).expect("there is such a module")
}

fn refused(word: u32, rule: Rule) -> Result<(), Violation> {
    Err(Violation::Refused(Fault { word, rule }))
}

/// A message without payload: its kind, its second byte, its module, and the numbers a and b.
fn header(kind: u8, second: u8, module: u8, a: u32, b: u32) -> Vec<u8> {
    [&[kind, second, module, 0][..], &a.to_le_bytes(), &b.to_le_bytes()].concat()
}

/// A Page, of kind 2 or of kind 5, with its payload.
fn page(kind: u8, module: u8, index: u32, words: &[u32]) -> Vec<u8> {
    let payload: Vec<u8> = words.iter().flat_map(|word| word.to_le_bytes()).collect();
    [header(kind, 0, module, index, payload.len() as u32), payload].concat()
}

/// Modules of both profiles and of both page sizes, whose messages are mixed. Beside each stands its first byte's place.
fn mixed() -> Vec<u8> {
    // A full large page, each word of which is another one: movz w0, #0; movz w0, #1; and so on.
    let large: Vec<u32> = (0..4096).map(|number| 0x5280_0000 + (number << 5)).collect();
    [
        header(4, 2, 7, 4098, 4097),             // 0: profile 2, large pages
        header(1, 0, 2, 3, 2),                   // 12: profile 1
        page(5, 7, 0, &large),                   // 24
        page(2, 2, 0, &[NOP, ACQUIRE, RET]),     // 16,420: word 1 breaks rule 1 in profile 1
        page(5, 7, 1, &[ACQUIRE, RET]),          // 16,444
        page(2, 9, 0, &[NOP]),                   // 16,464: of a module that isn't open
        header(1, 0, 4, 1, 0),                   // 16,480
        page(2, 4, 0, &[NOP]),                   // 16,492
        page(2, 4, 5, &[NOP]),                   // 16,508: it isn't due
        header(4, 0, 6, 2, 1),                   // 16,524: profile 2, small pages
        page(2, 6, 0, &[ACQUIRE, BASE_WRITTEN]), // 16,536: word 1 breaks rule 3
        header(3, 0, 2, 0, 0),                   // 16,556
        header(3, 0, 7, 0, 0),                   // 16,568
        header(3, 0, 6, 1, 0),                   // 16,580: a Close with a number
    ]
    .concat()
}

/// What `mixed` tells in pieces of 4,999 bytes, the first three of which end within a word of module 7.
fn told_of_mixed(text: &[u8]) -> Vec<Event<'_>> {
    let open =
        |number, words, entry, profile, page_bytes| Event::Open { module: module(number), words, entry, profile, page_bytes };
    let code =
        |number, offset, bytes, ends_page, verdict| Event::Code { module: module(number), offset, bytes, ends_page, verdict };
    let end = |number, words, pages, reason, verdict| Event::End { module: module(number), words, pages, reason, verdict };
    vec![
        open(7, 4098, 4097, Profile::Two, 16_384),
        open(2, 3, 2, Profile::One, 4_096),
        code(7, 0, &text[36..4_999], false, Ok(())),
        code(7, 4_963, &text[4_999..9_998], false, Ok(())),
        code(7, 9_962, &text[9_998..14_997], false, Ok(())),
        code(7, 14_961, &text[14_997..16_420], true, Ok(())),
        code(2, 0, &text[16_432..16_444], true, refused(1, Rule::Spelled)),
        code(7, 16_384, &text[16_456..16_464], true, Ok(())),
        Event::Stray { module: module(9) },
        open(4, 1, 0, Profile::One, 4_096),
        code(4, 0, &text[16_504..16_508], true, Ok(())),
        end(4, 1, 1, Reason::PageFault(5), Err(Violation::Incomplete)),
        open(6, 2, 1, Profile::Two, 4_096),
        code(6, 0, &text[16_548..16_556], true, refused(1, Rule::BaseKept)),
        end(2, 3, 1, Reason::Closed, refused(1, Rule::Spelled)),
        end(7, 4098, 2, Reason::Closed, Ok(())),
        Event::Fault(StreamFault::CloseNumbers),
        end(6, 2, 1, Reason::Lost(StreamFault::CloseNumbers), refused(1, Rule::BaseKept)),
    ]
}

#[test]
fn each_event() {
    let text = mixed();
    let (mut stream, mut told) = (Stream::new().expect("a stream"), Vec::new());
    for piece in text.chunks(4_999) {
        told.extend(stream.read(piece));
    }
    stream.end().for_each(|event| told.push(event));
    let wanted = told_of_mixed(&text);
    for (event, other) in told.iter().zip(&wanted) {
        assert_eq!(event, other);
    }
    assert_eq!(told.len(), wanted.len());
}

/// What one end didn't come to is told by the next, and nothing twice.
#[test]
fn an_end_that_is_left() {
    let text = [header(1, 0, 3, 1, 0), header(1, 0, 5, 1, 0)].concat();
    let mut stream = Stream::new().expect("a stream");
    assert_eq!(stream.read(&text).count(), 2);
    assert_eq!(stream.end().next(), Some(Event::Fault(StreamFault::Ended)));
    assert!(matches!(stream.end().next(), Some(Event::End { .. })));
    assert!(matches!(stream.end().collect::<Vec<_>>()[..], [Event::End { .. }]));
    assert_eq!(stream.end().next(), None);
}

/// Also behind an end at which nothing was left to tell.
#[test]
fn nothing_is_read_after_the_end() {
    let mut stream = Stream::new().expect("a stream");
    assert_eq!(stream.end().count(), 0);
    assert_eq!(stream.read(&header(1, 0, 3, 1, 0)).next(), None);
    assert_eq!(stream.read(&[1]).next(), None);
    assert_eq!(stream.end().next(), None);
}

/// Also where not all of the end was told yet.
#[test]
fn nothing_is_read_after_a_part_of_the_end() {
    let open = header(1, 0, 3, 1, 0);
    let mut stream = Stream::new().expect("a stream");
    assert_eq!(stream.read(&open).count(), 1);
    assert_eq!(stream.end().next(), Some(Event::Fault(StreamFault::Ended)));
    assert_eq!(stream.read(&open).next(), None);
}

/// What an iterator didn't come to is read by the next one, and a piece without bytes brings nothing.
#[test]
fn the_rest_of_a_piece() {
    let text = [header(1, 0, 3, 1, 0), page(2, 3, 0, &[RET]), header(3, 0, 3, 0, 0)].concat();
    let mut stream = Stream::new().expect("a stream");
    let mut events = stream.read(&text);
    assert_eq!(events.rest(), text);
    assert!(matches!(events.next(), Some(Event::Open { .. })));
    assert_eq!(events.rest(), &text[12..]);
    assert_eq!(stream.read(&[]).next(), None);
    let mut events = stream.read(&text[12..]);
    assert!(matches!(events.next(), Some(Event::Code { ends_page: true, .. })));
    assert_eq!(events.rest(), &text[28..]);
    assert!(matches!(events.next(), Some(Event::End { verdict: Ok(()), .. })));
    assert!(events.rest().is_empty());
}

/// Behind a fault nothing is read: all that comes after its header is left, of the piece with the fault and of each later one.
#[test]
fn the_rest_behind_a_fault() {
    let text = [header(1, 0, 3, 1, 0), header(7, 0, 0, 0, 0), header(3, 0, 3, 0, 0)].concat();
    let mut stream = Stream::new().expect("a stream");
    let mut events = stream.read(&text);
    assert_eq!((events.by_ref().count(), events.rest()), (2, &text[24..]));
    let mut events = stream.read(&text);
    assert_eq!((events.next(), events.rest()), (None, &text[..]));
    assert_eq!(stream.end().count(), 1);
    let mut events = stream.read(&text);
    assert_eq!((events.next(), events.rest()), (None, &text[..]));
}

/// Each fault that bytes show, with its number and its words.
#[test]
fn each_fault() {
    let rows = [
        (header(6, 0, 0, 0, 0), StreamFault::Kind, 1, "unknown kind of message"),
        (header(1, 1, 0, 1, 0), StreamFault::SecondByte, 2, "second byte not zero"),
        (header(1, 0, 16, 1, 0), StreamFault::Module, 3, "no such module"),
        (header(2, 0, 0, 0, 4_100), StreamFault::PageLength, 4, "page length out of range"),
        (header(3, 0, 0, 0, 1), StreamFault::CloseNumbers, 5, "close with numbers"),
        (header(1, 0, 0, 0, 0), StreamFault::WordCount, 6, "word count out of range"),
        (header(1, 0, 0, 1, 1), StreamFault::Entry, 7, "entry past the last word"),
        (vec![1], StreamFault::Ended, 9, "input ended too early"),
    ];
    for (text, fault, number, words) in rows {
        let mut stream = Stream::new().expect("a stream");
        let mut told: Vec<_> = stream.read(&text).collect();
        stream.end().for_each(|event| told.push(event));
        assert_eq!(told, [Event::Fault(fault)]);
        assert_eq!((fault.number(), fault.to_string().as_str()), (number, words));
    }
    // A number that bytes don't show.
    assert_eq!(StreamFault::Other(8).to_string(), "fault 8");
}
