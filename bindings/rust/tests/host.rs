//! What a host relies on, with values of docs/PROFILE.md and the examples.

use lfi_verifier::{
    explain, mend, registers, verify, version, Event, Fault, Mend, ModuleNumber, Profile, Reason, RefusedWord, Registers, Rule,
    SlotMap, Status, Stream, StreamFault, Verifier, Violation, MAX_BYTES, MAX_WORDS, VERSION,
};
use std::{error::Error, fmt::Debug, fs, hash::Hash, path::Path};

fn example(name: &str) -> Vec<u8> {
    fs::read(Path::new("../../examples").join(name)).expect("the example is there")
}

fn code(words: &[u32]) -> Vec<u8> {
    words.iter().flat_map(|word| word.to_le_bytes()).collect()
}

fn refused(word: u32, rule: Rule) -> Result<(), Violation> {
    Err(Violation::Refused(Fault { word, rule }))
}

#[test]
fn interface() {
    assert_eq!(version(), VERSION);
    let header = fs::read_to_string("../../include/lfi_verifier.h").expect("the header is there");
    assert!(header.contains(&format!("#define LFI_VERSION {VERSION}u\n")));
    assert!(header.contains(&format!("#define LFI_MAX_WORDS {MAX_WORDS}u\n")));
    assert!(header.contains(&format!("#define LFI_MAX_BYTES {MAX_BYTES}u\n")));
    assert!(header.contains(&format!("#define LFI_MODULES {}u\n", ModuleNumber::COUNT)));
}

/// Each sequence of docs/PROFILE.md with the verdict that stands above it.
#[test]
fn rules() {
    let mut count = 0;
    for file in fs::read_dir("../../examples/rules").expect("the sequences are there") {
        let path = file.expect("a file").path();
        if path.extension().is_some_and(|it| it == "s") {
            let text = fs::read_to_string(&path).expect("a text");
            let wanted = text.lines().next().and_then(|line| line.strip_prefix("// ")).expect("a verdict");
            let code = fs::read(path.with_extension("code")).expect("its words");
            let told = match verify(&code, Profile::One) {
                Ok(()) => format!("lawful, {} words", code.len() / 4),
                Err(violation) => violation.to_string(),
            };
            assert_eq!(told, wanted, "{}", path.display());
            count += 1;
        }
    }
    assert!(count > 20);
}

/// A host passes on why code isn't lawful, or a stream or a call is none, by `?`.
#[test]
fn errors() {
    type Passed = Result<(), Box<dyn Error + Send + Sync>>;
    fn judged(code: &[u8]) -> Passed {
        Ok(verify(code, Profile::One)?)
    }
    fn told<E: Error + Send + Sync + 'static>(why: E) -> Passed {
        Err(why)?
    }
    let text = |passed: Passed| passed.map_err(|why| why.to_string());
    assert_eq!(text(judged(&code(&[0xD503_201F]))), Ok(()));
    assert_eq!(text(judged(&code(&[0xD400_0001]))), Err("word 0 rule 1".to_string()));
    let (status, fault) = (Status::BadLength, StreamFault::Kind);
    assert_eq!(text(told(status)), Err(status.to_string()));
    assert_eq!(text(told(fault)), Err(fault.to_string()));
}

/// What a host keeps may be copied, compared and printed, and a copy of a state goes on by itself.
#[test]
fn copies() {
    fn copied<T: Copy + Debug + Eq>(it: T) -> T {
        it
    }
    const fn is_value<T: Copy + Debug + Eq>() {}
    const fn is_key<T: Copy + Debug + Eq + Hash>() {}
    const fn is_ordered<T: Copy + Debug + Ord + Hash>() {}
    const fn is_kept<T: Copy + Debug>() {}
    let (nop, svc) = (code(&[0xD503_201F]), code(&[0xD400_0001]));
    let mut first = Verifier::new(2, Profile::One).expect("two words");
    assert_eq!(first.update(&nop), Ok(()));
    let mut second = copied(first);
    assert_eq!((first.update(&nop), second.update(&svc)), (Ok(()), refused(1, Rule::Spelled)));
    assert_eq!((copied(first).finish(), copied(second).finish()), (Ok(()), refused(1, Rule::Spelled)));
    is_key::<(Fault, Violation, StreamFault, Status, Profile)>();
    is_ordered::<(Rule, ModuleNumber)>();
    is_kept::<RefusedWord<'_>>();
    is_value::<(SlotMap, Registers, Mend, Event<'_>, Reason, Verifier)>();
    let mut stream = Stream::new().expect("a stream");
    let text = example("one_ret.stream");
    assert_eq!(stream.read(&text[..12]).count(), 1);
    let mut other = stream.clone();
    assert_eq!((stream.read(&text[12..]).count(), other.end().count()), (2, 2));
}

#[test]
fn profiles() {
    let acquire = code(&[0x88DF_FE40]); // ldar w0, [x18]
    assert_eq!(verify(&acquire, Profile::One), refused(0, Rule::Spelled));
    assert_eq!(verify(&acquire, Profile::Two), Ok(()));
}

/// `ldar x30, [x21]` and its guard, a word at a time.
#[test]
fn pieces_of_a_profile() {
    let (load, guard) = (code(&[0xC8DF_FEBE]), code(&[0x8B3E_42BE]));
    let mut verifier = Verifier::new(2, Profile::Two).expect("two words");
    assert_eq!(verifier.update(&load), Ok(()));
    assert_eq!((verifier.judged(), verifier.finish()), (1, Err(Violation::Incomplete)));
    assert_eq!(verifier.update(&guard), Ok(()));
    assert_eq!((verifier.judged(), verifier.finish()), (2, Ok(())));
    let mut verifier = Verifier::new(2, Profile::One).expect("two words");
    assert_eq!(verifier.update(&load), refused(0, Rule::Spelled));
    assert_eq!(verifier.update(&guard), refused(0, Rule::Spelled));
    assert_eq!(verifier.update(&[]), refused(0, Rule::Spelled));
    assert_eq!(verifier.finish(), refused(0, Rule::Spelled));
    // Behind the refusal it counts on, and a piece that isn't due is told.
    assert_eq!((verifier.judged(), verifier.update(&guard)), (2, Err(Violation::BadLength)));
}

/// The headings of docs/PROFILE.md, "Rules".
#[test]
fn names_of_rules() {
    let text = fs::read_to_string("../../docs/PROFILE.md").expect("the document is there");
    let rules = [
        Rule::Spelled,
        Rule::AccessConfined,
        Rule::BaseKept,
        Rule::AddressGuarded,
        Rule::LinkGuarded,
        Rule::OffsetNarrow,
        Rule::StackBounded,
        Rule::TargetInside,
        Rule::BranchBounded,
        Rule::NeedMet,
    ];
    let named: Vec<String> = rules.iter().map(|it| format!("### Rule {}: {it:?}", it.number())).collect();
    assert_eq!(named, text.lines().filter(|line| line.starts_with("### Rule ")).collect::<Vec<_>>());
}

#[test]
fn lengths() {
    assert_eq!(verify(&[], Profile::One), Err(Violation::BadLength));
    assert_eq!(verify(&[0; 3], Profile::One), Err(Violation::BadLength));
    assert_eq!(Verifier::new(0, Profile::One), Err(Violation::BadLength));
    assert_eq!(Verifier::new(4_194_305, Profile::One), Err(Violation::BadLength));
    let mut verifier = Verifier::new(1, Profile::One).expect("one word");
    assert_eq!(verifier.update(&[0; 3]), Err(Violation::BadLength));
    assert_eq!(verifier.update(&[0; 8]), Err(Violation::BadLength));
    assert_eq!(verifier.judged(), 0);
    assert_eq!(Violation::BadLength.to_string(), "bad length");
    assert_eq!(Violation::Incomplete.to_string(), "words are missing");
    assert_eq!(Violation::Unjudged(Status::BadState).to_string(), "not judged: bad state");
}

#[test]
fn pieces() {
    for (name, wanted) in [("checksums.code", Ok(())), ("checksums_unguarded.code", refused(16, Rule::AccessConfined))] {
        let code = example(name);
        assert_eq!(verify(&code, Profile::One), wanted);
        for size in [4, 12, 40, 4096] {
            let words = u32::try_from(code.len() / 4).expect("few words");
            let mut verifier = Verifier::new(words, Profile::One).expect("so many words");
            let last = code.chunks(size).map(|piece| verifier.update(piece)).last();
            assert_eq!(last, Some(wanted), "{name} by {size}");
            assert_eq!(verifier.finish(), wanted, "{name} by {size}");
        }
    }
}

/// The text that README.md shows.
#[test]
fn explanation() {
    let code = example("checksums_unguarded.code");
    let module = ModuleNumber::new(0).expect("there is a module 0");
    let fault = Fault { word: 16, rule: Rule::AccessConfined };
    let word = RefusedWord::of(&code, module, Profile::One, fault);
    let mut text = [0; 1024];
    let told = explain(&word, &mut text).expect("it is a fault");
    assert!(told.starts_with("word 16 rule 2\n  0x0000000100010040  b8237880  str w0, [x4, x3, lsl #2]\n"));
    assert!(told.ends_with("  mend: in its place\n    add w22, w4, w3, uxtw #2\n    str w0, [x21, w22, uxtw]"));
    assert_eq!(mend(&word).expect("it is a fault").expect("there is one").words(), [0x0B23_4896, 0xB836_4AA0]);
    assert_eq!(explain(&word, &mut [0; 14]), Ok("word 16 rule 2"));
    let past = Fault { word: 105, rule: Rule::Spelled };
    assert_eq!(explain(&RefusedWord::of(&code, module, Profile::One, past), &mut text), Err(Status::BadLength));
}

/// Each module of examples/hostile.stream as README.md of the examples tells it, in pieces of all sizes.
#[test]
fn stream() {
    let text = example("hostile.stream");
    for size in 1..text.len() {
        let (mut stream, mut told) = (Stream::new().expect("a stream"), Vec::new());
        let keep = |told: &mut Vec<_>, event: Event<'_>| match event {
            Event::End { module, reason, verdict, .. } => told.push((module.index(), reason, verdict)),
            Event::Fault(fault) => assert_eq!(fault, StreamFault::Kind),
            _ => {}
        };
        for piece in text.chunks(size) {
            stream.read(piece).for_each(|event| keep(&mut told, event));
        }
        stream.end().for_each(|event| keep(&mut told, event));
        told.sort_by_key(|it| it.0);
        let wanted = [
            (2, Reason::Closed, refused(0, Rule::AccessConfined)),
            (3, Reason::PageFault(1), Err(Violation::Incomplete)),
            (4, Reason::Lost(StreamFault::Kind), Err(Violation::Incomplete)),
        ];
        assert_eq!(told, wanted, "by {size}");
        assert_eq!(stream.read(&[1]).next(), None, "nothing is read after a fault");
    }
}

/// Code of the most words, whole and in one piece, and one word more.
#[test]
fn longest() {
    let mut code = [0x1F, 0x20, 0x03, 0xD5].repeat(usize::try_from(MAX_WORDS).expect("there is room"));
    assert_eq!(code.len(), MAX_BYTES);
    assert_eq!(verify(&code, Profile::One), Ok(()));
    let mut verifier = Verifier::new(MAX_WORDS, Profile::One).expect("the most words");
    assert_eq!(verifier.update(&code), Ok(()));
    assert_eq!(verifier.finish(), Ok(()));
    code[MAX_BYTES - 4..].copy_from_slice(&[1, 0, 0, 0xD4]);
    assert_eq!(verify(&code, Profile::One), Err(Violation::Refused(Fault { word: MAX_WORDS - 1, rule: Rule::Spelled })));
    code.extend([0; 4]);
    assert_eq!(verify(&code, Profile::One), Err(Violation::BadLength));
}

/// What a host keeps may go from thread to thread.
#[test]
fn threads() {
    const fn goes<T: Send + Sync>() {}
    goes::<Stream>();
    goes::<Verifier>();
    goes::<RefusedWord<'_>>();
    goes::<Event<'_>>();
}

/// docs/PROFILE.md, "Modules, pages, slots" and "Registers": both profiles have the same.
#[test]
fn map() {
    for number in [16, 255, 256, 271, 65_536, 1 << 31, u32::MAX] {
        assert_eq!(ModuleNumber::new(number), None);
    }
    for profile in [Profile::One, Profile::Two] {
        for number in 0..16 {
            let module = ModuleNumber::new(number).expect("there are 16");
            let map = SlotMap::of(profile, module).expect("it has a slot");
            assert_eq!((map.base, map.size), ((2 * u64::from(number) + 1) << 32, 1 << 32));
            assert_eq!((map.guard, map.table, map.code), (65_536, 4_096, 65_536));
            assert_eq!((map.entry, map.entry_step, map.entries), (1 << 40, 16, 512));
        }
        let found = registers(profile).expect("a profile has registers");
        assert_eq!((found.base, found.offset, found.link, found.stack_reach), (21, 22, 30, 512));
        assert_eq!((found.first_address, found.second_address, found.third_address), (18, 23, 24));
    }
}
