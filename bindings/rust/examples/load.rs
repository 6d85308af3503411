//! Reads a stream, copies the code of its modules, and prints the report that `lfiload load` prints; the status is the same.
//!
//!   cargo run --example load -- ../../examples/two_modules.stream
//!
//! A second word is how many bytes are read at once, 1 or more, 4,096 without. Other words are a usage error, status 2.

use lfi_verifier::{verify, Event, ModuleNumber, Profile, Reason, Stream, StreamFault, Violation};
use std::{env, error::Error, fs, process::ExitCode};

/// A module that was opened: its code so far, and how it ended.
struct Module {
    profile: Profile,
    page_bytes: usize,
    code: Vec<u8>,
    words: u32,
    told: String,
}

#[derive(Default)]
struct Load {
    modules: [Option<Module>; ModuleNumber::COUNT],
    fault: Option<StreamFault>,
    strays: u32,
    is_well: bool,
}

impl Load {
    fn follow(&mut self, event: Event<'_>) {
        match event {
            Event::Open { module, words, profile, page_bytes, .. } => {
                let page_bytes = page_bytes as usize;
                self.modules[module.index()] = Some(Module { profile, page_bytes, code: Vec::new(), words, told: String::new() });
            }
            Event::Code { module, offset, bytes, .. } => {
                let code = &mut self.modules[module.index()].as_mut().expect("it was opened").code;
                assert_eq!(code.len(), offset, "code comes in order");
                code.extend_from_slice(bytes);
            }
            Event::Stray { .. } => self.strays += 1,
            Event::End { module, pages, reason, verdict, .. } => self.end(module, pages, reason, verdict),
            Event::Fault(fault) => self.fault = Some(fault),
            Event::Unreadable => panic!("the library is of another interface"),
        }
    }

    fn end(&mut self, module: ModuleNumber, pages: u32, reason: Reason, verdict: Result<(), Violation>) {
        let it = self.modules[module.index()].as_mut().expect("it was opened");
        it.told = match (verdict, reason) {
            (Ok(()), _) => {
                assert_eq!(verify(&it.code, it.profile), Ok(()), "what was copied is lawful");
                format!("complete, {} words", it.words)
            }
            (Err(Violation::Refused(fault)), _) => format!("refused, {fault}"),
            (Err(_), Reason::Closed) => {
                format!("incomplete, {pages} of {} pages", (4 * it.words as usize).div_ceil(it.page_bytes))
            }
            (Err(_), Reason::Lost(fault)) => format!("lost, fault {}", fault.number()),
            (Err(_), Reason::PageFault(index)) => format!("page fault, index {index}"),
        };
        self.is_well &= verdict.is_ok();
    }
}

/// The file and the size of pieces that the words of the command line name.
fn asked(given: &[String]) -> Option<(&String, usize)> {
    match given {
        [name] => Some((name, 4096)),
        [name, size] => Some((name, size.parse().ok().filter(|it| *it > 0)?)),
        _ => None,
    }
}

fn main() -> Result<ExitCode, Box<dyn Error>> {
    let given: Vec<String> = env::args().skip(1).collect();
    let Some((name, size)) = asked(&given) else {
        eprintln!("usage: load FILE [SIZE]");
        return Ok(ExitCode::from(2));
    };
    let text = fs::read(name)?;
    let (mut stream, mut load) = (Stream::new()?, Load { is_well: true, ..Load::default() });
    for piece in text.chunks(size) {
        stream.read(piece).for_each(|event| load.follow(event));
    }
    stream.end().for_each(|event| load.follow(event));
    for (number, module) in load.modules.iter().enumerate() {
        if let Some(module) = module {
            println!("module {number}: {}", module.told);
        }
    }
    if let Some(fault) = load.fault {
        println!("connection 0: fault {}", fault.number());
    }
    println!("strays {}", load.strays);
    Ok(ExitCode::from(u8::from(!load.is_well || load.fault.is_some())))
}
