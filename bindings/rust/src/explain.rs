//! Why a word is refused, and how it is mended.

use crate::{calls, Fault, ModuleNumber, Profile, Status};

/// A refused word with what is needed to explain and mend it: the code, where it lies.
#[derive(Clone, Copy, Debug)]
pub struct RefusedWord<'c> {
    /// The profile by which the code was judged.
    pub profile: Profile,
    /// The module, in whose slot the word's address lies.
    pub module: ModuleNumber,
    /// How many words the module has.
    pub words: u32,
    /// The first bytes of the module's code: all that came, or all.
    pub code: &'c [u8],
    /// The fault, at one of these words.
    pub fault: Fault,
}

impl<'c> RefusedWord<'c> {
    /// The word at fault of code that is there as a whole.
    pub fn of(code: &'c [u8], module: ModuleNumber, profile: Profile, fault: Fault) -> RefusedWord<'c> {
        // More words than a u32 can number are more than any module has.
        let words = u32::try_from(code.len() / 4).unwrap_or(u32::MAX);
        RefusedWord { profile, module, words, code, fault }
    }

    fn numbers(&self) -> calls::Refused<'c> {
        calls::Refused {
            profile: self.profile.number(),
            module: self.module.number(),
            words: self.words,
            code: self.code,
            fault: self.fault.numbers(),
        }
    }
}

/// The words that stand in the place of a refused word; for a fault of rule 10 before it, or, at the module's end, after it.
#[derive(Clone, Copy, Debug, PartialEq, Eq)]
pub struct Mend {
    words: [u32; calls::MOST_MENDED],
    count: usize,
}

impl Mend {
    /// The words, in order; none, where the word is best left out.
    pub fn words(&self) -> &[u32] {
        self.words.get(..self.count).unwrap_or(&self.words)
    }
}

/// Tells the mend of a refused word, `None` where there is none. It keeps the rules wherever it stands.
///
/// It fails where the fault is none that this code can have.
///
/// ```
/// use lfi_verifier::{mend, verify, ModuleNumber, Profile, RefusedWord, Violation};
///
/// let code = 0xB823_7880u32.to_le_bytes(); // str w0, [x4, x3, lsl #2]
/// let Err(Violation::Refused(fault)) = verify(&code, Profile::One) else { panic!("it is refused") };
/// let module = ModuleNumber::new(0).expect("there is a module 0");
/// let refused = RefusedWord::of(&code, module, Profile::One, fault);
/// let mend = mend(&refused).expect("the fault is one").expect("there is a mend");
/// assert_eq!(mend.words(), [0x0B23_4896, 0xB836_4AA0]); // add w22, w4, w3, uxtw #2; str w0, [x21, w22, uxtw]
/// ```
pub fn mend(refused: &RefusedWord<'_>) -> Result<Option<Mend>, Status> {
    let (status, words, count) = calls::mend(&refused.numbers());
    match Status::of(status) {
        Status::Lawful => Ok(Some(Mend { words, count })),
        Status::Refused => Ok(None),
        other => Err(other),
    }
}

/// Writes the text of `lfiload check --explain` to this room, and returns it: the fault, the word at its address with its
/// assembly text, what the rule asks, and how the word is mended. It is cut where the room ends. None has more than 2,048
/// bytes, and 1,024 were enough for all of 20,000 words at random.
///
/// It fails where the fault is none that this code can have.
///
/// ```
/// use lfi_verifier::{explain, verify, ModuleNumber, Profile, RefusedWord, Violation};
///
/// let code = 0xB823_7880u32.to_le_bytes(); // str w0, [x4, x3, lsl #2]
/// let Err(Violation::Refused(fault)) = verify(&code, Profile::One) else { panic!("it is refused") };
/// let module = ModuleNumber::new(0).expect("there is a module 0");
/// let refused = RefusedWord::of(&code, module, Profile::One, fault);
/// let mut text = [0; 1024];
/// let told = explain(&refused, &mut text).expect("the fault is one");
/// assert!(told.starts_with("word 0 rule 2\n  0x0000000100010000  b8237880  str w0, [x4, x3, lsl #2]\n"));
/// ```
pub fn explain<'t>(refused: &RefusedWord<'_>, text: &'t mut [u8]) -> Result<&'t str, Status> {
    let (status, count) = calls::explain(&refused.numbers(), text);
    Status::of(status).done()?;
    let told = text.get(..count).unwrap_or(text);
    match core::str::from_utf8(told) {
        Ok(told) => Ok(told),
        Err(why) => Ok(core::str::from_utf8(told.get(..why.valid_up_to()).unwrap_or(&[])).unwrap_or("")),
    }
}
