//! Code as a whole, and in pieces.

use crate::{
    calls::{self, LfiState},
    fault::verdict,
    Violation,
};

/// The most words of a module.
pub const MAX_WORDS: u32 = 4_194_304;
/// The most bytes of a module's code.
pub const MAX_BYTES: usize = 16_777_216;

/// The profile by which code is judged: docs/PROFILE.md.
#[derive(Clone, Copy, Debug, PartialEq, Eq, Hash)]
pub enum Profile {
    /// Profile 1.
    One,
    /// Profile 2: profile 1 with LDAR and STLR, and a probe that may come late.
    Two,
}

impl Profile {
    /// Its number, 1 or 2.
    pub fn number(self) -> u32 {
        match self {
            Profile::One => 1,
            Profile::Two => 2,
        }
    }

    pub(crate) fn of(number: u32) -> Option<Profile> {
        [Profile::One, Profile::Two].into_iter().find(|it| it.number() == number)
    }
}

/// Judges the code of a whole module.
///
/// `Ok` where these bytes are 1 to 4,194,304 whole words, the lowest byte first, and none breaks a rule of the profile; else
/// [`Violation::Refused`] with the first fault, or [`Violation::BadLength`].
///
/// ```
/// use lfi_verifier::{verify, Profile, Violation};
///
/// assert_eq!(verify(&[], Profile::One), Err(Violation::BadLength));
/// assert_eq!(verify(&[0x1F, 0x20, 0x03, 0xD5], Profile::One), Ok(())); // nop
/// ```
pub fn verify(code: &[u8], profile: Profile) -> Result<(), Violation> {
    let (status, fault) = calls::verify(code, profile.number());
    verdict(status, fault)
}

/// A module of which a beginning has been judged: plain numbers, of which a copy is as good as the original.
///
/// ```
/// use lfi_verifier::{Profile, Verifier, Violation};
///
/// # fn main() -> Result<(), Violation> {
/// let mut verifier = Verifier::new(2, Profile::One)?;
/// verifier.update(&0xD503_201Fu32.to_le_bytes())?; // nop
/// assert_eq!(verifier.finish(), Err(Violation::Incomplete));
/// verifier.update(&0xD65F_03C0u32.to_le_bytes())?; // ret
/// verifier.finish()
/// # }
/// ```
#[derive(Clone, Copy, Debug, PartialEq, Eq)]
pub struct Verifier {
    state: LfiState,
}

impl Verifier {
    /// Begins to judge a module of so many words. [`Violation::BadLength`] where these aren't 1 to [`MAX_WORDS`].
    pub fn new(words: u32, profile: Profile) -> Result<Verifier, Violation> {
        let (status, state) = calls::verify_init(words, profile.number());
        verdict(status, state.fault).map(|()| Verifier { state })
    }

    /// Judges the next piece: whole words, in any cutting, also none. `Ok` where no word so far breaks a rule.
    ///
    /// [`Violation::BadLength`] where the piece isn't whole words, or is more than are to come; then all is as it was.
    pub fn update(&mut self, piece: &[u8]) -> Result<(), Violation> {
        let status = calls::verify_update(&mut self.state, piece);
        verdict(status, self.state.fault)
    }

    /// What is found: once all words came, what [`verify`] tells of them; before, the first fault so far, or
    /// [`Violation::Incomplete`]. It may go on after that.
    pub fn finish(&self) -> Result<(), Violation> {
        let (status, fault) = calls::verify_final(&self.state);
        verdict(status, fault)
    }

    /// How many words came.
    pub fn judged(&self) -> u32 {
        self.state.judged
    }
}
