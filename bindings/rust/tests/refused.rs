//! Why a word is refused, and how it is mended. The texts are those that crates/tests_profile (explained/rules.rt) and
//! checks/runs/explain.runs have of the same words, and the words of mends those of checks/c_callers/calls.c and of
//! crates/tests_mends (rows.rt): all are written by hand there.

use lfi_verifier::{explain, mend, verify, Fault, ModuleNumber, Profile, RefusedWord, Rule, Status, Violation};

const NOP: u32 = 0xD503_201F;
const RET: u32 = 0xD65F_03C0;
/// `sub sp, sp, #16`.
const MOVE: u32 = 0xD100_43FF;
/// `ldar x0, [x1]`, which no mend of profile 1 has.
const ACQUIRE: u32 = 0xC8DF_FC20;

/// A module, its profile, its words, and its first fault.
type Module = (u32, Profile, &'static [u32], Fault);

const fn fault(word: u32, rule: Rule) -> Fault {
    Fault { word, rule }
}

fn code_of(words: &[u32]) -> Vec<u8> {
    words.iter().flat_map(|word| word.to_le_bytes()).collect()
}

/// The word at fault, after a look that the fault is the first one.
fn refused_word<'c>(&(number, profile, _, fault): &Module, code: &'c [u8]) -> RefusedWord<'c> {
    assert_eq!(verify(code, profile), Err(Violation::Refused(fault)));
    let module = ModuleNumber::new(number).expect("there is such a module");
    RefusedWord::of(code, module, profile, fault)
}

/// By profile 2; of the word before; of the module's words, and of the last slot; of a word two before.
const EXPLAINED: [(Module, &str); 4] = [
    (
        (3, Profile::Two, &[ACQUIRE, NOP], fault(0, Rule::AccessConfined)),
        concat!(
            "word 0 rule 2\n",
            "  0x0000000700010000  c8dffc20  ldar x0, [x1]\n",
            "  a load or store may go only through x18, x21, x23, x24 or sp at an immediate offset, through sp ",
            "and change it, or through x21 by a W register with uxtw and no shift; this one goes through x1\n",
            "  mend: in its place\n",
            "    add x18, x21, w1, uxtw\n",
            "    ldar x0, [x18]",
        ),
    ),
    (
        (0, Profile::One, &[0xF940_06BE, NOP, RET], fault(1, Rule::NeedMet)),
        concat!(
            "word 1 rule 10\n",
            "  0x0000000100010000  f94006be  ldr x30, [x21, #8]\n",
            "  0x0000000100010004  d503201f  nop\n",
            "  a load of a table entry into x30 has to be followed by blr x30; this word isn't that\n",
            "  mend: put blr x30 right after the load, and before the load what stood between them",
        ),
    ),
    (
        (15, Profile::One, &[0x1400_0002, NOP], fault(0, Rule::TargetInside)),
        concat!(
            "word 0 rule 8\n",
            "  0x0000001f00010000  14000002  b .+8\n",
            "  a direct branch may go only to a word of the module; it has 2, and this one goes to word 2\n",
            "  mend: let it go to a word of the module; code outside is called by ldr x30, [x21, #8j], j being 0 ",
            "to 511, with blr x30 right after it",
        ),
    ),
    (
        (0, Profile::Two, &[MOVE, NOP, 0xF940_06BE, 0xD63F_03C0, 0xF900_03E0, RET], fault(2, Rule::NeedMet)),
        concat!(
            "word 2 rule 10\n",
            "  0x0000000100010000  d10043ff  sub sp, sp, #16\n",
            "  0x0000000100010008  f94006be  ldr x30, [x21, #8]\n",
            "  a move of sp by an immediate has to be followed by a load or store at [sp] within 4 words, with only calm words ",
            "before it; this word, with 3 of the 4 left, isn't that\n",
            "  mend: put ldr xzr, [sp] right after the move, or let a pre- or post-indexed access move sp",
        ),
    ),
];

#[test]
fn explanations() {
    for (module, wanted) in &EXPLAINED {
        assert_eq!(explain(&refused_word(module, &code_of(module.2)), &mut [0; 1024]), Ok(*wanted));
    }
}

/// Mends that rest on the words before, on the one after and on the profile; one without words; and none.
const MENDED: [(Module, Option<&[u32]>); 7] = [
    // sub sp, sp, #16; ldr x0, [x1]: ldr xzr, [sp]; ldr x0, [x21, w1, uxtw]
    ((0, Profile::One, &[MOVE, 0xF940_0020, RET], fault(1, Rule::AccessConfined)), Some(&[0xF940_03FF, 0xF861_4AA0])),
    // sub sp, sp, #16; nop; ldpsw x2, x3, [x1]: ldr xzr, [sp]; add w22, w1, #0; ldrsw x2, [x21, w22, uxtw]; add w22, w22, #4;
    // ldrsw x3, [x21, w22, uxtw]
    (
        (0, Profile::Two, &[MOVE, NOP, 0x6940_0C22, RET], fault(2, Rule::Spelled)),
        Some(&[0xF940_03FF, 0x1100_0036, 0xB8B6_4AA2, 0x1100_12D6, 0xB8B6_4AA3]),
    ),
    // ldr x30, [x18, #16]; nop: add x30, x21, w30, uxtw
    ((0, Profile::One, &[0xF940_0A5E, NOP, RET], fault(1, Rule::NeedMet)), Some(&[0x8B3E_42BE])),
    // rbit x0, x1; clz x0, x0: neg x16, x1; and x16, x16, x1; mov x17, #0x8000000000000000; udiv x0, x17, x16
    (
        (0, Profile::One, &[NOP, 0xDAC0_0020, 0xDAC0_1000], fault(1, Rule::Spelled)),
        Some(&[0xCB01_03F0, 0x8A01_0210, 0xD2F0_0011, 0x9AD0_0A20]),
    ),
    // ldar x0, [x1]: add x18, x21, w1, uxtw; ldar x0, [x18]
    ((0, Profile::Two, &[ACQUIRE], fault(0, Rule::AccessConfined)), Some(&[0x8B21_42B2, 0xC8DF_FE40])),
    // prfm pldl1keep, [x1, #64]
    ((0, Profile::One, &[0xF980_2020], fault(0, Rule::Spelled)), Some(&[])),
    // mov x21, x0
    ((0, Profile::One, &[0xAA00_03F5], fault(0, Rule::BaseKept)), None),
];

#[test]
fn mends() {
    for (module, wanted) in &MENDED {
        let told = mend(&refused_word(module, &code_of(module.2))).expect("it is a fault");
        assert_eq!(told.as_ref().map(|it| it.words()), *wanted);
    }
}

/// A fault at a word that didn't come, a word of which bytes are missing, and code of more words than the module has.
#[test]
fn lengths() {
    let (module, _) = &EXPLAINED[1];
    let code = code_of(module.2);
    let word = refused_word(module, &code);
    for size in [0, 4, 7, 11] {
        let cut = RefusedWord { code: &code[..size], ..word };
        assert_eq!(explain(&cut, &mut [0; 1024]), Err(Status::BadLength));
        assert_eq!(mend(&cut), Err(Status::BadLength));
    }
    assert_eq!(explain(&RefusedWord { words: 2, ..word }, &mut [0; 1024]), Err(Status::BadLength));
}

/// Of code that goes on: where the fault's word came, the text is the same, but for what rests on the next word.
#[test]
fn a_beginning() {
    let (module, wanted) = &EXPLAINED[3];
    let code = code_of(module.2);
    let cut = RefusedWord { code: &code[..12], ..refused_word(module, &code) };
    assert_eq!(explain(&cut, &mut [0; 1024]), Ok(*wanted));
    let code = code_of(&[NOP, 0xDAC0_0020, 0xDAC0_1000]); // rbit x0, x1; clz x0, x0
    let place = ModuleNumber::new(0).expect("there is a module 0");
    let word = RefusedWord::of(&code, place, Profile::One, fault(1, Rule::Spelled));
    assert_eq!(mend(&word).expect("it is a fault").map(|it| it.words().len()), Some(4));
    assert_eq!(mend(&RefusedWord { code: &code[..8], ..word }), Ok(None));
}
