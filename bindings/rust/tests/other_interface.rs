//! With a library of another interface nothing begins. checks/delivered runs this with one whose number is another, and all of
//! whose other calls end the process.

use lfi_verifier::{
    explain, mend, registers, verify, version, Fault, ModuleNumber, Profile, RefusedWord, Rule, SlotMap, Status, Stream,
    Verifier, Violation, VERSION,
};

#[test]
#[ignore = "it needs a library of another interface"]
fn nothing_begins() {
    let (other, module) = (Status::OtherInterface, ModuleNumber::new(0).expect("there is a module 0"));
    assert_ne!(version(), VERSION);
    assert_eq!(verify(&[0; 4], Profile::One), Err(Violation::Unjudged(other)));
    assert_eq!(Verifier::new(1, Profile::One), Err(Violation::Unjudged(other)));
    assert_eq!(Stream::new().err(), Some(other));
    assert_eq!(SlotMap::of(Profile::One, module), Err(other));
    assert_eq!(registers(Profile::One), Err(other));
    let fault = Fault { word: 0, rule: Rule::Spelled };
    let word = RefusedWord::of(&[0; 4], module, Profile::One, fault);
    assert_eq!(explain(&word, &mut [0; 1024]), Err(other));
    assert_eq!(mend(&word), Err(other));
}
