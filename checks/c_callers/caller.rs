//! A host in Rust, which declares what the header declares.

#[repr(C)]
#[derive(Clone, Copy, Debug, Default, PartialEq)]
struct Fault {
    word: u32,
    rule: u32,
}

#[repr(C)]
#[derive(Clone, Copy, Debug, Default)]
struct State {
    profile: u32,
    words: u32,
    judged: u32,
    fault: Fault,
    need: u32,
}

unsafe extern "C" {
    fn lfi_verify(code: *const u8, size: usize, profile: u32, fault: *mut Fault) -> u32;
    fn lfi_verify_init(state: *mut State, words: u32, profile: u32) -> u32;
    fn lfi_verify_update(state: *mut State, piece: *const u8, size: usize) -> u32;
    fn lfi_verify_final(state: *const State, fault: *mut Fault) -> u32;
    fn lfi_version() -> u32;
}

fn main() {
    let code: Vec<u8> = [0xD65F03C0u32, 0xD4000001].iter().flat_map(|word| word.to_le_bytes()).collect();
    let (mut fault, mut state) = (Fault::default(), State::default());
    unsafe {
        assert_eq!(lfi_version(), 7);
        assert_eq!(lfi_verify(code.as_ptr(), 4, 1, &mut fault), 0);
        assert_eq!(lfi_verify(code.as_ptr(), code.len(), 1, &mut fault), 1);
        assert_eq!(fault, Fault { word: 1, rule: 1 });
        assert_eq!(lfi_verify_init(&mut state, 2, 1), 0);
        for word in code.chunks(4) {
            lfi_verify_update(&mut state, word.as_ptr(), word.len());
        }
        assert_eq!(lfi_verify_final(&state, &mut fault), 1);
    }
    assert_eq!(fault, Fault { word: 1, rule: 1 });
}
