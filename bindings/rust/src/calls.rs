//! The calls of the C library: the one file with `unsafe`. Each block names what docs/C.md asks of a caller that it keeps.
//!
//! Types keep the rest, in all blocks alike: a reference and a slice's pointer are never null and are aligned, a slice has less
//! than 2^63 bytes, all of which can be read, nobody writes behind a `&`, and a `&mut` overlaps nothing and is used by nobody else.
//!
//! A library of another interface may have other structs, and write past these. So whatever begins something asks for its number
//! first; what goes on, with a state or a stream, has one that such a call made.
#![allow(unsafe_code)]

/// The status of a call that isn't made, since the library is of another interface. The library has no such status.
pub const OTHER_INTERFACE: u32 = u32::MAX;

/// `lfi_fault`.
#[repr(C)]
#[derive(Clone, Copy, Debug, Default, PartialEq, Eq)]
pub struct LfiFault {
    pub word: u32,
    pub rule: u32,
}

/// `lfi_state`.
#[repr(C)]
#[derive(Clone, Copy, Debug, Default, PartialEq, Eq)]
pub struct LfiState {
    pub profile: u32,
    pub words: u32,
    pub judged: u32,
    pub fault: LfiFault,
    pub need: u32,
}

/// `lfi_cut_state`.
#[repr(C)]
#[derive(Clone, Copy, Debug, Default, PartialEq, Eq)]
pub struct LfiCutState {
    pub whole: LfiState,
    pub count: u32,
    pub held: [u8; 3],
}

/// `lfi_stream_feed`.
#[repr(C)]
#[derive(Clone, Copy, Debug, Default, PartialEq, Eq)]
pub struct LfiStreamFeed {
    pub place: u32,
    pub number: u32,
    pub held: [u8; 12],
}

/// `lfi_stream_page`.
#[repr(C)]
#[derive(Clone, Copy, Debug, Default, PartialEq, Eq)]
pub struct LfiStreamPage {
    pub module: u32,
    pub come: usize,
}

/// `lfi_stream_module`.
#[repr(C)]
#[derive(Clone, Copy, Debug, Default, PartialEq, Eq)]
pub struct LfiStreamModule {
    pub phase: u32,
    pub words: u32,
    pub entry: u32,
    pub profile: u32,
    pub page_words: u32,
    pub pages: u32,
}

/// `lfi_stream_text`.
#[repr(C)]
#[derive(Clone, Copy, Debug, Default, PartialEq, Eq)]
pub struct LfiStreamText {
    pub feed: LfiStreamFeed,
    pub page: LfiStreamPage,
    pub modules: [LfiStreamModule; 16],
}

/// `lfi_stream_verdicts`.
#[repr(C)]
#[derive(Clone, Copy, Debug, Default, PartialEq, Eq)]
pub struct LfiStreamVerdicts {
    pub modules: [LfiState; 16],
    pub coming: LfiCutState,
}

/// `lfi_stream`.
#[repr(C)]
#[derive(Clone, Copy, Debug, Default, PartialEq, Eq)]
pub struct LfiStream {
    pub text: LfiStreamText,
    pub verdicts: LfiStreamVerdicts,
}

/// `lfi_event`.
#[repr(C)]
#[derive(Clone, Copy, Debug, Default, PartialEq, Eq)]
pub struct LfiEvent {
    pub kind: u32,
    pub module: u32,
    pub words: u32,
    pub entry: u32,
    pub profile: u32,
    pub page_bytes: u32,
    pub pages: u32,
    pub reason: u32,
    pub number: u32,
    pub ended: u32,
    pub verdict: u32,
    pub fault: LfiFault,
    pub offset: usize,
}

/// `lfi_map`.
#[repr(C)]
#[derive(Clone, Copy, Debug, Default, PartialEq, Eq)]
pub struct LfiMap {
    pub base: u64,
    pub size: u64,
    pub guard: u64,
    pub table: u64,
    pub code: u64,
    pub entry: u64,
    pub entry_step: u64,
    pub entries: u64,
}

/// `lfi_registers`.
#[repr(C)]
#[derive(Clone, Copy, Debug, Default, PartialEq, Eq)]
pub struct LfiRegisters {
    pub base: u32,
    pub offset: u32,
    pub first_address: u32,
    pub second_address: u32,
    pub third_address: u32,
    pub link: u32,
    pub stack_reach: u32,
}

extern "C" {
    fn lfi_verify(code: *const u8, size: usize, profile: u32, fault: *mut LfiFault) -> u32;
    fn lfi_verify_init(state: *mut LfiState, words: u32, profile: u32) -> u32;
    fn lfi_verify_update(state: *mut LfiState, piece: *const u8, size: usize) -> u32;
    fn lfi_verify_final(state: *const LfiState, fault: *mut LfiFault) -> u32;
    fn lfi_explain(
        profile: u32,
        module: u32,
        words: u32,
        code: *const u8,
        size: usize,
        fault: *const LfiFault,
        text: *mut u8,
        room: usize,
        count: *mut usize,
    ) -> u32;
    fn lfi_mend(
        profile: u32,
        code: *const u8,
        size: usize,
        fault: *const LfiFault,
        mend: *mut u32,
        room: usize,
        count: *mut usize,
    ) -> u32;
    fn lfi_stream_init(stream: *mut LfiStream, profile: u32) -> u32;
    fn lfi_stream_next(stream: *mut LfiStream, bytes: *const u8, size: usize, event: *mut LfiEvent) -> usize;
    fn lfi_stream_end(stream: *mut LfiStream, event: *mut LfiEvent) -> u32;
    fn lfi_profile_map(profile: u32, module: u32, map: *mut LfiMap) -> u32;
    fn lfi_profile_registers(profile: u32, registers: *mut LfiRegisters) -> u32;
    fn lfi_version() -> u32;
}

fn is_of_this_interface() -> bool {
    version() == crate::VERSION
}

pub fn verify(code: &[u8], profile: u32) -> (u32, LfiFault) {
    let mut fault = LfiFault::default();
    if !is_of_this_interface() {
        return (OTHER_INTERFACE, fault);
    }
    // docs/C.md: Nobody writes these bytes during the call.
    let status = unsafe { lfi_verify(code.as_ptr(), code.len(), profile, &mut fault) };
    (status, fault)
}

pub fn verify_init(words: u32, profile: u32) -> (u32, LfiState) {
    let mut state = LfiState::default();
    if !is_of_this_interface() {
        return (OTHER_INTERFACE, state);
    }
    // docs/C.md: A pointer to a struct is aligned for it.
    let status = unsafe { lfi_verify_init(&mut state, words, profile) };
    (status, state)
}

pub fn verify_update(state: &mut LfiState, piece: &[u8]) -> u32 {
    // docs/C.md: What a call writes overlaps nothing else that the call is handed.
    unsafe { lfi_verify_update(state, piece.as_ptr(), piece.len()) }
}

pub fn verify_final(state: &LfiState) -> (u32, LfiFault) {
    let mut fault = LfiFault::default();
    // docs/C.md: No other thread uses, during the call, a struct that it writes, or writes one that it reads.
    let status = unsafe { lfi_verify_final(state, &mut fault) };
    (status, fault)
}

/// `LFI_MOST_MENDED`.
pub const MOST_MENDED: usize = 8;

/// What `lfi_explain` is told of a refused word.
#[derive(Clone, Copy, Debug)]
pub struct Refused<'c> {
    pub profile: u32,
    pub module: u32,
    pub words: u32,
    pub code: &'c [u8],
    pub fault: LfiFault,
}

pub fn explain(of: &Refused<'_>, text: &mut [u8]) -> (u32, usize) {
    let mut count = 0;
    if !is_of_this_interface() {
        return (OTHER_INTERFACE, count);
    }
    let ((code, size), (text, room)) = ((of.code.as_ptr(), of.code.len()), (text.as_mut_ptr(), text.len()));
    // docs/C.md: so `room`, of bytes that can be written at `text`, or of words at `mend`.
    let status = unsafe { lfi_explain(of.profile, of.module, of.words, code, size, &of.fault, text, room, &mut count) };
    (status, count)
}

/// What `lfi_mend` tells of a refused word: the status, the words, and how many they are.
pub fn mend(of: &Refused<'_>) -> (u32, [u32; MOST_MENDED], usize) {
    let (mut mend, mut count) = ([0; MOST_MENDED], 0);
    if !is_of_this_interface() {
        return (OTHER_INTERFACE, mend, count);
    }
    let (code, size) = (of.code.as_ptr(), of.code.len());
    // docs/C.md: so `room`, of bytes that can be written at `text`, or of words at `mend`.
    let status = unsafe { lfi_mend(of.profile, code, size, &of.fault, mend.as_mut_ptr(), mend.len(), &mut count) };
    (status, mend, count)
}

pub fn stream_init(profile: u32) -> (u32, LfiStream) {
    let mut stream = LfiStream::default();
    if !is_of_this_interface() {
        return (OTHER_INTERFACE, stream);
    }
    // docs/C.md: A pointer to a struct is aligned for it.
    let status = unsafe { lfi_stream_init(&mut stream, profile) };
    (status, stream)
}

/// The caller holds the piece as long as what is told of its bytes: `Event` borrows them.
pub fn stream_next(stream: &mut LfiStream, bytes: &[u8]) -> (usize, LfiEvent) {
    let mut event = LfiEvent::default();
    // docs/C.md: Nobody writes the bytes between a call of `lfi_stream_next` that told them as code and the host's own copy of them.
    let used = unsafe { lfi_stream_next(stream, bytes.as_ptr(), bytes.len(), &mut event) };
    (used, event)
}

pub fn stream_end(stream: &mut LfiStream) -> (u32, LfiEvent) {
    let mut event = LfiEvent::default();
    // docs/C.md: What a call writes overlaps nothing else that the call is handed.
    let status = unsafe { lfi_stream_end(stream, &mut event) };
    (status, event)
}

pub fn profile_map(profile: u32, module: u32) -> (u32, LfiMap) {
    let mut map = LfiMap::default();
    if !is_of_this_interface() {
        return (OTHER_INTERFACE, map);
    }
    // docs/C.md: A pointer to a struct is aligned for it.
    let status = unsafe { lfi_profile_map(profile, module, &mut map) };
    (status, map)
}

pub fn profile_registers(profile: u32) -> (u32, LfiRegisters) {
    let mut registers = LfiRegisters::default();
    if !is_of_this_interface() {
        return (OTHER_INTERFACE, registers);
    }
    // docs/C.md: A pointer to a struct is aligned for it.
    let status = unsafe { lfi_profile_registers(profile, &mut registers) };
    (status, registers)
}

pub fn version() -> u32 {
    // docs/C.md: Calls that share nothing but what they read may run at the same time.
    unsafe { lfi_version() }
}
