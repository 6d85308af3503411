//! Where a module's slot lies, and which registers its code rests on.

use crate::{
    calls::{self, LfiMap, LfiRegisters},
    Profile, Status,
};

/// The number of a module, and of its slot: 0 to 15.
#[derive(Clone, Copy, Debug, PartialEq, Eq, PartialOrd, Ord, Hash)]
pub struct ModuleNumber(u8);

impl ModuleNumber {
    /// How many there are.
    pub const COUNT: usize = 16;

    /// The module of this number, where there is one.
    pub fn new(number: u32) -> Option<ModuleNumber> {
        u8::try_from(number).ok().filter(|it| usize::from(*it) < ModuleNumber::COUNT).map(ModuleNumber)
    }

    /// Its number, as a place in an array.
    pub fn index(self) -> usize {
        usize::from(self.0)
    }

    pub(crate) fn number(self) -> u32 {
        u32::from(self.0)
    }
}

/// Where the parts of a module's slot lie, in addresses and bytes: docs/C.md, "Map and registers".
///
/// ```
/// use lfi_verifier::{ModuleNumber, Profile, SlotMap};
///
/// let module = ModuleNumber::new(1).expect("there is a module 1");
/// let map = SlotMap::of(Profile::One, module).expect("it has a slot");
/// assert_eq!((map.base, map.size), (3 << 32, 1 << 32));
/// ```
#[derive(Clone, Copy, Debug, PartialEq, Eq)]
pub struct SlotMap {
    /// The address at which the slot begins.
    pub base: u64,
    /// Its bytes: 2^32.
    pub size: u64,
    /// The bytes of each guard, one directly below the base and one directly above the slot.
    pub guard: u64,
    /// The bytes of the table of entries, from the base on.
    pub table: u64,
    /// Where the code begins, in bytes from the base.
    pub code: u64,
    /// The address of the runtime's first entry.
    pub entry: u64,
    /// From an entry to the next.
    pub entry_step: u64,
    /// How many entries there are.
    pub entries: u64,
}

impl SlotMap {
    /// The map of a module's slot. It fails with a library of another interface alone.
    pub fn of(profile: Profile, module: ModuleNumber) -> Result<SlotMap, Status> {
        let (status, map) = calls::profile_map(profile.number(), module.number());
        let LfiMap { base, size, guard, table, code, entry, entry_step, entries } = map;
        Status::of(status).done()?;
        Ok(SlotMap { base, size, guard, table, code, entry, entry_step, entries })
    }
}

/// The registers that code rests on, by their numbers, as they have to be when a module is entered.
#[derive(Clone, Copy, Debug, PartialEq, Eq)]
pub struct Registers {
    /// Holds the slot's base.
    pub base: u32,
    /// Holds a number below 2^32.
    pub offset: u32,
    /// This one and the next two hold addresses in the slot.
    pub first_address: u32,
    /// An address in the slot.
    pub second_address: u32,
    /// An address in the slot.
    pub third_address: u32,
    /// The link register: an address in the slot.
    pub link: u32,
    /// How many bytes sp may be from the slot, at most.
    pub stack_reach: u32,
}

/// The registers of a profile. It fails with a library of another interface alone.
///
/// ```
/// use lfi_verifier::{registers, Profile};
///
/// assert_eq!(registers(Profile::One).expect("a profile has registers").base, 21);
/// ```
pub fn registers(profile: Profile) -> Result<Registers, Status> {
    let (status, found) = calls::profile_registers(profile.number());
    let LfiRegisters { base, offset, first_address, second_address, third_address, link, stack_reach } = found;
    Status::of(status).done()?;
    Ok(Registers { base, offset, first_address, second_address, third_address, link, stack_reach })
}
