//! Places without words: an offset allocator by the buddy system, proved. `l6_offset.h` says what each call does; every
//! method here is one of them. The crate needs no `std`. Its program has the heap, `rattle_alloc` and `rattle_dealloc`, as
//! `heap.c` or the crate `l6_store` has them: with `use l6_store as _;` somewhere in it, a program links the latter.
#![no_std]
#![deny(unsafe_op_in_unsafe_fn)]

use core::cell::UnsafeCell;
use core::ffi::c_void;
use core::fmt;

/// A store, open or closed, as C has it.
#[repr(C)]
struct Raw {
    is_open: u64,
    held: *mut c_void,
}

extern "C" {
    fn l6_offset_version() -> i64;
    fn l6_offset_open(store: *mut Raw, top: u32, first: u32, end: u32) -> i64;
    fn l6_offset_close(store: *mut Raw) -> i64;
    fn l6_offset_get(store: *mut Raw, level: u32) -> i64;
    fn l6_offset_find(store: *const Raw, level: u32) -> i64;
    fn l6_offset_reserve(store: *mut Raw, level: u32, place: u32) -> i64;
    fn l6_offset_free(store: *mut Raw, place: u32) -> i64;
    fn l6_offset_level(store: *const Raw, place: u32) -> i64;
    fn l6_offset_next(store: *const Raw, from: u32) -> i64;
    fn l6_offset_largest(store: *const Raw) -> i64;
    fn l6_offset_free_places(store: *const Raw) -> i64;
    fn l6_offset_most(store: *const Raw) -> i64;
    fn l6_offset_piece(store: *const Raw, place: u32) -> i64;
    fn l6_offset_reset(store: *mut Raw) -> i64;
    fn l6_offset_level_for(places: u32) -> i64;
}

/// Why a call did nothing.
#[derive(Clone, Copy, Debug, PartialEq, Eq)]
pub enum Fault {
    /// A top above 24, or an end before the first place or past 2^top.
    BadPlaces,
    /// Memory ran out.
    NoMemory,
    /// No block has this level.
    BadLevel,
    /// No block begins at the place.
    NoBlock,
    /// A block of the level may not be at the place.
    NotOpen,
    /// No place is open.
    Full,
    /// A number that the header does not have.
    Unknown(i64),
}

impl fmt::Display for Fault {
    fn fmt(&self, f: &mut fmt::Formatter<'_>) -> fmt::Result {
        match self {
            Fault::BadPlaces => f.write_str("places out of range"),
            Fault::NoMemory => f.write_str("out of memory"),
            Fault::BadLevel => f.write_str("no such level"),
            Fault::NoBlock => f.write_str("no block begins there"),
            Fault::NotOpen => f.write_str("the place is not open"),
            Fault::Full => f.write_str("no place is open"),
            Fault::Unknown(code) => write!(f, "fault {code}"),
        }
    }
}

/// What a call answered.
fn answer(code: i64) -> Result<u32, Fault> {
    u32::try_from(code).map_err(|_| match code {
        -3 => Fault::BadPlaces,
        -4 => Fault::NoMemory,
        -5 => Fault::BadLevel,
        -6 => Fault::NoBlock,
        -7 => Fault::NotOpen,
        -8 => Fault::Full,
        _ => Fault::Unknown(code),
    })
}

/// The places from a first one up to an end. It is open as long as it lives.
pub struct Offset(UnsafeCell<Raw>);

// SAFETY: a store has no part in any thread: its memory is its own, and two stores share the heap alone, whose functions
// have to be safe in several threads, as those of malloc are.
unsafe impl Send for Offset {}

// SAFETY, of all calls below: the struct began closed, no bytes of it are changed or copied but by calls (a move is fine,
// since nothing points to it), and one call at a time has it: an `UnsafeCell` is not `Sync`, so no two threads have a `&`
// to it, and no call calls back.
impl Offset {
    /// The places from the first one up to an end, with blocks of at most 2^top of them, and no block.
    pub fn new(top: u32, first: u32, end: u32) -> Result<Self, Fault> {
        let mut raw = Raw { is_open: 0, held: core::ptr::null_mut() };
        answer(unsafe { l6_offset_open(&mut raw, top, first, end) })?;
        Ok(Offset(UnsafeCell::new(raw)))
    }

    /// Gets a block at the lowest open place, and answers that.
    pub fn get(&mut self, level: u32) -> Result<u32, Fault> {
        answer(unsafe { l6_offset_get(self.0.get(), level) })
    }

    /// The place that a get would give.
    pub fn find(&self, level: u32) -> Result<u32, Fault> {
        answer(unsafe { l6_offset_find(self.0.get(), level) })
    }

    /// Puts a block at a place, if it is open.
    pub fn reserve(&mut self, level: u32, place: u32) -> Result<(), Fault> {
        answer(unsafe { l6_offset_reserve(self.0.get(), level, place) }).map(drop)
    }

    /// Frees the block that begins at a place.
    pub fn free(&mut self, place: u32) -> Result<(), Fault> {
        answer(unsafe { l6_offset_free(self.0.get(), place) }).map(drop)
    }

    /// The level of the block that begins at a place.
    pub fn level(&self, place: u32) -> Result<u32, Fault> {
        answer(unsafe { l6_offset_level(self.0.get(), place) })
    }

    /// The first place from one on at which a block begins.
    pub fn next(&self, from: u32) -> Option<u32> {
        answer(unsafe { l6_offset_next(self.0.get(), from) }).ok()
    }

    /// The level of the largest open piece.
    pub fn largest(&self) -> Option<u32> {
        answer(unsafe { l6_offset_largest(self.0.get()) }).ok()
    }

    /// The level of the largest open piece that has a place.
    pub fn piece(&self, place: u32) -> Result<u32, Fault> {
        answer(unsafe { l6_offset_piece(self.0.get(), place) })
    }

    /// The most places that blocks had at once, since the store was opened or reset.
    pub fn most(&self) -> u32 {
        answer(unsafe { l6_offset_most(self.0.get()) }).unwrap_or(0)
    }

    /// How many places lie in no block.
    pub fn free_places(&self) -> u32 {
        answer(unsafe { l6_offset_free_places(self.0.get()) }).unwrap_or(0)
    }

    /// Frees all blocks.
    pub fn reset(&mut self) {
        let _ = answer(unsafe { l6_offset_reset(self.0.get()) });
    }
}

impl Drop for Offset {
    fn drop(&mut self) {
        unsafe { l6_offset_close(self.0.get()) };
    }
}

/// The version of the archive: 10,000 times the first number, 100 times the second, and the third.
pub fn version() -> u32 {
    // SAFETY: it may be called at any time.
    answer(unsafe { l6_offset_version() }).unwrap_or(0)
}

/// The least level whose blocks have at least so many places.
pub fn level_for(places: u32) -> Result<u32, Fault> {
    answer(unsafe { l6_offset_level_for(places) })
}
