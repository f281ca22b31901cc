//! A proved buddy system (K. C. Knowlton, A fast storage allocator, CACM 8(10), 1965). `l6_store.h` says what
//! each call does; every method here is one of them.
//!
//! The feature `std`, which is on by itself, has the heap of the library, by `malloc`, and [`Store::list`]. Without it
//! the crate needs no `std`, and its program has the heap: `rattle_alloc` and `rattle_dealloc`, as `heap.c` has them.
#![cfg_attr(not(feature = "std"), no_std)]
#![deny(unsafe_op_in_unsafe_fn)]

use core::cell::UnsafeCell;
use core::ffi::c_void;
use core::fmt;

#[cfg(feature = "std")]
mod heap;

/// A store, open or closed, as C has it.
#[repr(C)]
struct Raw {
    is_open: u64,
    held: *mut c_void,
}

extern "C" {
    fn l6_store_version() -> i64;
    fn l6_store_open(store: *mut Raw, units: u32) -> i64;
    fn l6_store_close(store: *mut Raw) -> i64;
    fn l6_store_get(store: *mut Raw, level: u32) -> i64;
    fn l6_store_peek(store: *const Raw, level: u32) -> i64;
    fn l6_store_free(store: *mut Raw, place: u32) -> i64;
    fn l6_store_live(store: *const Raw, place: u32) -> i64;
    fn l6_store_reset(store: *mut Raw) -> i64;
    fn l6_store_read(store: *const Raw, place: u32, index: u32) -> i64;
    fn l6_store_write(store: *mut Raw, place: u32, index: u32, word: u64) -> i64;
    fn l6_store_copy(store: *mut Raw, from: u32, to: u32) -> i64;
    fn l6_store_moves(store: *const Raw) -> i64;
    fn l6_store_units(store: *const Raw) -> i64;
    fn l6_store_free_words(store: *const Raw) -> i64;
    fn l6_store_largest(store: *const Raw) -> i64;
    fn l6_store_pieces(store: *const Raw, level: u32) -> i64;
    fn l6_store_first(store: *const Raw, level: u32) -> i64;
    fn l6_store_next(store: *const Raw, level: u32, place: u32) -> i64;
    fn l6_store_level_for(words: u32) -> i64;
}

/// Why a call did nothing.
#[derive(Clone, Copy, Debug, PartialEq, Eq)]
pub enum Fault {
    /// No unit, or more than 255.
    BadUnits,
    /// Memory ran out.
    NoMemory,
    /// No block has this level.
    BadLevel,
    /// No block begins at the place.
    NoBlock,
    /// The block has no such word.
    NoWord,
    /// The word takes more than 36 bits.
    BadWord,
    /// The blocks are one, or of two sizes.
    NotAlike,
    /// No piece is free.
    Full,
    /// A number that the header does not have.
    Unknown(i64),
}

impl fmt::Display for Fault {
    fn fmt(&self, f: &mut fmt::Formatter<'_>) -> fmt::Result {
        match self {
            Fault::BadUnits => f.write_str("units out of range"),
            Fault::NoMemory => f.write_str("out of memory"),
            Fault::BadLevel => f.write_str("no such level"),
            Fault::NoBlock => f.write_str("no block begins there"),
            Fault::NoWord => f.write_str("no such word"),
            Fault::BadWord => f.write_str("more than 36 bits"),
            Fault::NotAlike => f.write_str("not two blocks of one size"),
            Fault::Full => f.write_str("no piece is free"),
            Fault::Unknown(code) => write!(f, "fault {code}"),
        }
    }
}

#[cfg(feature = "std")]
impl std::error::Error for Fault {}

/// What a call answered.
fn answer(code: i64) -> Result<u64, Fault> {
    u64::try_from(code).map_err(|_| match code {
        -3 => Fault::BadUnits,
        -4 => Fault::NoMemory,
        -5 => Fault::BadLevel,
        -6 => Fault::NoBlock,
        -7 => Fault::NoWord,
        -8 => Fault::BadWord,
        -9 => Fault::NotAlike,
        -10 => Fault::Full,
        _ => Fault::Unknown(code),
    })
}

/// A place, or `None` for 0.
fn place(code: i64) -> Result<Option<u32>, Fault> {
    Ok(u32::try_from(answer(code)?).ok().filter(|place| *place != 0))
}

/// A level.
fn level(code: i64) -> Result<u32, Fault> {
    u32::try_from(answer(code)?).map_err(|_| Fault::Unknown(code))
}

/// A store. It is open as long as it lives, and may be sent to another thread.
pub struct Store(UnsafeCell<Raw>);

// SAFETY: a store has no part in any thread: its memory is its own, and two stores share the heap alone, which every
// thread may call.
unsafe impl Send for Store {}

// SAFETY, of all calls below: the struct began closed, no bytes of it are changed or copied but by calls (a move
// is fine, since nothing points to it), and one call at a time has it: an `UnsafeCell` is not `Sync`, so no two
// threads have a `&` to it, and no call calls back.
impl Store {
    /// A store of 1 to 255 units of 1,024 words, without blocks.
    pub fn new(units: u32) -> Result<Self, Fault> {
        let mut raw = Raw { is_open: 0, held: core::ptr::null_mut() };
        answer(unsafe { l6_store_open(&mut raw, units) })?;
        Ok(Store(UnsafeCell::new(raw)))
    }

    /// Gets a block of zeros of a level: its place, or `None` if no place is open.
    pub fn get(&mut self, level: u32) -> Result<Option<u32>, Fault> {
        place(unsafe { l6_store_get(self.0.get(), level) })
    }

    /// The place that a get would give.
    pub fn peek(&self, level: u32) -> Result<Option<u32>, Fault> {
        place(unsafe { l6_store_peek(self.0.get(), level) })
    }

    /// Frees the block that begins at a place.
    pub fn free(&mut self, place: u32) -> Result<(), Fault> {
        answer(unsafe { l6_store_free(self.0.get(), place) }).map(drop)
    }

    /// The level of the block that begins at a place.
    pub fn live(&self, place: u32) -> Result<u32, Fault> {
        level(unsafe { l6_store_live(self.0.get(), place) })
    }

    /// Frees all blocks.
    pub fn reset(&mut self) {
        let _ = answer(unsafe { l6_store_reset(self.0.get()) });
    }

    /// The word of an index in the block that begins at a place.
    pub fn read(&self, place: u32, index: u32) -> Result<u64, Fault> {
        answer(unsafe { l6_store_read(self.0.get(), place, index) })
    }

    /// Writes such a word.
    pub fn write(&mut self, place: u32, index: u32, word: u64) -> Result<(), Fault> {
        answer(unsafe { l6_store_write(self.0.get(), place, index, word) }).map(drop)
    }

    /// Copies the words of a block into another of its size.
    pub fn copy(&mut self, from: u32, to: u32) -> Result<(), Fault> {
        answer(unsafe { l6_store_copy(self.0.get(), from, to) }).map(drop)
    }

    /// How often the last get halved a piece, or the last free joined two.
    pub fn moves(&self) -> u64 {
        answer(unsafe { l6_store_moves(self.0.get()) }).unwrap_or(0)
    }

    /// How many units there are.
    pub fn units(&self) -> u64 {
        answer(unsafe { l6_store_units(self.0.get()) }).unwrap_or(0)
    }

    /// How many words lie in no block.
    pub fn free_words(&self) -> u64 {
        answer(unsafe { l6_store_free_words(self.0.get()) }).unwrap_or(0)
    }

    /// The largest level with a free piece.
    pub fn largest(&self) -> Option<u32> {
        level(unsafe { l6_store_largest(self.0.get()) }).ok()
    }

    /// How many free pieces a level has.
    pub fn pieces(&self, level: u32) -> Result<u64, Fault> {
        answer(unsafe { l6_store_pieces(self.0.get(), level) })
    }

    /// The free pieces of a level, in the order in which gets take them.
    pub fn free_pieces(&self, level: u32) -> Result<FreePieces<'_>, Fault> {
        let next = place(unsafe { l6_store_first(self.0.get(), level) })?;
        Ok(FreePieces { store: self, level, next })
    }

    /// The same, as a list.
    #[cfg(feature = "std")]
    pub fn list(&self, level: u32) -> Result<Vec<u32>, Fault> {
        self.free_pieces(level).map(Iterator::collect)
    }
}

/// The free pieces of a level.
pub struct FreePieces<'a> {
    store: &'a Store,
    level: u32,
    next: Option<u32>,
}

impl Iterator for FreePieces<'_> {
    type Item = u32;

    fn next(&mut self) -> Option<u32> {
        let piece = self.next?;
        // SAFETY: as of all calls; meanwhile nobody changes the store, which is borrowed.
        self.next = place(unsafe { l6_store_next(self.store.0.get(), self.level, piece) }).unwrap_or(None);
        Some(piece)
    }
}

impl Drop for Store {
    fn drop(&mut self) {
        unsafe { l6_store_close(self.0.get()) };
    }
}

/// The version of the archive: 10,000 times the first number, 100 times the second, and the third.
pub fn version() -> u32 {
    // SAFETY: it may be called at any time.
    level(unsafe { l6_store_version() }).unwrap_or(0)
}

/// The least level whose blocks have at least so many words.
pub fn level_for(words: u32) -> Result<u32, Fault> {
    level(unsafe { l6_store_level_for(words) })
}
