//! The library for C, whose calls `include/dwframe.h` declares. All `unsafe` stands in `calls` and
//! `memory`.
#![no_std]
#![deny(unsafe_code)]
#![allow(unused_labels, unused_variables)]

extern crate alloc;

#[allow(unsafe_code)]
pub mod calls;
pub mod dw_library;
#[allow(unsafe_code)]
mod memory;

// What stands where in the structs that C fills, the slices in them included.
const _: () = {
    use core::mem::{offset_of, size_of};
    use dw_library::{answer::Section, held::Held};
    const WORD: usize = size_of::<usize>();
    assert!(size_of::<Section<'_>>() == 2 * WORD + 8);
    assert!(offset_of!(Section<'_>, address_size) == 2 * WORD);
    assert!(size_of::<Held<'_>>() == 6 * WORD);
    assert!(offset_of!(Held<'_>, windows) == 2 * WORD);
    assert!(offset_of!(Held<'_>, memory) == 4 * WORD);
};
