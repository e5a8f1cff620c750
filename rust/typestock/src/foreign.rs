//! The library's functions as c/typestock.h declares them, and the calls of them on slices.
use crate::{LEVELS, OPENINGS};
use std::mem::{align_of, offset_of, size_of};

#[repr(C)]
pub struct Schema {
    pub number: u8,
    pub place: usize,
}

#[repr(C)]
pub struct Document {
    pub schema_number: u8,
    pub schema_place: usize,
    pub number: u8,
    pub place: usize,
    pub count: usize,
}

/// `nils`, `closes` and `finishes` are C's bools as the bytes that they are.
#[repr(C)]
pub struct Expected {
    pub schema_number: u8,
    pub schema_place: usize,
    pub number: u8,
    pub place: usize,
    pub depth: usize,
    pub types: [u8; LEVELS],
    pub count: usize,
    pub tags: [u8; OPENINGS],
    pub nils: [u8; OPENINGS],
    pub closes: u8,
    pub finishes: u8,
}

#[repr(C)]
pub struct Written {
    pub number: u8,
    pub length: usize,
}

/// `found` is C's bool as the byte that it is: a byte that is neither 0 nor 1 would be no `bool` of Rust's.
#[repr(C)]
pub struct Opening {
    pub found: u8,
    pub tag: u8,
    pub at: usize,
    pub level: usize,
}

// The layouts that the library was compiled with.
const _: () = {
    assert!(size_of::<usize>() == 8 && align_of::<usize>() == 8);
    assert!(size_of::<Schema>() == 16 && align_of::<Schema>() == 8);
    assert!(offset_of!(Schema, number) == 0);
    assert!(offset_of!(Schema, place) == 8);
    assert!(size_of::<Document>() == 40 && align_of::<Document>() == 8);
    assert!(offset_of!(Document, schema_number) == 0);
    assert!(offset_of!(Document, schema_place) == 8);
    assert!(offset_of!(Document, number) == 16);
    assert!(offset_of!(Document, place) == 24);
    assert!(offset_of!(Document, count) == 32);
    assert!(size_of::<Expected>() == 248 && align_of::<Expected>() == 8);
    assert!(offset_of!(Expected, schema_number) == 0);
    assert!(offset_of!(Expected, schema_place) == 8);
    assert!(offset_of!(Expected, number) == 16);
    assert!(offset_of!(Expected, place) == 24);
    assert!(offset_of!(Expected, depth) == 32);
    assert!(offset_of!(Expected, types) == 40);
    assert!(offset_of!(Expected, count) == 104);
    assert!(offset_of!(Expected, tags) == 112);
    assert!(offset_of!(Expected, nils) == 176);
    assert!(offset_of!(Expected, closes) == 240);
    assert!(offset_of!(Expected, finishes) == 241);
    assert!(size_of::<Written>() == 16 && align_of::<Written>() == 8);
    assert!(offset_of!(Written, number) == 0);
    assert!(offset_of!(Written, length) == 8);
    assert!(size_of::<Opening>() == 24 && align_of::<Opening>() == 8);
    assert!(offset_of!(Opening, found) == 0);
    assert!(offset_of!(Opening, tag) == 1);
    assert!(offset_of!(Opening, at) == 8);
    assert!(offset_of!(Opening, level) == 16);
    assert!(size_of::<bool>() == 1);
};

extern "C" {
    fn typestock_check_schema(
        schema: *const u8,
        schema_length: usize,
        witness: *mut u8,
        witness_length: usize,
    ) -> Schema;
    fn typestock_type_document(
        schema: *const u8,
        schema_length: usize,
        events: *const u8,
        events_length: usize,
        witness: *mut u8,
        witness_length: usize,
        types: *mut u8,
        types_length: usize,
    ) -> Document;
    fn typestock_expect_document(
        schema: *const u8,
        schema_length: usize,
        events: *const u8,
        events_length: usize,
        witness: *mut u8,
        witness_length: usize,
    ) -> Expected;
    fn typestock_write_reduced(
        schema: *const u8,
        schema_length: usize,
        out: *mut u8,
        out_length: usize,
    ) -> Written;
    fn typestock_next_opening(
        events: *const u8,
        events_length: usize,
        at: usize,
        level: usize,
    ) -> Opening;
}

// Of each call: a slice's pointer is not null, its length is true and at most isize::MAX, its bytes are initialised and live through the
// call, and what is lent as `&mut` is lent to the call alone. The library keeps nothing.

pub fn check_schema(schema: &[u8], witness: &mut [u8]) -> Schema {
    // SAFETY: as above.
    unsafe {
        typestock_check_schema(
            schema.as_ptr(),
            schema.len(),
            witness.as_mut_ptr(),
            witness.len(),
        )
    }
}

pub fn type_document(
    schema: &[u8],
    events: &[u8],
    witness: &mut [u8],
    types: &mut [u8],
) -> Document {
    // SAFETY: as above.
    unsafe {
        typestock_type_document(
            schema.as_ptr(),
            schema.len(),
            events.as_ptr(),
            events.len(),
            witness.as_mut_ptr(),
            witness.len(),
            types.as_mut_ptr(),
            types.len(),
        )
    }
}

pub fn expect_document(schema: &[u8], events: &[u8], witness: &mut [u8]) -> Expected {
    // SAFETY: as above.
    unsafe {
        typestock_expect_document(
            schema.as_ptr(),
            schema.len(),
            events.as_ptr(),
            events.len(),
            witness.as_mut_ptr(),
            witness.len(),
        )
    }
}

pub fn write_reduced(schema: &[u8], out: &mut [u8]) -> Written {
    // SAFETY: as above.
    unsafe { typestock_write_reduced(schema.as_ptr(), schema.len(), out.as_mut_ptr(), out.len()) }
}

pub fn next_opening(events: &[u8], at: usize, level: usize) -> Opening {
    // SAFETY: as above.
    unsafe { typestock_next_opening(events.as_ptr(), events.len(), at, level) }
}
