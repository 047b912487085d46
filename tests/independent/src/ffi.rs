//! The proved library through its C interface, `include/modeurwan.h`.

use crate::oracle::{Answer, Content, Reading, Writing};
use std::ops::Range;

#[repr(C)]
struct ModeurwanAnswer {
    number: usize,
    place: usize,
    cycles: usize,
    rows: usize,
    states: usize,
}

#[repr(C)]
struct ModeurwanPart {
    start: usize,
    end: usize,
}

#[repr(C)]
struct ModeurwanReading {
    number: usize,
    place: usize,
    operations: usize,
    classes: usize,
    controls: usize,
    arcs: usize,
}

#[repr(C)]
struct ModeurwanWriting {
    number: usize,
    place: usize,
    length: usize,
}

extern "C" {
    fn modeurwan_read(graph: *const u8, len: usize) -> ModeurwanReading;

    fn modeurwan_schedule(
        graph: *const u8,
        len: usize,
        slots: *mut u64,
        nslots: usize,
        table: *mut u8,
        room: usize,
    ) -> ModeurwanAnswer;

    fn modeurwan_check(
        graph: *const u8,
        len: usize,
        table: *const u8,
        table_len: usize,
    ) -> ModeurwanAnswer;

    fn modeurwan_rows_of(
        graph: *const u8,
        len: usize,
        table: *const u8,
        table_len: usize,
        cycle: u32,
    ) -> ModeurwanPart;

    fn modeurwan_write(
        edition: u8,
        operations: *const u8,
        operations_len: usize,
        limits: *const u8,
        limits_len: usize,
        controls: *const u8,
        controls_len: usize,
        arcs: *const u8,
        arcs_len: usize,
        output: *mut u8,
        room: usize,
    ) -> ModeurwanWriting;
}

/// A number of an answer, all of which are far below 2 to the 32.
fn small(number: usize) -> u32 {
    u32::try_from(number).expect("an answer's numbers are small")
}

impl From<ModeurwanAnswer> for Answer {
    fn from(answer: ModeurwanAnswer) -> Self {
        Answer {
            number: small(answer.number),
            place: small(answer.place),
            cycles: small(answer.cycles),
            rows: small(answer.rows),
            states: small(answer.states),
        }
    }
}

pub fn read(graph: &[u8]) -> Reading {
    // SAFETY: the pointer and the length are those of one slice, only read.
    let reading = unsafe { modeurwan_read(graph.as_ptr(), graph.len()) };
    Reading {
        number: small(reading.number),
        place: small(reading.place),
        operations: small(reading.operations),
        classes: small(reading.classes),
        controls: small(reading.controls),
        arcs: small(reading.arcs),
    }
}

pub fn schedule(graph: &[u8], slots: &mut [u64], table: &mut [u8]) -> Answer {
    // SAFETY: each pointer and length are those of one slice; the two that are
    // written are borrowed for this call alone and overlap nothing.
    let answer = unsafe {
        modeurwan_schedule(
            graph.as_ptr(),
            graph.len(),
            slots.as_mut_ptr(),
            slots.len(),
            table.as_mut_ptr(),
            table.len(),
        )
    };
    answer.into()
}

pub fn check(graph: &[u8], table: &[u8]) -> Answer {
    // SAFETY: each pointer and length are those of one slice, only read.
    let answer =
        unsafe { modeurwan_check(graph.as_ptr(), graph.len(), table.as_ptr(), table.len()) };
    answer.into()
}

pub fn rows_of(graph: &[u8], table: &[u8], cycle: u32) -> Range<usize> {
    // SAFETY: each pointer and length are those of one slice, only read.
    let part = unsafe {
        modeurwan_rows_of(
            graph.as_ptr(),
            graph.len(),
            table.as_ptr(),
            table.len(),
            cycle,
        )
    };
    part.start..part.end
}

pub fn write(content: &Content, output: &mut [u8]) -> Writing {
    // SAFETY: each pointer and length are those of one slice; the one that is
    // written is borrowed for this call alone and overlaps nothing.
    let writing = unsafe {
        modeurwan_write(
            content.edition,
            content.operations.as_ptr(),
            content.operations.len(),
            content.limits.as_ptr(),
            content.limits.len(),
            content.controls.as_ptr(),
            content.controls.len(),
            content.arcs.as_ptr(),
            content.arcs.len(),
            output.as_mut_ptr(),
            output.len(),
        )
    };
    Writing {
        number: small(writing.number),
        place: small(writing.place),
        length: small(writing.length),
    }
}
